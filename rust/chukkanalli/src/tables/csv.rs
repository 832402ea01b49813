//! The rows of a CSV file, as a spreadsheet saves it: a label in the first column, then a column for each action of the game. Commas,
//! semicolons or tabs stand between cells, and a cell may stand in quotes.

use std::borrow::Cow;

use super::encoding::lines;
use super::fault::Faults;
use super::heading::Heading;
use super::labels::{self, Labels};
use super::number::Number;
use super::rows::{Label, Row, Rows};
use super::text::comment_line;
use super::words::{quoted, quoted_label};

/// The name of the label's column.
pub const SET: &str = "set";

const SEPARATORS: [char; 3] = [',', ';', '\t'];

/// The cells of a line, or why they cannot be told apart.
fn cells(line: &str, separator: char) -> Result<Vec<Cow<'_, str>>, &'static str> {
    let mut cells = Vec::new();
    let mut rest = line;
    loop {
        let (cell, behind) = match rest.trim_start_matches(' ').strip_prefix('"') {
            Some(opened) => quoted_cell(opened, separator)?,
            None => {
                let end = rest.find(separator).unwrap_or(rest.len());
                (Cow::Borrowed(rest[..end].trim()), &rest[end..])
            }
        };
        cells.push(cell);
        match behind.strip_prefix(separator) {
            Some(behind) => rest = behind,
            None => return Ok(cells),
        }
    }
}

/// The cell behind a quote, and what follows its end.
fn quoted_cell(opened: &str, separator: char) -> Result<(Cow<'_, str>, &str), &'static str> {
    let mut cell = String::new();
    let mut rest = opened;
    loop {
        let (text, behind) = rest.split_once('"').ok_or("a quote is opened and not closed")?;
        cell += text;
        match behind.strip_prefix('"') {
            Some(behind) => {
                cell.push('"');
                rest = behind;
            }
            None => {
                let behind = behind.trim_start_matches(' ');
                if !behind.is_empty() && !behind.starts_with(separator) {
                    return Err("a cell goes on behind its closing quote");
                }
                return Ok((Cow::Owned(cell.trim().to_string()), behind));
            }
        }
    }
}

/// The comment that a line is, as it stands or in a cell with quotes, without the empty cells behind it.
pub fn comment_in(line: &str) -> Option<&str> {
    let quoted = || line.trim_start().strip_prefix('"')?.trim_start().strip_prefix('#')?.split('"').next();
    comment_line(line).or_else(quoted).map(|comment| comment.trim_end_matches(SEPARATORS))
}

/// The separator of a CSV file; none for any other text. Its first line that is no comment begins with the label column's name, or with
/// what is meant as a label.
pub fn separator_of(text: &str) -> Option<char> {
    let line = lines(text).find(|line| !line.trim().is_empty() && comment_in(line).is_none())?;
    let line = line.split('#').next()?;
    let (first, separator) = match line.trim_start().strip_prefix('"') {
        Some(opened) => {
            let (cell, behind) = opened.split_once('"')?;
            (cell, behind.trim_start_matches(' ').chars().next()?)
        }
        None => {
            let end = line.find(SEPARATORS)?;
            (&line[..end], line[end..].chars().next()?)
        }
    };
    let is_label = first.trim().eq_ignore_ascii_case(SET) || labels::is_meant(first);
    (is_label && SEPARATORS.contains(&separator)).then_some(separator)
}

/// The names of the columns behind the label's.
pub fn columns(labels: &Labels) -> Vec<&'static str> {
    (0..=u8::MAX).map_while(|action| labels.game().action_name(action)).collect()
}

/// The rows of a CSV file, with a fault for each cell that is no number, and for each label that is none.
pub fn rows<T: Number>(text: &str, separator: char, labels: &Labels, faults: &mut Faults) -> Rows<T> {
    let mut rows = Rows::new(labels);
    let mut reading = Reading { separator, labels, columns: columns(labels), surplus: None };
    for (line, content) in (1..).zip(lines(text)) {
        rows.last_line = line;
        if let Some(comment) = comment_in(content) {
            rows.headings.extend(Heading::of_comment(comment).map(|heading| (line, heading)));
            continue;
        }
        match cells(content, separator) {
            Err(sentence) => faults.add(Some(line), || sentence.to_string()),
            Ok(cells) if cells.iter().all(|cell| cell.is_empty()) => {}
            Ok(cells) if reading.surplus.is_none() => {
                if !reading.begin(&cells, line, faults) {
                    return rows;
                }
            }
            Ok(cells) => reading.row(&mut rows, &cells, line, faults),
        }
    }
    rows
}

/// What the rows of a file have in common.
struct Reading<'a> {
    separator: char,
    labels: &'a Labels,
    columns: Vec<&'static str>,
    /// The empty cells behind the last column, once the row with the columns' names was read.
    surplus: Option<usize>,
}

impl Reading<'_> {
    /// Holds the first row to the columns' names.
    fn begin(&mut self, cells: &[Cow<str>], line: usize, faults: &mut Faults) -> bool {
        let needed: Vec<&str> = [SET].into_iter().chain(self.columns.iter().copied()).collect();
        let (names, surplus) = cells.split_at(cells.len().min(needed.len()));
        let named = names.len() == needed.len()
            && names.iter().zip(&needed).all(|(name, needed)| name.eq_ignore_ascii_case(needed));
        if !named || surplus.iter().any(|cell| !cell.is_empty()) {
            let given = cells.join(&self.separator.to_string());
            let sentence = || format!("{} is no first row: the columns are {}", quoted_label(&given), needed.join(","));
            faults.add(Some(line), sentence);
            return false;
        }
        self.surplus = Some(surplus.len());
        true
    }

    fn row<T: Number>(&self, rows: &mut Rows<T>, cells: &[Cow<str>], line: usize, faults: &mut Faults) {
        let first = rows.numbers.len();
        let (label, parts) = self.parted(cells);
        let Some(set) = self.labels.find(&label) else {
            let sentence = || match label.is_empty() {
                true => "this row has no label".to_string(),
                false => self.labels.unknown(&label),
            };
            faults.add(Some(line), sentence);
            rows.rows.push(Row { line, label: Label::Wrong, first, spoiled: false });
            return;
        };
        let mut good = true;
        let legal = &self.labels.sets()[set].legal;
        for (action, cell) in (0..).zip(parts) {
            if legal.contains(&action) {
                good &= cell.is_empty() || rows.take(cell, line, faults);
            } else if !matches!(cell.as_ref(), "" | "0") {
                good = false;
                let column = self.columns.get(usize::from(action));
                let place = column.map_or("cell behind the columns".to_string(), |name| format!("cell of {name}"));
                let sentence = || format!("{} has {} in the {place}", self.labels.words(set), quoted(cell));
                faults.add(Some(line), sentence);
            }
        }
        rows.rows.push(Row { line, label: Label::Of(set), first, spoiled: !good });
    }

    /// The label of a row and the cells behind it. A label that stands without quotes in a file with commas is in several cells.
    fn parted<'c>(&self, cells: &'c [Cow<str>]) -> (Cow<'c, str>, &'c [Cow<'c, str>]) {
        let behind = self.columns.len() + self.surplus.unwrap_or(0);
        let whole = self.labels.find(&cells[0]).is_some() || cells.len() <= 1 + behind;
        let label_cells = if whole { 1 } else { cells.len() - behind };
        let label = match &cells[..label_cells] {
            [one] => Cow::Borrowed(one.as_ref()),
            several => Cow::Owned(several.join(&format!("{} ", self.separator))),
        };
        (label, &cells[label_cells..])
    }
}

#[cfg(test)]
mod tests {
    use super::*;
    use crate::{Evaluator, Game};

    fn read(game: Game, text: &str) -> (Rows<u8>, Faults) {
        let labels = Labels::new(&Evaluator::new(game).unwrap());
        let mut faults = Faults::default();
        let separator = separator_of(text).unwrap();
        (rows(text, separator, &labels, &mut faults), faults)
    }

    #[test]
    fn cells_stand_between_separators_quoted_or_not() {
        let split =
            |line: &str| cells(line, ',').map(|cells| cells.iter().map(|cell| cell.to_string()).collect::<Vec<_>>());
        assert_eq!(split("a, b ,c").unwrap(), ["a", "b", "c"]);
        assert_eq!(split("\"a, \"\"b\"\"\" , 1,").unwrap(), ["a, \"b\"", "1", ""]);
        assert_eq!(split("").unwrap(), [""]);
        assert_eq!(split("\"a"), Err("a quote is opened and not closed"));
        assert_eq!(split("\"a\"b,1"), Err("a cell goes on behind its closing quote"));
    }

    #[test]
    fn a_file_is_csv_by_its_first_row() {
        assert_eq!(separator_of("set,PASS,BET\n"), Some(','));
        assert_eq!(separator_of("\"# Kuhn with 2 seats, D 4\",,\n\n\"Set\";\"PASS\";\"BET\"\n"), Some(';'));
        assert_eq!(separator_of("# a comment\nset\tPASS\tBET"), Some('\t'));
        assert_eq!(separator_of("\"PASS BET: seat 0, card 0, after PASS BET\",1,0"), Some(','));
        for text in
            ["", "1,0\n", "1\t0\n", "inf\tNaN\n", "1 0 # PASS BET: seat 0, card 0", "set", "one,two", "# set,PASS"]
        {
            assert_eq!(separator_of(text), None, "{text}");
        }
    }

    #[test]
    fn a_comment_may_stand_in_a_cell() {
        for line in ["# Kuhn with 2 seats, D 4", "# Kuhn with 2 seats, D 4;;", "\"# Kuhn with 2 seats, D 4\",,"] {
            assert_eq!(comment_in(line), Some(" Kuhn with 2 seats, D 4"), "{line}");
        }
        assert_eq!((comment_in("set,PASS"), comment_in("\"set\",#")), (None, None));
    }

    #[test]
    fn a_row_has_its_label_and_a_number_for_each_legal_action() {
        for text in [
            "set,PASS,BET\n\"PASS BET: seat 1, card 1, after PASS\",1,0\n",
            "set,PASS,BET\nPASS BET: seat 1, card 1, after PASS,1,0\n",
            "set,PASS,BET,,\nPASS BET: seat 1, card 1, after PASS,1,0,,\n",
            "\"set\";\"PASS\";\"BET\";\n\"PASS BET: seat 1, card 1, after PASS\";\"1\";\"0\";\n;;;\n",
            "set\tPASS\tBET\nPASS BET: seat 1, card 1, after PASS\t1\t0",
        ] {
            let (rows, faults) = read(Game::Kuhn { seats: 2 }, text);
            assert_eq!(faults, Faults::default(), "{text}");
            let row = Row { line: 2, label: Label::Of(1), first: 0, spoiled: false };
            assert_eq!((rows.rows, rows.numbers), (vec![row], vec![1, 0]), "{text}");
        }
        let label = "CALL RAISE: seat 0, card 0 (rank 0), no public card, first action of the hand";
        for row in [format!("\"{label}\",,3,1"), format!("\"{label}\",0,3,1"), format!("{label},,3,1")] {
            let (rows, faults) = read(Game::Leduc, &format!("set,FOLD,CALL,RAISE\n{row}"));
            assert_eq!((faults.count(), rows.numbers), (0, vec![3, 1]), "{row}");
        }
    }

    #[test]
    fn odd_rows_are_told() {
        let said = |text: &str| read(Game::Kuhn { seats: 2 }, text).1.to_string();
        assert_eq!(said("set,BET,PASS\n"), "line 1: 'set,BET,PASS' is no first row: the columns are set,PASS,BET");
        assert_eq!(
            said("\"PASS BET: seat 0\",1,0\n"),
            "line 1: 'PASS BET: seat 0,1,0' is no first row: the columns are set,PASS,BET"
        );
        assert_eq!(said("set,PASS,BET\n,1,0"), "line 2: this row has no label");
        assert_eq!(said("set,PASS,BET\n\"PASS"), "line 2: a quote is opened and not closed");
        let label = "\"PASS BET: seat 1, card 1, after PASS\"";
        let surplus = "line 2: seat 1, card 1, after PASS has 'x' in the cell behind the columns";
        assert_eq!(said(&format!("set,PASS,BET\n{label},1,0,x")), surplus);
        let part = "line 2: 'x' is not a whole number, and a part is a whole number from 0 to 255";
        assert_eq!(said(&format!("set,PASS,BET\n{label},1,x")), part);
        let unknown = "line 2: 'PASS BET: seat 7, card 1, after PASS' is no set of Kuhn with 2 seats";
        assert_eq!(said("set,PASS,BET\nPASS BET: seat 7, card 1, after PASS,1,0"), unknown);
        let leduc = read(
            Game::Leduc,
            "set,FOLD,CALL,RAISE\nCALL RAISE: seat 0, card 0 (rank 0), no public card, first action of the hand,1,3,0",
        )
        .1;
        let words = "seat 0, card 0 (rank 0), no public card, first action of the hand";
        assert_eq!(leduc.to_string(), format!("line 2: {words} has '1' in the cell of FOLD"));
    }
}
