//! Reads tables and profiles, text or CSV.

use super::encoding::{lines, text_of};
use super::entries::Entries;
use super::fault::Faults;
use super::heading::Heading;
use super::labels::Labels;
use super::number::Number;
use super::rows::Rows;
use super::words::game_words;
use super::{csv, placing, sums, text};
use crate::Refusal;

/// Reads the files of one game.
///
/// Where a comment behind numbers is meant as a label, each line of numbers needs the label of its set, and lines may come in any order. A
/// file without labels is read by position. A heading must be of the game, and have D where that is given.
#[derive(Clone, Copy, Debug)]
pub struct Reader<'a> {
    labels: &'a Labels,
    d: Option<u64>,
    labelled: bool,
    headed: bool,
    any: bool,
}

impl<'a> Reader<'a> {
    pub fn new(labels: &'a Labels) -> Self {
        Reader { labels, d: None, labelled: false, headed: false, any: false }
    }

    /// For tables with so many parts in each set.
    pub fn with_d(self, d: u64) -> Self {
        Reader { d: Some(d), ..self }
    }

    /// Refuses a file that would be read by position.
    pub fn labelled(self) -> Self {
        Reader { labelled: true, ..self }
    }

    /// Refuses a file without a heading.
    pub fn headed(self) -> Self {
        Reader { headed: true, ..self }
    }

    /// Takes profiles of any numbers, whatever they add up to.
    pub fn any(self) -> Self {
        Reader { any: true, ..self }
    }

    /// Reads a file's bytes: `u8` for a table, `f64` for a profile. The sums of a table are left to the evaluation, which refuses with 8.
    pub fn read<T: Number>(&self, bytes: &[u8]) -> Result<Entries<T>, Faults> {
        let text = text_of(bytes)?;
        let mut faults = Faults::default();
        let separator = csv::separator_of(text);
        let rows = match separator {
            Some(separator) => csv::rows(text, separator, self.labels, &mut faults),
            None => text::rows(text, self.labels, &mut faults),
        };
        self.hold_headings(&rows)?;
        if separator.is_some() || placing::is_labelled(&rows) {
            return placing::by_labels(rows, self.labels, self.d, faults);
        }
        let entries = placing::by_position(rows, faults)?;
        if self.labelled {
            return Err(Faults::of_file("no line has a label, and labels are asked for"));
        }
        Ok(entries)
    }

    /// Reads a profile, and holds each set to numbers that are not below 0 and add up to 1, unless any are taken.
    pub fn read_profile(&self, bytes: &[u8]) -> Result<Entries<f64>, Faults> {
        let entries = self.read::<f64>(bytes)?;
        if !self.any && entries.numbers.len() == self.labels.entries() {
            sums::odd_sums(&entries, self.labels, None, None).none()?;
        }
        Ok(entries)
    }

    /// Where a heading is of something else, that alone is told.
    fn hold_headings<T>(&self, rows: &Rows<T>) -> Result<(), Faults> {
        let mut faults = Faults::default();
        for (line, heading) in &rows.headings {
            let wrong = match heading {
                Ok(heading) => heading.mismatch(self.labels.game(), self.d),
                Err(sentence) => Some(sentence.clone()),
            };
            if let Some(sentence) = wrong {
                faults.add(Some(*line), || sentence);
            }
        }
        if self.headed && rows.headings.is_empty() {
            faults.add(None, || "no line is a heading, and one is asked for".to_string());
        }
        faults.none()
    }

    /// What is said of a file that a call refused: where its sums are wrong, or that it has too few or too many numbers.
    pub fn refused<T: Number>(&self, refusal: Refusal, entries: &Entries<T>) -> Faults {
        let faults = match refusal {
            Refusal::Table => self.wrong_length(refusal, entries),
            Refusal::Sum => sums::odd_sums(entries, self.labels, self.d, Some(refusal)),
            _ => Faults::default(),
        };
        let faults = if faults.is_empty() { Faults::of_file(refusal.to_string()) } else { faults };
        faults.of_refusal(refusal)
    }

    fn wrong_length<T>(&self, refusal: Refusal, table: &Entries<T>) -> Faults {
        let (has, entries) = (table.numbers.len(), self.labels.entries());
        let game = game_words(self.labels.game());
        let numbers = if has == 1 { "number" } else { "numbers" };
        let sentence = format!("{refusal}: {has} {numbers}, and {game} has {entries} entries");
        match table.line_of(entries) {
            0 => Faults::of_file(sentence),
            line => Faults::in_line(line, sentence),
        }
    }
}

/// The first heading of a file, with its line; none where it has none.
pub fn heading_of(bytes: &[u8]) -> Result<Option<(usize, Heading)>, Faults> {
    let comments =
        (1..).zip(lines(text_of(bytes)?)).filter_map(|(line, content)| Some((line, csv::comment_in(content)?)));
    let mut headings = comments.filter_map(|(line, comment)| Some((line, Heading::of_comment(comment)?)));
    match headings.next() {
        None => Ok(None),
        Some((line, Ok(heading))) => Ok(Some((line, heading))),
        Some((line, Err(sentence))) => Err(Faults::in_line(line, sentence)),
    }
}

#[cfg(test)]
mod tests {
    use super::*;
    use crate::tables::{template, Form, ReadBy};
    use crate::{Evaluator, Game};

    const KUHN: Game = Game::Kuhn { seats: 2 };

    fn labels(game: Game) -> Labels {
        Labels::new(&Evaluator::new(game).unwrap())
    }

    /// A table of Kuhn with 2 seats whose set k has the parts k and 12 - k, with a label behind each line.
    fn lines_of_12(labels: &Labels) -> Vec<String> {
        (0..12).map(|set| format!("{set} {}  # {}", 12 - set, labels.label(set))).collect()
    }

    fn said(text: &str) -> String {
        let labels = labels(KUHN);
        Reader::new(&labels).with_d(12).read::<u8>(text.as_bytes()).unwrap_err().to_string()
    }

    /// The same table with one line in place of another.
    fn said_with(line: usize, content: &str) -> String {
        let mut lines = lines_of_12(&labels(KUHN));
        lines[line] = content.to_string();
        said(&lines.join("\n"))
    }

    #[test]
    fn numbers_without_labels_are_read_by_position() {
        let labels = labels(KUHN);
        let read = |text: &str| Reader::new(&labels).read::<u8>(text.as_bytes()).unwrap();
        let table = read("1 0\n\t0  1 # set 1: 7 8\n#9\n\n255#255\n007 00");
        assert_eq!((table.numbers.as_slice(), table.read_by), (&[1, 0, 0, 1, 255, 7, 0][..], ReadBy::Position));
        assert_eq!([0, 1, 2, 4, 5, 6, 99].map(|entry| table.line_of(entry)), [1, 1, 2, 5, 6, 6, 6]);
        assert_eq!(read("1\u{a0}2\u{3000}3 # ä €").numbers, [1, 2, 3]);
        assert_eq!((read("").numbers, read("").line_of(0)), (vec![], 0));
        assert_eq!(read("\n\n# end").line_of(0), 3);
        let plain = read("# all\n1 0 # set 0\n\n1 0\n");
        for text in
            ["# all\r\n1 0 # set 0\r\n\r\n1 0\r\n", "# all\r1 0 # set 0\r\r1 0\r", "\u{feff}# all\n1 0 #\n\n1 0"]
        {
            assert_eq!(read(text), plain);
        }
    }

    #[test]
    fn labelled_lines_may_come_in_any_order() {
        let labels = labels(KUHN);
        let mut lines = lines_of_12(&labels);
        let in_order: Vec<u8> = (0..12).flat_map(|set| [set, 12 - set]).collect();
        for _ in 0..12 {
            lines.rotate_left(5);
            lines.swap(0, 7);
            let table = Reader::new(&labels).with_d(12).labelled().read::<u8>(lines.join("\n").as_bytes()).unwrap();
            assert_eq!((table.numbers, table.read_by), (in_order.clone(), ReadBy::Labels));
            assert_eq!(table.lines[6], 1 + lines.iter().position(|line| line.starts_with("3 9 ")).unwrap());
        }
    }

    #[test]
    fn a_second_sign_begins_a_note() {
        let mut lines = lines_of_12(&labels(KUHN));
        lines[3] += " # PASS BET: seat 0, card 0, first action of the hand # seat";
        let labels = labels(KUHN);
        assert!(Reader::new(&labels).with_d(12).read::<u8>(lines.join("\n").as_bytes()).is_ok());
    }

    #[test]
    fn each_line_is_held_to_its_own_label() {
        let label = labels(KUHN).label(7).to_string();
        assert_eq!(label, "PASS BET: seat 1, card 0, after PASS");
        let needs = "line 8: seat 1, card 0, after PASS has";
        assert_eq!(said_with(7, &format!("12 # {label}")), format!("{needs} 1 part and needs 2 (PASS BET)"));
        assert_eq!(said_with(7, &format!("4 4 4 # {label}")), format!("{needs} 3 parts and needs 2 (PASS BET)"));
        assert_eq!(said_with(7, &format!("# {label}")), format!("{needs} 0 parts and needs 2 (PASS BET)"));
        let without = "2 parts without a label; where one line has its set's label behind a #, each needs it";
        let missing = format!("no line has the label {label}");
        assert_eq!(said_with(7, "7 5"), format!("line 8: {without}\n{missing}"));
        assert_eq!(said_with(7, "7 5 # mine"), format!("line 8: {without}\n{missing}"));
        assert_eq!(said_with(7, ""), missing);
        let other = "'PASS BET: seat 1, card 3, after PASS' is no set of Kuhn with 2 seats";
        assert_eq!(said_with(7, "7 5 # PASS BET: seat 1, card 3, after PASS"), format!("line 8: {other}\n{missing}"));
        let first = "PASS BET: seat 0, card 0, first action of the hand";
        assert_eq!(
            said_with(7, &format!("7 5 # {first}")),
            format!("line 1: {first} stands in line 8 too\nline 8: {first} stands in line 1 too\n{missing}")
        );
        let swapped = "'BET PASS: seat 1, card 0, after PASS' has the actions in another order";
        let swapped = format!("line 8: {swapped}: seat 1, card 0, after PASS has PASS BET\n{missing}");
        assert_eq!(said_with(7, "7 5 # BET PASS: seat 1, card 0, after PASS"), swapped);
    }

    #[test]
    fn all_faults_are_told_sums_among_them() {
        let mut lines = lines_of_12(&labels(KUHN));
        lines[2] = lines[2].replacen("2 10", "2 x", 1);
        lines[4] = lines[4].replacen("4 8", "4 9", 1);
        lines[9] = lines[9].replacen("9 3", "9", 1);
        let told = said(&lines.join("\n"));
        let told: Vec<&str> = told.lines().collect();
        assert_eq!(told.len(), 3);
        assert!(told[0].starts_with("line 3: 'x' is not a whole number, "), "{}", told[0]);
        assert_eq!(told[1], "line 5: seat 1, card 2, after PASS has 4 + 9 = 13, and D is 12");
        assert_eq!(told[2], "line 10: seat 1, card 0, after BET has 1 part and needs 2 (PASS BET)");
        let many = said(&"0.5 # no\n".repeat(30));
        assert_eq!((many.lines().count(), many.lines().last()), (21, Some("and 10 faults more")));
    }

    #[test]
    fn a_label_on_a_line_of_its_own_is_not_passed_over() {
        let labels = labels(KUHN);
        let above: String = (0..12).map(|set| format!("# {}\n1 0\n", labels.label(set))).collect();
        let faults = Reader::new(&labels).read::<u8>(above.as_bytes()).unwrap_err();
        assert_eq!(faults.count(), 12);
        let alone = "a label stands alone here; it belongs behind the parts of its set";
        assert_eq!(faults.sentences("t")[0], format!("t:1: {alone}"));
    }

    #[test]
    fn headings_are_held_to_what_is_asked_for() {
        let labels = labels(KUHN);
        let numbers = "1 0\n".repeat(12);
        let read = |reader: Reader, heading: &str| reader.read::<u8>(format!("{heading}\n{numbers}").as_bytes());
        let (with_1, without) = (Reader::new(&labels).with_d(1), Reader::new(&labels));
        for heading in
            ["# Kuhn with 2 seats, D 1: 12 sets", "\"# Kuhn with 2 seats, D 1\",,", "# Kuhn poker with 9 seats"]
        {
            let table = read(with_1, heading);
            assert!(heading.starts_with('"') || table.is_ok(), "{heading}: {table:?}");
        }
        let faults = |reader, heading| read(reader, heading).unwrap_err().to_string();
        let says = "line 1: the heading says Kuhn with 2 seats, D 3, and Kuhn with 2 seats, D 1 is asked for";
        assert_eq!(faults(with_1, "# Kuhn with 2 seats, D 3: 12 sets"), says);
        let csv = template(&labels, 3, Form::Csv);
        assert_eq!(with_1.read::<u8>(csv.as_bytes()).unwrap_err().to_string(), says);
        assert!(read(without, "# Kuhn with 2 seats, D 3").is_ok());
        let leduc = "line 1: the heading says Leduc with 2 seats, and Kuhn with 2 seats is asked for";
        assert_eq!(faults(without, "# Leduc with 2 seats, D 3"), leduc);
        let more = "line 1: this heading says more than game, seats and D: 'Kuhn with 2 seats, D 1'";
        assert_eq!(faults(with_1, "# Kuhn with 2 seats, D 1, ante 2: 12 sets"), more);
        let heading = heading_of(b"# mine\n# Kuhn with 3 seats, D 4: 48 sets").unwrap();
        assert_eq!(heading, Some((2, Heading::new(Game::Kuhn { seats: 3 }, 4))));
        assert_eq!(heading_of(b"1 0 # Kuhn with 3 seats, D 4"), Ok(None));
    }

    #[test]
    fn files_without_labels_or_a_heading_can_be_refused() {
        let labels = labels(KUHN);
        let faults = Reader::new(&labels).labelled().read::<u8>("1 0\n".repeat(12).as_bytes()).unwrap_err();
        assert_eq!(faults.to_string(), "no line has a label, and labels are asked for");
        let faults = Reader::new(&labels).headed().read::<u8>("1 0\n".repeat(12).as_bytes()).unwrap_err();
        assert_eq!(faults.to_string(), "no line is a heading, and one is asked for");
    }

    #[test]
    fn profiles_are_held_to_their_sums_unless_any_are_taken() {
        let labels = labels(KUHN);
        let reader = Reader::new(&labels);
        let said = |text: &str| reader.read_profile(text.as_bytes()).unwrap_err().to_string();
        let half = "0.5 0.5\n".repeat(11);
        assert!(reader.read_profile(format!("{half}0.25 0.75").as_bytes()).is_ok());
        let one = "and a profile's sets add up to 1";
        assert_eq!(
            said(&format!("{half}0.4 0.4")),
            format!("line 12: seat 0, card 2, after PASS BET has 0.4 + 0.4 = 0.8, {one}")
        );
        assert_eq!(said(&"0 0\n".repeat(12)), format!("line 1: every set adds up to 0, {one}; is it filled in?"));
        let d_12 =
            format!("line 1: every set adds up to 12, {one}; is it a table with D 12, for `chukkanalli evaluate`?");
        assert_eq!(said(&"5 7\n".repeat(12)), d_12);
        assert!(reader.any().read_profile("NaN -1\n".repeat(12).as_bytes()).is_ok());
        assert_eq!(reader.read_profile(b"0.4").unwrap().numbers, [0.4]);
    }

    #[test]
    fn refusals_of_the_calls_get_their_place() {
        let mut evaluator = Evaluator::new(KUHN).unwrap();
        let labels = Labels::new(&evaluator);
        let reader = Reader::new(&labels).with_d(3);
        let mut faults = |text: &str| {
            let table = reader.read::<u8>(text.as_bytes()).unwrap();
            let refusal = evaluator.worths(3, &table.numbers).unwrap_err();
            reader.refused(refusal, &table)
        };
        let short = faults("1 2");
        assert_eq!(short.refusal(), Some(Refusal::Table));
        assert!(short.to_string().starts_with("line 1: refused with 7: "), "{short}");
        let sum = "refused with 8: in some set the parts do not add up to D";
        let wrong = faults(&("1 2\n".repeat(10) + "1 1\n2 2\n"));
        assert_eq!(wrong.refusal(), Some(Refusal::Sum));
        let first =
            format!("line 11: {sum}: set 10 (seat 0, card 2, first action of the hand) has 1 + 1 = 2, and D is 3");
        let second = format!("line 12: {sum}: set 11 (seat 0, card 2, after PASS BET) has 2 + 2 = 4, and D is 3");
        assert_eq!(wrong.to_string(), format!("{first}\n{second}"));
        let all = faults(&"1 0\n".repeat(12));
        assert_eq!(all.to_string(), format!("line 1: {sum}: every set adds up to 1, and D is 3; is its D 1?"));
    }
}
