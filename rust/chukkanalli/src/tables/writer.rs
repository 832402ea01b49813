//! Writes tables and profiles, and the empty ones to fill in.

use super::csv;
use super::heading::Heading;
use super::labels::Labels;

/// The forms of a file.
#[derive(Clone, Copy, Debug, PartialEq, Eq)]
pub enum Form {
    /// A line for each set: its numbers, and its label behind a #.
    Text,
    /// A row for each set: its label, and a column for each action of the game.
    Csv,
}

/// A table with D, or a profile with the numbers of one: a heading, and a line for each set with its label. The numbers are in the order
/// of a table; where there are too few, those that lack are left out.
pub fn written<T: ToString>(labels: &Labels, d: u64, numbers: &[T], form: Form) -> String {
    let words: Vec<String> = numbers.iter().map(T::to_string).collect();
    let heading = heading(labels, d);
    match form {
        Form::Text => format!("# {heading}\n\n{}", text_lines(labels, &words)),
        Form::Csv => csv_rows(labels, &heading, &words),
    }
}

/// An empty table to fill in: no part on any action, so that a set which nobody fills in is refused.
pub fn template(labels: &Labels, d: u64, form: Form) -> String {
    let empty = vec!["0".to_string(); labels.entries()];
    if form == Form::Csv {
        return csv_rows(labels, &heading(labels, d), &empty);
    }
    let (game, seats) = (labels.game().name().to_lowercase(), labels.game().seats());
    format!(
        "\
# {}
# A line for each set: the parts of its actions, and behind the # their names and what the seat knows.
# Fill in parts that add up to {d} in each set: chukkanalli evaluate {game} {seats} {d} FILE

{}",
        heading(labels, d),
        text_lines(labels, &empty)
    )
}

fn heading(labels: &Labels, d: u64) -> String {
    let heading = Heading::new(labels.game(), d);
    format!("{heading}: {} sets, {} entries", labels.sets().len(), labels.entries())
}

/// The words of a set, as far as there are any.
fn words_of<'a>(labels: &Labels, set: usize, words: &'a [String]) -> &'a [String] {
    let entries = labels.sets()[set].entries();
    &words[entries.start.min(words.len())..entries.end.min(words.len())]
}

fn text_lines(labels: &Labels, words: &[String]) -> String {
    let parts: Vec<String> = (0..labels.sets().len()).map(|set| words_of(labels, set, words).join(" ")).collect();
    let width = parts.iter().map(String::len).max().unwrap_or(0);
    parts.iter().enumerate().map(|(set, parts)| format!("{parts:width$}  # {}\n", labels.label(set))).collect()
}

/// The rows of a CSV file with commas; the cell of an action that is not legal in its set is empty.
fn csv_rows(labels: &Labels, heading: &str, words: &[String]) -> String {
    let columns = csv::columns(labels);
    let mut text = format!("\"# {heading}\"{}\n{},{}\n", ",".repeat(columns.len()), csv::SET, columns.join(","));
    for (set, listed) in labels.sets().iter().enumerate() {
        let mut cells = vec![""; columns.len()];
        for (&action, word) in listed.legal.iter().zip(words_of(labels, set, words)) {
            cells[usize::from(action)] = word;
        }
        text += &format!("\"{}\",{}\n", labels.label(set), cells.join(","));
    }
    text
}

#[cfg(test)]
mod tests {
    use super::*;
    use crate::tables::Reader;
    use crate::{Evaluator, Game};

    #[test]
    fn what_is_written_reads_back() {
        for game in [Game::Kuhn { seats: 2 }, Game::Kuhn { seats: 3 }, Game::Leduc] {
            let labels = Labels::new(&Evaluator::new(game).unwrap());
            let parts: Vec<u8> = (0..labels.entries()).map(|entry| (entry % 200) as u8).collect();
            let numbers: Vec<f64> = parts.iter().map(|&part| f64::from(part) / 7.0).collect();
            for form in [Form::Text, Form::Csv] {
                let table = written(&labels, 9, &parts, form);
                assert_eq!(
                    Reader::new(&labels).with_d(9).labelled().read::<u8>(table.as_bytes()).unwrap().numbers,
                    parts
                );
                let profile = written(&labels, 1, &numbers, form);
                assert_eq!(Reader::new(&labels).read::<f64>(profile.as_bytes()).unwrap().numbers, numbers);
                let empty = Reader::new(&labels).with_d(9).read::<u8>(template(&labels, 9, form).as_bytes()).unwrap();
                assert_eq!(empty.numbers, vec![0; labels.entries()]);
            }
        }
    }

    #[test]
    fn a_row_has_a_cell_for_each_action_of_the_game() {
        let labels = Labels::new(&Evaluator::new(Game::Leduc).unwrap());
        let text = template(&labels, 4, Form::Csv);
        let lines: Vec<&str> = text.lines().collect();
        assert_eq!(lines[..2], ["\"# Leduc with 2 seats, D 4: 936 sets, 2184 entries\",,,", "set,FOLD,CALL,RAISE"]);
        let first = "\"CALL RAISE: seat 0, card 0 (rank 0), no public card, first action of the hand\",,0,0";
        assert_eq!((lines.len(), lines[2]), (938, first));
    }
}
