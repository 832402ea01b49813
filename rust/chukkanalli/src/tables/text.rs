//! The rows of a text: numbers with blanks between them, and a comment from # to the end of the line.

use super::encoding::lines;
use super::fault::Faults;
use super::heading::Heading;
use super::labels::{self, Labels};
use super::number::Number;
use super::rows::{Label, Row, Rows};

/// The rows of a text, with a fault for each word before a # that is no number, and for each label that is none.
pub fn rows<T: Number>(text: &str, labels: &Labels, faults: &mut Faults) -> Rows<T> {
    let mut rows = Rows::new(labels);
    let mut next = 0;
    for (line, content) in (1..).zip(lines(text)) {
        rows.last_line = line;
        let (words, behind) = parted(content);
        let first = rows.numbers.len();
        let spoiled = !take_words(&mut rows, words, line, faults);
        let has_numbers = rows.numbers.len() > first;
        let label = match behind.and_then(|behind| labels.find_next(behind, next)) {
            Some(set) => {
                next = set + 1;
                Label::Of(set)
            }
            None if has_numbers => unless_meant(behind.map(comment_of), line, labels, faults),
            None => {
                let heading = behind.and_then(|behind| Heading::of_comment(comment_of(behind)));
                rows.headings.extend(heading.map(|heading| (line, heading)));
                continue;
            }
        };
        rows.rows.push(Row { line, label, first, spoiled });
    }
    rows
}

/// Takes the words before a comment, and says whether all are numbers. A word that is none is told once in a row, and what follows // not at
/// all: it is a comment of another language.
fn take_words<T: Number>(rows: &mut Rows<T>, words: &str, line: usize, faults: &mut Faults) -> bool {
    let mut told = None;
    for word in words.split_whitespace() {
        if told == Some(word) {
            rows.numbers.push(T::default());
        } else if !rows.take(word, line, faults) {
            told = Some(word);
        }
        if word.contains("//") {
            break;
        }
    }
    told.is_none()
}

/// The label of a comment that is no set's: none, or a fault where one is meant.
fn unless_meant(comment: Option<&str>, line: usize, labels: &Labels, faults: &mut Faults) -> Label {
    match comment {
        Some(comment) if labels::is_meant(comment) => {
            faults.add(Some(line), || labels.unknown(comment));
            Label::Wrong
        }
        _ => Label::None,
    }
}

/// What stands before the first # of a line, which comes soon, and behind it.
fn parted(line: &str) -> (&str, Option<&str>) {
    match line.bytes().position(|byte| byte == b'#') {
        Some(at) => (&line[..at], Some(&line[at + 1..])),
        None => (line, None),
    }
}

/// The comment behind a #, up to a second.
pub fn comment_of(behind: &str) -> &str {
    behind.split_once('#').map_or(behind, |(comment, _)| comment)
}

/// The comment of a line that has nothing else.
pub fn comment_line(line: &str) -> Option<&str> {
    line.trim_start().strip_prefix('#').map(comment_of)
}

#[cfg(test)]
mod tests {
    use super::*;
    use crate::{Evaluator, Game};

    #[test]
    fn rows_have_numbers_a_line_and_a_label() {
        let labels = Labels::new(&Evaluator::new(Game::Kuhn { seats: 2 }).unwrap());
        let mut faults = Faults::default();
        let text = "# always PASS\n\n1 0 # PASS BET: seat 1, card 1, after PASS # mine\n 2\t3#seat\n4 x # a king\n\
                    #PASS BET: seat 0, card 0, after PASS BET\n5 // PASS BET";
        let rows = rows::<u8>(text, &labels, &mut faults);
        let row = |line, first, label, spoiled| Row { line, first, label, spoiled };
        assert_eq!(
            rows.rows,
            [
                row(3, 0, Label::Of(1), false),
                row(4, 2, Label::Wrong, false),
                row(5, 4, Label::None, true),
                row(6, 6, Label::Of(2), false),
                row(7, 6, Label::None, true),
            ]
        );
        assert_eq!((rows.last_line, rows.places(1), rows.places(3), rows.places(4)), (7, 2..4, 6..6, 6..8));
        assert_eq!(faults.told().iter().map(|fault| fault.line).collect::<Vec<_>>(), [Some(4), Some(5), Some(7)]);
    }

    #[test]
    fn a_word_is_told_once_in_a_row() {
        let labels = Labels::new(&Evaluator::new(Game::Kuhn { seats: 2 }).unwrap());
        let mut faults = Faults::default();
        let rows = rows::<u8>("0.5 0.5 0.25 1 0.25\n0.25", &labels, &mut faults);
        assert_eq!((rows.numbers.len(), faults.count()), (6, 3));
    }

    #[test]
    fn a_comment_ends_at_a_second_sign() {
        assert_eq!([" a", "a#b#c", "#", ""].map(comment_of), [" a", "a", "", ""]);
        assert_eq!((comment_line(" # a"), comment_line("1 # a"), comment_line("")), (Some(" a"), None, None));
    }
}
