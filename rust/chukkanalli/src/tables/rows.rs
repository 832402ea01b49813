//! The rows of a file, text or CSV: numbers with the set that they are labelled as.

use super::fault::Faults;
use super::heading::Heading;
use super::labels::Labels;
use super::number::Number;

/// What a row says of its set.
#[derive(Clone, Copy, Debug, PartialEq, Eq)]
pub enum Label {
    /// Nothing.
    None,
    /// That it is this set.
    Of(usize),
    /// What is no set; the fault is told already.
    Wrong,
}

/// A line with numbers, or with a label alone.
#[derive(Clone, Copy, Debug, PartialEq, Eq)]
pub struct Row {
    pub line: usize,
    pub label: Label,
    /// The place of its first number among all; the next row's is where they end.
    pub first: usize,
    /// Whether one of its words is no number; the fault is told already.
    pub spoiled: bool,
}

/// The rows of a file with their numbers, and its headings, or what is wrong with them.
#[derive(Clone, Debug)]
pub struct Rows<T> {
    pub numbers: Vec<T>,
    pub rows: Vec<Row>,
    pub headings: Vec<(usize, Result<Heading, String>)>,
    pub last_line: usize,
}

impl<T: Number> Rows<T> {
    /// None yet, with room for those of a game.
    pub fn new(labels: &Labels) -> Self {
        Rows {
            numbers: Vec::with_capacity(labels.entries()),
            rows: Vec::with_capacity(labels.sets().len()),
            headings: Vec::new(),
            last_line: 0,
        }
    }

    /// Takes a word as a number, and says whether it is one; where not, that is a fault.
    pub fn take(&mut self, word: &str, line: usize, faults: &mut Faults) -> bool {
        let number = T::of_word(word);
        self.numbers.push(*number.as_ref().unwrap_or(&T::default()));
        match number {
            Ok(_) => true,
            Err(sentence) => {
                faults.add(Some(line), || sentence);
                false
            }
        }
    }

    /// Where the numbers of a row stand.
    pub fn places(&self, row: usize) -> std::ops::Range<usize> {
        let end = self.rows.get(row + 1).map_or(self.numbers.len(), |next| next.first);
        self.rows[row].first..end
    }
}
