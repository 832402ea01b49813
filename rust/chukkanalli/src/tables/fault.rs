//! What is wrong with a file.

use std::error::Error;
use std::fmt;

use crate::Refusal;

/// The faults of a file that are told at most; the others are counted.
pub const MOST_TOLD: usize = 20;

/// One thing that is wrong with a file, and in which line, if it is in one.
#[derive(Clone, Debug, PartialEq, Eq)]
pub struct Fault {
    pub line: Option<usize>,
    pub sentence: String,
}

impl Fault {
    /// Where it comes among others: by its line, and behind all lines where it has none.
    fn place(line: Option<usize>) -> usize {
        line.unwrap_or(usize::MAX)
    }

    /// The fault with its file and line before it.
    pub fn at<'a>(&'a self, file: &'a str) -> impl fmt::Display + 'a {
        At { file, fault: self }
    }
}

impl fmt::Display for Fault {
    fn fmt(&self, f: &mut fmt::Formatter<'_>) -> fmt::Result {
        match self.line {
            Some(line) => write!(f, "line {line}: {}", self.sentence),
            None => f.write_str(&self.sentence),
        }
    }
}

struct At<'a> {
    file: &'a str,
    fault: &'a Fault,
}

impl fmt::Display for At<'_> {
    fn fmt(&self, f: &mut fmt::Formatter<'_>) -> fmt::Result {
        match self.fault.line {
            Some(line) => write!(f, "{}:{line}: {}", self.file, self.fault.sentence),
            None => write!(f, "{}: {}", self.file, self.fault.sentence),
        }
    }
}

/// All that is wrong with a file, in the order of the lines: the first [`MOST_TOLD`], and how many there are.
#[derive(Clone, Debug, Default, PartialEq, Eq)]
pub struct Faults {
    told: Vec<Fault>,
    count: usize,
    refusal: Option<Refusal>,
}

impl Faults {
    /// One fault of the whole file.
    pub fn of_file(sentence: impl Into<String>) -> Self {
        Faults::one(None, sentence)
    }

    /// One fault in a line.
    pub fn in_line(line: usize, sentence: impl Into<String>) -> Self {
        Faults::one(Some(line), sentence)
    }

    fn one(line: Option<usize>, sentence: impl Into<String>) -> Self {
        Faults { told: vec![Fault { line, sentence: sentence.into() }], count: 1, refusal: None }
    }

    /// The faults that a record has: those that were told, how many more there were, and the refusal where a call refused.
    pub fn of_record(told: Vec<Fault>, more: usize, refusal: Option<Refusal>) -> Self {
        let count = told.len() + more;
        Faults { told, count, refusal }
    }

    /// The same as what a proved call's refusal comes from.
    pub(crate) fn of_refusal(self, refusal: Refusal) -> Self {
        Faults { refusal: Some(refusal), ..self }
    }

    /// One more. Its sentence is made only if it is told.
    pub(crate) fn add(&mut self, line: Option<usize>, sentence: impl FnOnce() -> String) {
        self.count += 1;
        let place = self.told.partition_point(|told| Fault::place(told.line) <= Fault::place(line));
        if place < MOST_TOLD {
            self.told.truncate(MOST_TOLD - 1);
            self.told.insert(place, Fault { line, sentence: sentence() });
        }
    }

    /// Whether there is none.
    pub fn is_empty(&self) -> bool {
        self.count == 0
    }

    /// How many there are.
    pub fn count(&self) -> usize {
        self.count
    }

    /// Those that are told.
    pub fn told(&self) -> &[Fault] {
        &self.told
    }

    /// How many there are beyond those that are told.
    pub fn more(&self) -> usize {
        self.count - self.told.len()
    }

    /// The refusal of the proved call, if a call refused.
    pub fn refusal(&self) -> Option<Refusal> {
        self.refusal
    }

    /// Nothing if there is no fault, else the faults.
    pub(crate) fn none(self) -> Result<(), Faults> {
        if self.is_empty() {
            Ok(())
        } else {
            Err(self)
        }
    }

    /// A sentence for each that is told, with the file before it, and one that counts the others.
    pub fn sentences(&self, file: &str) -> Vec<String> {
        let mut sentences: Vec<String> = self.told.iter().map(|fault| fault.at(file).to_string()).collect();
        sentences.extend(self.more_words().map(|words| format!("{file}: {words}")));
        sentences
    }

    fn more_words(&self) -> Option<String> {
        match self.more() {
            0 => None,
            1 => Some("and 1 fault more".to_string()),
            more => Some(format!("and {more} faults more")),
        }
    }
}

impl fmt::Display for Faults {
    fn fmt(&self, f: &mut fmt::Formatter<'_>) -> fmt::Result {
        let lines: Vec<String> = self.told.iter().map(Fault::to_string).chain(self.more_words()).collect();
        f.write_str(&lines.join("\n"))
    }
}

impl Error for Faults {}

#[cfg(test)]
mod tests {
    use super::*;

    #[test]
    fn faults_come_by_their_lines_and_the_surplus_is_counted() {
        let mut faults = Faults::default();
        assert!(faults.is_empty());
        faults.add(None, || "last".to_string());
        for line in (1..=25).rev() {
            faults.add(Some(line), || format!("odd {line}"));
        }
        assert_eq!((faults.count(), faults.more()), (26, 6));
        assert_eq!(faults.told()[0], Fault { line: Some(1), sentence: "odd 1".to_string() });
        assert_eq!(faults.told()[19].line, Some(20));
        let sentences = faults.sentences("name");
        assert_eq!((sentences.len(), sentences[19].as_str()), (21, "name:20: odd 20"));
        assert_eq!(sentences[20], "name: and 6 faults more");
        faults.add(Some(30), || panic!("what is not told is not made"));
    }

    #[test]
    fn a_fault_stands_with_its_file_or_its_line() {
        assert_eq!(Faults::in_line(3, "odd").sentences("name"), ["name:3: odd"]);
        assert_eq!(Faults::of_file("odd").sentences("name"), ["name: odd"]);
        let mut faults = Faults::in_line(3, "odd");
        faults.add(Some(3), || "odder".to_string());
        assert_eq!(faults.to_string(), "line 3: odd\nline 3: odder");
        assert_eq!(faults.of_refusal(Refusal::Sum).refusal(), Some(Refusal::Sum));
        assert_eq!(Faults::default().none(), Ok(()));
    }
}
