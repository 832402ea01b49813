//! The numbers of a file, in the order of a table.

/// How a file was read.
#[derive(Clone, Copy, Debug, PartialEq, Eq)]
pub enum ReadBy {
    /// Each line by its set's label.
    Labels,
    /// Number after number, in set order.
    Position,
}

impl ReadBy {
    /// As `labels` or `position`.
    pub fn name(self) -> &'static str {
        match self {
            ReadBy::Labels => "labels",
            ReadBy::Position => "position",
        }
    }
}

/// The numbers of a file in the order of a table, each with its line.
#[derive(Clone, Debug, PartialEq, Eq)]
pub struct Entries<T> {
    pub numbers: Vec<T>,
    pub read_by: ReadBy,
    pub(super) lines: Vec<usize>,
    pub(super) last_line: usize,
}

impl<T> Entries<T> {
    /// The line of an entry, from 1; the file's last where there is no such entry.
    pub fn line_of(&self, entry: usize) -> usize {
        self.lines.get(entry).copied().unwrap_or(self.last_line)
    }
}
