//! A list: what a program is given, what it must write, and how often each refusal number is in it.

use crate::calls::{rules_line, saved_line, start_line, Judged};
use crate::line::ROOM;
use random::Random;
use std::fs;
use std::io;
use std::path::{Path, PathBuf};

/// No list is larger, and no program's output: `rt try` cuts a run off at 1,048,576 bytes.
const MOST_GIVEN: usize = 2_000_000;
const MOST_WRITTEN: usize = 1_000_000;

/// Lengths and seat counts that a cut to 8, 16 or 32 bits would take for small ones.
pub const FAR: [u64; 8] = [20, 255, 256, 258, 300, 65_538, (1 << 32) + 2, u64::MAX];

/// The length of the whole output array.
pub const WHOLE: u64 = ROOM as u64;

/// A position as a line gives it: bytes for the first places of each array, and a number that fills the others.
pub trait Given {
    type Game: Judged;

    /// The game of the numbers of a start or of a position.
    fn game(words: &[u64]) -> Self::Game;

    fn read(record: &mut Words) -> Self;

    /// The numbers that a line has for the position.
    fn words(&self) -> Vec<u64>;

    fn position(&self) -> <Self::Game as Judged>::Position;
}

/// The numbers of a line: some, then each list of bytes as its count and the bytes.
pub fn words(heads: &[u64], lists: &[&[u8]]) -> Vec<u64> {
    let mut words = heads.to_vec();
    for bytes in lists {
        words.push(bytes.len() as u64);
        words.extend(bytes.iter().map(|&byte| u64::from(byte)));
    }
    words
}

/// The byte at a place of an array, which is place `number` of the position's: the line's, or the filling.
pub fn place(given: &[u8], at: usize, number: usize, fill: u8) -> u8 {
    given.get(at).copied().unwrap_or_else(|| fill.wrapping_mul(number as u8 + 1))
}

/// The answer to one record of a list.
pub fn answer<G: Given>(record: &str) -> String {
    let mut record = Words::new(record);
    let mut list = List::default();
    match record.number() {
        0 => list.start::<G>(&record.rest()),
        code @ (1 | 2) => {
            let room = record.number();
            list.rules(code == 1, room, &G::read(&mut record));
        }
        code => list.saved(code == 3, &G::read(&mut record)),
    }
    list.stdout
}

#[derive(Default)]
pub struct List {
    pub stdin: String,
    pub stdout: String,
    pub counts: [usize; 21],
    pub lines: usize,
}

impl List {
    /// The list that some parts make one after the other, each with the seed's numbers from the first on.
    pub fn drawn(seed: u64, parts: &[fn(&mut List, &mut Random)]) -> List {
        let mut list = List::default();
        parts.iter().for_each(|part| part(&mut list, &mut Random::new(seed)));
        list
    }

    pub fn push(&mut self, given: &[u64], answer: &str) {
        let words: Vec<String> = given.iter().map(u64::to_string).collect();
        self.stdin += &(words.join(" ") + "\n");
        self.stdout += answer;
        self.stdout.push('\n');
        self.lines += 1;
    }

    /// The start call.
    pub fn start<G: Given>(&mut self, given: &[u64]) {
        let answer = start_line(&G::game(given), self);
        self.push(&[&[0], given].concat(), &answer);
    }

    /// The rules calls on a position, in text or as a checksum alone.
    pub fn rules<G: Given>(&mut self, shown: bool, room: u64, given: &G) {
        let words = given.words();
        let answer = rules_line(shown, room, &G::game(&words), given.position(), self);
        let code = if shown { 1 } else { 2 };
        self.push(&[vec![code, room], words].concat(), &answer);
    }

    /// The saved-position check.
    pub fn saved<G: Given>(&mut self, shown: bool, given: &G) {
        let words = given.words();
        let answer = saved_line(shown, &G::game(&words), given.position(), self);
        let code = if shown { 3 } else { 4 };
        self.push(&[vec![code], words].concat(), &answer);
    }

    pub fn count(&mut self, refusal: u64) {
        self.counts[refusal as usize] += 1;
    }

    /// Writes the two files of a program, once each of `numbers` has stood in an answer at least twenty times.
    pub fn write(&self, folder: &Path, program: &str, numbers: &[usize]) -> io::Result<()> {
        for &number in numbers {
            assert!(self.counts[number] >= 20, "{program}: too few answers {number}");
        }
        assert!(self.stdin.len() <= MOST_GIVEN, "{program}: too much is given");
        assert!(self.stdout.len() <= MOST_WRITTEN, "{program}: too much is written");
        let folder = home(folder, program);
        fs::create_dir_all(&folder)?;
        fs::write(folder.join("stdin"), &self.stdin)?;
        fs::write(folder.join("stdout"), &self.stdout)?;
        println!("{program}: {} lines, stdin {}, stdout {} bytes", self.lines, self.stdin.len(), self.stdout.len());
        for (number, count) in self.counts.iter().enumerate().filter(|(_, &count)| count > 0) {
            println!("  {number}: {count} answers");
        }
        Ok(())
    }
}

/// The folder of a program's list: among the crates, or with those whose program is not there yet.
pub fn home(crates: &Path, program: &str) -> PathBuf {
    let there = crates.join(program);
    if there.is_dir() {
        return there;
    }
    Path::new(env!("CARGO_MANIFEST_DIR")).join("../lists-pending").join(program)
}

/// The numbers of a record, one after the other.
pub struct Words<'a>(std::str::SplitWhitespace<'a>);

impl<'a> Words<'a> {
    pub fn new(record: &'a str) -> Self {
        Words(record.split_whitespace())
    }

    pub fn number(&mut self) -> u64 {
        parsed(self.0.next().expect("the record has a number more"))
    }

    /// The numbers that are left.
    fn rest(&mut self) -> Vec<u64> {
        self.0.by_ref().map(parsed).collect()
    }

    /// A count and as many bytes.
    pub fn bytes(&mut self) -> Vec<u8> {
        let count = self.number();
        (0..count).map(|_| self.number() as u8).collect()
    }
}

fn parsed(word: &str) -> u64 {
    word.parse().expect("a record holds decimal numbers")
}

/// Copies with one byte of a list changed, each in turn to every other of the values.
pub fn changed<G: Clone>(given: &G, bytes: impl Fn(&mut G) -> &mut Vec<u8>, values: &[u8]) -> Vec<G> {
    let held = bytes(&mut given.clone()).clone();
    let mut out = Vec::new();
    for (at, &byte) in held.iter().enumerate() {
        for &value in values.iter().filter(|&&value| value != byte) {
            let mut next = given.clone();
            bytes(&mut next)[at] = value;
            out.push(next);
        }
    }
    out
}

/// Every list of actions below `kinds` up to the given length.
pub fn histories(kinds: u8, longest: usize) -> Vec<Vec<u8>> {
    let mut out: Vec<Vec<u8>> = vec![Vec::new()];
    let mut at = 0;
    while at < out.len() {
        if out[at].len() < longest {
            for action in 0..kinds {
                let next = [out[at].as_slice(), &[action]].concat();
                out.push(next);
            }
        }
        at += 1;
    }
    out
}
