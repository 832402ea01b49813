//! The three calls in whole units as document 01 has them: which refusal comes first, and what an accepted call answers.

use crate::exact::{kuhn, leduc, Best, Played, Tree, SEATS};
use crate::listing::WORDS;
use crate::listing_lists::{KUHN, LEDUC};

/// What the calls are lent, but for the seat and the output.
#[derive(Clone, Debug)]
pub struct Call {
    pub game: u64,
    pub seats: u64,
    pub words: u64,
    pub d: u64,
    pub table: Vec<u8>,
}

/// The worths of all seats; a refused call has 0 in every other field.
#[derive(Clone, Copy, Debug, Default, PartialEq, Eq)]
pub struct Worths {
    pub refusal: u64,
    pub count: u64,
    pub worths: [i64; SEATS],
}

/// A seat's best value, and the reply if the call was accepted.
#[derive(Clone, Debug, Default, PartialEq, Eq)]
pub struct Reply {
    pub refusal: u64,
    pub value: i64,
    pub reply: Vec<u8>,
}

#[derive(Clone, Copy, Debug, Default, PartialEq, Eq)]
pub struct NashConv {
    pub refusal: u64,
    pub nash_conv: u64,
    pub units: u64,
}

/// The words of work memory that a tree needs.
pub fn words(tree: &Tree) -> u64 {
    WORDS * tree.nodes.len() as u64
}

/// The tree of a game, or the first of the numbers 1 to 4 that applies.
pub fn tree_of(game: u64, seats: u64, lent: u64) -> Result<&'static Tree, u64> {
    let tree = match (game, seats) {
        (KUHN, 2..=6) => kuhn(seats as usize),
        (KUHN, 7..=10) => return Err(3),
        (LEDUC, 2) => leduc(),
        (KUHN | LEDUC, _) => return Err(2),
        _ => return Err(1),
    };
    if lent < words(tree) {
        return Err(4);
    }
    Ok(tree)
}

impl Call {
    /// A table of a tree, with just enough work memory.
    pub fn of(game: u64, tree: &Tree, d: u64, table: Vec<u8>) -> Self {
        Call { game, seats: tree.seats as u64, words: words(tree), d, table }
    }

    fn tree(&self) -> Result<&'static Tree, u64> {
        tree_of(self.game, self.seats, self.words)
    }

    /// The table, or the first of the numbers 6 to 8 that applies.
    fn played<'a>(&'a self, tree: &'a Tree) -> Result<Played<'a>, u64> {
        if !(1..=tree.most_parts).contains(&self.d) {
            return Err(6);
        }
        if self.table.len() != tree.entries {
            return Err(7);
        }
        if !tree.adds_up(&self.table, self.d) {
            return Err(8);
        }
        Ok(Played::new(tree, self.d, &self.table))
    }

    /// The first word of work memory that the calls leave, if they are accepted.
    pub fn kept(&self) -> u64 {
        self.tree().map_or(0, words)
    }

    pub fn worths(&self) -> Worths {
        let answer = self.tree().and_then(|tree| self.played(tree)).map(|played| Worths {
            refusal: 0,
            count: self.seats,
            worths: played.worths().map(narrow),
        });
        answer.unwrap_or_else(|refusal| Worths { refusal, ..Worths::default() })
    }

    /// The answer for a seat, with an output of so many bytes.
    pub fn best_reply(&self, seat: u64, room: u64) -> Reply {
        let answer =
            self.best(seat, room).map(|best| Reply { refusal: 0, value: narrow(best.value), reply: best.reply });
        answer.unwrap_or_else(|refusal| Reply { refusal, ..Reply::default() })
    }

    fn best(&self, seat: u64, room: u64) -> Result<Best, u64> {
        let tree = self.tree()?;
        if self.seats <= seat {
            return Err(5);
        }
        let played = self.played(tree)?;
        if room < tree.entries as u64 {
            return Err(9);
        }
        Ok(played.best(seat as usize))
    }

    pub fn nash_conv(&self) -> NashConv {
        let answer = self.tree().and_then(|tree| self.played(tree)).map(|played| NashConv {
            refusal: 0,
            nash_conv: u64::try_from(played.nash_conv()).expect("NashConv is a u64"),
            units: u64::try_from(played.units()).expect("U is a u64"),
        });
        answer.unwrap_or_else(|refusal| NashConv { refusal, ..NashConv::default() })
    }
}

fn narrow(worth: i128) -> i64 {
    i64::try_from(worth).expect("a worth is an i64")
}
