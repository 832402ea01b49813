//! The calls that need a game's tree: the listing of its sets, and the evaluations in whole units.

use std::alloc::{self, Layout};
use std::cmp::Ordering;

use crate::archive::{self, accepted};
use crate::{
    Counts, Game, InfoSet, KuhnPoker, KuhnPosition, LeducPoker, LeducPosition, PerSeat, Refusal, Worths, RECORD,
};

/// The words of work memory for each node of a tree.
const WORDS: usize = 12;

/// Evaluates tables and profiles of one game. It holds the work memory, allocated to size once and used by every call; a thread takes one of its own.
///
/// A table lists the parts of each action, one byte each, set after set in the order of [`Evaluator::sets`]; in each set they add up to D,
/// which is 1 to 64, for Kuhn with 5 and 6 seats 1 to 16. Of U units, one chip per hand is worth U. A profile has an f64 for each of the
/// same entries, of any bits.
#[derive(Debug)]
pub struct Evaluator {
    game: Game,
    counts: Counts,
    pub(crate) work: Vec<u64>,
}

/// The most that any table is worth to a seat which differs from the given one in that seat's sets only, and the reply that is worth it.
#[derive(Clone, Debug, PartialEq, Eq)]
pub struct BestReply {
    /// In units.
    pub value: i64,
    /// The given table with D on one action in each of the seat's sets and 0 on its others.
    pub table: Vec<u8>,
}

/// The sum of best value − worth over the seats, in units, and the units U to divide by.
#[derive(Clone, Copy, Debug, PartialEq, Eq)]
pub struct NashConv {
    pub nash_conv: u64,
    pub units: u64,
}

impl NashConv {
    /// How NashConv / U stands to that of another table, of any game, seats and D: the lesser is closer to equilibrium. Among answers of
    /// [`Evaluator::nash_conv_units`] it is an order; with 0 units, which no table has, it is none, so there is no `Ord`.
    pub fn compare(&self, other: &NashConv) -> Ordering {
        archive::compare(self.nash_conv, self.units, other.nash_conv, other.units).cmp(&0)
    }
}

impl Evaluator {
    /// Takes the work memory of a game. Refuses with 2, 3, and with 4 where there is no memory to be had.
    pub fn new(game: Game) -> Result<Self, Refusal> {
        let none = Counts { nodes: 0, sets: 0, entries: 0 };
        let counts = game.counts().unwrap_or(none);
        let work = zeroed(WORDS * counts.nodes);
        match list(game, &work, &mut []) {
            Ok(()) | Err(Refusal::Output) => Ok(Evaluator { game, counts, work }),
            Err(refusal) => Err(refusal),
        }
    }

    pub fn game(&self) -> Game {
        self.game
    }

    pub fn counts(&self) -> Counts {
        self.counts
    }

    /// The game's information sets, in the order in which a table has them.
    pub fn sets(&self) -> Vec<InfoSet> {
        let mut out = vec![0; RECORD * self.counts.sets];
        let listed = list(self.game, &self.work, &mut out);
        listed.expect("the work memory and the output have the lengths that the listing asks for");
        let mut next_entry = 0;
        let mut sets = Vec::with_capacity(self.counts.sets);
        for record in out.chunks_exact(RECORD) {
            let mut set = InfoSet::of_record(self.game, record, next_entry);
            set.legal = legal_of(self.game, &set);
            next_entry += set.legal.len();
            sets.push(set);
        }
        sets
    }

    /// What a table is worth to each seat, in units. Refuses with 6, 7, 8.
    pub fn worths(&mut self, d: u64, table: &[u8]) -> Result<Worths, Refusal> {
        let answer = archive::worths(self.game.number(), self.game.seats(), &mut self.work, d, table);
        accepted(answer.refusal).map(|()| PerSeat::new(answer.count, answer.worths))
    }

    /// The best value of a seat, and its reply. Refuses with 5, 6, 7, 8.
    pub fn best_reply(&mut self, seat: u64, d: u64, table: &[u8]) -> Result<BestReply, Refusal> {
        let mut out = vec![0; self.counts.entries];
        let value = self.best_reply_into(seat, d, table, &mut out)?;
        Ok(BestReply { value, table: out })
    }

    /// The best value of a seat, with its reply written to the front of an output. Refuses with 5, 6, 7, 8, 9; the output then stays.
    pub fn best_reply_into(&mut self, seat: u64, d: u64, table: &[u8], out: &mut [u8]) -> Result<i64, Refusal> {
        let answer = archive::best_reply(self.game.number(), self.game.seats(), &mut self.work, seat, d, table, out);
        accepted(answer.refusal).map(|()| answer.value)
    }

    /// NashConv of a table. Refuses with 6, 7, 8.
    pub fn nash_conv_units(&mut self, d: u64, table: &[u8]) -> Result<NashConv, Refusal> {
        let answer = archive::nash_conv_units(self.game.number(), self.game.seats(), &mut self.work, d, table);
        accepted(answer.refusal).map(|()| NashConv { nash_conv: answer.nash_conv, units: answer.units })
    }
}

/// The listing of a game's sets into an output.
fn list(game: Game, work: &[u64], out: &mut [u8]) -> Result<(), Refusal> {
    accepted(archive::enumerate_infosets(game.number(), game.seats(), work, out).refusal)
}

/// The legal actions at a set's first node.
fn legal_of(game: Game, set: &InfoSet) -> Vec<u8> {
    let mut out = [0; LeducPoker::LEGAL];
    let legal = match game {
        Game::Kuhn { seats } => {
            let position = KuhnPosition::new(&set.first_cards, &set.rounds[0]);
            KuhnPoker { seats }.legal_actions(position, set.seat, &mut out)
        }
        Game::Leduc => {
            let round2 = set.rounds.get(1).map_or(&[][..], Vec::as_slice);
            let position = LeducPosition::new(&set.first_cards, set.public_card, &set.rounds[0], round2);
            LeducPoker::legal_actions(position, set.seat, &mut out)
        }
    };
    legal.expect("a listed set's first node can be reached").to_vec()
}

/// So many words, all 0; none where there is no memory for them, and calls then refuse with 4. By `alloc_zeroed`: `vec!` would end the
/// program, and to fill what was reserved would touch every page, while a page that nothing touches costs nothing.
fn zeroed(words: usize) -> Vec<u64> {
    let layout = match Layout::array::<u64>(words) {
        Ok(layout) if words > 0 => layout,
        _ => return Vec::new(),
    };
    // SAFETY: the layout is not empty and is that of as many words as the vector has; a word of zeros is 0.
    unsafe {
        let first = alloc::alloc_zeroed(layout).cast::<u64>();
        if first.is_null() {
            return Vec::new();
        }
        Vec::from_raw_parts(first, words, words)
    }
}
