//! The five calls in f64 as document 01 has them: which refusal comes first, and the values of the unchanged Rust.

use crate::exact::{Tree, SEATS};
use crate::listing_lists::{KUHN, LEDUC};
use crate::units::{tree_of, words};
use crate::EventNumber;
use reinfors_core::best_response::{
    best_response_value, best_response_values, exploitability, nash_conv, profile_values,
};
use reinfors_core::game::Game;
use reinfors_games::kuhn::KuhnPoker;
use reinfors_games::leduc::LeducPoker;

#[derive(Clone, Copy, Debug, PartialEq, Eq)]
pub enum Evaluation {
    BestResponseValue,
    BestResponseValues,
    ProfileValues,
    NashConv,
    Exploitability,
}

pub const EVALUATIONS: [Evaluation; 5] = [
    Evaluation::BestResponseValue,
    Evaluation::BestResponseValues,
    Evaluation::ProfileValues,
    Evaluation::NashConv,
    Evaluation::Exploitability,
];

/// What the calls are lent; only `BestResponseValue` is handed the seat.
#[derive(Clone, Debug)]
pub struct Call {
    pub game: u64,
    pub seats: u64,
    pub words: u64,
    pub seat: u64,
    pub profile: Vec<f64>,
}

/// An answer with its values as bits, so that equal answers are equal bit for bit; a refused call has 0 in every other field.
#[derive(Clone, Copy, Debug, Default, PartialEq, Eq)]
pub struct Values {
    pub refusal: u64,
    pub count: u64,
    pub bits: [u64; SEATS],
}

/// The bits of a value; every NaN has those of one.
pub fn bits(value: f64) -> u64 {
    const ONE_NAN: u64 = 0x7FF8_0000_0000_0000;
    if value.is_nan() {
        ONE_NAN
    } else {
        value.to_bits()
    }
}

impl Evaluation {
    /// The Rust's values of a profile.
    pub fn of<G: Game<Event = f64>>(self, game: &G, tree: &Tree, profile: &[f64], seat: usize) -> Vec<f64> {
        let profile = tree.profile(profile);
        let one = |value| vec![value];
        let values = match self {
            Evaluation::BestResponseValue => best_response_value(game, &EventNumber, &profile, seat).map(one),
            Evaluation::BestResponseValues => best_response_values(game, &EventNumber, &profile),
            Evaluation::ProfileValues => profile_values(game, &EventNumber, &profile),
            Evaluation::NashConv => nash_conv(game, &EventNumber, &profile).map(one),
            Evaluation::Exploitability => exploitability(game, &EventNumber, &profile).map(one),
        };
        values.expect("a tree within the limit")
    }
}

impl Call {
    /// A profile of a tree, with just enough work memory.
    pub fn of(game: u64, tree: &Tree, seat: u64, profile: Vec<f64>) -> Self {
        Call { game, seats: tree.seats as u64, words: words(tree), seat, profile }
    }

    /// The tree, or the first of the numbers 1 to 5 and 7 that applies.
    fn tree(&self, asked: Evaluation) -> Result<&'static Tree, u64> {
        let tree = tree_of(self.game, self.seats, self.words)?;
        if asked == Evaluation::BestResponseValue && self.seats <= self.seat {
            return Err(5);
        }
        if self.profile.len() != tree.entries {
            return Err(7);
        }
        Ok(tree)
    }

    /// The first word of work memory that the calls leave, if they are accepted.
    pub fn kept(&self) -> u64 {
        tree_of(self.game, self.seats, self.words).map_or(0, words)
    }

    pub fn answer(&self, asked: Evaluation) -> Values {
        let tree = match self.tree(asked) {
            Ok(tree) => tree,
            Err(refusal) => return Values { refusal, ..Values::default() },
        };
        let seat = self.seat as usize;
        let values = match self.game {
            KUHN => asked.of(&KuhnPoker { players: tree.seats }, tree, &self.profile, seat),
            LEDUC => asked.of(&LeducPoker, tree, &self.profile, seat),
            _ => unreachable!("only two games have trees"),
        };
        let mut answer = Values { refusal: 0, count: values.len() as u64, bits: [bits(0.0); SEATS] };
        answer.bits.iter_mut().zip(values).for_each(|(place, value)| *place = bits(value));
        answer
    }
}
