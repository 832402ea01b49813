//! Leduc's positions as the calls take them, and what the judge asks of the unchanged Rust and of document 01.

use crate::answer::{Moved, Noted};
use crate::calls::{lengthened, number_of, tried, within, Judged};
use crate::leduc_paper::{reachable, Hand};
use crate::line::Line;
use reinfors_core::game::Game;
use reinfors_core::StateCodec;
use reinfors_games::leduc::{LeducPoker, LeducState};

pub const CARDS: usize = 2;
pub const ACTIONS: usize = 8;
/// Round 2 starts at this place of the history.
pub const HALF: usize = 4;

/// The actions that steps are tried with: 257 and 258 are CALL and RAISE if cut to a byte.
const STEPS: [u64; 7] = [0, 1, 2, 3, 257, 258, u64::MAX];

/// A position with its arrays and lengths, as the calls take it.
#[derive(Clone, Copy, Debug, PartialEq, Eq)]
pub struct Position {
    pub cards: [u8; CARDS],
    pub dealt: u64,
    pub public: Option<u8>,
    pub history: [u8; ACTIONS],
    pub acted: [u64; 2],
}

/// The public card as a number: 0 for none, else 1 more than the card.
pub fn number_of_public(public: Option<u8>) -> u64 {
    public.map_or(0, |card| u64::from(card) + 1)
}

impl Position {
    pub const ZERO: Position =
        Position { cards: [0; CARDS], dealt: 0, public: None, history: [0; ACTIONS], acted: [0, 0] };

    fn round(&self, round: usize) -> &[u8] {
        &self.history[round * HALF..(round + 1) * HALF]
    }

    /// What lies within the lengths; none where a length is above its array.
    fn hand(&self) -> Option<Hand> {
        let rounds = [within(self.round(0), self.acted[0])?, within(self.round(1), self.acted[1])?];
        Some(Hand { cards: within(&self.cards, self.dealt)?, public: self.public, rounds })
    }
}

impl Noted for Position {
    fn note(&self, line: &mut Line) {
        line.bytes(&self.cards);
        line.number(self.dealt);
        line.number(number_of_public(self.public));
        line.bytes(&self.history);
        line.number(self.acted[0]);
        line.number(self.acted[1]);
    }

    fn say(&self, line: &mut Line) {
        let hand = self.hand().expect("lengths of an accepted move fit");
        line.say(self.dealt);
        line.say_all(&hand.cards);
        line.say(number_of_public(self.public));
        for (length, actions) in self.acted.into_iter().zip(&hand.rounds) {
            line.say(length);
            line.say_all(actions);
        }
    }
}

impl Judged for LeducPoker {
    type Position = Position;
    type Hand = Hand;

    fn start(&self) -> Moved<Position> {
        Moved { refusal: 0, position: Self::over(&Position::ZERO, &self.initial_state()) }
    }

    fn admitted(&self, position: &Position) -> Result<Hand, u64> {
        position.hand().filter(reachable).ok_or(19)
    }

    fn state(hand: &Hand) -> LeducState {
        LeducState { cards: hand.cards.clone(), public: hand.public, history: hand.rounds.clone() }
    }

    fn dealt(hand: &Hand) -> usize {
        hand.cards.len()
    }

    fn card_due(&self, hand: &Hand) -> bool {
        hand.card_due()
    }

    fn ended(&self, hand: &Hand) -> bool {
        hand.ended()
    }

    fn take_back(state: &mut LeducState) -> u8 {
        let round = usize::from(!state.history[1].is_empty());
        state.history[round].pop().expect("no hand ends without an action")
    }

    fn over(position: &Position, state: &LeducState) -> Position {
        let mut next = *position;
        next.cards[..state.cards.len()].copy_from_slice(&state.cards);
        next.dealt = state.cards.len() as u64;
        next.public = state.public;
        for (round, actions) in state.history.iter().enumerate() {
            let first = round * HALF;
            next.history[first..first + actions.len()].copy_from_slice(actions);
            next.acted[round] = actions.len() as u64;
        }
        next
    }

    fn tries(&self) -> [Vec<u64>; 3] {
        [tried(2), tried(6), STEPS.to_vec()]
    }

    fn saved_refusal(&self, position: &Position, done: bool) -> u64 {
        let round = |round| lengthened(position.round(round), position.acted[round]);
        let cards = lengthened(&position.cards, position.dealt);
        let state = LeducState { cards, public: position.public, history: [round(0), round(1)] };
        self.validate_decoded_state(&state, done).map_or_else(|text| number_of(&text, &ERRORS), |()| 0)
    }

    /// With the public card as given, then with none.
    fn saved_forms(position: Position) -> Vec<Position> {
        vec![position, Position { public: None, ..position }]
    }
}

/// A word of each error of a saved position. The error without a number is not among them.
const ERRORS: [(&str, u64); 9] = [
    ("dealt", 10),
    ("range", 11),
    ("twice", 12),
    ("malformed", 13),
    ("past", 14),
    ("illegal", 15),
    ("without", 16),
    ("revealed", 17),
    ("disagrees", 18),
];
