//! Kuhn's positions as the calls take them, and what the judge asks of the unchanged Rust and of document 01.

use crate::answer::{Moved, Noted};
use crate::calls::{lengthened, number_of, tried, within, Judged};
use crate::kuhn_paper::{reachable, Hand};
use crate::line::Line;
use reinfors_core::game::Game;
use reinfors_core::StateCodec;
use reinfors_games::kuhn::{KuhnPoker, KuhnState};

pub const CARDS: usize = 10;
pub const ACTIONS: usize = 19;

/// A position with its arrays and lengths, as the calls take it.
#[derive(Clone, Copy, Debug, PartialEq, Eq)]
pub struct Position {
    pub cards: [u8; CARDS],
    pub dealt: u64,
    pub history: [u8; ACTIONS],
    pub acted: u64,
}

impl Position {
    pub const ZERO: Position = Position { cards: [0; CARDS], dealt: 0, history: [0; ACTIONS], acted: 0 };

    /// What lies within the lengths; none where a length is above its array.
    fn hand(&self) -> Option<Hand> {
        Some(Hand { cards: within(&self.cards, self.dealt)?, history: within(&self.history, self.acted)? })
    }
}

impl Noted for Position {
    fn note(&self, line: &mut Line) {
        line.bytes(&self.cards);
        line.number(self.dealt);
        line.bytes(&self.history);
        line.number(self.acted);
    }

    fn say(&self, line: &mut Line) {
        let hand = self.hand().expect("lengths of an accepted move fit");
        line.say(self.dealt);
        line.say_all(&hand.cards);
        line.say(self.acted);
        line.say_all(&hand.history);
    }
}

impl Judged for KuhnPoker {
    type Position = Position;
    type Hand = Hand;

    fn start(&self) -> Moved<Position> {
        match self.validate() {
            Ok(()) => Moved { refusal: 0, position: Self::over(&Position::ZERO, &self.initial_state()) },
            Err(_) => Moved { refusal: 2, position: Position::ZERO },
        }
    }

    fn admitted(&self, position: &Position) -> Result<Hand, u64> {
        self.validate().map_err(|_| 2u64)?;
        position.hand().filter(|hand| reachable(self.players, hand)).ok_or(19)
    }

    fn state(hand: &Hand) -> KuhnState {
        KuhnState { cards: hand.cards.clone(), history: hand.history.clone() }
    }

    fn dealt(hand: &Hand) -> usize {
        hand.cards.len()
    }

    fn card_due(&self, hand: &Hand) -> bool {
        hand.card_due(self.players)
    }

    fn ended(&self, hand: &Hand) -> bool {
        hand.ended(self.players)
    }

    fn take_back(state: &mut KuhnState) -> u8 {
        state.history.pop().expect("no hand ends without an action")
    }

    fn over(position: &Position, state: &KuhnState) -> Position {
        let mut next = *position;
        next.cards[..state.cards.len()].copy_from_slice(&state.cards);
        next.dealt = state.cards.len() as u64;
        next.history[..state.history.len()].copy_from_slice(&state.history);
        next.acted = state.history.len() as u64;
        next
    }

    fn tries(&self) -> [Vec<u64>; 3] {
        let most = self.players.min(12) as u64;
        [tried(most), tried(most + 1), tried(2)]
    }

    fn saved_refusal(&self, position: &Position, done: bool) -> u64 {
        if self.validate().is_err() {
            return 2;
        }
        let cards = lengthened(&position.cards, position.dealt);
        let all_in_the_deck = cards.iter().all(|&card| usize::from(card) <= self.players);
        let state = KuhnState { cards, history: lengthened(&position.history, position.acted) };
        match self.validate_decoded_state(&state, done) {
            Ok(()) => 0,
            Err(text) => match number_of(&text, &ERRORS) {
                11 if all_in_the_deck => 12,
                number => number,
            },
        }
    }

    fn saved_forms(position: Position) -> Vec<Position> {
        vec![position]
    }
}

/// A word of each error of a saved position. Both card errors have the same.
const ERRORS: [(&str, u64); 5] = [("dealt", 10), ("distinct", 11), ("malformed", 13), ("past", 14), ("disagrees", 18)];
