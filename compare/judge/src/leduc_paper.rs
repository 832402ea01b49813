//! Leduc as document 01 has it, for the answers that the Rust does not give: which positions can be reached, found by
//! making every move from the start, breadth first. Nothing of the Rust is called, and no saved-position check.

use std::collections::HashSet;
use std::sync::OnceLock;

const FOLD: u8 = 0;
const CALL: u8 = 1;
const RAISE: u8 = 2;

#[derive(Clone, Debug, PartialEq, Eq, Hash)]
pub struct Hand {
    pub cards: Vec<u8>,
    pub public: Option<u8>,
    pub rounds: [Vec<u8>; 2],
}

/// A round closes at a CALL that is its second or later action.
fn closed(round: &[u8]) -> bool {
    round.iter().skip(1).any(|&action| action == CALL)
}

impl Hand {
    pub fn start() -> Self {
        Hand { cards: Vec::new(), public: None, rounds: [Vec::new(), Vec::new()] }
    }

    pub fn ended(&self) -> bool {
        self.rounds.iter().flatten().any(|&action| action == FOLD) || closed(&self.rounds[1])
    }

    /// A private card, or the public one once round 1 has closed.
    pub fn card_due(&self) -> bool {
        let second_round = closed(&self.rounds[0]) && !self.ended();
        self.cards.len() < 2 || (second_round && self.public.is_none())
    }

    pub fn seat_acts(&self) -> bool {
        !self.card_due() && !self.ended()
    }

    /// Ante 1; CALL matches the other seat, RAISE matches and adds 2, then 4.
    pub fn paid(&self) -> [i64; 2] {
        let mut paid = [1, 1];
        for (round, raise) in self.rounds.iter().zip([2, 4]) {
            for (at, &action) in round.iter().enumerate() {
                let matched = paid[(at + 1) % 2];
                match action {
                    CALL => paid[at % 2] = matched,
                    RAISE => paid[at % 2] = matched + raise,
                    _ => {}
                }
            }
        }
        paid
    }

    /// What the acting seat may do: FOLD only when behind, CALL always, RAISE while the round has fewer than two.
    pub fn legal(&self) -> Vec<u8> {
        let round = &self.rounds[usize::from(closed(&self.rounds[0]))];
        let (seat, paid) = (round.len() % 2, self.paid());
        let raises = round.iter().filter(|&&action| action == RAISE).count();
        let mut legal = vec![CALL];
        if paid[seat] < paid[1 - seat] {
            legal.insert(0, FOLD);
        }
        if raises < 2 {
            legal.push(RAISE);
        }
        legal
    }

    /// Every position one move on.
    pub fn moves(&self) -> Vec<Hand> {
        let mut next = Vec::new();
        if self.card_due() {
            for card in (0..6).filter(|card| !self.cards.contains(card)) {
                let mut hand = self.clone();
                match hand.cards.len() {
                    2 => hand.public = Some(card),
                    _ => hand.cards.push(card),
                }
                next.push(hand);
            }
        } else if !self.ended() {
            for action in self.legal() {
                let mut hand = self.clone();
                hand.rounds[usize::from(closed(&self.rounds[0]))].push(action);
                next.push(hand);
            }
        }
        next
    }
}

/// Every position that can be reached, breadth first.
pub fn all() -> Vec<Hand> {
    let mut found = vec![Hand::start()];
    let mut at = 0;
    while at < found.len() {
        let next = found[at].moves();
        found.extend(next);
        at += 1;
    }
    found
}

pub fn reachable(hand: &Hand) -> bool {
    static REACHED: OnceLock<HashSet<Hand>> = OnceLock::new();
    REACHED.get_or_init(|| all().into_iter().collect()).contains(hand)
}
