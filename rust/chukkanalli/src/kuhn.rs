//! Kuhn poker: its positions, and the rules calls on them.

use crate::archive::{self, accepted, moved, payoffs, written};
use crate::{Payoffs, Refusal};

/// Kuhn poker for so many seats. Any count may stand here; calls refuse those outside 2 to 10.
#[derive(Clone, Copy, Debug, PartialEq, Eq, Hash)]
pub struct KuhnPoker {
    pub seats: u64,
}

impl KuhnPoker {
    pub const PASS: u8 = 0;
    pub const BET: u8 = 1;
    /// The bytes of the longest legal list, and of the longest key.
    pub const LEGAL: usize = 2;
    pub const KEY: usize = 21;
}

/// The cards of the first `dealt` seats, and the `acted` actions made. Places past a length are not read, and stay.
#[derive(Clone, Copy, Debug, Default, PartialEq, Eq, Hash)]
#[repr(C)]
pub struct KuhnPosition {
    pub cards: [u8; 10],
    pub dealt: u64,
    pub history: [u8; 19],
    pub acted: u64,
}

impl KuhnPosition {
    /// The position of these cards and actions, possible or not. What has no place is counted only, and calls refuse such a length.
    pub fn new(cards: &[u8], history: &[u8]) -> Self {
        let mut position = KuhnPosition { dealt: cards.len() as u64, acted: history.len() as u64, ..Self::default() };
        fill(&mut position.cards, cards);
        fill(&mut position.history, history);
        position
    }

    /// The cards dealt, as many as have a place.
    pub fn dealt_cards(&self) -> &[u8] {
        front(&self.cards, self.dealt)
    }

    /// The actions made, as many as have a place.
    pub fn actions(&self) -> &[u8] {
        front(&self.history, self.acted)
    }
}

/// Copies as many bytes as both have.
pub(crate) fn fill(places: &mut [u8], bytes: &[u8]) {
    for (place, &byte) in places.iter_mut().zip(bytes) {
        *place = byte;
    }
}

/// The places up to a length, all of them where it is longer.
pub(crate) fn front(places: &[u8], length: u64) -> &[u8] {
    &places[..length.min(places.len() as u64) as usize]
}

impl KuhnPoker {
    /// Refuses a seat count with 2.
    pub fn validate(self) -> Result<(), Refusal> {
        accepted(archive::kuhn_validate(self.seats))
    }

    /// The start: no card dealt, no action made. Refuses with 2.
    pub fn initial_state(self) -> Result<KuhnPosition, Refusal> {
        moved(archive::kuhn_initial_state(self.seats))
    }

    /// The legal actions of a seat, written to the front of an output; none for a seat whose turn it is not, while a card is due and
    /// after the end. Refuses with 2, 19, 9.
    pub fn legal_actions(self, position: KuhnPosition, seat: u64, out: &mut [u8]) -> Result<&[u8], Refusal> {
        written(archive::kuhn_legal_actions(self.seats, position, seat, out), out)
    }

    /// The next seat gets the card of an outcome, which counts those left from the lowest. Refuses with 2, 19, 20.
    pub fn apply_chance_node(self, position: KuhnPosition, outcome: u64) -> Result<KuhnPosition, Refusal> {
        moved(archive::kuhn_apply_chance_node(self.seats, position, outcome))
    }

    /// The seat whose turn it is acts; every action above 1 counts as BET. Refuses with 2, 19, 20.
    pub fn step(self, position: KuhnPosition, action: u64) -> Result<KuhnPosition, Refusal> {
        moved(archive::kuhn_step(self.seats, position, action))
    }

    /// The key of a seat that has a card, written to the front of an output: seat, card, history. Refuses with 2, 19, 20, 9.
    pub fn information_state_key(self, position: KuhnPosition, seat: u64, out: &mut [u8]) -> Result<&[u8], Refusal> {
        written(archive::kuhn_information_state_key(self.seats, position, seat, out), out)
    }

    /// What each seat gains at the end of a hand. Refuses with 2, 19, 20.
    pub fn payouts(self, position: KuhnPosition) -> Result<Payoffs, Refusal> {
        payoffs(archive::kuhn_payouts(self.seats, position))
    }

    /// Checks a saved position with its end mark, 0 for a live hand and 1 for one that has ended. Refuses with 2, 10 to 14, 18.
    pub fn validate_decoded_state(self, position: KuhnPosition, done: u64) -> Result<(), Refusal> {
        moved(archive::kuhn_validate_decoded_state(self.seats, position, done)).map(drop)
    }
}

#[cfg(test)]
mod tests {
    use super::*;

    #[test]
    fn a_position_keeps_what_has_a_place_and_counts_the_rest() {
        let position = KuhnPosition::new(&[2, 0, 1], &[0, 1]);
        assert_eq!((position.dealt_cards(), position.actions()), (&[2, 0, 1][..], &[0, 1][..]));
        let long = KuhnPosition::new(&[7; 300], &[1; 20]);
        assert_eq!((long.dealt, long.acted), (300, 20));
        assert_eq!((long.dealt_cards(), long.actions()), (&[7; 10][..], &[1; 19][..]));
    }
}
