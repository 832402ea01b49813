//! Leduc hold'em: its positions, and the rules calls on them.

use crate::archive::{self, moved, payoffs, written};
use crate::kuhn::{fill, front};
use crate::{Payoffs, Refusal};

/// Leduc hold'em, for two seats.
#[derive(Clone, Copy, Debug, PartialEq, Eq, Hash)]
pub struct LeducPoker;

impl LeducPoker {
    pub const SEATS: u64 = 2;
    pub const FOLD: u8 = 0;
    pub const CALL: u8 = 1;
    pub const RAISE: u8 = 2;
    /// The public card that is none.
    pub const NO_CARD: u8 = 255;
    /// The bytes of the longest legal list, and of the longest key.
    pub const LEGAL: usize = 3;
    pub const KEY: usize = 13;
}

/// The cards of the first `dealt` seats, the public card or 255, the `acted1` actions of round 1 from place 0 and the `acted2` of round 2
/// from place 4. Places past a length are not read, and stay.
#[derive(Clone, Copy, Debug, PartialEq, Eq, Hash)]
#[repr(C)]
pub struct LeducPosition {
    pub cards: [u8; 2],
    pub dealt: u64,
    pub public_card: u8,
    pub history: [u8; 8],
    pub acted1: u64,
    pub acted2: u64,
}

impl LeducPosition {
    /// The position of these cards and actions, possible or not. What has no place is counted only, and calls refuse such a length. A
    /// public card 255 stands as 254, which is not in the deck either: 255 itself is none.
    pub fn new(cards: &[u8], public_card: Option<u8>, round1: &[u8], round2: &[u8]) -> Self {
        let mut position = LeducPosition {
            cards: [0; 2],
            dealt: cards.len() as u64,
            public_card: public_card.map_or(LeducPoker::NO_CARD, |card| card.min(LeducPoker::NO_CARD - 1)),
            history: [0; 8],
            acted1: round1.len() as u64,
            acted2: round2.len() as u64,
        };
        fill(&mut position.cards, cards);
        fill(&mut position.history[..4], round1);
        fill(&mut position.history[4..], round2);
        position
    }

    /// The cards dealt, as many as have a place.
    pub fn dealt_cards(&self) -> &[u8] {
        front(&self.cards, self.dealt)
    }

    pub fn public(&self) -> Option<u8> {
        (self.public_card != LeducPoker::NO_CARD).then_some(self.public_card)
    }

    /// The actions of each round, as many as have a place.
    pub fn rounds(&self) -> [&[u8]; 2] {
        [front(&self.history[..4], self.acted1), front(&self.history[4..], self.acted2)]
    }
}

impl LeducPoker {
    /// The start: no card dealt, no action made.
    pub fn initial_state() -> LeducPosition {
        archive::leduc_initial_state().position
    }

    /// The legal actions of a seat, written to the front of an output; none for a seat whose turn it is not, while a card is due and
    /// after the end. Refuses with 19, 9.
    pub fn legal_actions(position: LeducPosition, seat: u64, out: &mut [u8]) -> Result<&[u8], Refusal> {
        written(archive::leduc_legal_actions(position, seat, out), out)
    }

    /// Deals a seat's card, or the public card once round 1 has closed; an outcome counts the cards left from the lowest. Refuses with
    /// 19, 20.
    pub fn apply_chance_node(position: LeducPosition, outcome: u64) -> Result<LeducPosition, Refusal> {
        moved(archive::leduc_apply_chance_node(position, outcome))
    }

    /// The seat whose turn it is acts; an illegal action becomes FOLD if that is legal, else CALL. Refuses with 19, 20.
    pub fn step(position: LeducPosition, action: u64) -> Result<LeducPosition, Refusal> {
        moved(archive::leduc_step(position, action))
    }

    /// The key of a seat that has a card, written to the front of an output: seat, card, public card or 255, then each round's length
    /// and actions. Refuses with 19, 20, 9.
    pub fn information_state_key(position: LeducPosition, seat: u64, out: &mut [u8]) -> Result<&[u8], Refusal> {
        written(archive::leduc_information_state_key(position, seat, out), out)
    }

    /// What each seat gains at the end of a hand. Refuses with 19, 20.
    pub fn payouts(position: LeducPosition) -> Result<Payoffs, Refusal> {
        payoffs(archive::leduc_payouts(position))
    }

    /// Checks a saved position with its end mark, 0 for a live hand and 1 for one that has ended. Refuses with 10 to 18.
    pub fn validate_decoded_state(position: LeducPosition, done: u64) -> Result<(), Refusal> {
        moved(archive::leduc_validate_decoded_state(position, done)).map(drop)
    }
}

#[cfg(test)]
mod tests {
    use super::*;

    #[test]
    fn a_position_keeps_what_has_a_place_and_counts_the_rest() {
        let position = LeducPosition::new(&[0, 5], Some(1), &[1, 1], &[2]);
        assert_eq!((position.dealt_cards(), position.public()), (&[0, 5][..], Some(1)));
        assert_eq!(position.rounds(), [&[1, 1][..], &[2][..]]);
        let long = LeducPosition::new(&[3; 3], None, &[1; 5], &[2; 9]);
        assert_eq!((long.dealt, long.public_card, long.acted1, long.acted2), (3, 255, 5, 9));
        assert_eq!(long.rounds(), [&[1; 4][..], &[2; 4][..]]);
    }

    #[test]
    fn every_public_card_is_one() {
        for card in 0..=u8::MAX {
            assert_eq!(LeducPosition::new(&[], Some(card), &[], &[]).public(), Some(card.min(254)));
        }
        assert_eq!(LeducPosition::new(&[], None, &[], &[]).public(), None);
    }
}
