//! Information sets, as the listing writes them.

use crate::{Game, LeducPoker};

/// The bytes that the listing writes for a set.
pub const RECORD: usize = 24;

/// The bytes of a record that hold the first node's cards.
const CARDS: usize = 16;

/// An information set: all decision nodes of one seat with equal keys.
#[derive(Clone, Debug, PartialEq, Eq, Hash)]
pub struct InfoSet {
    pub seat: u64,
    /// All that the seat knows: Kuhn's is seat, card, history; Leduc's seat, card, public card or 255, each round's length and actions.
    pub key: Vec<u8>,
    /// The seat's own card.
    pub card: u8,
    pub public_card: Option<u8>,
    /// What was played, round after round. Kuhn has one round; Leduc's second is there once the public card lies.
    pub rounds: Vec<Vec<u8>>,
    /// The cards of all seats at the set's first node.
    pub first_cards: Vec<u8>,
    /// The legal actions, in order.
    pub legal: Vec<u8>,
    /// The place in a table of the first action's part; the others follow it.
    pub first_entry: usize,
}

impl InfoSet {
    /// The places of the set's parts in a table.
    pub fn entries(&self) -> std::ops::Range<usize> {
        self.first_entry..self.first_entry + self.legal.len()
    }

    /// The set of a listed record, without its legal actions.
    pub(crate) fn of_record(game: Game, record: &[u8], first_entry: usize) -> Self {
        let key = &record[2..][..usize::from(record[1])];
        let (public_card, rounds) = match game {
            Game::Kuhn { .. } => (None, vec![key[2..].to_vec()]),
            Game::Leduc => leduc_rounds(key),
        };
        InfoSet {
            seat: u64::from(record[0]),
            key: key.to_vec(),
            card: key[1],
            public_card,
            rounds,
            first_cards: record[CARDS..][..game.seats() as usize].to_vec(),
            legal: Vec::new(),
            first_entry,
        }
    }
}

/// The public card and the rounds that Leduc's key tells.
fn leduc_rounds(key: &[u8]) -> (Option<u8>, Vec<Vec<u8>>) {
    let (round1, behind) = key[4..].split_at(usize::from(key[3]));
    let mut rounds = vec![round1.to_vec()];
    let public_card = (key[2] != LeducPoker::NO_CARD).then_some(key[2]);
    if public_card.is_some() {
        rounds.push(behind[1..].to_vec());
    }
    (public_card, rounds)
}

#[cfg(test)]
mod tests {
    use super::*;

    #[test]
    fn kuhn_has_one_round() {
        let mut record = [0; RECORD];
        record[..6].copy_from_slice(&[1, 3, 1, 2, 0, 0]);
        record[15] = 255;
        record[16..18].copy_from_slice(&[0, 2]);
        let set = InfoSet::of_record(Game::Kuhn { seats: 2 }, &record, 8);
        assert_eq!((set.seat, set.card, set.public_card, set.first_entry), (1, 2, None, 8));
        assert_eq!((set.key, set.rounds, set.first_cards), (vec![1, 2, 0], vec![vec![0]], vec![0, 2]));
    }

    #[test]
    fn leduc_has_a_second_round_once_the_public_card_lies() {
        let mut record = [0; RECORD];
        record[..8].copy_from_slice(&[1, 6, 1, 4, 255, 1, 2, 0]);
        assert_eq!(InfoSet::of_record(Game::Leduc, &record, 0).rounds, [vec![2]]);
        record[..11].copy_from_slice(&[0, 9, 0, 4, 3, 2, 1, 1, 2, 1, 2]);
        let set = InfoSet::of_record(Game::Leduc, &record, 0);
        assert_eq!((set.public_card, set.rounds), (Some(3), vec![vec![1, 1], vec![1, 2]]));
        record[..9].copy_from_slice(&[0, 7, 0, 4, 3, 2, 1, 1, 0]);
        assert_eq!(InfoSet::of_record(Game::Leduc, &record, 0).rounds, [vec![1, 1], vec![]]);
    }

    #[test]
    fn entries_are_as_many_as_legal_actions() {
        let mut set = InfoSet::of_record(
            Game::Leduc,
            &[0, 5, 0, 4, 255, 0, 0, 0, 0, 0, 0, 0, 0, 0, 0, 255, 4, 0, 0, 0, 0, 0, 2, 0],
            7,
        );
        set.legal = vec![1, 2];
        assert_eq!(set.entries(), 7..9);
    }
}
