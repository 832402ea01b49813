//! The two games, and the counts of their trees.

use crate::archive::{self, accepted};
use crate::{KuhnPoker, LeducPoker, Refusal};

/// A game with its seats.
#[derive(Clone, Copy, Debug, PartialEq, Eq, Hash)]
pub enum Game {
    /// Kuhn poker. Any count may stand here; calls refuse those that are none.
    Kuhn { seats: u64 },
    /// Leduc hold'em, for two seats.
    Leduc,
}

/// What a game's tree has, and a table for it: an entry for each legal action of each set.
#[derive(Clone, Copy, Debug, PartialEq, Eq, Hash)]
pub struct Counts {
    pub nodes: usize,
    pub sets: usize,
    pub entries: usize,
}

impl Game {
    /// The game of document 01's number, with so many seats. Refuses with 1, 2.
    pub fn by_number(number: u64, seats: u64) -> Result<Game, Refusal> {
        match accepted(archive::enumerate_infosets(number, seats, &[], &mut []).refusal) {
            Err(refusal @ (Refusal::Game | Refusal::Seats)) => Err(refusal),
            _ if number == Game::Leduc.number() => Ok(Game::Leduc),
            _ => Ok(Game::Kuhn { seats }),
        }
    }

    /// The game's number in document 01.
    pub fn number(self) -> u64 {
        match self {
            Game::Kuhn { .. } => 0,
            Game::Leduc => 1,
        }
    }

    pub fn seats(self) -> u64 {
        match self {
            Game::Kuhn { seats } => seats,
            Game::Leduc => LeducPoker::SEATS,
        }
    }

    pub fn name(self) -> &'static str {
        match self {
            Game::Kuhn { .. } => "Kuhn",
            Game::Leduc => "Leduc",
        }
    }

    /// Document 01's table of counts. None where a call that needs a tree is refused with 2 or 3.
    pub fn counts(self) -> Option<Counts> {
        let (nodes, sets, entries) = match self {
            Game::Kuhn { seats: 2 } => (58, 12, 24),
            Game::Kuhn { seats: 3 } => (617, 48, 96),
            Game::Kuhn { seats: 4 } => (7_886, 160, 320),
            Game::Kuhn { seats: 5 } => (116_437, 480, 960),
            Game::Kuhn { seats: 6 } => (1_944_020, 1_344, 2_688),
            Game::Kuhn { .. } => return None,
            Game::Leduc => (9_457, 936, 2_184),
        };
        Some(Counts { nodes, sets, entries })
    }

    /// The name of an action; a number that is none has no name.
    pub fn action_name(self, action: u8) -> Option<&'static str> {
        match (self, action) {
            (Game::Kuhn { .. }, KuhnPoker::PASS) => Some("PASS"),
            (Game::Kuhn { .. }, KuhnPoker::BET) => Some("BET"),
            (Game::Leduc, LeducPoker::FOLD) => Some("FOLD"),
            (Game::Leduc, LeducPoker::CALL) => Some("CALL"),
            (Game::Leduc, LeducPoker::RAISE) => Some("RAISE"),
            _ => None,
        }
    }
}

#[cfg(test)]
mod tests {
    use super::*;

    #[test]
    fn counts_stand_where_a_tree_is_allowed() {
        for seats in [0, 1, 7, 10, 11, u64::MAX] {
            assert_eq!(Game::Kuhn { seats }.counts(), None);
        }
        for seats in 2..=6 {
            let counts = Game::Kuhn { seats }.counts().unwrap();
            assert_eq!(counts.entries, 2 * counts.sets);
        }
        assert_eq!(Game::Leduc.counts().unwrap().entries, 2_184);
    }

    #[test]
    fn actions_have_names() {
        let kuhn = Game::Kuhn { seats: 2 };
        assert_eq!([0, 1, 2].map(|action| kuhn.action_name(action)), [Some("PASS"), Some("BET"), None]);
        assert_eq!([0, 1].map(|action| Game::Leduc.action_name(action)), [Some("FOLD"), Some("CALL")]);
        assert_eq!([2, 3, 255].map(|action| Game::Leduc.action_name(action)), [Some("RAISE"), None, None]);
        assert_eq!((kuhn.number(), kuhn.seats(), kuhn.name()), (0, 2, "Kuhn"));
        assert_eq!((Game::Leduc.number(), Game::Leduc.seats(), Game::Leduc.name()), (1, 2, "Leduc"));
    }
}
