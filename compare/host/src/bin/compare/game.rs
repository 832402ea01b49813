//! The games that have a tree, and calls that the checks of a game refuse.

use crate::number::{fewer, number_but};
use judge::exact::{self, Tree};
use judge::listing_lists::{KUHN, LEDUC};
use judge::units::words;
use random::Random;

/// A game with its tree.
pub struct Game {
    pub name: String,
    pub number: u64,
    pub tree: &'static Tree,
}

impl Game {
    pub fn kuhn(seats: usize) -> Self {
        Game { name: format!("Kuhn {seats}"), number: KUHN, tree: exact::kuhn(seats) }
    }

    pub fn leduc() -> Self {
        Game { name: "Leduc".to_string(), number: LEDUC, tree: exact::leduc() }
    }

    /// Makes the game, the seats or the words of a call those that the check 1, 2, 3 or 4 refuses.
    pub fn damage(&self, check: u64, game: &mut u64, seats: &mut u64, lent: &mut u64, random: &mut Random) {
        let no_seats = |seats| if self.number == KUHN { !(2..=10).contains(&seats) } else { seats != 2 };
        match check {
            1 => *game = number_but(random, |game| game > LEDUC),
            2 => *seats = number_but(random, no_seats),
            3 => (*game, *seats) = (KUHN, 7 + random.below(4) as u64),
            _ => *lent = fewer(words(self.tree), random),
        }
    }
}
