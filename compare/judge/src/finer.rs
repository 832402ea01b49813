//! A seat's reply held to rivals of other grains at random (document 02, Eight).

use crate::exact::{Grain, Node, Sequences};
use crate::parts::{mixed_rival, near, rival, Kind};
use random::Random;

/// The parts E of a rival's own sets; a table is not held to those for which i128 is too narrow.
pub const GRAINS: [u64; 6] = [1, 2, 7, 10, 300, 1_000];

/// What is answered of a seat of a table, with the ends by its own moves.
pub struct Answered<'a> {
    pub sequences: Sequences<'a>,
    pub worth: i128,
    pub best: i128,
    pub reply: &'a [u8],
}

/// How many rivals of each grain were weighed, and how many of them whole too; whether one is worth more than the seat's own entries.
#[derive(Clone, Copy, Default)]
pub struct Held {
    pub rivals: [usize; GRAINS.len()],
    pub whole: usize,
    pub gains: bool,
}

impl Answered<'_> {
    /// The reply with E parts on each choice is worth E^m × the best value, and none of so many rivals is worth more: near the reply, mixed and pure in
    /// turn. The first ones are weighed whole too.
    pub fn held(&self, rivals: usize, whole: usize, random: &mut Random) -> Held {
        let of_grain = |(place, e)| Some((place, self.sequences.finer(e)?));
        let grains: Vec<(usize, Sequences)> = GRAINS.into_iter().enumerate().filter_map(of_grain).collect();
        let mut held = Held::default();
        for (_, finer) in &grains {
            let worth = finer.worth(&finer.grain.copy(self.reply));
            assert_eq!(worth, scaled(self.best, &finer.grain), "the reply with {} parts", finer.grain.parts);
            held.gains |= worth > scaled(self.worth, &finer.grain);
        }
        let start = random.below(3 * grains.len());
        for number in start..start + rivals {
            let (place, finer) = &grains[number % grains.len()];
            let rival = self.rival(&finer.grain, number / grains.len(), random);
            let worth = finer.worth(&rival);
            assert!(worth <= scaled(self.best, &finer.grain), "{rival:?} with {} parts", finer.grain.parts);
            held.gains |= worth > scaled(self.worth, &finer.grain);
            held.rivals[*place] += 1;
            if held.whole < whole {
                assert_eq!(whole_worth(&finer.grain, &rival), worth, "{rival:?} with {} parts", finer.grain.parts);
                held.whole += 1;
            }
        }
        held
    }

    fn rival(&self, grain: &Grain, number: usize, random: &mut Random) -> Vec<u64> {
        let (tree, seat, e) = (grain.played.tree, grain.seat, grain.parts);
        let copy = grain.copy(self.reply);
        match number % 3 {
            0 => near(tree, &copy, seat, e, random),
            1 if e > 1 => mixed_rival(tree, &copy, seat, e, random),
            _ => rival(tree, &copy, seat, e, Kind::Pure, random),
        }
    }
}

/// E^m × a number of units.
fn scaled(units: i128, grain: &Grain) -> i128 {
    let scale = i128::from(grain.parts).pow(grain.played.tree.moves);
    units.checked_mul(scale).expect("E^m times as many are within i128")
}

/// The worth by the whole tree, where the units of all ends add up to U × E^m.
fn whole_worth(grain: &Grain, rival: &[u64]) -> i128 {
    let units = grain.units_of_nodes(rival);
    let ends = grain.played.tree.nodes.iter().zip(units).filter(|(node, _)| matches!(node, Node::End(_)));
    assert_eq!(ends.map(|(_, units)| units).sum::<i128>(), scaled(grain.played.units(), grain));
    grain.worth(rival)
}
