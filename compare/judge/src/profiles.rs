//! Profiles of f64 entries at random: weights, ties, and entries that no strategy has, up to any bits.

use crate::exact::Tree;
use random::Random;

/// How the entries of a profile are made.
#[derive(Clone, Copy, Debug, PartialEq, Eq)]
pub enum Kind {
    /// Weights at random that add up to about 1.0 in each set.
    Weights,
    /// 1.0 / actions.
    Uniform,
    /// 1.0 on one action of each set.
    Pure,
    /// 0.0 alone.
    Zeros,
    /// One 1.0, else 0.0.
    One,
    /// Quarters from 0.0 to 1.0, so that many sums are equal.
    Quarters,
    /// Weights, half of them below 0.0.
    Signed,
    /// Weights, but one to three special numbers.
    Few,
    /// A number at an edge in each place: zeros, subnormals, the least normal number and 1.0, of either sign.
    Edges,
    /// Weights, half of them so small that their products are subnormal or 0.0.
    Tiny,
    /// Weights, half of them so large that some of their products are infinite.
    Huge,
    /// Any bits.
    Bits,
}

pub const KINDS: [Kind; 12] = [
    Kind::Weights,
    Kind::Uniform,
    Kind::Pure,
    Kind::Zeros,
    Kind::One,
    Kind::Quarters,
    Kind::Signed,
    Kind::Few,
    Kind::Edges,
    Kind::Tiny,
    Kind::Huge,
    Kind::Bits,
];

/// A profile of a tree, in set order.
pub fn profile(tree: &Tree, kind: Kind, random: &mut Random) -> Vec<f64> {
    let mut profile = vec![0.0; tree.entries];
    match kind {
        Kind::One => profile[random.below(tree.entries)] = 1.0,
        Kind::Few => {
            profile = self::profile(tree, Kind::Weights, random);
            (0..=random.below(3)).for_each(|_| profile[random.below(tree.entries)] = special(random));
        }
        _ => tree.sets.iter().for_each(|set| lay(&mut profile[set.first..][..set.actions], kind, random)),
    }
    profile
}

/// The entries of one set.
fn lay(part: &mut [f64], kind: Kind, random: &mut Random) {
    let actions = part.len();
    match kind {
        Kind::Weights => {
            part.fill_with(|| unit(random));
            let sum: f64 = part.iter().sum();
            part.iter_mut().for_each(|entry| *entry /= sum);
        }
        Kind::Uniform => part.fill(1.0 / actions as f64),
        Kind::Pure => part[random.below(actions)] = 1.0,
        Kind::Quarters => part.fill_with(|| random.below(5) as f64 / 4.0),
        Kind::Signed => part.fill_with(|| unit(random) - 0.5),
        Kind::Edges => part.fill_with(|| edge(random)),
        Kind::Tiny => part.fill_with(|| scaled(-1_074, -100, random)),
        Kind::Huge => part.fill_with(|| scaled(50, 350, random)),
        Kind::Bits => part.fill_with(|| f64::from_bits(random.draw())),
        Kind::Zeros | Kind::One | Kind::Few => {}
    }
}

/// A number above 0.0 and up to 1.0.
fn unit(random: &mut Random) -> f64 {
    ((random.draw() >> 11) + 1) as f64 / (1u64 << 53) as f64
}

/// A number of either sign near a power of two between the given ones, once in two, else a weight.
fn scaled(lowest: i32, highest: i32, random: &mut Random) -> f64 {
    let power = lowest + random.below((highest - lowest + 1) as usize) as i32;
    // Two steps, since one power alone may be below the least normal number.
    let near = unit(random) * 2f64.powi(power / 2) * 2f64.powi(power - power / 2);
    match random.below(2) {
        0 => signed(near, random),
        _ => unit(random),
    }
}

/// A number at an edge, of either sign.
fn edge(random: &mut Random) -> f64 {
    let (least, greatest) = (f64::from_bits(1), f64::from_bits((1 << 52) - 1));
    let number = random.pick(&[0.0, least, greatest, f64::MIN_POSITIVE, 1.0 - f64::EPSILON, 1.0, 1.0 + f64::EPSILON]);
    signed(number, random)
}

/// An infinity, the greatest number, a NaN with any payload or with one bit of it, of either sign; or a number at an edge.
fn special(random: &mut Random) -> f64 {
    let infinity = f64::INFINITY.to_bits();
    let number = match random.below(5) {
        0 => f64::INFINITY,
        1 => f64::MAX,
        2 => f64::from_bits(infinity | (1 + random.draw() % ((1 << 52) - 1))),
        3 => f64::from_bits(infinity | 1 << random.below(52)),
        _ => edge(random),
    };
    signed(number, random)
}

/// A number with a sign at random; a NaN keeps its payload.
fn signed(number: f64, random: &mut Random) -> f64 {
    f64::from_bits(number.to_bits() ^ (random.draw() & 1 << 63))
}
