//! Tables of parts at random: mixed, pure, with ties, and with sets that no unit reaches; rivals of D parts and of any other grain.

use crate::exact::{Part, Set, Tree};
use random::Random;

/// How the parts of a set are laid.
#[derive(Clone, Copy, Debug, PartialEq, Eq)]
pub enum Kind {
    /// Each part on some action.
    Mixed,
    /// All on one action, another one in each set.
    Pure,
    /// As even as they can be, the rest on the first actions: many sums are equal.
    Even,
    /// All on the first action: most sets have no units.
    First,
    /// All on the last action.
    Last,
    /// Pure in three sets of four, mixed in the others.
    Sparse,
}

pub const KINDS: [Kind; 6] = [Kind::Mixed, Kind::Pure, Kind::Even, Kind::First, Kind::Last, Kind::Sparse];

/// Kuhn 2's table of document 01's case k, with D = 1: both seats always pass.
pub const CASE_K: [u8; 24] = [1, 0, 1, 0, 1, 0, 1, 0, 1, 0, 1, 0, 1, 0, 1, 0, 1, 0, 1, 0, 1, 0, 1, 0];
/// That of case l, with D = 3.
pub const CASE_L: [u8; 24] = [3, 0, 3, 0, 3, 0, 2, 1, 0, 3, 0, 3, 3, 0, 2, 1, 2, 1, 3, 0, 3, 0, 0, 3];

/// Kuhn's equilibria of two seats with D = 3 × thirds: seat 0 bets card 0 first with so many parts, at most as many as the thirds have, and card 2
/// with three times as many. With none, case l.
pub fn equilibrium(thirds: u8, bets: u8) -> Vec<u8> {
    assert!(bets <= thirds);
    let mut table: Vec<u8> = CASE_L.iter().map(|part| part * thirds).collect();
    // Seat 0's sets with card 0 at first, with card 1 after its PASS and a BET, and with card 2 at first.
    for (set, moved) in [(0, bets), (8, bets), (10, 3 * bets)] {
        table[2 * set] -= moved;
        table[2 * set + 1] += moved;
    }
    table
}

/// A valid table of a tree.
pub fn table(tree: &Tree, d: u64, kind: Kind, random: &mut Random) -> Vec<u8> {
    let mut table = vec![0; tree.entries];
    tree.sets.iter().for_each(|set| lay(&mut table[set.first..][..set.actions], d, kind, random));
    table
}

/// A rival of a table: another mixture in each of a seat's sets.
pub fn rival<T: Part>(tree: &Tree, table: &[T], seat: usize, d: u64, kind: Kind, random: &mut Random) -> Vec<T> {
    let mut rival = table.to_vec();
    for set in tree.sets.iter().filter(|set| set.seat == seat) {
        lay(&mut rival[set.first..][..set.actions], d, kind, random);
    }
    rival
}

/// A rival with parts on two actions in some set of the seat; D is above 1.
pub fn mixed_rival<T: Part>(tree: &Tree, table: &[T], seat: usize, d: u64, random: &mut Random) -> Vec<T> {
    loop {
        let rival = rival(tree, table, seat, d, Kind::Mixed, random);
        let pure = |set: &Set| rival[set.first..][..set.actions].iter().any(|&part| part.into() == d);
        if !tree.sets.iter().filter(|set| set.seat == seat).all(pure) {
            return rival;
        }
    }
}

/// A table with another mixture in one to three of a seat's sets.
pub fn near<T: Part>(tree: &Tree, table: &[T], seat: usize, d: u64, random: &mut Random) -> Vec<T> {
    let own: Vec<&Set> = tree.sets.iter().filter(|set| set.seat == seat).collect();
    let mut near = table.to_vec();
    for _ in 0..=random.below(3) {
        let set = random.pick(&own);
        lay(&mut near[set.first..][..set.actions], d, Kind::Mixed, random);
    }
    near
}

/// The rival with a pure choice in each of a seat's sets, all of two actions: bit s of the number for its set s.
pub fn pure_rival(tree: &Tree, table: &[u8], seat: usize, d: u64, number: usize) -> Vec<u8> {
    let mut rival = table.to_vec();
    for (bit, set) in tree.sets.iter().filter(|set| set.seat == seat).enumerate() {
        rival[set.first..][..set.actions].fill(0);
        rival[set.first + (number >> bit & 1)] = d as u8;
    }
    rival
}

fn lay<T: Part>(part: &mut [T], d: u64, kind: Kind, random: &mut Random) {
    let number = |parts: usize| T::try_from(parts as u64).ok().expect("a part is as large as its table's parts can be");
    part.fill(number(0));
    let (last, all) = (part.len() - 1, d as usize);
    match kind {
        Kind::Mixed => {
            // The D parts in a row, cut at random places.
            let mut cuts: Vec<usize> = (0..last).map(|_| random.below(all + 1)).collect();
            cuts.sort_unstable();
            let ends = cuts.iter().copied().chain([all]);
            let starts = [0].into_iter().chain(cuts.iter().copied());
            part.iter_mut().zip(starts.zip(ends)).for_each(|(part, (start, end))| *part = number(end - start));
        }
        Kind::Pure => part[random.below(last + 1)] = number(all),
        Kind::Even => {
            part.iter_mut().enumerate().for_each(|(place, part)| *part = number((all + last - place) / (last + 1)))
        }
        Kind::First => part[0] = number(all),
        Kind::Last => part[last] = number(all),
        Kind::Sparse => lay(part, d, if random.below(4) == 0 { Kind::Mixed } else { Kind::Pure }, random),
    }
}
