//! The listing: the Rust's `enumerate_infosets` and ours on the same games. The memory that is lent was filled before, so no page is touched
//! for the first time. The Rust makes its sets from the whole tree, ours finds the first node of each.

use crate::row;
use chukkanalli::archive::enumerate_infosets;
use host::memory::Memory;
use judge::listing::{Listed, RECORD};
use judge::listing_lists::{listing_of, KUHN, LEDUC};
use reinfors_core::best_response;
use reinfors_games::kuhn::KuhnPoker;
use reinfors_games::leduc::LeducPoker;
use std::hint::black_box;

pub fn bench(rounds: usize) {
    for players in 2..=6 {
        listing(&format!("listing, Kuhn {players}"), KUHN, players as u64, &KuhnPoker { players }, rounds);
    }
    listing("listing, Leduc", LEDUC, 2, &LeducPoker, rounds);
}

fn listing<G: Listed>(name: &str, number: u64, seats: u64, game: &G, rounds: usize) {
    let tree = listing_of(number, seats).expect("a tree within the limit");
    let mut memory = Memory::new(tree.words(), tree.room());
    let mut ours = || {
        let answer = enumerate_infosets(number, seats, &memory.work, &mut memory.out);
        assert_eq!((answer.refusal, answer.sets), (0, tree.sets.len() as u64), "{name} is listed");
        black_box(&mut memory.out);
    };
    let mut rust = || {
        black_box(best_response::enumerate_infosets(black_box(game)).expect("a tree within the limit"));
    };
    row(name, rounds, &mut rust, &mut ours);
    assert!(memory.out.chunks(RECORD).eq(tree.sets.iter()), "{name}: both list the same");
}
