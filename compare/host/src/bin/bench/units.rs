//! NashConv of one table: the Rust's f64 `nash_conv` of the profile part / D, and ours in whole units. The memory that is lent was filled before.

use crate::row;
use chukkanalli::archive::nash_conv_units;
use host::memory::Memory;
use judge::exact::{kuhn, leduc, probabilities, Tree};
use judge::listing_lists::{KUHN, LEDUC};
use judge::parts::{table, Kind};
use judge::units::words;
use judge::EventNumber;
use random::Random;
use reinfors_core::best_response::nash_conv;
use reinfors_core::game::Game;
use reinfors_games::kuhn::KuhnPoker;
use reinfors_games::leduc::LeducPoker;
use std::hint::black_box;

pub fn bench(rounds: usize) {
    for players in 2..=6 {
        one_table(&format!("NashConv, Kuhn {players}"), KUHN, kuhn(players), &KuhnPoker { players }, rounds);
    }
    one_table("NashConv, Leduc", LEDUC, leduc(), &LeducPoker, rounds);
}

/// A mixed table with as many parts as the game may have.
pub fn mixed(tree: &Tree) -> Vec<u8> {
    table(tree, tree.most_parts, Kind::Mixed, &mut Random::new(2026))
}

fn one_table<G: Game<Event = f64>>(name: &str, number: u64, tree: &Tree, game: &G, rounds: usize) {
    let (table, d) = (mixed(tree), tree.most_parts);
    let entries = probabilities(&table, d);
    let profile = tree.profile(&entries);
    let mut memory = Memory::new(words(tree), 0);
    let (mut float, mut whole) = (0.0, 0.0);
    let mut ours = || {
        let answer = nash_conv_units(number, tree.seats as u64, &mut memory.work, d, black_box(&table));
        assert_eq!(answer.refusal, 0, "{name} is evaluated");
        whole = answer.nash_conv as f64 / answer.units as f64;
    };
    let mut rust = || {
        float = nash_conv(black_box(game), &EventNumber, &profile).expect("a tree within the limit");
    };
    row(name, rounds, &mut rust, &mut ours);
    assert!((float - whole).abs() <= 1e-9 * whole.max(1.0), "{name}: {float} and {whole}");
}
