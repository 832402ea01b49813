//! NashConv in f64 of one profile: the Rust's and ours, and ours in whole units beside it. The memory that is lent was filled before.

use crate::row;
use crate::units::mixed;
use chukkanalli::archive::nash_conv_units;
use host::floats::evaluate;
use host::memory::Memory;
use judge::exact::{kuhn, leduc, probabilities, Tree};
use judge::floats::{bits, Evaluation};
use judge::listing_lists::{KUHN, LEDUC};
use judge::units::words;
use judge::EventNumber;
use reinfors_core::best_response::nash_conv;
use reinfors_core::game::Game;
use reinfors_games::kuhn::KuhnPoker;
use reinfors_games::leduc::LeducPoker;
use std::hint::black_box;

pub fn bench(rounds: usize) {
    for players in 2..=6 {
        one_profile(&format!("nash_conv f64, Kuhn {players}"), KUHN, kuhn(players), &KuhnPoker { players }, rounds);
    }
    one_profile("nash_conv f64, Leduc", LEDUC, leduc(), &LeducPoker, rounds);
}

fn one_profile<G: Game<Event = f64>>(name: &str, number: u64, tree: &Tree, game: &G, rounds: usize) {
    let entries = probabilities(&mixed(tree), tree.most_parts);
    let profile = tree.profile(&entries);
    let mut memory = Memory::new(words(tree), 0);
    let (mut theirs, mut our_value) = (0.0, 0.0);
    let mut ours = || our_value = nash_conv_of(number, tree, &mut memory, &entries);
    let mut rust = || {
        theirs = nash_conv(black_box(game), &EventNumber, &profile).expect("a tree within the limit");
    };
    row(name, rounds, &mut rust, &mut ours);
    assert_eq!(bits(theirs), bits(our_value), "{name}: {theirs} and {our_value}");
}

fn nash_conv_of(number: u64, tree: &Tree, memory: &mut Memory, entries: &[f64]) -> f64 {
    let answer = evaluate(Evaluation::NashConv, number, tree.seats as u64, &mut memory.work, 0, black_box(entries));
    assert_eq!(answer.refusal, 0, "game {number} is evaluated");
    answer.values[0]
}

/// Both of ours on the same tables, in a table of its own.
pub fn beside_units(rounds: usize) {
    println!("| NashConv | rounds | whole units | f64 | whole units / f64 |");
    println!("| --- | --- | --- | --- | --- |");
    for players in 2..=6 {
        one_table(&format!("Kuhn {players}"), KUHN, kuhn(players), rounds);
    }
    one_table("Leduc", LEDUC, leduc(), rounds);
}

fn one_table(name: &str, number: u64, tree: &Tree, rounds: usize) {
    let (table, d) = (mixed(tree), tree.most_parts);
    let entries = probabilities(&table, d);
    let (mut memory, mut other) = (Memory::new(words(tree), 0), Memory::new(words(tree), 0));
    let mut whole = || {
        let answer = nash_conv_units(number, tree.seats as u64, &mut memory.work, d, black_box(&table));
        assert_eq!(answer.refusal, 0, "{name} is evaluated");
    };
    let mut float = || _ = nash_conv_of(number, tree, &mut other, &entries);
    row(name, rounds, &mut whole, &mut float);
}
