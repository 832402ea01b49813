//! `bench [ROUNDS]`: our time and the Rust's on the same inputs in one run. Both take turns, round after round; a row has the
//! median of each and their ratio, and how many rounds it had: fewer where they would take too long.

mod floats;
mod listing;
mod rules;
mod units;

use host::median;
use std::env;
use std::time::Instant;

/// A round repeats what is quick until it takes about so long, in milliseconds.
const ROUND: f64 = 5.0;
/// The rounds of a row take about so long at most, in milliseconds, but there are five.
const ROW: f64 = 20_000.0;

fn main() {
    let rounds = env::args().nth(1).map_or(15, |word| word.parse().expect("a number of rounds"));
    println!("medians of interleaved rounds, in milliseconds");
    println!("| what | rounds | Rust | ours | times as fast |");
    println!("| --- | --- | --- | --- | --- |");
    listing::bench(rounds);
    units::bench(rounds);
    floats::bench(rounds);
    rules::bench(rounds);
    floats::beside_units(rounds);
}

/// Times both in turn, prints their medians and the ratio, and hands the medians back.
fn row(name: &str, rounds: usize, rust: &mut dyn FnMut(), ours: &mut dyn FnMut()) -> (f64, f64) {
    let (first_rust, first_ours) = (time(1, rust), time(1, ours));
    let (many_rust, many_ours) = (repeats(first_rust), repeats(first_ours));
    let rounds = rounds.min((ROW / (first_rust + first_ours).max(ROUND)) as usize).max(5);
    let (mut rusts, mut all_ours) = (Vec::new(), Vec::new());
    for _ in 0..rounds {
        rusts.push(time(many_rust, rust));
        all_ours.push(time(many_ours, ours));
    }
    let (rust, ours) = (median(rusts), median(all_ours));
    println!("| {name} | {rounds} | {rust:.4} | {ours:.4} | {:.1} |", rust / ours);
    (rust, ours)
}

/// How often a round makes a call that takes so long.
fn repeats(one: f64) -> u32 {
    (ROUND / one).clamp(1.0, 10_000.0) as u32
}

/// The milliseconds of one call, over so many of them.
fn time(repeats: u32, call: &mut dyn FnMut()) -> f64 {
    let start = Instant::now();
    (0..repeats).for_each(|_| call());
    start.elapsed().as_secs_f64() * 1_000.0 / f64::from(repeats)
}
