//! `compare [CALLS [SEED]]`: as many hands of each game, and as many listings, with random inputs, held to the unchanged Rust; and tables of
//! each game, held to the reference in whole units, profiles, held to the Rust, and the comparison of tables, held to the reference. It prints its seed,
//! and stops at the first difference.

mod comparison;
mod floats;
mod game;
mod listing;
mod number;
mod rules;
mod units;

use random::Random;
use std::env;
use std::time::{SystemTime, UNIX_EPOCH};

fn main() {
    let argument = |place| env::args().nth(place).map(|word| word.parse::<u64>().expect("a number"));
    let calls = argument(1).unwrap_or(2_000);
    let seed = argument(2).unwrap_or_else(clock);
    println!("seed {seed}");
    let mut random = Random::new(seed);
    rules::compare(calls, &mut random);
    listing::compare(calls, &mut random);
    units::compare(&mut random);
    floats::compare(&mut random);
    comparison::compare(&mut random);
}

fn clock() -> u64 {
    SystemTime::now().duration_since(UNIX_EPOCH).expect("the clock is past 1970").as_nanos() as u64
}

/// How often each refusal number was among the answers.
pub struct Counts([u64; 21]);

impl Counts {
    fn new() -> Self {
        Counts([0; 21])
    }

    fn count(&mut self, refusal: u64) {
        self.0[refusal as usize] += 1;
    }

    fn print(&self) {
        for (refusal, count) in self.0.iter().enumerate().filter(|(_, &count)| count > 0) {
            println!("  {refusal}: {count} answers");
        }
    }
}
