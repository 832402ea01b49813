//! The judge: what the unchanged Rust answers, and where document 01 refuses, what document 01 says.
//! It writes the lists that the proved programs replay. README.md has their format.

pub mod answer;
pub mod calls;
pub mod exact;
pub mod finer;
pub mod floats;
pub mod floats_lists;
pub mod kuhn;
pub mod kuhn_lists;
pub mod kuhn_paper;
pub mod leduc;
pub mod leduc_lists;
pub mod leduc_paper;
pub mod line;
pub mod list;
pub mod listing;
pub mod listing_lists;
pub mod parts;
pub mod profiles;
pub mod units;
pub mod units_lists;

use reinfors_core::reward::Reward;

/// The seed of the committed lists.
pub const SEED: u64 = 2026;

/// A reward that is the event's number.
pub struct EventNumber;

impl Reward for EventNumber {
    type Event = f64;

    fn step_reward(&self, event: &f64, _: usize) -> f64 {
        *event
    }
}

/// A payoff as a whole number: every one that the two games make is one.
pub fn whole(payoff: f64) -> i64 {
    let number = payoff as i64;
    assert_eq!(number as f64, payoff, "a payoff is a whole number");
    number
}
