//! The host: it lends memory to the calls of libchukkanalli.a, and holds them to the unchanged Rust.

pub mod floats;
pub mod memory;
pub mod rules;
pub mod stack;

/// The middle one of some times.
pub fn median(mut times: Vec<f64>) -> f64 {
    times.sort_by(f64::total_cmp);
    times[times.len() / 2]
}
