//! A number for each seat.

use std::fmt;
use std::ops::Deref;

/// A number for each seat, as a slice as long as there are seats; at most N.
#[derive(Clone, Copy, PartialEq, Eq, Hash)]
pub struct PerSeat<T, const N: usize> {
    seats: usize,
    numbers: [T; N],
}

/// What a table is worth to each seat, in units.
pub type Worths = PerSeat<i64, 6>;

/// What each seat gains by a hand, in chips.
pub type Payoffs = PerSeat<i64, 10>;

/// What a profile is worth to each seat, or the best response value of each, in chips per hand.
pub type Values = PerSeat<f64, 6>;

impl<T, const N: usize> PerSeat<T, N> {
    pub(crate) fn new(count: u64, numbers: [T; N]) -> Self {
        PerSeat { seats: count as usize, numbers }
    }
}

impl<T, const N: usize> Deref for PerSeat<T, N> {
    type Target = [T];

    fn deref(&self) -> &[T] {
        &self.numbers[..self.seats]
    }
}

impl<T: fmt::Debug, const N: usize> fmt::Debug for PerSeat<T, N> {
    fn fmt(&self, f: &mut fmt::Formatter<'_>) -> fmt::Result {
        f.debug_list().entries(self.iter()).finish()
    }
}
