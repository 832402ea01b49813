//! Exact fractions, reduced, and their decimals.

use std::fmt;

/// A fraction in lowest terms.
#[derive(Clone, Copy, Debug, PartialEq, Eq, Hash)]
pub struct Fraction {
    negative: bool,
    over: u64,
    under: u64,
}

impl Fraction {
    /// The places that `decimals` rounds to.
    pub const PLACES: u32 = 9;

    /// So many of so many units, which are at least one.
    pub fn of_units(count: i64, units: u64) -> Self {
        Self::new(count < 0, count.unsigned_abs(), units)
    }

    /// The same, of a count that is not negative.
    pub fn of_sum(count: u64, units: u64) -> Self {
        Self::new(false, count, units)
    }

    /// The same, divided by the seats, which are at most 6 where a game has units: U is below 2^57.
    pub fn shared(count: u64, units: u64, seats: u64) -> Self {
        Self::new(false, count, units * seats)
    }

    fn new(negative: bool, over: u64, under: u64) -> Self {
        assert!(under > 0, "a game has units");
        let common = common_divisor(over, under);
        Fraction { negative, over: over / common, under: under / common }
    }

    pub fn is_negative(&self) -> bool {
        self.negative
    }

    /// The same without its sign.
    pub fn size(self) -> Self {
        Fraction { negative: false, ..self }
    }

    /// What stands over and under the line, without the sign.
    pub fn parts(&self) -> (u64, u64) {
        (self.over, self.under)
    }

    /// In decimals, rounded to nine places, a half away from 0.
    pub fn decimals(&self) -> String {
        let scale = 10u128.pow(Self::PLACES);
        let under = u128::from(self.under);
        let rounded = (2 * u128::from(self.over) * scale + under) / (2 * under);
        let sign = if self.negative { "-" } else { "" };
        format!("{sign}{}.{:0places$}", rounded / scale, rounded % scale, places = Self::PLACES as usize)
    }
}

impl fmt::Display for Fraction {
    fn fmt(&self, f: &mut fmt::Formatter<'_>) -> fmt::Result {
        let sign = if self.negative { "-" } else { "" };
        match self.under {
            1 => f.pad(&format!("{sign}{}", self.over)),
            under => f.pad(&format!("{sign}{}/{under}", self.over)),
        }
    }
}

fn common_divisor(mut a: u64, mut b: u64) -> u64 {
    while b > 0 {
        (a, b) = (b, a % b);
    }
    a
}

#[cfg(test)]
mod tests {
    use super::*;

    #[test]
    fn fractions_are_reduced() {
        let shown = |count, units| Fraction::of_units(count, units).to_string();
        assert_eq!(shown(12, 6), "2");
        assert_eq!(shown(-9, 162), "-1/18");
        assert_eq!(shown(0, 162), "0");
        assert_eq!(shown(i64::MIN, 1 << 62), "-2");
        assert_eq!(shown(7, 7), "1");
        assert_eq!(Fraction::of_sum(u64::MAX, u64::MAX - 1).to_string(), format!("{}/{}", u64::MAX, u64::MAX - 1));
        assert_eq!(format!("{:>6}|", Fraction::of_units(-1, 2)), "  -1/2|");
        assert_eq!(Fraction::shared(12, 6, 2).to_string(), "1");
        assert_eq!(Fraction::shared(198, 162, 2).to_string(), "11/18");
        assert_eq!(Fraction::shared(u64::MAX, 1 << 57, 6).to_string(), "6148914691236517205/288230376151711744");
    }

    #[test]
    fn decimals_are_rounded_at_the_ninth_place() {
        let shown = |count, units| Fraction::of_units(count, units).decimals();
        assert_eq!(shown(12, 6), "2.000000000");
        assert_eq!(shown(-1, 18), "-0.055555556");
        assert_eq!(shown(1, 3), "0.333333333");
        assert_eq!(shown(1, 2_000_000_000), "0.000000001");
        assert_eq!(shown(1, 2_000_000_001), "0.000000000");
        assert_eq!(shown(1_999_999_999, 2_000_000_000), "1.000000000");
        assert_eq!(Fraction::of_sum(u64::MAX, 1).decimals(), "18446744073709551615.000000000");
    }

    #[test]
    fn equal_fractions_are_one() {
        assert_eq!(Fraction::of_units(2, 4), Fraction::of_sum(1, 2));
        assert_eq!(Fraction::of_units(0, 4), Fraction::of_units(0, 7));
        assert_ne!(Fraction::of_sum(u64::MAX - 2, u64::MAX - 1), Fraction::of_sum(u64::MAX - 1, u64::MAX));
    }
}
