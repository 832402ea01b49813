//! The numbers of a file: parts in a table, decimal numbers in a profile.

use super::hints;
use super::sums::{self, OddSum};
use super::words::quoted;

/// A number of a file: a part in a table, an f64 in a profile.
pub trait Number: Copy + Default {
    /// What a file of them is.
    const FILE: &'static str;

    /// What one of them is called.
    const NAME: &'static str;

    /// The number that a word is, or a sentence that says why it is none.
    fn of_word(word: &str) -> Result<Self, String>;

    /// What is wrong with the numbers of a set, with D where it is known.
    #[doc(hidden)]
    fn odd_sum(numbers: &[Self], d: Option<u64>) -> Option<OddSum>;

    /// What is said of a total that every set has and none should.
    #[doc(hidden)]
    fn needed_sum(total: &str, d: Option<u64>) -> String;
}

impl Number for u8 {
    const FILE: &'static str = "table";
    const NAME: &'static str = "part";

    fn of_word(word: &str) -> Result<u8, String> {
        let digits = |text: &str| !text.is_empty() && text.bytes().all(|byte| byte.is_ascii_digit());
        let range = "and a part is a whole number from 0 to 255";
        if digits(word) {
            return word.parse().map_err(|_| format!("{} is above 255, {range}", quoted(word)));
        }
        let fault = match word.strip_prefix('-') {
            Some(rest) if digits(rest) => "is negative",
            _ => "is not a whole number",
        };
        Err(format!("{} {fault}, {range}{}", quoted(word), hints::of_part(word)))
    }

    fn odd_sum(parts: &[u8], d: Option<u64>) -> Option<OddSum> {
        sums::of_parts(parts, d?)
    }

    fn needed_sum(total: &str, d: Option<u64>) -> String {
        sums::needed_parts(total, d.unwrap_or(0))
    }
}

impl Number for f64 {
    const FILE: &'static str = "profile";
    const NAME: &'static str = "number";

    fn of_word(word: &str) -> Result<f64, String> {
        let needed = "and a decimal number, inf, -inf or NaN is needed";
        word.parse().map_err(|_| format!("{} is not a number, {needed}{}", quoted(word), hints::of_decimal(word)))
    }

    fn odd_sum(numbers: &[f64], _: Option<u64>) -> Option<OddSum> {
        sums::of_decimals(numbers)
    }

    fn needed_sum(total: &str, _: Option<u64>) -> String {
        sums::needed_one(total)
    }
}

#[cfg(test)]
mod tests {
    use super::*;

    #[test]
    fn what_is_no_part_is_named() {
        let said = |word: &str| u8::of_word(word).unwrap_err();
        let above = "is above 255, and a part is a whole number from 0 to 255";
        assert_eq!(said("256"), format!("'256' {above}"));
        assert_eq!(said("99999999999999999999999999"), format!("'999999999999999999999999...' {above}"));
        assert_eq!(said("-1"), "'-1' is negative, and a part is a whole number from 0 to 255");
        let other = "is not a whole number, and a part is a whole number from 0 to 255";
        for word in ["+1", "-", "--1", "x", "0x1", "½", "\u{feff}1"] {
            assert_eq!(said(word), format!("{} {other}", quoted(word)));
        }
        assert_eq!(["0", "007", "255"].map(|word| u8::of_word(word).unwrap()), [0, 7, 255]);
    }

    #[test]
    fn a_profile_has_decimal_numbers_of_any_size() {
        let text = "0.5 .5 5. 1 -0 +2.5e-3 1E2 1e999 -1e999 1e-999 inf -inf Infinity";
        let expected = [0.5, 0.5, 5.0, 1.0, -0.0, 0.0025, 100.0, f64::INFINITY, f64::NEG_INFINITY, 0.0];
        let infinite = [f64::INFINITY, f64::NEG_INFINITY, f64::INFINITY];
        for (word, number) in text.split(' ').zip(expected.into_iter().chain(infinite)) {
            assert_eq!(f64::of_word(word).unwrap().to_bits(), number.to_bits(), "{word}");
        }
        assert!(["NaN", "nan", "-NaN"].iter().all(|word| f64::of_word(word).unwrap().is_nan()));
        let needed = "is not a number, and a decimal number, inf, -inf or NaN is needed";
        for word in ["x", "0x1", "1_0", "--1", "e5", ".", "-", "1e", "infinite", "1f64", "½", "１"] {
            assert_eq!(f64::of_word(word).unwrap_err(), format!("{} {needed}", quoted(word)));
        }
    }
}
