//! Sets whose numbers do not add up: to D in a table, to 1 in a profile.

use super::entries::Entries;
use super::fault::Faults;
use super::labels::Labels;
use super::number::Number;
use crate::Refusal;

/// How far from 1 the numbers of a profile's set may add up.
pub const TOLERANCE: f64 = 1e-9;

/// What is wrong with the numbers of a set.
pub struct OddSum {
    /// What is said behind the set's words.
    pub sentence: String,
    /// What they add up to, where that is all that is wrong.
    pub total: Option<String>,
}

/// A table's set with D parts.
pub fn of_parts(parts: &[u8], d: u64) -> Option<OddSum> {
    let total: u64 = parts.iter().map(|&part| u64::from(part)).sum();
    (total != d).then(|| OddSum {
        sentence: format!("has {} = {total}, and D is {d}", added(parts)),
        total: Some(total.to_string()),
    })
}

/// A profile's set: no number below 0 and no NaN, and they add up to 1.
pub fn of_decimals(numbers: &[f64]) -> Option<OddSum> {
    let total: f64 = numbers.iter().sum();
    if numbers.iter().all(|number| *number >= 0.0) && (total - 1.0).abs() <= TOLERANCE {
        return None;
    }
    let odd = |why: &str| OddSum { sentence: format!("has {}, and {why}", added(numbers)), total: None };
    Some(if numbers.iter().any(|number| number.is_nan()) {
        odd("NaN is no share of the hands")
    } else if numbers.iter().any(|number| *number < 0.0) {
        odd("no share of the hands is below 0")
    } else {
        let sentence = format!("has {} = {total}, and a profile's sets add up to 1", added(numbers));
        OddSum { sentence, total: Some(total.to_string()) }
    })
}

fn added<T: ToString>(numbers: &[T]) -> String {
    numbers.iter().map(T::to_string).collect::<Vec<_>>().join(" + ")
}

/// The sets of a file that do not add up, each with its line; one fault for all where all add up to the same.
pub fn odd_sums<T: Number>(entries: &Entries<T>, labels: &Labels, d: Option<u64>, refusal: Option<Refusal>) -> Faults {
    let odd_of = |set: usize| T::odd_sum(&entries.numbers[labels.sets()[set].entries()], d);
    let line_of = |set: usize| Some(entries.line_of(labels.sets()[set].first_entry));
    let front = refusal.map_or(String::new(), |refusal| format!("{refusal}: "));
    let mut faults = Faults::default();
    if let Some(total) = common_total(labels.sets().len(), odd_of) {
        faults.add(line_of(0), || format!("{front}every set adds up to {total}, {}", T::needed_sum(&total, d)));
        return faults;
    }
    for set in 0..labels.sets().len() {
        if let Some(odd) = odd_of(set) {
            let words = labels.words(set);
            let named = if refusal.is_some() { format!("set {set} ({words})") } else { words.to_string() };
            faults.add(line_of(set), || format!("{front}{named} {}", odd.sentence));
        }
    }
    faults
}

/// What every set adds up to, where that is the same and wrong.
fn common_total(sets: usize, odd_of: impl Fn(usize) -> Option<OddSum>) -> Option<String> {
    let first = odd_of(0)?.total?;
    (1..sets).all(|set| odd_of(set).and_then(|odd| odd.total).as_ref() == Some(&first)).then_some(first)
}

/// What is said of a total that every set of a table has.
pub fn needed_parts(total: &str, d: u64) -> String {
    let hint = if total == "0" { "; is it filled in?".to_string() } else { format!("; is its D {total}?") };
    format!("and D is {d}{hint}")
}

/// What is said of a total that every set of a profile has.
pub fn needed_one(total: &str) -> String {
    let hint = match total.parse::<u64>() {
        Ok(0) => "; is it filled in?".to_string(),
        Ok(d) => format!("; is it a table with D {d}, for `chukkanalli evaluate`?"),
        Err(_) => String::new(),
    };
    format!("and a profile's sets add up to 1{hint}")
}

#[cfg(test)]
mod tests {
    use super::*;

    #[test]
    fn parts_add_up_to_d_exactly() {
        let said = |parts: &[u8], d| of_parts(parts, d).map(|odd| odd.sentence);
        assert_eq!(said(&[1, 2], 3), None);
        assert_eq!(said(&[255, 2], 1), Some("has 255 + 2 = 257, and D is 1".to_string()));
    }

    #[test]
    fn a_profile_adds_up_to_1_nearly() {
        let said = |numbers: &[f64]| of_decimals(numbers).map(|odd| odd.sentence);
        for good in [&[0.5, 0.5][..], &[1.0, -0.0], &[0.1, 0.2, 0.7], &[1.0 + 9e-10, 0.0], &[1.0 / 3.0, 2.0 / 3.0]] {
            assert_eq!(said(good), None, "{good:?}");
        }
        let one = "and a profile's sets add up to 1";
        assert_eq!(said(&[0.4, 0.4]), Some(format!("has 0.4 + 0.4 = 0.8, {one}")));
        assert_eq!(said(&[1.0 + 2e-9, 0.0]), Some(format!("has 1.000000002 + 0 = 1.000000002, {one}")));
        assert_eq!(said(&[f64::INFINITY, 0.0]), Some(format!("has inf + 0 = inf, {one}")));
        assert_eq!(said(&[-0.5, 1.5]), Some("has -0.5 + 1.5, and no share of the hands is below 0".to_string()));
        assert_eq!(said(&[f64::NAN, 1.0]), Some("has NaN + 1, and NaN is no share of the hands".to_string()));
    }

    #[test]
    fn a_total_of_all_sets_tells_the_cause() {
        assert_eq!(needed_parts("1", 3), "and D is 3; is its D 1?");
        assert_eq!(needed_parts("0", 3), "and D is 3; is it filled in?");
        assert_eq!(needed_one("0"), "and a profile's sets add up to 1; is it filled in?");
        assert_eq!(
            needed_one("12"),
            "and a profile's sets add up to 1; is it a table with D 12, for `chukkanalli evaluate`?"
        );
        assert_eq!(needed_one("0.8"), "and a profile's sets add up to 1");
    }
}
