//! Which tables have the same parts.

use std::collections::HashMap;

use crate::sha256;

/// What a table is known again by: the SHA-256 of its parts.
#[derive(Clone, Copy, Debug, PartialEq, Eq, Hash)]
pub struct Fingerprint([u8; 32]);

impl Fingerprint {
    pub fn of(parts: &[u8]) -> Self {
        Fingerprint(sha256::of(parts))
    }

    /// In hexadecimal digits, as a record has it.
    pub fn hex(&self) -> String {
        sha256::hex(&self.0)
    }
}

/// The first table with each fingerprint.
pub struct SameTables<K>(HashMap<K, usize>);

impl<K> Default for SameTables<K> {
    fn default() -> Self {
        SameTables(HashMap::new())
    }
}

impl<K: Eq + std::hash::Hash> SameTables<K> {
    /// The place of the first table that was the same as this one; none if this is the first.
    pub fn before(&mut self, fingerprint: K, place: usize) -> Option<usize> {
        let first = *self.0.entry(fingerprint).or_insert(place);
        (first != place).then_some(first)
    }
}

#[cfg(test)]
mod tests {
    use super::*;

    #[test]
    fn the_same_parts_are_known_again() {
        let mut same = SameTables::default();
        let tables: [&[u8]; 5] = [&[1, 0], &[0, 1], &[1, 0], &[1, 0, 0], &[1, 0]];
        let mut before = Vec::new();
        for (place, parts) in tables.into_iter().enumerate() {
            before.push(same.before(Fingerprint::of(parts), place));
        }
        assert_eq!(before, [None, None, Some(0), None, Some(0)]);
    }
}
