//! Numbers to try a call with.

use random::Random;

/// A number of any size: small ones, and those that a cut to 8, 16 or 32 bits would take for them.
pub fn some_number(random: &mut Random) -> u64 {
    let small = random.below(13) as u64;
    match random.below(6) {
        0 => small | 1 << 8,
        1 => small | 1 << 16,
        2 => small | 1 << 32,
        3 => u64::MAX - small,
        4 => random.draw(),
        _ => small,
    }
}

/// 0 once in two, else a small number.
pub fn more(random: &mut Random) -> u64 {
    (random.below(2) * random.below(40)) as u64
}

/// A length below the given one: just below once in two.
pub fn fewer(length: u64, random: &mut Random) -> u64 {
    match random.below(2) {
        0 => length - 1,
        _ => random.below(length as usize) as u64,
    }
}

/// A length that is not the given one: next to it once in two.
pub fn other_length(length: usize, random: &mut Random) -> usize {
    match random.below(4) {
        0 => random.below(length),
        1 => length - 1,
        2 => length + 1,
        _ => length + 1 + random.below(length),
    }
}

/// A number of any size that passes a test.
pub fn number_but(random: &mut Random, passes: impl Fn(u64) -> bool) -> u64 {
    loop {
        let number = some_number(random);
        if passes(number) {
            return number;
        }
    }
}
