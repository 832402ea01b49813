//! The comparison of NashConv / U, held to products of 128 bits.

use std::cmp::Ordering;

use chukkanalli::archive::compare;
use chukkanalli::NashConv;
use random::Random;

const SEED: u64 = 20;
const QUADRUPLES: usize = 1_000_000;

/// NashConv and units of one table, then of the other.
type Quadruple = [u64; 4];

/// The comparison is that of the products, and the other way round it is the other way round.
fn hold([a, u, b, v]: Quadruple) {
    let products = (u128::from(a) * u128::from(v)).cmp(&(u128::from(b) * u128::from(u)));
    assert_eq!(compare(a, u, b, v), products as i64, "{a} of {u} against {b} of {v}");
    assert_eq!(compare(b, v, a, u), products.reverse() as i64, "{b} of {v} against {a} of {u}");
    let [one, other] = [(a, u), (b, v)].map(|(nash_conv, units)| NashConv { nash_conv, units });
    assert_eq!(one.compare(&other), products, "{one:?} against {other:?}");
}

/// A number of 1 to so many bits, each length as often.
fn number(random: &mut Random, bits: usize) -> u64 {
    random.draw() >> (63 - random.below(bits))
}

/// Two multiples of one quotient.
fn equal_quotients(random: &mut Random) -> Quadruple {
    let bits = 1 + random.below(63);
    let [a, u] = [(); 2].map(|()| number(random, bits));
    let [k, l] = [(); 2].map(|()| number(random, 64 - bits));
    [k * a, k * u, l * a, l * u]
}

/// One of the four is one unit more or less.
fn one_unit_off(mut quadruple: Quadruple, random: &mut Random) -> Quadruple {
    let place = random.below(4);
    let number = quadruple[place];
    quadruple[place] = if random.one_in(2) { number.saturating_add(1) } else { number.saturating_sub(1) };
    quadruple
}

#[test]
fn random_quadruples_compare_as_their_products_of_128_bits() {
    let mut random = Random::new(SEED);
    for held in 0..QUADRUPLES / 4 {
        let any = [(); 4].map(|()| number(&mut random, 64));
        let equal = equal_quotients(&mut random);
        assert_eq!(compare(equal[0], equal[1], equal[2], equal[3]), 0, "{equal:?}, after {held} of each kind");
        for quadruple in [any, equal] {
            hold(quadruple);
            hold(one_unit_off(quadruple, &mut random));
        }
    }
}

#[test]
fn quadruples_at_the_limits_compare_as_their_products_of_128_bits() {
    let limits = [0, 1, (1 << 32) - 1, 1 << 32, (1 << 32) + 1, 1 << 63, u64::MAX - 1, u64::MAX];
    for place in 0..limits.len().pow(4) {
        hold([512, 64, 8, 1].map(|step| limits[place / step % 8]));
    }
}

#[test]
fn tables_compare_as_their_quotients_do() {
    let conv = |(nash_conv, units)| NashConv { nash_conv, units };
    let [less, equal, greater] = [Ordering::Less, Ordering::Equal, Ordering::Greater];
    for (one, other, stands) in [
        ((12, 6), (96, 48), equal),
        ((12, 6), (240, 120), equal),
        ((12, 6), (198, 162), greater),
        ((12, 6), (956_821_248, 201_553_920), less),
        ((956_821_248, 201_553_920), (74_975_788_562_120_704, 33_776_997_205_278_720), greater),
        ((1_383_552_240, 691_776_120), (615_093_750_000, 307_546_875_000), equal),
    ] {
        assert_eq!(conv(one).compare(&conv(other)), stands, "{one:?} against {other:?}");
        assert_eq!(conv(other).compare(&conv(one)), stands.reverse(), "{other:?} against {one:?}");
    }
}

#[test]
fn nothing_of_no_units_compares_equal_with_everything() {
    for (nash_conv, units) in [(0, 0), (1, 0), (0, 1), (12, 6), (u64::MAX, u64::MAX)] {
        assert_eq!((compare(0, 0, nash_conv, units), compare(nash_conv, units, 0, 0)), (0, 0));
    }
}
