//! The comparison of NashConv / U: random tables of all games, with several D, every two of them held to the reference's fractions.

use crate::game::Game;
use chukkanalli::archive::{compare as stands, nash_conv_units};
use host::memory::Memory;
use judge::parts::{table, KINDS};
use judge::units::Call;
use random::Random;
use std::cmp::Ordering;

/// NashConv and the units, as the archive answers them, and NashConv / U of the reference in lowest terms.
struct Evaluated {
    call: Call,
    nash_conv: u64,
    units: u64,
    fraction: (i128, i128),
}

impl Evaluated {
    fn of(call: Call) -> Self {
        let mut memory = Memory::new(call.words, 0);
        let ours = nash_conv_units(call.game, call.seats, &mut memory.work, call.d, &call.table);
        let judged = call.nash_conv();
        assert_eq!((ours.refusal, judged.refusal), (0, 0), "{call:?}");
        let (over, under) = (i128::from(judged.nash_conv), i128::from(judged.units));
        let common = common_divisor(over, under);
        let fraction = (over / common, under / common);
        Evaluated { call, nash_conv: ours.nash_conv, units: ours.units, fraction }
    }

    fn stands(&self, other: &Evaluated) -> i64 {
        stands(self.nash_conv, self.units, other.nash_conv, other.units)
    }

    /// By the reference: fractions in lowest terms are equal or their cross products, which i128 holds, are not.
    fn fractions(&self, other: &Evaluated) -> Ordering {
        let product = |x: i128, y: i128| x.checked_mul(y).expect("i128 holds the cross products");
        let ((a, u), (b, v)) = (self.fraction, other.fraction);
        match (a, u) == (b, v) {
            true => Ordering::Equal,
            false => product(a, v).cmp(&product(b, u)),
        }
    }
}

fn common_divisor(a: i128, b: i128) -> i128 {
    if b == 0 {
        a
    } else {
        common_divisor(b, a % b)
    }
}

/// So many tables of a game, of each kind and with several D in turn, and where D may be doubled each with all its parts doubled too.
fn tables(game: &Game, count: usize, random: &mut Random) -> Vec<Evaluated> {
    let most = game.tree.most_parts;
    let mut evaluated = Vec::new();
    for number in 0..count {
        let d = [1, most, 3, 2][number % 4];
        let parts = table(game.tree, d, KINDS[number / 4 % KINDS.len()], random);
        let twice = parts.iter().map(|&part| part.wrapping_mul(2)).collect();
        evaluated.push(Evaluated::of(Call::of(game.number, game.tree, d, parts)));
        if 2 * d <= most {
            evaluated.push(Evaluated::of(Call::of(game.number, game.tree, 2 * d, twice)));
        }
    }
    evaluated
}

pub fn compare(random: &mut Random) {
    let games = [
        (Game::kuhn(2), 48),
        (Game::kuhn(3), 48),
        (Game::kuhn(4), 24),
        (Game::kuhn(5), 12),
        (Game::kuhn(6), 2),
        (Game::leduc(), 24),
    ];
    let all: Vec<Evaluated> = games.iter().flat_map(|(game, count)| tables(game, *count, random)).collect();
    let (mut pairs, mut equal, mut of_two_games) = (0, 0, 0);
    for one in &all {
        for other in &all {
            let (ours, judged) = (one.stands(other), one.fractions(other));
            assert_eq!(ours, judged as i64, "{:?} against {:?}", one.call, other.call);
            pairs += 1;
            equal += u64::from(judged.is_eq());
            of_two_games += u64::from((one.call.game, one.call.seats) != (other.call.game, other.call.seats));
        }
    }
    println!("comparison: {} tables, {pairs} pairs agree, {of_two_games} of two games, {equal} equal", all.len());
}
