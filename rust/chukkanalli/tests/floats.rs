//! The values in f64, on good and on refused profiles.

use chukkanalli::{Evaluator, Game, Refusal};

const KUHN2: Game = Game::Kuhn { seats: 2 };
const GAMES: [Game; 5] =
    [KUHN2, Game::Kuhn { seats: 3 }, Game::Kuhn { seats: 4 }, Game::Kuhn { seats: 5 }, Game::Leduc];

/// All that the five calls say of a profile.
#[derive(Debug)]
struct Said {
    best: Vec<f64>,
    worths: Vec<f64>,
    nash_conv: f64,
    exploitability: f64,
}

fn said(evaluator: &mut Evaluator, profile: &[f64]) -> Said {
    let best = evaluator.best_response_values(profile).unwrap();
    for (seat, value) in (0..).zip(best.iter()) {
        assert_eq!(evaluator.best_response_value(seat, profile).unwrap().to_bits(), value.to_bits());
    }
    Said {
        best: best.to_vec(),
        worths: evaluator.profile_values(profile).unwrap().to_vec(),
        nash_conv: evaluator.nash_conv(profile).unwrap(),
        exploitability: evaluator.exploitability(profile).unwrap(),
    }
}

fn always_pass() -> Vec<f64> {
    [1.0, 0.0].repeat(12)
}

fn near(value: f64, exact: f64) -> bool {
    (value - exact).abs() <= 1e-12
}

#[test]
fn the_uniform_profile_of_kuhn_2() {
    let said = said(&mut Evaluator::new(KUHN2).unwrap(), &[0.5; 24]);
    assert_eq!((said.best.len(), said.worths.len()), (2, 2));
    assert!(near(said.best[0], 1.0 / 2.0) && near(said.best[1], 5.0 / 12.0), "{said:?}");
    assert!(near(said.worths[0], 1.0 / 8.0) && near(said.worths[1], -1.0 / 8.0), "{said:?}");
    assert!(near(said.nash_conv, 11.0 / 12.0) && near(said.exploitability, 11.0 / 24.0), "{said:?}");
}

#[test]
fn values_are_near_those_in_whole_units() {
    for game in GAMES {
        let mut evaluator = Evaluator::new(game).unwrap();
        let (mut table, mut profile) = (Vec::new(), Vec::new());
        for (number, set) in evaluator.sets().iter().enumerate() {
            let first = (number % 8) as u8;
            table.extend([first, 7 - first]);
            table.resize(set.entries().end, 0);
        }
        profile.extend(table.iter().map(|&part| f64::from(part) / 7.0));
        let said = said(&mut evaluator, &profile);
        let conv = evaluator.nash_conv_units(7, &table).unwrap();
        let share = |units: i64| units as f64 / conv.units as f64;
        let worths = evaluator.worths(7, &table).unwrap();
        assert!(said.worths.iter().zip(worths.iter()).all(|(&value, &worth)| near(value, share(worth))), "{said:?}");
        for (seat, &value) in (0..).zip(&said.best) {
            assert!(near(value, share(evaluator.best_reply(seat, 7, &table).unwrap().value)), "{said:?}");
        }
        assert!(near(said.nash_conv, conv.nash_conv as f64 / conv.units as f64), "{said:?}");
    }
}

#[test]
fn nash_conv_and_exploitability_are_rounded_seat_by_seat() {
    for game in GAMES {
        let mut evaluator = Evaluator::new(game).unwrap();
        let entries = evaluator.counts().entries;
        let profile: Vec<f64> = (0..entries).map(|entry| (entry % 13) as f64 / 12.0).collect();
        let said = said(&mut evaluator, &profile);
        let gained = said.best.iter().zip(&said.worths).fold(0.0, |sum, (best, worth)| sum + (best - worth));
        assert_eq!(said.nash_conv.to_bits(), gained.to_bits());
        assert_eq!(said.exploitability.to_bits(), (gained / game.seats() as f64).to_bits());
    }
}

#[test]
fn a_seats_own_entries_do_not_change_its_best_response_value() {
    let mut evaluator = Evaluator::new(KUHN2).unwrap();
    let plain = said(&mut evaluator, &always_pass());
    let mut profile = always_pass();
    for set in evaluator.sets().iter().filter(|set| set.seat == 0) {
        profile[set.entries()].fill(f64::NAN);
    }
    let said = said(&mut evaluator, &profile);
    assert_eq!(said.best[0].to_bits(), plain.best[0].to_bits());
    assert!(said.best[1].is_nan() && said.worths.iter().all(|worth| worth.is_nan()), "{said:?}");
    assert!(said.nash_conv.is_nan() && said.exploitability.is_nan(), "{said:?}");
}

#[test]
fn a_sum_that_is_nan_never_wins() {
    let mut evaluator = Evaluator::new(KUHN2).unwrap();
    let mut profile = always_pass();
    for set in evaluator.sets().iter().filter(|set| set.seat == 1 && set.rounds[0] == [0]) {
        profile[set.entries()].fill(f64::NAN);
    }
    let said = said(&mut evaluator, &profile);
    assert!(near(said.best[0], 1.0), "by BET, which no NaN is behind: {said:?}");
    assert!(said.worths[0].is_nan(), "{said:?}");
}

#[test]
fn infinite_entries_are_taken() {
    let mut evaluator = Evaluator::new(KUHN2).unwrap();
    let mut profile = always_pass();
    profile[0] = f64::INFINITY;
    let lost = said(&mut evaluator, &profile);
    assert!(near(lost.best[0], 1.0), "{lost:?}");
    assert_eq!((lost.best[1], &lost.worths[..]), (f64::INFINITY, &[f64::NEG_INFINITY, f64::INFINITY][..]));
    assert!(lost.nash_conv.is_nan() && lost.exploitability.is_nan(), "{lost:?}");
    profile[0] = f64::NEG_INFINITY;
    let won = said(&mut evaluator, &profile);
    assert_eq!(won.worths, [f64::INFINITY, f64::NEG_INFINITY]);
    for entry in [f64::NAN, -f64::NAN, f64::from_bits(u64::MAX), f64::from_bits(0x7FF0_0000_0000_0001)] {
        let said = said(&mut evaluator, &[entry; 24]);
        let all = said.best.iter().chain(&said.worths).chain([&said.nash_conv, &said.exploitability]);
        assert!(all.into_iter().all(|value| value.is_nan()), "{said:?}");
    }
    for entry in [-0.0, f64::MIN_POSITIVE / 2.0, -1.0] {
        assert!(evaluator.nash_conv(&[entry; 24]).is_ok());
    }
}

#[test]
fn seats_and_lengths_are_refused_and_leave_the_memory_fit() {
    for game in GAMES {
        let mut evaluator = Evaluator::new(game).unwrap();
        let entries = evaluator.counts().entries;
        let profile = vec![0.5; entries + 1];
        for length in [0, 1, entries - 1, entries + 1] {
            all_refuse(&mut evaluator, &profile[..length]);
        }
        for length in [0, entries, entries + 1] {
            for seat in [game.seats(), 256, 1 << 32, u64::MAX] {
                assert_eq!(evaluator.best_response_value(seat, &profile[..length]), Err(Refusal::Seat));
            }
        }
        let fresh = Evaluator::new(game).unwrap().nash_conv(&profile[..entries]).unwrap();
        assert_eq!(evaluator.nash_conv(&profile[..entries]).unwrap().to_bits(), fresh.to_bits());
    }
}

fn all_refuse(evaluator: &mut Evaluator, profile: &[f64]) {
    assert_eq!(evaluator.best_response_value(0, profile), Err(Refusal::Table));
    assert_eq!(evaluator.best_response_values(profile), Err(Refusal::Table));
    assert_eq!(evaluator.profile_values(profile), Err(Refusal::Table));
    assert_eq!(evaluator.nash_conv(profile), Err(Refusal::Table));
    assert_eq!(evaluator.exploitability(profile), Err(Refusal::Table));
}
