//! The unchanged Rust on document 01's cases, and where the two differ.

use judge::{whole, EventNumber};
use reinfors_core::best_response::{
    best_response_value, best_response_values, enumerate_infosets, nash_conv, profile_values,
};
use reinfors_core::game::Game;
use reinfors_core::StateCodec;
use reinfors_games::kuhn::{KuhnPoker, KuhnState};
use reinfors_games::leduc::{LeducPoker, LeducState};
use std::collections::HashMap;
use std::panic::catch_unwind;

const KUHN_2: KuhnPoker = KuhnPoker { players: 2 };

fn kuhn(cards: &[u8], history: &[u8]) -> KuhnState {
    KuhnState { cards: cards.to_vec(), history: history.to_vec() }
}

fn leduc(cards: &[u8], public: Option<u8>, first: &[u8], second: &[u8]) -> LeducState {
    LeducState { cards: cards.to_vec(), public, history: [first.to_vec(), second.to_vec()] }
}

/// The payoffs of the step that makes the last action of a history.
fn kuhn_payoffs(cards: &[u8], history: &[u8]) -> Vec<i64> {
    let (&last, before) = history.split_last().expect("an end has an action");
    let next = KUHN_2.step(&kuhn(cards, before), &[last as usize; 2]);
    assert!(next.terminal);
    next.events.into_iter().map(|event| whole(event.expect("a payoff"))).collect()
}

fn leduc_payoffs(cards: &[u8], public: u8, first: &[u8], second: &[u8]) -> Vec<i64> {
    let (&last, before) = second.split_last().expect("an end has an action");
    let next = LeducPoker.step(&leduc(cards, Some(public), first, before), &[last as usize; 2]);
    assert!(next.terminal);
    next.events.into_iter().map(|event| whole(event.expect("a payoff"))).collect()
}

#[test]
fn cases_a_to_d() {
    assert_eq!(kuhn_payoffs(&[0, 1], &[0, 0]), [-1, 1]);
    assert_eq!(kuhn_payoffs(&[0, 1], &[1, 0]), [1, -1]);
    assert_eq!(kuhn_payoffs(&[2, 0], &[0, 1, 1]), [2, -2]);
    assert_eq!(judge::calls::validate(&KUHN_2, &saved_pass_pass_bet(), 1), 14);
}

fn saved_pass_pass_bet() -> judge::kuhn::Position {
    let mut position = judge::kuhn::Position { dealt: 2, acted: 3, ..judge::kuhn::Position::ZERO };
    position.cards[1] = 1;
    position.history[2] = 1;
    position
}

#[test]
fn cases_e_to_j() {
    let legal = |first: &[u8]| LeducPoker.legal_actions(&leduc(&[0, 5], None, first, &[]), first.len() % 2);
    assert_eq!(legal(&[]), [1, 2]);
    assert_eq!(legal(&[2]), [0, 1, 2]);
    assert_eq!(legal(&[2, 2]), [0, 1]);
    assert_eq!(leduc_payoffs(&[0, 5], 1, &[1, 1], &[1, 1]), [1, -1]);
    assert_eq!(leduc_payoffs(&[0, 1], 2, &[2, 2, 1], &[2, 2, 1]), [0, 0]);
    assert_eq!(LeducPoker.information_state_key(&leduc(&[0, 4], None, &[2], &[]), 1), [1, 4, 255, 1, 2, 0]);
}

/// Kuhn 2 under a table with one pair of parts for each set, in the order of the sets.
fn under<T>(parts: [[f64; 2]; 12], d: f64, value: impl Fn(&dyn Fn(&[u8], usize) -> Vec<f64>) -> T) -> T {
    let sets = enumerate_infosets(&KUHN_2).expect("a small tree");
    let table: HashMap<Vec<u8>, Vec<f64>> =
        sets.into_iter().zip(parts).map(|((key, _, _), part)| (key, part.map(|p| p / d).to_vec())).collect();
    value(&|key, _| table[key].clone())
}

/// U is 6 for D = 1 and 162 for D = 3.
#[test]
fn cases_k_and_l() {
    let pass = [[1.0, 0.0]; 12];
    assert_eq!(under(pass, 1.0, |p| nash_conv(&KUHN_2, &EventNumber, p).unwrap()) * 6.0, 12.0);
    let best = under(pass, 1.0, |p| best_response_values(&KUHN_2, &EventNumber, p).unwrap());
    assert!(best.iter().all(|value| (value * 6.0 - 6.0).abs() < 1e-12));
    let digits = [[3, 0], [3, 0], [3, 0], [2, 1], [0, 3], [0, 3], [3, 0], [2, 1], [2, 1], [3, 0], [3, 0], [0, 3]];
    let table = digits.map(|pair| pair.map(f64::from));
    let worths = under(table, 3.0, |p| profile_values(&KUHN_2, &EventNumber, p).unwrap());
    assert!((worths[0] * 162.0 + 9.0).abs() < 1e-9 && (worths[1] * 162.0 - 9.0).abs() < 1e-9);
    assert!(under(table, 3.0, |p| nash_conv(&KUHN_2, &EventNumber, p).unwrap()).abs() < 1e-12);
}

#[test]
fn where_kuhn_differs() {
    assert!(kuhn(&[], &[]).is_terminal_pub(), "the start counts as ended");
    let past = KUHN_2.step(&kuhn(&[0, 1], &[0, 0]), &[0, 0]);
    assert!(past.next_state.history == [0, 0, 0] && !past.terminal, "it steps on past an end");
    let early = KUHN_2.step(&kuhn(&[], &[]), &[0, 0]);
    assert!(early.next_state.history == [0] && !early.terminal, "it steps before the deal");
    let half = KUHN_2.step(&kuhn(&[0], &[]), &[0, 0]);
    assert!(half.terminal && half.events.len() == 1, "with one card of two, a pass ends the hand for one seat");
    assert_eq!(KUHN_2.apply_chance_node(&kuhn(&[0, 1], &[]), 0).next_state.cards, [0, 1, 2], "it deals a third card");
    assert!(catch_unwind(|| KUHN_2.apply_chance_node(&kuhn(&[], &[]), 3).next_state).is_err());
    assert!(catch_unwind(|| KUHN_2.information_state_key(&kuhn(&[0], &[]), 1)).is_err());
}

#[test]
fn where_leduc_differs() {
    let due = leduc(&[0, 5], None, &[1, 1], &[]);
    let on = LeducPoker.step(&due, &[2, 2]);
    assert!(on.next_state.history[1] == [1] && !on.terminal, "it steps on where the public card is due");
    assert!(catch_unwind(|| LeducPoker.step(&leduc(&[0, 5], None, &[1, 1], &[1]), &[1, 1]).terminal).is_err());
    let folded = LeducPoker.step(&leduc(&[0, 5], None, &[2, 0], &[]), &[2, 2]);
    assert!(folded.next_state.history[0] == [2, 0, 1] && folded.terminal, "it steps on past a fold");
    let again = LeducPoker.apply_chance_node(&leduc(&[0, 5], Some(1), &[1, 1], &[]), 0);
    assert_eq!(again.next_state.public, Some(2), "a second public card takes the first one's place");
    let soon = LeducPoker.apply_chance_node(&leduc(&[0, 5], None, &[], &[]), 0);
    assert_eq!(soon.next_state.public, Some(1), "the public card is dealt before round 1 has closed");
    assert!(catch_unwind(|| LeducPoker.apply_chance_node(&leduc(&[], None, &[], &[]), 6).next_state).is_err());
    assert!(catch_unwind(|| LeducPoker.information_state_key(&leduc(&[0], None, &[], &[]), 1)).is_err());
    assert!(LeducPoker.validate_decoded_state(&due, false).is_err(), "a live second round needs its public card");
}

/// The profile with the same entries for each set.
fn everywhere(entries: &'static [f64]) -> impl Fn(&[u8], usize) -> Vec<f64> {
    |_, _| entries.to_vec()
}

#[test]
fn where_the_values_differ() {
    let of = |entries| nash_conv(&KUHN_2, &EventNumber, &everywhere(entries)).expect("a tree within the limit");
    assert!(catch_unwind(|| of(&[0.5])).is_err(), "a list of one entry is too short");
    assert_eq!(of(&[0.5, 0.5, 9.0]).to_bits(), of(&[0.5, 0.5]).to_bits(), "what is past the actions is not read");
    let of_seat = |seat| best_response_value(&KUHN_2, &EventNumber, &everywhere(&[0.5, 0.5]), seat);
    assert!(of_seat(1).is_ok());
    assert!(catch_unwind(|| of_seat(2)).is_err(), "seat 2 has no payoff");
    assert!(nash_conv(&KuhnPoker { players: 7 }, &EventNumber, &everywhere(&[0.5, 0.5])).is_err());
}
