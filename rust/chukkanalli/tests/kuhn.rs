//! Every rules call of Kuhn, and its saved-position check, on good and on refused input.

use chukkanalli::{KuhnPoker, KuhnPosition, Refusal};

const TWO: KuhnPoker = KuhnPoker { seats: 2 };
const OUT_OF_RANGE: [u64; 6] = [0, 1, 11, 258, (1 << 32) + 2, u64::MAX];

/// The position after a deal of these outcomes and these actions.
fn played(game: KuhnPoker, outcomes: &[u64], actions: &[u64]) -> KuhnPosition {
    let mut position = game.initial_state().unwrap();
    for &outcome in outcomes {
        position = game.apply_chance_node(position, outcome).unwrap();
    }
    for &action in actions {
        position = game.step(position, action).unwrap();
    }
    position
}

/// No call accepts this position; each refuses it with this number.
fn all_refuse(game: KuhnPoker, position: KuhnPosition, refusal: Refusal) {
    let mut out = [9; KuhnPoker::KEY];
    assert_eq!(game.legal_actions(position, 0, &mut out), Err(refusal));
    assert_eq!(game.information_state_key(position, 0, &mut out), Err(refusal));
    assert_eq!(game.apply_chance_node(position, 0), Err(refusal));
    assert_eq!(game.step(position, 0), Err(refusal));
    assert_eq!(game.payouts(position), Err(refusal));
    assert_eq!(out, [9; KuhnPoker::KEY]);
}

#[test]
fn seat_counts_outside_2_to_10_are_refused_by_every_call() {
    for seats in 2..=10 {
        assert_eq!(KuhnPoker { seats }.validate(), Ok(()));
        assert_eq!(KuhnPoker { seats }.initial_state(), Ok(KuhnPosition::default()));
    }
    for seats in OUT_OF_RANGE {
        let game = KuhnPoker { seats };
        assert_eq!(game.validate(), Err(Refusal::Seats));
        assert_eq!(game.initial_state(), Err(Refusal::Seats));
        assert_eq!(game.validate_decoded_state(KuhnPosition::default(), 0), Err(Refusal::Seats));
        all_refuse(game, KuhnPosition::default(), Refusal::Seats);
    }
}

#[test]
fn a_deal_takes_the_lowest_cards_first() {
    assert_eq!(played(TWO, &[0, 0], &[]), KuhnPosition::new(&[0, 1], &[]));
    assert_eq!(played(TWO, &[2, 0], &[]), KuhnPosition::new(&[2, 0], &[]));
    assert_eq!(TWO.apply_chance_node(KuhnPosition::default(), 3), Err(Refusal::Unfit));
    assert_eq!(TWO.apply_chance_node(KuhnPosition::default(), u64::MAX), Err(Refusal::Unfit));
    assert_eq!(TWO.apply_chance_node(played(TWO, &[0, 0], &[]), 0), Err(Refusal::Unfit));
}

#[test]
fn legal_lists_go_to_the_front_of_the_output() {
    let dealt = played(TWO, &[0, 0], &[]);
    let mut out = [9; 3];
    assert_eq!(TWO.legal_actions(dealt, 0, &mut out), Ok(&[KuhnPoker::PASS, KuhnPoker::BET][..]));
    assert_eq!(out, [0, 1, 9]);
    for (position, seat) in [(dealt, 1), (dealt, u64::MAX), (KuhnPosition::default(), 0)] {
        assert_eq!(TWO.legal_actions(position, seat, &mut []), Ok(&[][..]));
    }
    let mut short = [9; KuhnPoker::LEGAL - 1];
    assert_eq!(TWO.legal_actions(dealt, 0, &mut short), Err(Refusal::Output));
    assert_eq!(short, [9]);
}

#[test]
fn steps_count_every_action_above_1_as_a_bet() {
    let dealt = played(TWO, &[0, 0], &[]);
    for action in [1, 2, 256, u64::MAX] {
        assert_eq!(TWO.step(dealt, action), Ok(KuhnPosition::new(&[0, 1], &[KuhnPoker::BET])));
    }
    assert_eq!(TWO.step(KuhnPosition::default(), 0), Err(Refusal::Unfit));
    assert_eq!(TWO.step(played(TWO, &[0, 0], &[0, 0]), 0), Err(Refusal::Unfit));
}

#[test]
fn keys_tell_seat_card_and_history() {
    let position = played(KuhnPoker { seats: 3 }, &[1, 2, 0], &[0, 1]);
    let mut out = [9; 5];
    let three = KuhnPoker { seats: 3 };
    assert_eq!(three.information_state_key(position, 2, &mut out), Ok(&[2, 0, 0, 1][..]));
    assert_eq!(out, [2, 0, 0, 1, 9]);
    assert_eq!(three.information_state_key(position, 2, &mut out[..3]), Err(Refusal::Output));
    assert_eq!(three.information_state_key(position, 3, &mut out), Err(Refusal::Unfit));
    let ten = KuhnPoker { seats: 10 };
    let mut actions = [KuhnPoker::BET; 19];
    actions[..9].fill(KuhnPoker::PASS);
    let cards: Vec<u8> = (0..10).collect();
    let longest = KuhnPosition::new(&cards, &actions);
    let mut key = [9; KuhnPoker::KEY];
    assert_eq!(ten.information_state_key(longest, 9, &mut key).map(<[u8]>::len), Ok(KuhnPoker::KEY));
}

#[test]
fn payoffs_come_at_the_end_of_a_hand() {
    assert_eq!(*TWO.payouts(played(TWO, &[0, 0], &[0, 0])).unwrap(), [-1, 1]);
    assert_eq!(*TWO.payouts(played(TWO, &[0, 0], &[1, 0])).unwrap(), [1, -1]);
    assert_eq!(*TWO.payouts(played(TWO, &[2, 0], &[0, 1, 1])).unwrap(), [2, -2]);
    let three = KuhnPoker { seats: 3 };
    assert_eq!(*three.payouts(played(three, &[1, 2, 0], &[0, 1, 0, 1])).unwrap(), [-2, 3, -1]);
    assert_eq!(TWO.payouts(played(TWO, &[0, 0], &[0])), Err(Refusal::Unfit));
    assert_eq!(TWO.payouts(KuhnPosition::default()), Err(Refusal::Unfit));
}

#[test]
fn positions_that_no_moves_reach_are_refused_by_every_rules_call() {
    let unreachable = [
        KuhnPosition::new(&[0, 0], &[]),
        KuhnPosition::new(&[0, 3], &[]),
        KuhnPosition::new(&[0], &[0]),
        KuhnPosition::new(&[0, 1], &[0, 0, 1]),
        KuhnPosition::new(&[0, 1], &[7]),
        KuhnPosition::new(&[0; 300], &[]),
        KuhnPosition { dealt: u64::MAX, acted: u64::MAX, ..KuhnPosition::default() },
    ];
    for position in unreachable {
        all_refuse(TWO, position, Refusal::Unreachable);
    }
}

#[test]
fn saved_positions_are_refused_by_their_first_fault() {
    let saved =
        |cards: &[u8], history: &[u8], done| TWO.validate_decoded_state(KuhnPosition::new(cards, history), done);
    assert_eq!(saved(&[0, 1], &[0], 0), Ok(()));
    assert_eq!(saved(&[0, 1], &[0, 0], 1), Ok(()));
    assert_eq!(saved(&[0], &[], 0), Err(Refusal::CardCount));
    assert_eq!(saved(&[0, 3], &[], 0), Err(Refusal::Card));
    assert_eq!(saved(&[1, 1], &[], 0), Err(Refusal::CardTwice));
    assert_eq!(saved(&[0, 1], &[0, 2], 0), Err(Refusal::History));
    assert_eq!(saved(&[0, 1], &[0; 20], 0), Err(Refusal::History));
    assert_eq!(saved(&[0, 1], &[0, 0, 1], 0), Err(Refusal::Closed));
    for mark in [0, 2, u64::MAX] {
        assert_eq!(saved(&[0, 1], &[0, 0], mark), Err(Refusal::EndMark));
    }
}
