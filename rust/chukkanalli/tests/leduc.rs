//! Every rules call of Leduc, and its saved-position check, on good and on refused input.

use chukkanalli::{LeducPoker, LeducPosition, Refusal};

fn acted(mut position: LeducPosition, actions: &[u64]) -> LeducPosition {
    for &action in actions {
        position = LeducPoker::step(position, action).unwrap();
    }
    position
}

fn dealt(mut position: LeducPosition, outcomes: &[u64]) -> LeducPosition {
    for &outcome in outcomes {
        position = LeducPoker::apply_chance_node(position, outcome).unwrap();
    }
    position
}

/// Both seats have a card: 0 and 5.
fn low_and_high() -> LeducPosition {
    dealt(LeducPoker::initial_state(), &[0, 4])
}

#[test]
fn the_start_has_no_card_and_no_action() {
    assert_eq!(LeducPoker::initial_state(), LeducPosition::new(&[], None, &[], &[]));
}

#[test]
fn a_deal_gives_each_seat_a_card_and_then_the_public_one() {
    assert_eq!(low_and_high(), LeducPosition::new(&[0, 5], None, &[], &[]));
    let called = acted(low_and_high(), &[1, 1]);
    assert_eq!(dealt(called, &[0]), LeducPosition::new(&[0, 5], Some(1), &[1, 1], &[]));
    assert_eq!(LeducPoker::apply_chance_node(called, 4), Err(Refusal::Unfit));
    assert_eq!(LeducPoker::apply_chance_node(low_and_high(), 0), Err(Refusal::Unfit));
    assert_eq!(LeducPoker::apply_chance_node(LeducPoker::initial_state(), u64::MAX), Err(Refusal::Unfit));
}

#[test]
fn legal_lists_go_to_the_front_of_the_output() {
    let mut out = [9; LeducPoker::LEGAL + 1];
    let cases: [(&[u64], u64, &[u8]); 3] = [(&[], 0, &[1, 2]), (&[2], 1, &[0, 1, 2]), (&[2, 2], 0, &[0, 1])];
    for (actions, seat, legal) in cases {
        assert_eq!(LeducPoker::legal_actions(acted(low_and_high(), actions), seat, &mut out), Ok(legal));
    }
    assert_eq!(out[3], 9);
    for seat in [1, 2, u64::MAX] {
        assert_eq!(LeducPoker::legal_actions(low_and_high(), seat, &mut []), Ok(&[][..]));
    }
    let mut short = [9; 1];
    assert_eq!(LeducPoker::legal_actions(low_and_high(), 0, &mut short), Err(Refusal::Output));
    assert_eq!(short, [9]);
}

#[test]
fn an_illegal_action_becomes_a_fold_or_a_call() {
    assert_eq!(acted(low_and_high(), &[0]).rounds()[0], [LeducPoker::CALL]);
    assert_eq!(acted(low_and_high(), &[2, 2, 2]).rounds()[0], [2, 2, LeducPoker::FOLD]);
    assert_eq!(acted(low_and_high(), &[u64::MAX]).rounds()[0], [LeducPoker::CALL]);
    assert_eq!(LeducPoker::step(LeducPoker::initial_state(), 1), Err(Refusal::Unfit));
    assert_eq!(LeducPoker::step(acted(low_and_high(), &[1, 1]), 1), Err(Refusal::Unfit));
}

#[test]
fn keys_tell_seat_cards_and_both_rounds() {
    let raised = acted(dealt(LeducPoker::initial_state(), &[0, 3]), &[2]);
    let mut out = [9; 7];
    assert_eq!(LeducPoker::information_state_key(raised, 1, &mut out), Ok(&[1, 4, 255, 1, 2, 0][..]));
    assert_eq!(out[6], 9);
    assert_eq!(LeducPoker::information_state_key(raised, 1, &mut out[..5]), Err(Refusal::Output));
    assert_eq!(LeducPoker::information_state_key(raised, 2, &mut out), Err(Refusal::Unfit));
    let longest = LeducPosition::new(&[0, 5], Some(1), &[1, 2, 2, 1], &[1, 2, 2, 1]);
    let mut key = [9; LeducPoker::KEY];
    assert_eq!(LeducPoker::information_state_key(longest, 0, &mut key).map(<[u8]>::len), Ok(LeducPoker::KEY));
}

#[test]
fn payoffs_come_at_the_end_of_a_hand() {
    let paired = acted(dealt(acted(low_and_high(), &[1, 1]), &[0]), &[1, 1]);
    assert_eq!(*LeducPoker::payouts(paired).unwrap(), [1, -1]);
    let equal = dealt(acted(dealt(LeducPoker::initial_state(), &[0, 0]), &[2, 2, 1]), &[0]);
    assert_eq!(*LeducPoker::payouts(acted(equal, &[2, 2, 1])).unwrap(), [0, 0]);
    assert_eq!(LeducPoker::payouts(low_and_high()), Err(Refusal::Unfit));
}

#[test]
fn positions_that_no_moves_reach_are_refused_by_every_rules_call() {
    let unreachable = [
        LeducPosition::new(&[0, 0], None, &[], &[]),
        LeducPosition::new(&[0, 6], None, &[], &[]),
        LeducPosition::new(&[0, 5], Some(1), &[], &[]),
        LeducPosition::new(&[0, 5], None, &[0], &[]),
        LeducPosition::new(&[0, 5, 1], None, &[1; 9], &[]),
        LeducPosition { acted2: u64::MAX, ..LeducPoker::initial_state() },
    ];
    for position in unreachable {
        let mut out = [9; LeducPoker::KEY];
        let refused = Err(Refusal::Unreachable);
        assert_eq!(LeducPoker::legal_actions(position, 0, &mut out), refused);
        assert_eq!(LeducPoker::information_state_key(position, 0, &mut out), refused);
        assert_eq!(LeducPoker::apply_chance_node(position, 0).map(drop), refused.map(drop));
        assert_eq!(LeducPoker::step(position, 0).map(drop), refused.map(drop));
        assert_eq!(LeducPoker::payouts(position).map(drop), refused.map(drop));
        assert_eq!(out, [9; LeducPoker::KEY]);
    }
}

#[test]
fn saved_positions_are_refused_by_their_first_fault() {
    let saved = |cards: &[u8], public, round1: &[u8], round2: &[u8], done| {
        LeducPoker::validate_decoded_state(LeducPosition::new(cards, public, round1, round2), done)
    };
    assert_eq!(saved(&[0, 5], None, &[2], &[], 0), Ok(()));
    assert_eq!(saved(&[0, 5], None, &[2, 0], &[], 1), Ok(()));
    assert_eq!(saved(&[0], None, &[], &[], 0), Err(Refusal::CardCount));
    assert_eq!(saved(&[0, 6], None, &[], &[], 0), Err(Refusal::Card));
    assert_eq!(saved(&[0, 5], Some(5), &[1, 1], &[], 0), Err(Refusal::CardTwice));
    assert_eq!(saved(&[0, 5], None, &[3], &[], 0), Err(Refusal::History));
    assert_eq!(saved(&[0, 5], None, &[1; 5], &[], 0), Err(Refusal::History));
    assert_eq!(saved(&[0, 5], None, &[2, 0, 1], &[], 0), Err(Refusal::Closed));
    assert_eq!(saved(&[0, 5], None, &[0], &[], 0), Err(Refusal::Illegal));
    assert_eq!(saved(&[0, 5], None, &[1, 1], &[], 0), Err(Refusal::NoPublic));
    assert_eq!(saved(&[0, 5], Some(1), &[1], &[], 0), Err(Refusal::EarlyPublic));
    for mark in [1, 2, u64::MAX] {
        assert_eq!(saved(&[0, 5], None, &[2], &[], mark), Err(Refusal::EndMark));
    }
}

/// A public card 255 is a card that the deck does not have, and never none.
#[test]
fn a_public_card_outside_the_deck_is_refused() {
    for card in [6, 254, 255] {
        for round1 in [&[][..], &[2], &[1, 1], &[2, 0]] {
            let position = LeducPosition::new(&[0, 5], Some(card), round1, &[]);
            for mark in [0, 1] {
                assert_eq!(LeducPoker::validate_decoded_state(position, mark), Err(Refusal::Card));
            }
            assert_eq!(LeducPoker::step(position, 1), Err(Refusal::Unreachable));
            assert_eq!(LeducPoker::payouts(position).map(drop), Err(Refusal::Unreachable));
        }
        let without_a_card = LeducPosition::new(&[0], Some(card), &[], &[]);
        assert_eq!(LeducPoker::validate_decoded_state(without_a_card, 0), Err(Refusal::CardCount));
    }
}
