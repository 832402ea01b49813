//! The games by number, the listing and the evaluations, on good and on refused input.

use std::thread;

use chukkanalli::archive::enumerate_infosets;
use chukkanalli::{Counts, Evaluator, Game, InfoSet, Refusal, RECORD};

const KUHN2: Game = Game::Kuhn { seats: 2 };
const GAMES: [Game; 5] =
    [KUHN2, Game::Kuhn { seats: 3 }, Game::Kuhn { seats: 4 }, Game::Kuhn { seats: 5 }, Game::Leduc];

/// The table that gives all parts to the first action of each set.
fn first_actions(sets: &[InfoSet], d: u8) -> Vec<u8> {
    let mut table = Vec::new();
    for set in sets {
        table.push(d);
        table.resize(set.entries().end, 0);
    }
    table
}

/// Case l's table, of Kuhn 2 with D 3.
fn case_l() -> Vec<u8> {
    "303030210303302121303003".bytes().map(|digit| digit - b'0').collect()
}

#[test]
fn games_are_refused_by_number() {
    assert_eq!(Game::by_number(0, 2), Ok(KUHN2));
    assert_eq!(Game::by_number(0, 10), Ok(Game::Kuhn { seats: 10 }));
    assert_eq!(Game::by_number(1, 2), Ok(Game::Leduc));
    for (number, seats) in [(2, 2), (256, 2), (1 << 32, 2), (u64::MAX, 0)] {
        assert_eq!(Game::by_number(number, seats), Err(Refusal::Game));
    }
    for (number, seats) in [(0, 0), (0, 1), (0, 11), (0, 258), (0, u64::MAX), (1, 1), (1, 3), (1, (1 << 32) + 2)] {
        assert_eq!(Game::by_number(number, seats), Err(Refusal::Seats));
    }
}

#[test]
fn games_without_a_tree_get_no_evaluator() {
    for seats in [0, 1, 11, 258, u64::MAX] {
        assert_eq!(Evaluator::new(Game::Kuhn { seats }).unwrap_err(), Refusal::Seats);
    }
    for seats in 7..=10 {
        assert_eq!(Evaluator::new(Game::Kuhn { seats }).unwrap_err(), Refusal::Tree);
    }
}

/// The listing is lent more than any tree needs, so that it answers the tree's own counts; byte 22 of a record is its set's entries.
#[test]
fn counts_are_those_that_the_listing_answers() {
    let (work, mut out) = (vec![0; 12 * 4_000_000], vec![0; RECORD * 2_000]);
    for game in GAMES.into_iter().chain([Game::Kuhn { seats: 6 }]) {
        let answer = enumerate_infosets(game.number(), game.seats(), &work, &mut out);
        assert_eq!(answer.refusal, 0);
        let records = out.chunks_exact(RECORD).take(answer.sets as usize);
        let entries = records.map(|record| usize::from(record[22])).sum();
        let counts = Counts { nodes: answer.nodes as usize, sets: answer.sets as usize, entries };
        assert_eq!(game.counts(), Some(counts), "{game:?}");
    }
    for seats in 7..=10 {
        assert_eq!(enumerate_infosets(0, seats, &work, &mut out).refusal, Refusal::Tree.number());
        assert_eq!(Game::Kuhn { seats }.counts(), None);
    }
}

#[test]
fn the_sets_of_each_game_are_counted_as_the_table_of_counts_says() {
    for game in GAMES.into_iter().chain([Game::Kuhn { seats: 6 }]) {
        let evaluator = Evaluator::new(game).unwrap();
        let (sets, counts) = (evaluator.sets(), game.counts().unwrap());
        assert_eq!((evaluator.game(), evaluator.counts()), (game, counts));
        assert_eq!(sets.len(), counts.sets);
        assert_eq!(sets.last().unwrap().entries().end, counts.entries);
        for set in &sets {
            assert_eq!(set.card, set.first_cards[set.seat as usize]);
            assert_eq!((u64::from(set.key[0]), set.key[1]), (set.seat, set.card));
        }
    }
}

#[test]
fn kuhn_2_has_document_01s_keys() {
    let keys = ["00", "110", "0001", "111", "120", "121", "01", "100", "0101", "101", "02", "0201"];
    let sets = Evaluator::new(KUHN2).unwrap().sets();
    for (set, key) in sets.iter().zip(keys) {
        let digits: Vec<u8> = key.bytes().map(|digit| digit - b'0').collect();
        assert_eq!((&set.key, &set.legal, set.public_card), (&digits, &vec![0, 1], None));
        assert_eq!(set.rounds, [digits[2..].to_vec()]);
    }
}

#[test]
fn leduc_lists_the_legal_actions_of_each_set() {
    let sets = Evaluator::new(Game::Leduc).unwrap().sets();
    assert_eq!((&sets[0].legal, &sets[0].rounds), (&vec![1, 2], &vec![vec![]]));
    for set in &sets {
        let round = set.rounds.last().unwrap();
        let raises = round.iter().filter(|&&action| action == 2).count();
        let behind = round.last() == Some(&2);
        let legal: Vec<u8> =
            [(0, behind), (1, true), (2, raises < 2)].into_iter().filter(|may| may.1).map(|may| may.0).collect();
        assert_eq!(set.legal, legal, "{:?}", set.key);
        assert_eq!(set.rounds.len(), if set.public_card.is_some() { 2 } else { 1 });
    }
}

#[test]
fn case_k() {
    let mut evaluator = Evaluator::new(KUHN2).unwrap();
    let table = [1, 0].repeat(12);
    assert_eq!(*evaluator.worths(1, &table).unwrap(), [0, 0]);
    let best = evaluator.best_reply(0, 1, &table).unwrap();
    let reply: Vec<u8> = "011010101010011010101010".bytes().map(|digit| digit - b'0').collect();
    assert_eq!((best.value, best.table), (6, reply));
    assert_eq!(evaluator.best_reply(1, 1, &table).unwrap().value, 6);
    let conv = evaluator.nash_conv_units(1, &table).unwrap();
    assert_eq!((conv.nash_conv, conv.units), (12, 6));
}

#[test]
fn case_l_through_the_same_memory_after_refused_calls() {
    let mut evaluator = Evaluator::new(KUHN2).unwrap();
    assert_eq!(evaluator.worths(4, &case_l()), Err(Refusal::Sum));
    assert_eq!(*evaluator.worths(3, &case_l()).unwrap(), [-9, 9]);
    assert_eq!(evaluator.best_reply(2, 3, &case_l()), Err(Refusal::Seat));
    assert_eq!(evaluator.best_reply(0, 3, &case_l()).unwrap().value, -9);
    assert_eq!(evaluator.best_reply(1, 3, &case_l()).unwrap().value, 9);
    let conv = evaluator.nash_conv_units(3, &case_l()).unwrap();
    assert_eq!((conv.nash_conv, conv.units), (0, 162));
}

#[test]
fn the_reply_is_worth_the_best_value_in_every_game() {
    for game in GAMES {
        let mut evaluator = Evaluator::new(game).unwrap();
        let sets = evaluator.sets();
        let table = first_actions(&sets, 2);
        let worths = evaluator.worths(2, &table).unwrap();
        let mut gained = 0;
        for (seat, worth) in worths.iter().enumerate() {
            let best = evaluator.best_reply(seat as u64, 2, &table).unwrap();
            assert_eq!(evaluator.worths(2, &best.table).unwrap()[seat], best.value);
            for set in sets.iter().filter(|set| set.seat != seat as u64) {
                assert_eq!(best.table[set.entries()], table[set.entries()]);
            }
            gained += best.value - worth;
        }
        assert_eq!(evaluator.nash_conv_units(2, &table).unwrap().nash_conv, gained as u64);
        assert_eq!(worths.iter().sum::<i64>(), 0);
    }
}

#[test]
fn tables_are_refused_by_their_first_fault() {
    for (game, most) in [(KUHN2, 64), (Game::Kuhn { seats: 5 }, 16), (Game::Leduc, 64)] {
        let mut evaluator = Evaluator::new(game).unwrap();
        let table = first_actions(&evaluator.sets(), most as u8);
        assert!(evaluator.worths(most, &table).is_ok());
        for d in [0, most + 1, 256, 256 + most, u64::MAX] {
            all_refuse(&mut evaluator, d, &table, Refusal::Parts);
            all_refuse(&mut evaluator, d, &[], Refusal::Parts);
        }
        all_refuse(&mut evaluator, most, &[], Refusal::Table);
        all_refuse(&mut evaluator, most, &table[1..], Refusal::Table);
        all_refuse(&mut evaluator, most, &[&table[..], &[0]].concat(), Refusal::Table);
        let mut wrapped = table.clone();
        (wrapped[0], wrapped[1]) = (255, most as u8 + 1);
        all_refuse(&mut evaluator, most, &wrapped, Refusal::Sum);
    }
}

/// Each evaluation refuses, and the reply's output stays.
fn all_refuse(evaluator: &mut Evaluator, d: u64, table: &[u8], refusal: Refusal) {
    let mut out = vec![9; evaluator.counts().entries];
    assert_eq!(evaluator.worths(d, table), Err(refusal));
    assert_eq!(evaluator.nash_conv_units(d, table), Err(refusal));
    assert_eq!(evaluator.best_reply(0, d, table), Err(refusal));
    assert_eq!(evaluator.best_reply_into(0, d, table, &mut out), Err(refusal));
    for seat in [evaluator.game().seats(), 256, u64::MAX] {
        assert_eq!(evaluator.best_reply(seat, d, table), Err(Refusal::Seat));
    }
    assert!(out.iter().all(|&byte| byte == 9));
}

#[test]
fn a_reply_needs_an_output_as_long_as_the_table() {
    let mut evaluator = Evaluator::new(KUHN2).unwrap();
    let mut out = [9; 25];
    assert_eq!(evaluator.best_reply_into(0, 3, &case_l(), &mut out[..23]), Err(Refusal::Output));
    assert_eq!(out, [9; 25]);
    assert_eq!(evaluator.best_reply_into(0, 3, &case_l(), &mut out), Ok(-9));
    assert_eq!(out[24], 9);
    assert_eq!(evaluator.best_reply(0, 3, &case_l()).unwrap().table, out[..24]);
}

#[test]
fn threads_evaluate_side_by_side_with_memory_of_their_own() {
    let threads: Vec<_> = (0..4)
        .map(|_| {
            thread::spawn(|| {
                let mut evaluator = Evaluator::new(Game::Leduc).unwrap();
                let table = first_actions(&evaluator.sets(), 1);
                evaluator.nash_conv_units(1, &table).unwrap()
            })
        })
        .collect();
    let answers: Vec<_> = threads.into_iter().map(|thread| thread.join().unwrap()).collect();
    assert!(answers.iter().all(|answer| answer == &answers[0]));
}
