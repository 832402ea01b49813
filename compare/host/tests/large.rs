//! Kuhn with 5 and 6 seats, which the committed lists leave out: some profiles held to the unchanged Rust bit for bit, and some tables to the
//! reference in whole units. `compare` does the same with many more.

use chukkanalli::archive::{best_reply, nash_conv_units, worths};
use host::floats::{evaluate, judged};
use host::memory::Memory;
use judge::exact::kuhn;
use judge::floats::{self, Evaluation, EVALUATIONS};
use judge::listing_lists::KUHN;
use judge::parts;
use judge::profiles::{profile, Kind, KINDS};
use judge::units;
use random::Random;

/// Every field of an answer, and the words behind the calls' share.
fn profile_is_held(seats: usize, asked: Evaluation, kind: Kind, random: &mut Random) {
    let (tree, seat) = (kuhn(seats), random.below(seats) as u64);
    let mut call = floats::Call::of(KUHN, tree, seat, profile(tree, kind, random));
    call.words += 3;
    let mut memory = Memory::new(call.words, 0);
    let ours = judged(evaluate(asked, KUHN, call.seats, &mut memory.work, seat, &call.profile));
    assert_eq!(ours, call.answer(asked), "{asked:?} of a profile of {kind:?} for Kuhn {seats}, seat {seat}");
    assert!(memory.words_kept(call.kept()), "{asked:?} of a profile of {kind:?} for Kuhn {seats}");
}

/// The worths, a seat's best value and reply, NashConv and U; the output and the words behind the calls' share.
fn table_is_held(seats: usize, d: u64, kind: parts::Kind, random: &mut Random) {
    let (tree, seat) = (kuhn(seats), random.below(seats) as u64);
    let call = units::Call::of(KUHN, tree, d, parts::table(tree, d, kind, random));
    let (n, table, room) = (call.seats, &call.table, tree.entries as u64 + 3);
    let mut memory = Memory::new(call.words + 3, room);
    let what = format!("a table of {kind:?} for Kuhn {seats}, D {d}, seat {seat}");

    let (ours, judged) = (worths(KUHN, n, &mut memory.work, d, table), call.worths());
    assert_eq!((ours.refusal, ours.count, ours.worths), (0, judged.count, judged.worths), "{what}");
    let (ours, judged) = (nash_conv_units(KUHN, n, &mut memory.work, d, table), call.nash_conv());
    assert_eq!((ours.refusal, ours.nash_conv, ours.units), (0, judged.nash_conv, judged.units), "{what}");
    let ours = best_reply(KUHN, n, &mut memory.work, seat, d, table, &mut memory.out);
    let judged = call.best_reply(seat, room);
    assert_eq!((ours.refusal, ours.value), (0, judged.value), "{what}");
    assert_eq!(memory.out[..tree.entries], judged.reply, "{what}");
    assert!(memory.words_kept(call.kept()) && memory.bytes_kept(tree.entries), "{what}");
}

#[test]
fn profiles_of_kuhn_5() {
    let mut random = Random::new(5);
    for (place, kind) in KINDS.into_iter().enumerate() {
        profile_is_held(5, EVALUATIONS[place % EVALUATIONS.len()], kind, &mut random);
    }
}

#[test]
fn profiles_of_kuhn_6() {
    let mut random = Random::new(6);
    profile_is_held(6, Evaluation::ProfileValues, Kind::Weights, &mut random);
    profile_is_held(6, Evaluation::BestResponseValue, Kind::Few, &mut random);
}

#[test]
fn tables_of_kuhn_5() {
    let mut random = Random::new(5);
    for (kind, d) in parts::KINDS.into_iter().zip([16, 1, 3, 2, 16, 7]) {
        table_is_held(5, d, kind, &mut random);
    }
}

#[test]
fn a_table_of_kuhn_6() {
    table_is_held(6, 16, parts::Kind::Mixed, &mut Random::new(6));
}
