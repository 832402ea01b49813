//! The listing: each tree with just enough lent and with lengths near that, then calls with random games, seats and lengths.

use crate::number::some_number;
use crate::Counts;
use chukkanalli::archive::{enumerate_infosets, ListingAnswer};
use host::memory::Memory;
use host::stack::stack_of;
use judge::listing::RECORD;
use judge::listing_lists::{listing_of, Call, KUHN, LEDUC};
use random::Random;

/// How often each tree is listed with lengths near those that it needs.
const TIMES: u64 = 8;

pub fn compare(calls: u64, random: &mut Random) {
    let mut counts = Counts::new();
    each_tree(&mut counts, random);
    for _ in 0..calls {
        counts.count(listing(&some_call(random), random));
    }
    println!("listing: Kuhn 2 to 6 and Leduc, each {} times, and {calls} calls at random agree", TIMES + 1);
    counts.print();
}

/// Kuhn 2 to 6 and Leduc: with just enough lent, and with lengths near that. Says how much stack the calls took at most.
fn each_tree(counts: &mut Counts, random: &mut Random) {
    let mut stack = 0;
    for (game, seats) in (2..=6).map(|seats| (KUHN, seats)).chain([(LEDUC, 2)]) {
        let tree = listing_of(game, seats).expect("a tree within the limit");
        let call = Call { game, seats, words: tree.words(), room: tree.room() };
        assert_eq!(listing(&call, random), 0, "game {game} with {seats} seats is listed");
        for _ in 0..TIMES {
            let call = Call { words: near(call.words, random), room: near(call.room, random), ..call };
            counts.count(listing(&call, random));
        }
        stack = stack.max(stack_of_listing(&call));
    }
    println!("listing: at most {stack} bytes of stack");
}

fn stack_of_listing(call: &Call) -> usize {
    let mut memory = Memory::new(call.words, call.room);
    stack_of(|| {
        enumerate_infosets(call.game, call.seats, &memory.work, &mut memory.out);
    })
}

/// Makes one call and holds all it leaves to the Rust's answer; answers the refusal number.
fn listing(call: &Call, random: &mut Random) -> u64 {
    let mut memory = Memory::new(call.words, call.room);
    memory.fill_at_random(random);
    let answer = enumerate_infosets(call.game, call.seats, &memory.work, &mut memory.out);
    let (expected, records) = match call.asked() {
        Ok(tree) => {
            (ListingAnswer { refusal: 0, nodes: tree.nodes, sets: tree.sets.len() as u64 }, tree.sets.as_slice())
        }
        Err(refusal) => (ListingAnswer { refusal, nodes: 0, sets: 0 }, [].as_slice()),
    };
    assert_eq!(answer, expected, "{call:?}");
    for (number, (record, ours)) in records.iter().zip(memory.out.chunks(RECORD)).enumerate() {
        assert_eq!(ours, record, "set {number} of {call:?}");
    }
    assert!(memory.bytes_kept(RECORD * records.len()), "the output beyond the answer of {call:?}");
    assert!(memory.words_kept(0), "the work memory of {call:?}");
    answer.refusal
}

/// A call that is accepted or refused with 4 or 9 three times in four, and with 1 to 3 otherwise.
fn some_call(random: &mut Random) -> Call {
    let (game, seats) = match random.below(8) {
        0 => (some_number(random), some_number(random)),
        1 => (random.below(2) as u64, random.below(13) as u64),
        2 | 3 => (LEDUC, 2),
        _ => (KUHN, 2 + random.below(3) as u64),
    };
    let known = game <= LEDUC && (2..=4).contains(&seats);
    let tree = if known { listing_of(game, seats) } else { None };
    let (words, room) = tree.map_or((696, 288), |tree| (tree.words(), tree.room()));
    Call { game, seats, words: near(words, random), room: near(room, random) }
}

/// A length at, just beside, or far below the given one.
fn near(length: u64, random: &mut Random) -> u64 {
    match random.below(8) {
        0 => random.below(length as usize) as u64,
        1 => length - 1 - random.below(24) as u64,
        2..=4 => length + random.below(40) as u64,
        _ => length,
    }
}
