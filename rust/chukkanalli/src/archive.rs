//! The calls as the archive has them: on any numbers, positions and lengths, with every field of the answer, refused or not. A call has its name in
//! include/chukkanalli.h without `chukkanalli_`, and the header says what it does; an answer has its name in crates/; a pointer with its length is a
//! slice. [`KuhnPoker`](crate::KuhnPoker), [`LeducPoker`](crate::LeducPoker) and [`Evaluator`](crate::Evaluator) make these calls.

use crate::exports;
use crate::{KuhnPosition, LeducPosition, PerSeat, Refusal};

/// What a start, a deal, a step or a saved-position check answers.
#[repr(C)]
#[derive(Clone, Copy, Debug, PartialEq, Eq)]
pub struct Moved<P> {
    pub refusal: u64,
    pub position: P,
}

/// What a legal list or a key answers: how many bytes it wrote to the front of the output.
#[repr(C)]
#[derive(Clone, Copy, Debug, PartialEq, Eq)]
pub struct Written<P> {
    pub refusal: u64,
    pub position: P,
    pub count: u64,
}

/// What a payoff answers: a number for each of `count` seats, 0 past them.
#[repr(C)]
#[derive(Clone, Copy, Debug, PartialEq, Eq)]
pub struct Payoffs<P> {
    pub refusal: u64,
    pub position: P,
    pub count: u64,
    pub payoffs: [i64; 10],
}

/// What the listing answers: the nodes and the sets of the game's tree.
#[repr(C)]
#[derive(Clone, Copy, Debug, PartialEq, Eq)]
pub struct ListingAnswer {
    pub refusal: u64,
    pub nodes: u64,
    pub sets: u64,
}

/// What the worths answer: a number for each of `count` seats, 0 past them.
#[repr(C)]
#[derive(Clone, Copy, Debug, PartialEq, Eq)]
pub struct WorthsAnswer {
    pub refusal: u64,
    pub count: u64,
    pub worths: [i64; 6],
}

/// What a best reply answers: the seat's best value.
#[repr(C)]
#[derive(Clone, Copy, Debug, PartialEq, Eq)]
pub struct ReplyAnswer {
    pub refusal: u64,
    pub value: i64,
}

/// What NashConv answers in whole units, with the units to divide by.
#[repr(C)]
#[derive(Clone, Copy, Debug, PartialEq, Eq)]
pub struct NashConvAnswer {
    pub refusal: u64,
    pub nash_conv: u64,
    pub units: u64,
}

/// What a call in f64 answers: `count` values, 0.0 past them.
#[repr(C)]
#[derive(Clone, Copy, Debug, PartialEq)]
pub struct ValuesAnswer {
    pub refusal: u64,
    pub count: u64,
    pub values: [f64; 6],
}

// SAFETY, of every call below: numbers and positions go by value, each pointer is valid for its length, and a slice that can be written
// overlaps no other.

/// The refusal of a seat count itself. Refuses with 2.
pub fn kuhn_validate(seats: u64) -> u64 {
    unsafe { exports::chukkanalli_kuhn_validate(seats) }
}

/// Refuses with 2.
pub fn kuhn_initial_state(seats: u64) -> Moved<KuhnPosition> {
    unsafe { exports::chukkanalli_kuhn_initial_state(seats) }
}

/// Refuses with 2, 19, 9.
pub fn kuhn_legal_actions(seats: u64, position: KuhnPosition, seat: u64, out: &mut [u8]) -> Written<KuhnPosition> {
    unsafe { exports::chukkanalli_kuhn_legal_actions(seats, position, seat, out.as_mut_ptr(), out.len()) }
}

/// Refuses with 2, 19, 20.
pub fn kuhn_apply_chance_node(seats: u64, position: KuhnPosition, outcome: u64) -> Moved<KuhnPosition> {
    unsafe { exports::chukkanalli_kuhn_apply_chance_node(seats, position, outcome) }
}

/// Refuses with 2, 19, 20.
pub fn kuhn_step(seats: u64, position: KuhnPosition, action: u64) -> Moved<KuhnPosition> {
    unsafe { exports::chukkanalli_kuhn_step(seats, position, action) }
}

/// Refuses with 2, 19, 20, 9.
pub fn kuhn_information_state_key(
    seats: u64,
    position: KuhnPosition,
    seat: u64,
    out: &mut [u8],
) -> Written<KuhnPosition> {
    unsafe { exports::chukkanalli_kuhn_information_state_key(seats, position, seat, out.as_mut_ptr(), out.len()) }
}

/// Refuses with 2, 19, 20.
pub fn kuhn_payouts(seats: u64, position: KuhnPosition) -> Payoffs<KuhnPosition> {
    unsafe { exports::chukkanalli_kuhn_payouts(seats, position) }
}

/// Refuses with 2, 10 to 14, 18.
pub fn kuhn_validate_decoded_state(seats: u64, position: KuhnPosition, done: u64) -> Moved<KuhnPosition> {
    unsafe { exports::chukkanalli_kuhn_validate_decoded_state(seats, position, done) }
}

/// Never refuses.
pub fn leduc_initial_state() -> Moved<LeducPosition> {
    unsafe { exports::chukkanalli_leduc_initial_state() }
}

/// Refuses with 19, 9.
pub fn leduc_legal_actions(position: LeducPosition, seat: u64, out: &mut [u8]) -> Written<LeducPosition> {
    unsafe { exports::chukkanalli_leduc_legal_actions(position, seat, out.as_mut_ptr(), out.len()) }
}

/// Refuses with 19, 20.
pub fn leduc_apply_chance_node(position: LeducPosition, outcome: u64) -> Moved<LeducPosition> {
    unsafe { exports::chukkanalli_leduc_apply_chance_node(position, outcome) }
}

/// Refuses with 19, 20.
pub fn leduc_step(position: LeducPosition, action: u64) -> Moved<LeducPosition> {
    unsafe { exports::chukkanalli_leduc_step(position, action) }
}

/// Refuses with 19, 20, 9.
pub fn leduc_information_state_key(position: LeducPosition, seat: u64, out: &mut [u8]) -> Written<LeducPosition> {
    unsafe { exports::chukkanalli_leduc_information_state_key(position, seat, out.as_mut_ptr(), out.len()) }
}

/// Refuses with 19, 20.
pub fn leduc_payouts(position: LeducPosition) -> Payoffs<LeducPosition> {
    unsafe { exports::chukkanalli_leduc_payouts(position) }
}

/// Refuses with 10 to 18.
pub fn leduc_validate_decoded_state(position: LeducPosition, done: u64) -> Moved<LeducPosition> {
    unsafe { exports::chukkanalli_leduc_validate_decoded_state(position, done) }
}

/// Writes a game's sets to an output. Refuses with 1, 2, 3, 4, 9.
pub fn enumerate_infosets(game: u64, seats: u64, work: &[u64], out: &mut [u8]) -> ListingAnswer {
    let (to, room) = (out.as_mut_ptr(), out.len());
    unsafe { exports::chukkanalli_enumerate_infosets(game, seats, work.as_ptr(), work.len(), to, room) }
}

/// Refuses with 1, 2, 3, 4, 6, 7, 8.
pub fn worths(game: u64, seats: u64, work: &mut [u64], d: u64, table: &[u8]) -> WorthsAnswer {
    let (work, words) = (work.as_mut_ptr(), work.len());
    unsafe { exports::chukkanalli_worths(game, seats, work, words, d, table.as_ptr(), table.len()) }
}

/// Writes the reply to an output. Refuses with 1 to 9.
pub fn best_reply(
    game: u64,
    seats: u64,
    work: &mut [u64],
    seat: u64,
    d: u64,
    table: &[u8],
    out: &mut [u8],
) -> ReplyAnswer {
    let (work, words) = (work.as_mut_ptr(), work.len());
    let (from, length) = (table.as_ptr(), table.len());
    let (to, room) = (out.as_mut_ptr(), out.len());
    unsafe { exports::chukkanalli_best_reply(game, seats, work, words, seat, d, from, length, to, room) }
}

/// Refuses with 1, 2, 3, 4, 6, 7, 8.
pub fn nash_conv_units(game: u64, seats: u64, work: &mut [u64], d: u64, table: &[u8]) -> NashConvAnswer {
    let (work, words) = (work.as_mut_ptr(), work.len());
    unsafe { exports::chukkanalli_nash_conv_units(game, seats, work, words, d, table.as_ptr(), table.len()) }
}

/// How nash_conv × other_units stands to other_nash_conv × units, as whole numbers: −1, 0 or 1. Never refuses.
pub fn compare(nash_conv: u64, units: u64, other_nash_conv: u64, other_units: u64) -> i64 {
    unsafe { exports::chukkanalli_compare(nash_conv, units, other_nash_conv, other_units) }
}

/// Refuses with 1, 2, 3, 4, 5, 7.
pub fn best_response_value(game: u64, seats: u64, work: &mut [u64], seat: u64, profile: &[f64]) -> ValuesAnswer {
    let (work, words) = (work.as_mut_ptr(), work.len());
    let (from, length) = (profile.as_ptr(), profile.len());
    unsafe { exports::chukkanalli_best_response_value(game, seats, work, words, seat, from, length) }
}

/// Refuses with 1, 2, 3, 4, 7.
pub fn best_response_values(game: u64, seats: u64, work: &mut [u64], profile: &[f64]) -> ValuesAnswer {
    let (work, words) = (work.as_mut_ptr(), work.len());
    unsafe { exports::chukkanalli_best_response_values(game, seats, work, words, profile.as_ptr(), profile.len()) }
}

/// Refuses with 1, 2, 3, 4, 7.
pub fn profile_values(game: u64, seats: u64, work: &mut [u64], profile: &[f64]) -> ValuesAnswer {
    let (work, words) = (work.as_mut_ptr(), work.len());
    unsafe { exports::chukkanalli_profile_values(game, seats, work, words, profile.as_ptr(), profile.len()) }
}

/// Refuses with 1, 2, 3, 4, 7.
pub fn nash_conv(game: u64, seats: u64, work: &mut [u64], profile: &[f64]) -> ValuesAnswer {
    let (work, words) = (work.as_mut_ptr(), work.len());
    unsafe { exports::chukkanalli_nash_conv(game, seats, work, words, profile.as_ptr(), profile.len()) }
}

/// Refuses with 1, 2, 3, 4, 7.
pub fn exploitability(game: u64, seats: u64, work: &mut [u64], profile: &[f64]) -> ValuesAnswer {
    let (work, words) = (work.as_mut_ptr(), work.len());
    unsafe { exports::chukkanalli_exploitability(game, seats, work, words, profile.as_ptr(), profile.len()) }
}

/// Ok for 0, else the refusal of the number.
pub(crate) fn accepted(refusal: u64) -> Result<(), Refusal> {
    match Refusal::from_number(refusal) {
        None if refusal == 0 => Ok(()),
        None => unreachable!("the calls answer document 01's numbers, and {refusal} is none"),
        Some(refusal) => Err(refusal),
    }
}

pub(crate) fn moved<P>(answer: Moved<P>) -> Result<P, Refusal> {
    accepted(answer.refusal).map(|()| answer.position)
}

/// The front of the output that the call has written.
pub(crate) fn written<P>(answer: Written<P>, out: &[u8]) -> Result<&[u8], Refusal> {
    accepted(answer.refusal).map(|()| &out[..answer.count as usize])
}

pub(crate) fn payoffs<P>(answer: Payoffs<P>) -> Result<crate::Payoffs, Refusal> {
    accepted(answer.refusal).map(|()| PerSeat::new(answer.count, answer.payoffs))
}
