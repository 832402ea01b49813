//! The calls of libchukkanalli.a, as crates/chukkanalli exports them: rust/audit holds these lines to it.

use crate::archive::{ListingAnswer, Moved, NashConvAnswer, Payoffs, ReplyAnswer, ValuesAnswer, WorthsAnswer, Written};
use crate::{KuhnPosition, LeducPosition};

extern "C" {
    pub fn chukkanalli_kuhn_validate(seats: u64) -> u64;
    pub fn chukkanalli_kuhn_initial_state(seats: u64) -> Moved<KuhnPosition>;
    pub fn chukkanalli_kuhn_legal_actions(
        seats: u64,
        position: KuhnPosition,
        seat: u64,
        out: *mut u8,
        out_len: usize,
    ) -> Written<KuhnPosition>;
    pub fn chukkanalli_kuhn_apply_chance_node(seats: u64, position: KuhnPosition, outcome: u64) -> Moved<KuhnPosition>;
    pub fn chukkanalli_kuhn_step(seats: u64, position: KuhnPosition, action: u64) -> Moved<KuhnPosition>;
    pub fn chukkanalli_kuhn_information_state_key(
        seats: u64,
        position: KuhnPosition,
        seat: u64,
        out: *mut u8,
        out_len: usize,
    ) -> Written<KuhnPosition>;
    pub fn chukkanalli_kuhn_payouts(seats: u64, position: KuhnPosition) -> Payoffs<KuhnPosition>;
    pub fn chukkanalli_kuhn_validate_decoded_state(
        seats: u64,
        position: KuhnPosition,
        done: u64,
    ) -> Moved<KuhnPosition>;

    pub fn chukkanalli_leduc_initial_state() -> Moved<LeducPosition>;
    pub fn chukkanalli_leduc_legal_actions(
        position: LeducPosition,
        seat: u64,
        out: *mut u8,
        out_len: usize,
    ) -> Written<LeducPosition>;
    pub fn chukkanalli_leduc_apply_chance_node(position: LeducPosition, outcome: u64) -> Moved<LeducPosition>;
    pub fn chukkanalli_leduc_step(position: LeducPosition, action: u64) -> Moved<LeducPosition>;
    pub fn chukkanalli_leduc_information_state_key(
        position: LeducPosition,
        seat: u64,
        out: *mut u8,
        out_len: usize,
    ) -> Written<LeducPosition>;
    pub fn chukkanalli_leduc_payouts(position: LeducPosition) -> Payoffs<LeducPosition>;
    pub fn chukkanalli_leduc_validate_decoded_state(position: LeducPosition, done: u64) -> Moved<LeducPosition>;

    pub fn chukkanalli_enumerate_infosets(
        game: u64,
        seats: u64,
        work: *const u64,
        work_len: usize,
        out: *mut u8,
        out_len: usize,
    ) -> ListingAnswer;

    pub fn chukkanalli_worths(
        game: u64,
        seats: u64,
        work: *mut u64,
        work_len: usize,
        d: u64,
        table: *const u8,
        table_len: usize,
    ) -> WorthsAnswer;
    pub fn chukkanalli_best_reply(
        game: u64,
        seats: u64,
        work: *mut u64,
        work_len: usize,
        seat: u64,
        d: u64,
        table: *const u8,
        table_len: usize,
        out: *mut u8,
        out_len: usize,
    ) -> ReplyAnswer;
    pub fn chukkanalli_nash_conv_units(
        game: u64,
        seats: u64,
        work: *mut u64,
        work_len: usize,
        d: u64,
        table: *const u8,
        table_len: usize,
    ) -> NashConvAnswer;
    pub fn chukkanalli_compare(nash_conv: u64, units: u64, other_nash_conv: u64, other_units: u64) -> i64;

    pub fn chukkanalli_best_response_value(
        game: u64,
        seats: u64,
        work: *mut u64,
        work_len: usize,
        seat: u64,
        profile: *const f64,
        profile_len: usize,
    ) -> ValuesAnswer;
    pub fn chukkanalli_best_response_values(
        game: u64,
        seats: u64,
        work: *mut u64,
        work_len: usize,
        profile: *const f64,
        profile_len: usize,
    ) -> ValuesAnswer;
    pub fn chukkanalli_profile_values(
        game: u64,
        seats: u64,
        work: *mut u64,
        work_len: usize,
        profile: *const f64,
        profile_len: usize,
    ) -> ValuesAnswer;
    pub fn chukkanalli_nash_conv(
        game: u64,
        seats: u64,
        work: *mut u64,
        work_len: usize,
        profile: *const f64,
        profile_len: usize,
    ) -> ValuesAnswer;
    pub fn chukkanalli_exploitability(
        game: u64,
        seats: u64,
        work: *mut u64,
        work_len: usize,
        profile: *const f64,
        profile_len: usize,
    ) -> ValuesAnswer;
}
