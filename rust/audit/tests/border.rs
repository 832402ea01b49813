//! The border to C as it is, and damaged copies of it: each damage is found.

use std::sync::LazyLock;

use audit::border::{complaints, counted};
use audit::files::Files;

const HEADER: &str = "include/chukkanalli.h";
const EXPORTS: &str = "rust/chukkanalli/src/exports.rs";
const ARCHIVE: &str = "rust/chukkanalli/src/archive.rs";
const REFUSAL: &str = "rust/chukkanalli/src/refusal.rs";
const KUHN: &str = "rust/chukkanalli/src/kuhn.rs";
const LEDUC: &str = "rust/chukkanalli/src/leduc.rs";
const API: &str = "docs/API.md";
const CASES: &str = "compare/cases.c";
const UNITS: &str = "crates/chukkanalli/src/units_calls.rt";
const TWINS: &str = "crates/c_structs/src/of_kuhn.rt";
const NUMBERS: &str = "crates/refusals/src/lib.rt";
const SENTENCES: &str = "crates/refusals/specs/Refusals.antt";

static FILES: LazyLock<Files> = LazyLock::new(Files::of_repository);

#[test]
fn each_place_says_what_crates_exports() {
    let files = &FILES;
    let (calls, structs, constants) = counted(files).expect("crates/ can be read");
    println!("the border to C: {calls} calls, {structs} structs, {constants} constants");
    assert!(calls > 1 && structs > 1 && constants > 1);
    assert_eq!(complaints(files), Vec::<String>::new());
}

/// A copy in which a text that stands once gives way to another has a complaint that says this.
#[track_caller]
fn found(path: &str, old: &str, new: &str, said: &str) {
    let complaints = complaints(&FILES.replaced(path, old, new));
    assert!(complaints.iter().any(|complaint| complaint.contains(said)), "{said:?} is not in {complaints:#?}");
}

#[test]
fn exchanged_fields_are_found() {
    let position = "    uint64_t dealt;\n    uint8_t history[19];\n";
    found(
        HEADER,
        position,
        "    uint8_t history[19];\n    uint64_t dealt;\n",
        "field 1 of chukkanalli_kuhn_position is history",
    );
    found(
        HEADER,
        "    uint64_t nash_conv;\n    uint64_t units;\n",
        "    uint64_t units;\n    uint64_t nash_conv;\n",
        "field 1",
    );
    let dealt = "    pub dealt: u64,\n    pub history: [u8; 19],\n";
    found(KUHN, dealt, "    pub history: [u8; 19],\n    pub dealt: u64,\n", "exports.rs: field 1 of KuhnPosition");
    found(
        ARCHIVE,
        "    pub nodes: u64,\n    pub sets: u64,\n",
        "    pub sets: u64,\n    pub nodes: u64,\n",
        "field 1 of ListingAnswer",
    );
    found(TWINS, dealt, "    pub history: [u8; 19],\n    pub dealt: u64,\n", "chukkanalli.h: field 1");
}

#[test]
fn wrong_types_are_found() {
    found(
        HEADER,
        "    uint64_t refusal;\n    int64_t value;",
        "    uint64_t refusal;\n    uint64_t value;",
        "field value of chukkanalli_reply_answer",
    );
    found(HEADER, "uint8_t history[19];", "uint8_t history[18];", "field history of chukkanalli_kuhn_position");
    found(HEADER, "enum { CHUKKANALLI_TREE_SEATS = 6 };", "enum { CHUKKANALLI_TREE_SEATS = 7 };", "field worths of");
    found(HEADER, "double values[CHUKKANALLI_TREE_SEATS]", "int64_t values[CHUKKANALLI_TREE_SEATS]", "field values of");
    found(HEADER, "const uint64_t *work", "uint64_t *work", "parameter work of chukkanalli_enumerate_infosets");
    found(
        HEADER,
        "uint64_t chukkanalli_kuhn_validate(",
        "uint8_t chukkanalli_kuhn_validate(",
        "the result of chukkanalli_kuhn_validate",
    );
    found(
        HEADER,
        "chukkanalli_leduc_position position, uint64_t done",
        "chukkanalli_leduc_position position, uint8_t done",
        "parameter done of",
    );
    found(EXPORTS, "work: *const u64", "work: *mut u64", "parameter work of chukkanalli_enumerate_infosets");
    found(
        EXPORTS,
        "position: LeducPosition, action: u64",
        "position: LeducPosition, action: u8",
        "parameter action of",
    );
    found(EXPORTS, "position: LeducPosition, action: u64", "position: KuhnPosition, action: u64", "is KuhnPosition");
    found(ARCHIVE, "work: &[u64], out: &mut [u8]", "work: &mut [u64], out: &mut [u8]", "archive.rs: parameter work of");
    found(ARCHIVE, "    pub worths: [i64; 6],", "    pub worths: [i64; 7],", "field worths of WorthsAnswer");
    found(
        UNITS,
        "    d: u64,\n    table: &[u8],\n    out: &mut [u8],",
        "    d: u64,\n    table: &[u64],\n    out: &mut [u8],",
        "parameter table of chukkanalli_best_reply",
    );
}

#[test]
fn missing_and_additional_calls_are_found() {
    let call = "chukkanalli_leduc_payoffs chukkanalli_leduc_payouts(chukkanalli_leduc_position position);\n";
    found(HEADER, call, "", "chukkanalli_leduc_payouts is missing");
    found(
        HEADER,
        call,
        &format!("{call}uint64_t chukkanalli_more(void);\n"),
        "chukkanalli_more is no export of crates/",
    );
    let line = "    pub fn chukkanalli_leduc_payouts(position: LeducPosition) -> Payoffs<LeducPosition>;\n";
    found(EXPORTS, line, "", "exports.rs: chukkanalli_leduc_payouts is missing");
    found(
        EXPORTS,
        line,
        &format!("{line}    pub fn chukkanalli_more() -> u64;\n"),
        "exports.rs: chukkanalli_more is no export",
    );
    found(ARCHIVE, "pub fn leduc_payouts(", "fn leduc_payouts(", "archive.rs: chukkanalli_leduc_payouts is missing");
    found(
        ARCHIVE,
        "exports::chukkanalli_leduc_payouts(position)",
        "exports::chukkanalli_leduc_payout(position)",
        "calls",
    );
    found(
        API,
        "| `leduc_payouts` | position",
        "| `leduc_payoffs` | position",
        "API.md: chukkanalli_leduc_payouts is missing",
    );
    found(API, "| `leduc_payouts` | position", "| `leduc_payoffs` | position", "chukkanalli_leduc_payoffs is no call");
    found(CASES, "chukkanalli_leduc_initial_state()", "start()", "chukkanalli_leduc_initial_state is not called");
    let kept = FILES.replaced(CASES, "chukkanalli_kuhn_validate(((uint64_t)1 << 32) + 2)", "seats(2)");
    assert_eq!(complaints(&kept), Vec::<String>::new());
    found(
        UNITS,
        "chukkanalli_best_reply(",
        "chukkanalli_best_answer(",
        "chukkanalli.h: chukkanalli_best_answer is missing",
    );
    found(
        UNITS,
        "chukkanalli_best_reply(",
        "chukkanalli_best_answer(",
        "cases.c: chukkanalli_best_answer is not called",
    );
    found(
        UNITS,
        "#[unsafe(no_mangle)]\npub extern \"C\" fn chukkanalli_worths(",
        "pub extern \"C\" fn chukkanalli_worths(",
        "an export in part",
    );
    found(
        UNITS,
        "#[unsafe(no_mangle)]\npub extern \"C\" fn chukkanalli_worths(",
        "#[no_mangle]\npub extern \"C\" fn chukkanalli_worths(",
        "an export in part",
    );
}

#[test]
fn parameters_in_another_order_or_under_another_name_are_found() {
    let deal = "chukkanalli_leduc_apply_chance_node(chukkanalli_leduc_position position, uint64_t outcome)";
    found(
        HEADER,
        deal,
        "chukkanalli_leduc_apply_chance_node(uint64_t outcome, chukkanalli_leduc_position position)",
        "parameter 0",
    );
    found(
        HEADER,
        "position, uint64_t outcome);\n\n/* Step of the seat whose turn it is; every",
        "position, uint64_t card);\n\n/* Step of the seat whose turn it is; every",
        "is card, and outcome",
    );
    found(
        EXPORTS,
        "        seats: u64,\n        work: *const u64,\n",
        "        work: *const u64,\n        seats: u64,\n",
        "parameter 1",
    );
    found(
        ARCHIVE,
        "pub fn kuhn_step(seats: u64, position: KuhnPosition, action: u64)",
        "pub fn kuhn_step(seats: u64, action: u64, position: KuhnPosition)",
        "parameter 1",
    );
}

#[test]
fn wrong_constants_are_found() {
    found(HEADER, "CHUKKANALLI_RECORD = 24", "CHUKKANALLI_RECORD = 25", "RECORD is 25, and 24 in crates/");
    found(HEADER, "CHUKKANALLI_NO_CARD = 255", "CHUKKANALLI_NO_CARD = 254", "NO_CARD is 254");
    found(HEADER, "CHUKKANALLI_CARD = 11,", "CHUKKANALLI_CARD = 12,", "CARD is 12, and 11");
    found(HEADER, "CHUKKANALLI_PASS = 0, CHUKKANALLI_BET = 1", "CHUKKANALLI_PASS = 0", "BET is missing");
    found(
        HEADER,
        "enum { CHUKKANALLI_RECORD = 24 };",
        "enum { CHUKKANALLI_RECORD = 24 };\nenum { CHUKKANALLI_MORE = 1 };",
        "MORE is no constant",
    );
    found(LEDUC, "pub const NO_CARD: u8 = 255;", "pub const NO_CARD: u8 = 0;", "LeducPoker::NO_CARD is 0, and 255");
    found(NUMBERS, "    Card,\n", "    Card = 21,\n", "the numbers are");
    found(NUMBERS, "    Card,\n    CardTwice,\n", "    CardTwice,\n    Card,\n", "the numbers are");
    found(NUMBERS, "    Game = 1,\n", "    Game = 2,\n", "the numbers are");
    found(NUMBERS, "    Game = 1,\n", "    Game,\n", "the first variant has no number");
    found(NUMBERS, "    Card,\n", "    Card(u8),\n", "\",\" is expected");
    found(NUMBERS, "    Card,\n", "    Card,\n    Card,\n", "Card stands twice");
    found(NUMBERS, "pub enum Refusal {", "pub enum Reason {", "the one public enum Refusal is expected");
    found(NUMBERS, "pub enum Refusal {", "enum Refusal {", "the one public enum Refusal is expected");
    found(
        NUMBERS,
        "impl From<Refusal> for u64 {\n",
        "impl Refusal {\n    pub const CARD: u64 = 11;\n}\n\nimpl From<Refusal> for u64 {\n",
        "the one public enum Refusal is expected",
    );
    found(
        NUMBERS,
        "impl From<Refusal> for u64 {\n",
        "pub const CARD: u64 = 11;\n\nimpl From<Refusal> for u64 {\n",
        "the one public enum Refusal is expected",
    );
    found(SENTENCES, "\ncard = 11\n", "\ncard = 21\n", "the numbers are");
    found(REFUSAL, "    Card = 11, ", "    Card = 12, ", "(\"Card\", 12");
}

#[test]
fn wrong_sentences_are_found() {
    let (right, wrong) = ("a card appears twice", "a card appears again");
    found(HEADER, right, wrong, "CARD_TWICE is \"a card appears again\"");
    found(REFUSAL, right, wrong, "refusal.rs: Some((\"CardTwice\", 12, \"a card appears again\"))");
    found(API, right, wrong, "API.md: Some((\"12\", \"a card appears again\"))");
    found(SENTENCES, right, wrong, "in crates/");
    found(API, "| 12 | a card appears twice |\n", "", "API.md");
    found(REFUSAL, "    Unfit = 20, \"the call does not fit the position\";\n", "", "refusal.rs: None");
    found(HEADER, " /* a card appears twice */", "", "CARD_TWICE is \"\"");
}

#[test]
fn a_number_more_must_stand_in_every_place() {
    let files = FILES.replaced(NUMBERS, "    Unfit,\n", "    Unfit,\n    Late,\n");
    let files = files.replaced(
        SENTENCES,
        "unfit = 20\n",
        "unfit = 20\n\n-- the call is late\nabbrev pub late : ℕ\nlate = 21\n",
    );
    let said = complaints(&files);
    for place in [HEADER, REFUSAL, API] {
        assert!(said.iter().any(|complaint| complaint.starts_with(place)), "{place} is not in {said:#?}");
    }
    let files = files.replaced(CASES, "CONSTANT(UNFIT, 20);\n", "CONSTANT(UNFIT, 20);\nCONSTANT(LATE, 21);\n");
    let last = "CHUKKANALLI_UNFIT = 20         /* the call does not fit the position */";
    let files = files.replaced(
        HEADER,
        last,
        &format!("{},\nCHUKKANALLI_LATE = 21 /* the call is late */", last.replace("20 ", "20, ")).replace("*/,", "*/"),
    );
    let files = files.replaced(
        REFUSAL,
        "\"the call does not fit the position\";\n",
        "\"the call does not fit the position\";\n    Late = 21, \"the call is late\";\n",
    );
    let files = files.replaced(
        API,
        "| 20 | the call does not fit the position |\n",
        "| 20 | the call does not fit the position |\n| 21 | the call is late |\n",
    );
    assert_eq!(complaints(&files), Vec::<String>::new());
}

#[test]
fn what_cases_asserts_of_the_header_is_whole() {
    found(CASES, "CONSTANT(RAISE, 2);\n", "", "cases.c: CONSTANT(RAISE, ..) is missing");
    found(CASES, "CONSTANT(RAISE, 2);", "CONSTANT(RAISE, CHUKKANALLI_RAISE);", "CONSTANT(RAISE, ..) is missing");
    found(CASES, "SIZE(listing, 24);\n", "", "cases.c: SIZE(listing, ..) is missing");
    found(CASES, "FIELD(listing, sets, 16, 8);\n", "", "cases.c: FIELD(listing, sets, ..) is missing");
    found(
        HEADER,
        "    uint64_t sets;\n",
        "    uint64_t sets;\n    uint64_t entries;\n",
        "cases.c: FIELD(listing, entries, ..) is missing",
    );
}

#[test]
fn wrong_arguments_and_refusals_of_a_description_are_found() {
    found(
        API,
        "| `leduc_step` | position, action | 19, 20 |",
        "| `leduc_step` | action, position | 19, 20 |",
        "chukkanalli_leduc_step takes",
    );
    found(
        API,
        "| `leduc_step` | position, action | 19, 20 |",
        "| `leduc_step` | action | 19, 20 |",
        "leaves out \"position\"",
    );
    found(
        API,
        "| `leduc_step` | position, action | 19, 20 |",
        "| `leduc_step` | position, action | 19 |",
        "chukkanalli.h: chukkanalli_leduc_step refuses with",
    );
    found(
        HEADER,
        "Refuses with 10 to 18. */",
        "Refuses with 10 to 17. */",
        "chukkanalli.h: chukkanalli_leduc_validate_decoded_state",
    );
    found(
        ARCHIVE,
        "/// Refuses with 10 to 18.",
        "/// Refuses.",
        "archive.rs: chukkanalli_leduc_validate_decoded_state",
    );
}

#[test]
fn what_cannot_be_read_is_no_agreement() {
    found(HEADER, "/* ---- Leduc */", "#pragma pack(1)", "a directive that is not known");
    found(HEADER, "} chukkanalli_kuhn_moved;", "} __attribute__((packed)) chukkanalli_kuhn_moved;", "chukkanalli.h:");
    found(HEADER, "    uint8_t public_card;", "    unsigned char public_card;", "unsigned is no type that is known");
    found(KUHN, "#[repr(C)]", "#[repr(C, packed)]", "a layout that C does not know");
    found(KUHN, "#[repr(C)]\n", "", "KuhnPosition is no struct with C's layout");
    found(TWINS, "// A position.\n#[repr(C)]\n", "// A position.\n", "KuhnPosition has no layout that C knows");
    found(
        TWINS,
        "// A position.\n#[repr(C)]\n",
        "// A position.\n#[repr(C, packed)]\n",
        "KuhnPosition has no layout that C knows",
    );
    found(UNITS, ") -> WorthsAnswer", ") -> &WorthsAnswer", "units_calls.rt:");
    found(EXPORTS, "extern \"C\" {", "extern \"C-unwind\" {", "an extern block is for C");
    found(API, "| number | refused because |", "| number | reason |", "a table of no known columns");
}
