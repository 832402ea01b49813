//! Every command on bad input: a sentence for each, with document 01's number where it has one, and the right status.

mod common;

use common::{run, run_line, table, Run};
use std::ffi::{OsStr, OsString};
use std::os::unix::ffi::OsStrExt;
use std::process::Command;

const SEATS: &str = "refused with 2: the seat count is outside 2 to 10 for Kuhn, or not 2 for Leduc";
const TREE: &str = "refused with 3: the tree has more than 4,000,000 nodes, which is Kuhn with 7 to 10 seats";
const PARTS: &str =
    "refused with 6: D, the parts per set, is 0, or above 64 (Leduc, Kuhn 2 to 4) or above 16 (Kuhn 5 and 6)";
const LENGTH: &str = "refused with 7: the table's or profile's length is not exactly the entry count";
const SUM: &str = "refused with 8: in some set the parts do not add up to D";
const ABOVE_64_BITS: &str = "18446744073709551616";

/// A command line that asks the same of each command with a D.
fn lines(game: &str, seats: &str, d: &str) -> [(&'static str, String); 4] {
    [
        ("evaluate", format!("evaluate {game} {seats} {d} samples/always-pass.txt")),
        ("ladder", format!("ladder {game} {seats} {d} samples/always-pass.txt nowhere.txt")),
        ("reply", format!("reply {game} {seats} {d} samples/always-pass.txt 0")),
        ("template", format!("template {game} {seats} {d}")),
    ]
}

/// Bad use: nothing on stdout, the sentence and where to read more on stderr.
fn misused(verb: &str, sentence: &str) -> Run {
    let err = format!("chukkanalli: {verb}: {sentence}\nchukkanalli: `chukkanalli {verb} --help` says more\n");
    Run { status: 2, out: String::new(), err }
}

/// All commands with a D call this bad use.
fn parts_misused(game: &str, seats: &str, d: &str, sentence: &str) {
    for (verb, line) in lines(game, seats, d) {
        assert_eq!(run_line(&line), misused(verb, sentence), "{line}");
    }
}

/// All commands call this game or seat count bad use.
fn all_misused(game: &str, seats: &str, d: &str, sentence: &str) {
    parts_misused(game, seats, d, sentence);
    assert_eq!(run(["f64", game, seats, "nowhere.txt"]), misused("f64", sentence));
}

/// A refused table: nothing on stdout, the sentence with the file on stderr.
fn refused(complaint: &str) -> Run {
    Run { status: 1, out: String::new(), err: format!("chukkanalli: {complaint}\n") }
}

/// The commands refuse this table of Kuhn 2 with D 1; `behind` follows its name.
fn all_refused(path: &str, behind: &str) {
    all_refused_as(path, &format!("{path}{behind}"));
}

fn all_refused_as(path: &str, complaint: &str) {
    assert_eq!(run(["evaluate", "kuhn", "2", "1", path]), refused(complaint));
    assert_eq!(run(["reply", "kuhn", "2", "1", path, "1"]), refused(complaint));
    let ladder = run(["ladder", "kuhn", "2", "1", path]);
    let out = format!("Kuhn with 2 seats, D 1\n\nnot ranked:\n{complaint}\n");
    assert_eq!(ladder, Run { out, ..refused(complaint) });
}

#[test]
fn unknown_games_are_refused_with_1() {
    let sentence = |shown: &str| {
        format!("GAME is '{shown}': refused with 1: the game is neither Kuhn nor Leduc; write kuhn or leduc")
    };
    for game in ["chess", "kuhn2", "kühn", "0", "1", "leduc\u{200b}"] {
        let sentence = sentence(&game.replace('\u{200b}', "\\u{200b}"));
        all_misused(game, "2", "1", &sentence);
        all_misused(game, "99", "0", &sentence);
    }
    let empty = run(["template", "", "2", "1"]);
    assert_eq!(empty, misused("template", &sentence("")));
    let bytes = run([OsStr::new("template"), OsStr::from_bytes(b"\xff"), OsStr::new("2"), OsStr::new("1")]);
    assert_eq!(bytes, misused("template", &sentence("\u{fffd}")));
}

#[test]
fn seat_counts_are_refused_with_2_and_3() {
    for seats in ["0", "1", "11", "258", "4294967298", "18446744073709551615", ABOVE_64_BITS, "18446744073709551618"] {
        all_misused("kuhn", seats, "1", &format!("SEATS is '{seats}': {SEATS}"));
        all_misused("leduc", seats, "1", &format!("SEATS is '{seats}': {SEATS}"));
        all_misused("kuhn", seats, "0", &format!("SEATS is '{seats}': {SEATS}"));
    }
    all_misused("leduc", "3", "1", &format!("SEATS is '3': {SEATS}"));
    for seats in ["7", "8", "9", "10", "007"] {
        all_misused("kuhn", seats, "1", &format!("SEATS is '{seats}': {TREE}"));
    }
}

#[test]
fn parts_per_set_are_refused_with_6() {
    for d in ["0", "65", "256", "257", "4294967297", "18446744073709551615", ABOVE_64_BITS, "18446744073709551617"] {
        parts_misused("kuhn", "2", d, &format!("D is '{d}': {PARTS}"));
        parts_misused("leduc", "2", d, &format!("D is '{d}': {PARTS}"));
    }
    parts_misused("kuhn", "5", "17", &format!("D is '17': {PARTS}"));
    parts_misused("kuhn", "6", "64", &format!("D is '64': {PARTS}"));
}

#[test]
fn seats_are_refused_with_5() {
    let sentence = |seat: &str| format!("SEAT is '{seat}': refused with 5: the seat is not below the seat count");
    for seat in ["2", "6", "256", "4294967296", "18446744073709551615", ABOVE_64_BITS] {
        let run = run_line(&format!("reply kuhn 2 1 samples/always-pass.txt {seat}"));
        assert_eq!(run, misused("reply", &sentence(seat)));
    }
    assert_eq!(run_line("reply kuhn 6 16 nowhere.txt 6"), misused("reply", &sentence("6")));
    assert_eq!(run_line("reply leduc 2 1 nowhere.txt 2"), misused("reply", &sentence("2")));
    assert_eq!(run_line("reply kuhn 2 0 nowhere.txt 2"), misused("reply", &sentence("2")));
}

#[test]
fn what_is_no_number_is_bad_use() {
    for word in ["two", "-1", "+2", "2.0", "2^64", "0x2"] {
        parts_misused("kuhn", "2", word, &format!("D is '{word}', and a whole number without a sign is needed"));
        let sentence = format!("SEATS is '{word}', and a whole number without a sign is needed");
        assert_eq!(run(["template", "kuhn", word, "1"]), misused("template", &sentence));
        assert_eq!(run(["reply", "kuhn", word, "1", "t", "0"]), misused("reply", &sentence));
    }
    for word in ["-1", "+2"] {
        all_misused("kuhn", word, "1", &format!("SEATS is '{word}', and a whole number without a sign is needed"));
    }
    // Where the second word is no whole number, GAME SEATS D are left out and all words are files.
    for word in ["two", "2.0", "2^64", "0x2"] {
        let sentence = "there is no file kuhn; where that is the game, SEATS follows it";
        assert_eq!(run(["evaluate", "kuhn", word, "1", "t"]), misused("evaluate", sentence));
        assert_eq!(run(["ladder", "Kuhn", word]), misused("ladder", &sentence.replace("kuhn", "Kuhn")));
    }
    let seat = run_line("reply kuhn 2 1 samples/always-pass.txt -1");
    assert_eq!(seat, misused("reply", "SEAT is '-1', and a whole number without a sign is needed"));
}

#[test]
fn command_lines_that_say_too_little_or_too_much_are_bad_use() {
    let names = "evaluate, ladder, reply, explain, improve, template, f64";
    let all = |sentence: String| Run {
        status: 2,
        out: String::new(),
        err: format!("chukkanalli: {sentence}\nchukkanalli: `chukkanalli --help` says more\n"),
    };
    assert_eq!(run_line(""), all(format!("a command is missing; there are {names}")));
    assert_eq!(run_line("solve kuhn 2 1"), all(format!("'solve' is no command; there are {names}")));
    assert_eq!(run([""]), all(format!("'' is no command; there are {names}")));
    assert_eq!(run_line("evaluate kuhn 2 1"), misused("evaluate", "TABLE is missing"));
    assert_eq!(run_line("reply kuhn 2 1 samples/always-pass.txt"), misused("reply", "SEAT is missing"));
    assert_eq!(run_line("f64 kuhn 2"), misused("f64", "PROFILE is missing"));
    assert_eq!(run_line("f64 kuhn 2 1 p"), misused("f64", "'p' is one argument too many"));
    let surplus = run_line("reply kuhn 2 1 samples/always-pass.txt 0 1");
    assert_eq!(surplus, misused("reply", "'1' is one argument too many"));
    let option = run_line("evaluate kuhn 2 1 --fast");
    assert_eq!(option, misused("evaluate", "there is no option '--fast'; write -- before a file of that name"));
    assert_eq!(run_line("evaluate kuhn 2 1 -- --fast"), refused("--fast: there is no such file"));
    let jobs = run_line("ladder kuhn 2 1 x --jobs -1");
    assert_eq!(jobs, misused("ladder", "--jobs is '-1', and a number from 1 is needed"));
}

#[test]
fn files_of_the_wrong_length_are_refused_with_7() {
    let has = |count: usize| format!("{LENGTH}: {count} numbers, and Kuhn with 2 seats has 24 entries");
    let one = format!(":1: {LENGTH}: 1 number, and Kuhn with 2 seats has 24 entries");
    all_refused(&table("one.txt", "1"), &one);
    all_refused(&table("empty.txt", ""), &format!(": {}", has(0)));
    all_refused("/dev/null", &format!(": {}", has(0)));
    all_refused(&table("mark.txt", "\u{feff}"), &format!(": {}", has(0)));
    all_refused(&table("comments.txt", "# a\n# b\n"), &format!(":2: {}", has(0)));
    all_refused(&table("short.txt", "1 0\n".repeat(11) + "1\n"), &format!(":12: {}", has(23)));
    all_refused(&table("long.txt", "1 0\n".repeat(12) + "\n1 # more\n1"), &format!(":14: {}", has(26)));
    all_refused(&table("twice.txt", "1 0\n".repeat(24)), &format!(":13: {}", has(48)));
}

#[test]
fn files_with_a_wrong_sum_are_refused_with_8() {
    let first = "1 0\n".repeat(3);
    let set = "set 3 (seat 1, card 1, after BET)";
    let rest = "1 0\n".repeat(8);
    for (parts, added) in [("1 1", "1 + 1 = 2"), ("0 0", "0 + 0 = 0"), ("255 2", "255 + 2 = 257")] {
        let file = table(&format!("sum-{}.txt", parts.replace(' ', "-")), format!("{first}{parts}\n{rest}"));
        all_refused(&file, &format!(":4: {SUM}: {set} has {added}, and D is 1"));
    }
    let leduc = run_line("template leduc 2 2").out.replace("\n0 ", "\n2 ").replacen("2 0 0 ", "1 1 1 ", 1);
    let file = table("sum-leduc.txt", leduc);
    let words = "set 4 (seat 0, card 0 (rank 0), public card 2 (rank 1), after CALL CALL, in round 2 after CALL RAISE)";
    let complaint = format!("{file}:9: {SUM}: {words} has 1 + 1 + 1 = 3, and D is 2");
    assert_eq!(run(["evaluate", "leduc", "2", "2", &file]), refused(&complaint));
}

#[test]
fn files_that_hold_something_else_are_told_with_the_line() {
    let range = "and a part is a whole number from 0 to 255";
    all_refused(&table("above.txt", "1 0\n1 256\n"), &format!(":2: '256' is above 255, {range}"));
    let far = format!(":1: '{ABOVE_64_BITS}' is above 255, {range}");
    all_refused(&table("far.txt", ABOVE_64_BITS), &far);
    all_refused(&table("negative.txt", "1 0\r\n\r\n-1 2\r\n"), &format!(":3: '-1' is negative, {range}"));
    all_refused(&table("words.txt", "# a\none"), &format!(":2: 'one' is not a whole number, {range}"));
    let decimals = ": how many of the D parts of its set go to the action; `chukkanalli f64` takes decimals";
    all_refused(&table("half.txt", "0.5 0.5"), &format!(":1: '0.5' is not a whole number, {range}{decimals}"));
    all_refused(&table("bytes.txt", b"1 0\n\xff\xfe"), ":2: this is not text: the byte 255 is not UTF-8");
    all_refused(&table("nul.txt", b"1 0\0"), ":1: this is not text: it has the control character 0");
    all_refused(&table("escape.txt", b"# \x1b[31m\n"), ":1: this is not text: it has the control character 27");
}

#[test]
fn profiles_are_refused_with_7_or_told_with_the_line() {
    let given = |name: &str, bytes: &[u8], behind: &str| {
        let file = table(name, bytes);
        assert_eq!(run(["f64", "kuhn", "2", &file]), refused(&format!("{file}{behind}")));
    };
    let has = |count: usize| format!("{LENGTH}: {count} numbers, and Kuhn with 2 seats has 24 entries");
    given("no-profile.txt", b"", &format!(": {}", has(0)));
    given("short-profile.txt", "NaN\n".repeat(23).as_bytes(), &format!(":23: {}", has(23)));
    given("long-profile.txt", "0.5 inf\n".repeat(13).as_bytes(), &format!(":13: {}", has(26)));
    let needed = "is not a number, and a decimal number, inf, -inf or NaN is needed";
    given("word-profile.txt", b"0.5 0.5\n0.5 half", &format!(":2: 'half' {needed}"));
    given("comma-profile.txt", b"# a\r\n0,5 0,5", &format!(":2: '0,5' {needed}; a decimal number has a point, as 0.5"));
    given("fraction-profile.txt", b"1/3 1/3", &format!(":1: '1/3' {needed}; write it as a decimal number, as 0.5"));
    given("bytes-profile.txt", b"0.5\n\xff\xfe", ":2: this is not text: the byte 255 is not UTF-8");
    given("nul-profile.txt", b"0.5\0", ":1: this is not text: it has the control character 0");
}

#[test]
fn profiles_that_are_no_file_are_told() {
    assert_eq!(run_line("f64 kuhn 2 nowhere.txt"), refused("nowhere.txt: there is no such file"));
    assert_eq!(run_line("f64 kuhn 2 samples"), refused("samples: this is a folder, not a profile"));
    let endless = "/dev/zero: this is no profile: it has more than 16777216 bytes";
    assert_eq!(run_line("f64 leduc 2 /dev/zero"), refused(endless));
    assert_eq!(run(["f64", "kuhn", "2", ""]), refused("'': there is no such file"));
}

#[test]
fn files_that_are_none_are_told() {
    all_refused("nowhere.txt", ": there is no such file");
    assert_eq!(run_line("reply kuhn 2 1 samples 0"), refused("samples: this is a folder, not a table"));
    all_refused("samples/always-pass.txt/x", ": this file cannot be read: Not a directory (os error 20)");
    all_refused("/dev/zero", ": this is no table: it has more than 16777216 bytes");
    assert_eq!(run(["evaluate", "kuhn", "2", "1", ""]), refused("'': there is no such file"));
    let odd: [OsString; 5] =
        [b"evaluate".as_slice(), b"kuhn", b"2", b"1", b"a\xffb\n"].map(|arg| OsStr::from_bytes(arg).to_os_string());
    assert_eq!(run(odd), refused("a\\xffb\\n: there is no such file"));
    all_refused_as("it's \u{202e}a\u{2028}b", r"it's \u{202e}a\u{2028}b: there is no such file");
}

#[test]
fn too_little_memory_is_refused_with_4() {
    let line = "ulimit -v 150000; exec \"$0\" evaluate kuhn 6 16 nowhere.txt";
    let output = Command::new("sh").args(["-c", line, env!("CARGO_BIN_EXE_chukkanalli")]).output().unwrap();
    let memory = "refused with 4: the work memory has fewer than 12 words of 64 bits per node of the tree";
    assert_eq!(Run::from(output), refused(&format!("there is too little memory: {memory}")));
}

#[test]
fn tables_after_a_refused_one_are_evaluated_all_the_same() {
    let short = table("before.txt", "1 0");
    let alone = run_line("evaluate kuhn 2 1 samples/always-pass.txt");
    let both = run(["evaluate", "kuhn", "2", "1", &short, "samples/always-pass.txt", "nowhere.txt"]);
    assert_eq!((both.status, &both.out), (1, &alone.out));
    assert_eq!(both.err.lines().count(), 2);
}
