//! `ladder --from-json`: the standing of records that several processes printed is that of the tables.

mod common;

use std::fs;
use std::io::Write;
use std::process::Stdio;

use common::{folder, program, run, run_line, table, Run};

/// Some tables of Kuhn 2 with D 3, equal ones and refused ones among them, in the order of a list.
fn hand_ins() -> Vec<String> {
    let folder = folder("records-class");
    let mut names = Vec::new();
    for k in 0..24 {
        let parts = |set: usize| (k % 9 * set + k % 5) % 4;
        let text = match k {
            5 => "1 0\n".repeat(12),
            11 => "x\n".repeat(30),
            _ => (0..12).map(|set| format!("{} {}\n", parts(set), 3 - parts(set))).collect(),
        };
        let path = folder.join(format!("table {k:02} \"é\".txt"));
        fs::write(&path, text).unwrap();
        names.push(path.to_str().unwrap().to_string());
    }
    names.push(folder.join("missing.txt").to_str().unwrap().to_string());
    names
}

/// Evaluates a part of the list in a process of its own, as another machine does.
fn evaluated(names: &[String]) -> String {
    let mut command = program();
    command.args(["evaluate", "kuhn", "2", "3", "--format", "json", "--files-from", "-"]);
    let mut child = command.stdin(Stdio::piped()).stdout(Stdio::piped()).stderr(Stdio::null()).spawn().unwrap();
    child.stdin.take().unwrap().write_all(names.join("\n").as_bytes()).unwrap();
    String::from_utf8(child.wait_with_output().unwrap().stdout).unwrap()
}

#[test]
fn four_processes_give_the_same_ladder_to_the_byte() {
    let names = hand_ins();
    let records: String = names.chunks(7).map(evaluated).collect();
    assert_eq!((names.len().div_ceil(7), records.lines().count()), (4, names.len()));
    let file = table("records.json", &records);
    for format in ["text", "csv", "json"] {
        let front = ["ladder", "kuhn", "2", "3", "--format", format].map(str::to_string);
        let whole = run([&front[..], &names].concat());
        assert_eq!(whole.status, 1);
        assert!(format != "text" || whole.out.contains(", same table as "), "{}", whole.out);
        assert_eq!(run(["ladder", "--from-json", &file, "--format", format]), whole, "{format}");
    }
    let (one, two) = records.split_at(records[..records.len() / 2].rfind('\n').unwrap() + 1);
    let files = [table("records-1.json", one), table("records-2.json", two)];
    let whole = run(["ladder", "--from-json", &file]);
    assert_eq!(run(["ladder", "--from-json", &files[0], &files[1]]), whole);
}

#[test]
fn records_that_are_none_are_refused() {
    let good = run_line("evaluate kuhn 2 3 samples/equilibrium.txt --format json").out;
    let said = |name: &str, text: String| {
        let told = run(["ladder", "--from-json", &table(name, text)]);
        assert_eq!((told.status, told.out.as_str()), (1, ""));
        told.err
    };
    let other = said("other.json", good.clone() + &good.replacen("\"version\":\"", "\"version\":\"9.", 1));
    assert!(other.contains("other.json:2: this record is of version 9."), "{other}");
    assert!(said("none.json", "rank,NashConv\n".to_string()).contains("none.json:1: this is no record of "));
    assert!(said("empty.json", "\n".to_string()).contains("there is no record"));
    let reply = run_line("reply kuhn 2 3 samples/equilibrium.txt 0 --format json").out;
    assert!(said("reply.json", reply).contains("this record is not one of `evaluate` or `ladder`"));
    let leduc = run_line("evaluate kuhn 2 1 samples/always-pass.txt --format json").out;
    let mixed = said("mixed.json", good + &leduc);
    assert!(
        mixed.contains(
            "mixed.json:2: this record is of Kuhn with 2 seats, D 1, and the first of Kuhn with 2 seats, D 3"
        ),
        "{mixed}"
    );
    let misuse: Run = run_line("ladder --from-json x --html y");
    assert!(
        misuse.status == 2 && misuse.err.contains("--from-json takes records, and --html is for tables"),
        "{}",
        misuse.err
    );
    assert_eq!(run_line("ladder --from-json nowhere.json").status, 1);
}
