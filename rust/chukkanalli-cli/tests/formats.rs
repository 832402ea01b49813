//! What software reads: every record is what docs/output.schema.json says, and what the host adds to the calls' numbers is exact.

mod common;

use std::fs;
use std::sync::atomic::{AtomicUsize, Ordering};

use common::json::{Json, Schema};
use common::{root, run, run_line, table, Run};

fn schema() -> Schema {
    Schema::parse(&fs::read_to_string(root().join("docs/output.schema.json")).unwrap())
}

/// The records of a run, each valid.
fn records(run: &Run) -> Vec<Json> {
    let schema = schema();
    let records: Vec<Json> = run.out.lines().map(Json::parse).collect();
    for record in &records {
        assert_eq!(schema.fault(record), None, "{record:?}");
    }
    records
}

/// How often tables were written, so that no two tests write the same files.
static WRITTEN: AtomicUsize = AtomicUsize::new(0);

/// Tables of a game that differ, none of them with equal parts in all sets.
fn tables(game: &str, seats: u64, d: u64, count: u64) -> Vec<String> {
    let template = run_line(&format!("template {game} {seats} {d}")).out;
    let (mut seed, time) = (seats + d, WRITTEN.fetch_add(1, Ordering::Relaxed));
    let mut draw = |below: u64| {
        seed = seed.wrapping_mul(6364136223846793005).wrapping_add(1442695040888963407);
        (seed >> 33) % below
    };
    let mut write = |k: u64| {
        let lines = template.lines().map(|line| match line.split_once("  # ") {
            Some((zeros, label)) => {
                let mut left = d;
                let mut parts: Vec<String> = Vec::new();
                for _ in 1..zeros.split_whitespace().count() {
                    let part = draw(left + 1);
                    left -= part;
                    parts.push(part.to_string());
                }
                format!("{} {left} # {label}", parts.join(" "))
            }
            None => line.to_string(),
        });
        let lines: Vec<String> = lines.collect();
        table(&format!("format-{time}-{game}-{seats}-{d}-{k}.txt"), lines.join("\n"))
    };
    (0..count).map(&mut write).collect()
}

fn divisor(a: i128, b: i128) -> i128 {
    if b == 0 {
        a
    } else {
        divisor(b, a % b)
    }
}

/// The two numbers of a fraction, which is in lowest terms.
fn fraction(text: &str) -> (i128, i128) {
    let (over, under) = text.split_once('/').unwrap_or((text, "1"));
    let (over, under): (i128, i128) = (over.parse().unwrap(), under.parse().unwrap());
    assert!(under > 0 && divisor(over.abs(), under) == 1, "{text}");
    assert_eq!(text.contains('/'), under != 1, "{text}");
    (over, under)
}

/// Holds gains, fractions and the decimal of a record to whole numbers, and gives NashConv and U.
fn hold(record: &Json, seats: i128) -> (i128, i128) {
    let (conv, units) = (record.get("nash_conv").whole(), record.get("units").whole());
    let gain = |seat: &Json| {
        let gain = seat.get("best_value").whole() - seat.get("worth").whole();
        assert_eq!(seat.get("gain").whole(), gain);
        gain
    };
    assert_eq!(record.get("seat_values").list().iter().map(gain).sum::<i128>(), conv);
    let (over, under) = fraction(record.get("nash_conv_fraction").text());
    assert_eq!(over * units, conv * under);
    let (over, under) = fraction(record.get("exploitability_fraction").text());
    assert_eq!(over * units * seats, conv * under);
    let Json::Number(decimal) = record.get("nash_conv_decimal") else { panic!("{record:?}") };
    let places: i128 = decimal.replace('.', "").parse().unwrap();
    assert_eq!(decimal.split_once('.').map(|(_, places)| places.len()), Some(9));
    assert!((2 * (places * units - conv * 1_000_000_000)).abs() <= units, "{decimal}");
    (conv, units)
}

#[test]
fn evaluate_and_ladder_tell_exact_figures() {
    for (game, seats, d, count) in [("kuhn", 2, 3, 20), ("kuhn", 3, 64, 10), ("kuhn", 5, 16, 3), ("leduc", 2, 64, 5)] {
        let files = tables(game, seats, d, count);
        let asked = [game.to_string(), seats.to_string(), d.to_string()];
        let with = |verb: &str| {
            let options = ["--format", "json"].map(str::to_string);
            run([&[verb.to_string()][..], &asked, &files, &options].concat())
        };
        let evaluated = with("evaluate");
        assert_eq!((evaluated.status, evaluated.err.as_str()), (0, ""));
        let evaluated = records(&evaluated);
        assert_eq!(evaluated.iter().map(|record| record.get("file").text()).collect::<Vec<_>>(), files);
        let figures: Vec<(i128, i128)> = evaluated.iter().map(|record| hold(record, i128::from(seats))).collect();
        let ladder = records(&with("ladder"));
        assert_eq!(ladder.len(), files.len());
        for record in &ladder {
            let place = files.iter().position(|file| file == record.get("file").text()).unwrap();
            let (conv, units) = hold(record, i128::from(seats));
            assert_eq!((conv, units), figures[place]);
            let less = figures.iter().filter(|(other, all)| other * units < conv * all).count();
            assert_eq!(record.get("rank").whole(), 1 + less as i128);
            assert_eq!(record.get("seat_values"), evaluated[place].get("seat_values"));
        }
        let ranks: Vec<i128> = ladder.iter().map(|record| record.get("rank").whole()).collect();
        assert!(ranks.is_sorted());
    }
}

#[test]
fn numbers_above_2_to_53_are_strings() {
    let file = &tables("leduc", 2, 64, 1)[0];
    let record = &records(&run(["evaluate", "leduc", "2", "64", file, "--format=json"]))[0];
    assert!(matches!(record.get("units"), Json::Text(_)), "{record:?}");
    let record = &records(&run_line("evaluate kuhn 2 1 samples/always-pass.txt --format json"))[0];
    assert!(matches!(record.get("units"), Json::Number(_)), "{record:?}");
}

#[test]
fn a_record_says_what_it_was_made_by_and_of() {
    let version = run_line("--version").out;
    let run = run_line("evaluate kuhn 2 3 samples/one-in-three.txt --format json");
    let record = &records(&run)[0];
    let (number, commit) = (record.get("version").text(), record.get("commit").text());
    assert_eq!(version, format!("chukkanalli {number} (commit {commit})\n"));
    assert!(commit == "unknown" || commit.trim_end_matches("-dirty").len() == 40, "{commit}");
    let texts = ["command", "file", "game", "read_by"].map(|name| record.get(name).text().to_string());
    assert_eq!(texts, ["evaluate", "samples/one-in-three.txt", "kuhn", "labels"]);
    assert_eq!(["seats", "d"].map(|name| record.get(name).whole()), [2, 3]);
    assert_eq!(record.get("nash_conv_fraction").text(), "11/9");
    assert_eq!(record.get("exploitability_fraction").text(), "11/18");
}

#[test]
fn refused_tables_have_a_record_with_every_fault() {
    let odd = table("format-odd.txt", "x 0\n1 y\n");
    let long = table("format-long.txt", "x\n".repeat(30));
    let files = ["samples/always-pass.txt", "nowhere.txt", &odd, &long];
    for verb in ["evaluate", "ladder"] {
        let run = run([&[verb, "kuhn", "2", "3", "--format", "json"][..], &files].concat());
        assert_eq!(run.status, 1);
        let records = records(&run);
        assert_eq!(records.iter().map(|record| record.get("file").text()).collect::<Vec<_>>(), files);
        assert!(records.iter().all(|record| record.get("seat_values").is_null() && record.get("rank").is_null()));
        assert_eq!(records[0].get("refusal").whole(), 8);
        assert_eq!(records[0].get("faults").list()[0].get("line").whole(), 5);
        assert_eq!(records[1].get("sentence").text(), "there is no such file");
        assert!(records[1].get("refusal").is_null() && records[1].get("faults").list()[0].get("line").is_null());
        let lines: Vec<i128> = records[2].get("faults").list().iter().map(|fault| fault.get("line").whole()).collect();
        assert_eq!(lines, [1, 2]);
        assert_eq!((records[3].get("faults").list().len(), records[3].get("more_faults").whole()), (20, 10));
    }
}

#[test]
fn explain_adds_up_to_the_gain_of_each_seat() {
    for (game, seats, d, count) in [("kuhn", 2, 3, 4), ("kuhn", 4, 16, 2), ("leduc", 2, 64, 2)] {
        let files = tables(game, seats, d, count);
        let explained =
            run([&["explain".to_string(), "--format=json".to_string(), "--all".to_string()][..], &files].concat());
        assert_eq!((explained.status, explained.err.as_str()), (0, ""));
        for record in &records(&explained) {
            let (_, units) = hold(record, i128::from(seats));
            let sets = record.get("explained").list();
            for seat in record.get("seat_values").list() {
                let own = sets.iter().filter(|set| set.get("seat") == seat.get("seat"));
                let added: Vec<i128> = own.map(|set| set.get("adds").whole()).collect();
                assert!(added.iter().all(|&adds| adds >= 0));
                assert_eq!(added.iter().sum::<i128>(), seat.get("gain").whole());
            }
            for set in sets {
                let (over, under) = fraction(set.get("adds_fraction").text());
                assert_eq!(over * units, set.get("adds").whole() * under);
            }
        }
        let csv = run([&["explain".to_string(), "--format=csv".to_string(), "--all".to_string()][..], &files].concat());
        let sets: usize = records(&explained).iter().map(|record| record.get("explained").list().len()).sum();
        assert_eq!(csv.out.lines().count(), 1 + sets);
    }
    let refused = run_line("explain kuhn 2 3 samples/always-pass.txt --format json");
    assert_eq!((refused.status, records(&refused)[0].get("refusal").whole()), (1, 8));
}

#[test]
fn improve_tells_every_move_to_software() {
    let file = &tables("kuhn", 3, 12, 1)[0];
    let all = run(["improve", file, "--format=json", "--all"]);
    assert_eq!((all.status, all.err.as_str()), (0, ""));
    let record = &records(&all)[0];
    let before = record.get("nash_conv").whole();
    let moves = record.get("moves").list();
    for own in moves {
        assert_eq!(own.get("moved_nash_conv").whole() - before, own.get("change").whole());
        let (over, under) = fraction(own.get("change_fraction").text());
        assert_eq!(over * record.get("units").whole(), own.get("change").whole() * under);
    }
    assert!(moves.iter().map(|own| own.get("change").whole()).is_sorted());
    let csv = run(["improve", file, "--format=csv", "--all"]).out;
    assert_eq!(csv.lines().count(), 1 + moves.len());
    let steps = run(["improve", file, "--format=json", "--steps=3"]);
    let steps = records(&steps)[0].get("moves").list().to_vec();
    assert_eq!((steps.len(), steps[2].get("step").whole()), (3, 3));
    assert_eq!(steps[0].get("set"), moves[0].get("set"));
    let refused = run_line("improve kuhn 2 3 samples/always-pass.txt --format json");
    assert_eq!((refused.status, records(&refused)[0].get("refusal").whole()), (1, 8));
}

#[test]
fn reply_and_f64_have_records_too() {
    let reply = run_line("reply kuhn 2 1 samples/always-pass.txt 1 --format json");
    let record = &records(&reply)[0];
    assert_eq!((record.get("seat").whole(), record.get("seat_values").list().len()), (1, 1));
    assert_eq!(record.get("seat_values").list()[0].get("gain").whole(), 6);
    let moves = record.get("reply").list();
    assert_eq!(moves.len(), 6);
    assert_eq!(moves[0].get("set").text(), "PASS BET: seat 1, card 0, after PASS");
    assert_eq!((moves[0].get("action").text(), moves[0].get("reached")), ("BET", &Json::Bool(true)));
    assert_eq!(moves[5].get("reached"), &Json::Bool(false));
    let f64 = run_line("f64 kuhn 2 samples/uniform-profile.txt --format json");
    let record = &records(&f64)[0];
    assert_eq!(*record.get("nash_conv"), Json::Number("0.9166666666666666".to_string()));
    assert_eq!(*record.get("exploitability"), Json::Number("0.4583333333333333".to_string()));
    assert_eq!((record.get("any"), record.get("d").is_null()), (&Json::Bool(false), true));
    let odd = table("format-nan.txt", "NaN inf\n".repeat(12));
    let record = &records(&run(["f64", "kuhn", "2", &odd, "--any", "--format", "json"]))[0];
    assert_eq!((record.get("nash_conv").text(), record.get("any")), ("NaN", &Json::Bool(true)));
    for line in ["reply kuhn 2 3 samples/always-pass.txt 1 --format json", "f64 leduc 2 samples --format=json"] {
        let run = run_line(line);
        assert_eq!((run.status, records(&run)[0].get("faults").list().len()), (1, 1), "{line}");
    }
}

#[test]
fn csv_has_the_same_in_columns() {
    for line in [
        "evaluate kuhn 2 3 samples/one-in-three.txt samples/equilibrium.txt samples/always-pass.txt",
        "ladder kuhn 2 3 samples/one-in-three.txt samples/equilibrium.txt samples/always-pass.txt",
        "f64 kuhn 2 samples/uniform-profile.txt",
    ] {
        let csv = run_line(&format!("{line} --format csv"));
        let records = records(&run_line(&format!("{line} --format json")));
        let mut rows = csv.out.lines().map(cells);
        let columns = rows.next().unwrap();
        let rows: Vec<Vec<String>> = rows.collect();
        assert_eq!(rows.len(), records.len(), "{line}");
        for (row, record) in rows.iter().zip(&records) {
            assert_eq!(row.len(), columns.len(), "{line}");
            for (column, cell) in columns.iter().zip(row) {
                assert_eq!(*cell, expected(record, column), "{column} of {line}");
            }
        }
    }
}

/// The cell that a record has in a column.
fn expected(record: &Json, column: &str) -> String {
    if let Some((seat, name)) = column.strip_prefix("seat_").and_then(|rest| rest.split_once('_')) {
        let Json::List(seats) = record.get("seat_values") else { return String::new() };
        return plain(seats[seat.parse::<usize>().unwrap()].get(name));
    }
    match (column, record.get(column)) {
        ("faults", Json::List(faults)) => {
            let told = faults.iter().map(|fault| match fault.get("line") {
                Json::Null => fault.get("sentence").text().to_string(),
                line => format!("line {}: {}", line.whole(), fault.get("sentence").text()),
            });
            told.collect::<Vec<_>>().join("; ")
        }
        (name, Json::Text(text)) if name.ends_with("_fraction") => format!("{text} chips"),
        (_, value) => plain(value),
    }
}

fn plain(value: &Json) -> String {
    match value {
        Json::Null => String::new(),
        Json::Bool(value) => value.to_string(),
        Json::Number(text) | Json::Text(text) => text.clone(),
        _ => panic!("{value:?} is no cell"),
    }
}

/// The cells of a row, in quotes or not.
fn cells(row: &str) -> Vec<String> {
    let (mut cells, mut quoted) = (vec![String::new()], false);
    let mut chars = row.chars().peekable();
    while let Some(c) = chars.next() {
        let last = cells.last_mut().unwrap();
        match c {
            '"' if quoted && chars.peek() == Some(&'"') => {
                chars.next();
                last.push('"');
            }
            '"' => quoted = !quoted,
            ',' if !quoted => cells.push(String::new()),
            c => last.push(c),
        }
    }
    cells
}

#[test]
fn a_reply_has_a_row_for_each_set() {
    let csv = run_line("reply kuhn 2 1 samples/always-pass.txt 0 --format csv");
    let rows: Vec<Vec<String>> = csv.out.lines().map(cells).collect();
    assert_eq!(rows.len(), 7);
    let column = |name: &str| rows[0].iter().position(|column| column == name).unwrap();
    let told = |row: usize| ["set", "action", "reached", "seat_0_gain"].map(|name| rows[row][column(name)].as_str());
    assert_eq!(told(1), ["PASS BET: seat 0, card 0, first action of the hand", "BET", "true", "6"]);
    assert_eq!(told(6), ["PASS BET: seat 0, card 2, after PASS BET", "PASS", "false", "6"]);
}

#[test]
fn no_spreadsheet_takes_a_cell_for_a_formula_or_a_date() {
    let folder = common::folder("formula");
    for name in ["=1+1", "+1", "-1.txt", "@x", "a,b"] {
        fs::write(folder.join(name), "3 0\n".repeat(12)).unwrap();
    }
    let names = ["=1+1", "+1", "-1.txt", "@x", "a,b"];
    let output = common::program()
        .current_dir(&folder)
        .args(["evaluate", "kuhn", "2", "3", "--format", "csv", "--"])
        .args(names)
        .output()
        .unwrap();
    let run = Run::from(output);
    let rows: Vec<Vec<String>> = run.out.lines().skip(1).map(cells).collect();
    let files: Vec<&str> = rows.iter().map(|row| row[3].as_str()).collect();
    assert_eq!(files, ["'=1+1", "'+1", "'-1.txt", "'@x", "a,b"]);
    assert!(run.out.contains(",2 chips,2.000000000,1 chips,"), "{}", run.out);
    let ninth = run_line("evaluate kuhn 2 3 samples/one-in-three.txt --format csv").out;
    assert!(ninth.contains(",11/9 chips,1.222222222,11/18 chips,"), "{ninth}");
}
