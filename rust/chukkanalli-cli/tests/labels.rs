//! Tables whose lines were put in another order, as text and as CSV, and tables with one damaged line.

mod common;

use std::fs;
use std::path::Path;

use chukkanalli::tables::{template, written, Form, Labels};
use chukkanalli::{Evaluator, Game};
use common::json::Json;
use common::{folder, program, run, run_line, table, Run};
use random::Random;

const GAMES: [Game; 3] = [Game::Kuhn { seats: 2 }, Game::Kuhn { seats: 3 }, Game::Leduc];

fn labels(game: Game) -> Labels {
    Labels::new(&Evaluator::new(game).unwrap())
}

/// Random parts that add up to D in each set.
fn parts(random: &mut Random, labels: &Labels, d: u8) -> Vec<u8> {
    let mut parts = Vec::new();
    for set in labels.sets() {
        let mut left = d;
        for _ in 1..set.legal.len() {
            let part = random.below(usize::from(left) + 1) as u8;
            left -= part;
            parts.push(part);
        }
        parts.push(left);
    }
    parts
}

fn shuffle(random: &mut Random, lines: &mut [String]) {
    for place in (1..lines.len()).rev() {
        lines.swap(place, random.below(place + 1));
    }
}

/// A file of a table with the lines of its sets in another order.
fn shuffled(random: &mut Random, text: &str) -> String {
    let (front, mut back): (Vec<String>, Vec<String>) =
        text.lines().map(str::to_string).partition(|line| !line.contains(": seat "));
    shuffle(random, &mut back);
    [front, back].concat().join("\n")
}

/// Evaluates all files of a folder, and gives a record for each.
fn evaluated(game: Game, d: u8, folder: &Path) -> (i32, Vec<Json>) {
    let (name, seats) = (game.name().to_lowercase(), game.seats().to_string());
    let mut command = program();
    command.args(["evaluate", &name, &seats, &d.to_string(), "--format=json"]).arg(folder);
    let run = Run::from(command.output().unwrap());
    (run.status, run.out.lines().map(Json::parse).collect())
}

#[test]
fn the_order_of_the_lines_changes_no_value() {
    let mut random = Random::new(24);
    for (game, d) in GAMES.into_iter().zip([12, 64, 7]) {
        let labels = labels(game);
        let folders =
            ["plain", "shuffled", "csv"].map(|name| folder(&format!("order-{}-{}-{name}", game.name(), game.seats())));
        for k in 0..200 {
            let parts = parts(&mut random, &labels, d);
            let plain: Vec<String> = parts.iter().map(u8::to_string).collect();
            let text = shuffled(&mut random, &written(&labels, u64::from(d), &parts, Form::Text));
            let csv = shuffled(&mut random, &written(&labels, u64::from(d), &parts, Form::Csv));
            let csv = csv.replace(',', [",", ",", ";", "\t"][k % 4]);
            let csv = if k % 4 < 2 { csv } else { csv.replace("; ", ", ").replace("\t ", ", ") };
            for (folder, text) in folders.iter().zip([plain.join(" "), text, csv]) {
                fs::write(folder.join(format!("{k:03}")), text).unwrap();
            }
        }
        let [plain, text, csv] = folders.map(|folder| evaluated(game, d, &folder));
        assert_eq!((plain.0, text.0, csv.0), (0, 0, 0), "{game:?}");
        assert_eq!((plain.1.len(), text.1.len(), csv.1.len()), (200, 200, 200));
        for ((plain, text), csv) in plain.1.iter().zip(&text.1).zip(&csv.1) {
            let read_by = [plain, text, csv].map(|record| record.get("read_by").text().to_string());
            assert_eq!(read_by, ["position", "labels", "labels"]);
            for member in ["seat_values", "nash_conv", "units", "nash_conv_fraction"] {
                assert_eq!(plain.get(member), text.get(member), "{game:?}");
                assert_eq!(plain.get(member), csv.get(member), "{game:?}");
            }
        }
    }
}

/// What a line of a file is to be replaced by.
type Damage = fn(parts: &[&str], label: &str) -> String;

/// The kinds of damage to a line of text.
const DAMAGES: [(&str, Damage); 14] = [
    ("a part is missing", |parts, label| format!("{}  # {label}", parts[1..].join(" "))),
    ("a part too many", |parts, label| format!("{} 0  # {label}", parts.join(" "))),
    ("no parts", |_, label| format!("# {label}")),
    ("a wrong sum", |parts, label| {
        format!("{} {}  # {label}", 1 + parts[0].parse::<u8>().unwrap(), parts[1..].join(" "))
    }),
    ("a decimal", |parts, label| format!("{}.0 {}  # {label}", parts[0], parts[1..].join(" "))),
    ("a quotient", |parts, label| format!("1/3 {}  # {label}", parts[1..].join(" "))),
    ("a negative part", |parts, label| format!("-1 {}  # {label}", parts[1..].join(" "))),
    ("a part above 255", |parts, label| format!("256 {}  # {label}", parts[1..].join(" "))),
    ("commas", |parts, label| format!("{}  # {label}", parts.join(","))),
    ("no label", |parts, _| parts.join(" ")),
    ("an unknown label", |parts, label| format!("{}  # {}", parts.join(" "), label.replace("seat ", "seat 1"))),
    ("a label of another game", |parts, label| {
        let other =
            if label.contains("PASS") { "FOLD CALL: seat 0, card 0 (rank 0)" } else { "PASS BET: seat 0, card 0" };
        format!("{}  # {other}, first action of the hand", parts.join(" "))
    }),
    ("actions in another order", |parts, label| {
        let (actions, words) = label.split_once(": ").unwrap();
        let mut actions: Vec<&str> = actions.split(' ').collect();
        actions.reverse();
        format!("{}  # {}: {words}", parts.join(" "), actions.join(" "))
    }),
    ("another language's comment", |parts, label| format!("{}  // {label}", parts.join(" "))),
];

/// Holds that each file of a folder was refused with a fault in its line, by the number of the file.
fn all_refused(game: Game, d: u8, folder: &Path, lines: &[usize], kinds: &[&str]) {
    let (status, records) = evaluated(game, d, folder);
    assert_eq!((status, records.len()), (1, lines.len()), "{game:?}");
    for ((record, &line), kind) in records.iter().zip(lines).zip(kinds) {
        let told = |fault: &Json| !fault.get("line").is_null() && fault.get("line").whole() == line as i128;
        assert!(record.get("faults").list().iter().any(told), "{kind} in line {line} of {game:?}: {record:?}");
        assert!(record.get("nash_conv").is_null() && record.get("read_by").is_null(), "{kind}: {record:?}");
    }
}

#[test]
fn a_damaged_line_is_refused_with_its_number() {
    let mut random = Random::new(12);
    for (game, d) in GAMES.into_iter().zip([12, 64, 7]) {
        let labels = labels(game);
        let folder = folder(&format!("damage-{}-{}", game.name(), game.seats()));
        let (mut lines, mut kinds) = (Vec::new(), Vec::new());
        for (kind, damage) in DAMAGES {
            for _ in 0..8 {
                let parts = parts(&mut random, &labels, d);
                let text = shuffled(&mut random, &written(&labels, u64::from(d), &parts, Form::Text));
                let mut text: Vec<String> = text.lines().map(str::to_string).collect();
                let place = 2 + random.below(labels.sets().len());
                let (parts, label) = text[place].split_once("  # ").unwrap();
                text[place] = damage(&parts.split_whitespace().collect::<Vec<_>>(), label);
                fs::write(folder.join(format!("{:03}", lines.len())), text.join("\n")).unwrap();
                lines.push(place + 1);
                kinds.push(kind);
            }
        }
        all_refused(game, d, &folder, &lines, &kinds);
    }
}

/// The kinds of damage to a row of a CSV file: what is done to its cells.
const ROW_DAMAGES: [(&str, fn(&mut Vec<String>)); 7] = [
    ("an empty cell", |cells| empty_first(cells)),
    ("a cell too many", |cells| cells.push("1".to_string())),
    ("a decimal", |cells| edit_first(cells, |cell| format!("{cell}.5"))),
    ("a wrong sum", |cells| edit_first(cells, |cell| (1 + cell.parse::<u8>().unwrap()).to_string())),
    ("no label", |cells| cells[0] = String::new()),
    ("an unknown label", |cells| cells[0] = cells[0].replace("seat ", "seat 1")),
    ("an open quote", |cells| cells[0] = cells[0].trim_end_matches('"').to_string()),
];

/// Changes the first cell behind the label that is not empty.
fn edit_first(cells: &mut [String], edit: impl Fn(&str) -> String) {
    let cell = cells.iter_mut().skip(1).find(|cell| !cell.is_empty()).unwrap();
    *cell = edit(cell);
}

fn empty_first(cells: &mut [String]) {
    edit_first(cells, |_| String::new());
}

#[test]
fn a_damaged_row_is_refused_with_its_number() {
    let mut random = Random::new(7);
    for (game, d) in GAMES.into_iter().zip([12, 64, 7]) {
        let labels = labels(game);
        let folder = folder(&format!("damage-csv-{}-{}", game.name(), game.seats()));
        let (mut lines, mut kinds) = (Vec::new(), Vec::new());
        for (kind, damage) in ROW_DAMAGES {
            for _ in 0..8 {
                let parts = parts(&mut random, &labels, d);
                let text = shuffled(&mut random, &written(&labels, u64::from(d), &parts, Form::Csv));
                let mut text: Vec<String> = text.lines().map(str::to_string).collect();
                let place = 2 + random.below(labels.sets().len());
                let (label, behind) = text[place].rsplit_once("\",").unwrap();
                let mut cells = vec![format!("{label}\"")];
                cells.extend(behind.split(',').map(str::to_string));
                damage(&mut cells);
                text[place] = cells.join(",");
                fs::write(folder.join(format!("{:03}", lines.len())), text.join("\n")).unwrap();
                lines.push(place + 1);
                kinds.push(kind);
            }
        }
        all_refused(game, d, &folder, &lines, &kinds);
    }
}

#[test]
fn a_missing_line_is_told_by_its_words_and_no_other_is_blamed() {
    let text: Vec<String> =
        run_line("template leduc 2 1").out.replace("\n0 ", "\n1 ").lines().map(str::to_string).collect();
    let label = text[399].split_once("# ").unwrap().1.to_string();
    let file = table("leduc-399.txt", [&text[..399], &text[400..]].concat().join("\n"));
    let run = run(["evaluate", "leduc", "2", "1", &file]);
    assert_eq!((run.status, run.err), (1, format!("chukkanalli: {file}: no line has the label {label}\n")));
}

#[test]
fn a_table_sorted_by_seat_and_card_is_the_same_table() {
    let sample = fs::read_to_string(common::root().join("samples/equilibrium.txt")).unwrap();
    let mut lines: Vec<&str> = sample.lines().filter(|line| line.contains(": seat ")).collect();
    lines.sort_by_key(|line| line.split_once("seat").unwrap().1.to_string());
    let sorted = table("sorted.txt", lines.join("\n"));
    let evaluated = run(["evaluate", "kuhn", "2", "3", &sorted, "samples/equilibrium.txt"]);
    assert_eq!((evaluated.status, evaluated.err.as_str()), (0, ""));
    assert_eq!(evaluated.out.matches("NashConv               0 ").count(), 2, "{}", evaluated.out);
    assert!(evaluated.out.contains(&format!("read by labels, same table as {sorted}")), "{}", evaluated.out);
}

#[test]
fn headings_are_held_to_the_command_and_may_stand_for_it() {
    let filled = |game: &str, seats: u64, d: u64| {
        let text = run_line(&format!("template {game} {seats} {d}")).out.replace("\n0 ", &format!("\n{d} "));
        table(&format!("headed-{game}-{seats}-{d}.txt"), text)
    };
    let (two, other, three) = (filled("kuhn", 2, 4), filled("kuhn", 2, 5), filled("kuhn", 3, 4));
    let complaint = |file: &str, says: &str, asked: &str| {
        format!("chukkanalli: {file}:1: the heading says {says}, and {asked} is asked for\n")
    };
    let (kuhn24, kuhn25, kuhn34) = ("Kuhn with 2 seats, D 4", "Kuhn with 2 seats, D 5", "Kuhn with 3 seats, D 4");
    assert_eq!(run(["evaluate", "kuhn", "2", "4", &other]).err, complaint(&other, kuhn25, kuhn24));
    assert_eq!(run(["reply", "kuhn", "2", "4", &three, "0"]).err, complaint(&three, kuhn34, kuhn24));
    assert_eq!(run(["evaluate", &two]), run(["evaluate", "kuhn", "2", "4", &two]));
    let ladder = run(["ladder", &two, &other, &three]);
    assert_eq!(ladder.err, complaint(&other, kuhn25, kuhn24) + &complaint(&three, kuhn34, kuhn24));
    assert!(ladder.out.starts_with("Kuhn with 2 seats, D 4, "), "{}", ladder.out);
    let bare = table("headless.txt", "4 0\n".repeat(12));
    let mixed = run(["ladder", &two, &bare]);
    assert_eq!(
        (mixed.status, mixed.err),
        (1, format!("chukkanalli: {bare}: no line is a heading, and one is asked for\n"))
    );
    let none = run(["evaluate", &bare]);
    let sentence = format!("evaluate: GAME SEATS D are left out, and {bare} has no heading");
    assert_eq!((none.status, none.err.lines().next()), (2, Some(&format!("chukkanalli: {sentence}")[..])));
    let far = table("headed-far.txt", "# Kuhn with 9 seats, D 4: far\n1 0\n");
    let far = run(["evaluate", &far]);
    assert_eq!(far.status, 1);
    assert!(far.err.contains(":1: in the heading SEATS is '9': refused with 3: "), "{}", far.err);
    let profile = filled("kuhn", 2, 1);
    assert_eq!(run(["f64", &profile]).out, run(["f64", "kuhn", "2", &profile]).out);
    let twelfth = table("headed-12.txt", fs::read_to_string(&profile).unwrap().replace("D 1:", "D 12:"));
    assert_eq!(run(["f64", "kuhn", "2", &twelfth]).status, 0, "the D of a heading is not read");
    let game = "the heading says Kuhn with 3 seats, and Kuhn with 2 seats is asked for";
    assert_eq!(run(["f64", "kuhn", "2", &three]).err, format!("chukkanalli: {three}:1: {game}\n"));
    assert_eq!(run_line("evaluate khun 2 4 x").err.lines().next().unwrap(), "chukkanalli: evaluate: GAME is 'khun': refused with 1: the game is neither Kuhn nor Leduc; write kuhn or leduc");
}

#[test]
fn labels_can_be_asked_for() {
    let bare = table("unlabelled.txt", "1 0\n".repeat(12));
    let sentence = format!("chukkanalli: {bare}: no line has a label, and labels are asked for\n");
    for args in [
        &["evaluate", "kuhn", "2", "1", &bare][..],
        &["reply", "kuhn", "2", "1", &bare, "0"],
        &["f64", "kuhn", "2", &bare],
    ] {
        assert_eq!(run(args).status, 0);
        let refused = run([args, &["--labelled"]].concat());
        assert_eq!((refused.status, refused.out, &refused.err), (1, String::new(), &sentence));
    }
    assert!(run(["evaluate", "kuhn", "2", "1", &bare]).out.contains(", read by position\n"));
    assert_eq!(run_line("evaluate kuhn 2 1 samples/always-pass.txt --labelled").status, 0);
}

#[test]
fn profiles_are_read_by_labels_and_held_to_their_sums() {
    let sample = fs::read_to_string(common::root().join("samples/uniform-profile.txt")).unwrap();
    let mut lines: Vec<String> = sample.lines().map(str::to_string).collect();
    lines.reverse();
    let figures = |file: &str| run(["f64", "kuhn", "2", file]).out.lines().skip(1).collect::<Vec<_>>().join("\n");
    assert_eq!(figures(&table("reversed-profile.txt", lines.join("\n"))), figures("samples/uniform-profile.txt"));
    let one = "and a profile's sets add up to 1";
    let refused = |name: &str, text: &str, said: &str| {
        let file = table(name, text);
        let run = run(["f64", "kuhn", "2", &file]);
        assert_eq!((run.status, run.out, run.err), (1, String::new(), format!("chukkanalli: {file}:{said}\n")));
        let any = common::run(["f64", "kuhn", "2", &file, "--any"]);
        assert_eq!((any.status, any.err.as_str()), (0, ""));
        assert!(any.out.lines().next().unwrap().ends_with(", whatever its numbers add up to"), "{}", any.out);
    };
    let unfilled = run_line("template kuhn 2 1").out;
    refused("unfilled-profile.txt", &unfilled, &format!("5: every set adds up to 0, {one}; is it filled in?"));
    let label = "seat 1, card 1, after PASS";
    refused(
        "four.txt",
        &sample.replacen("0.5 0.5  # PASS BET: seat 1", "0.4 0.4 # PASS BET: seat 1", 1),
        &format!("4: {label} has 0.4 + 0.4 = 0.8, {one}"),
    );
    refused(
        "minus.txt",
        &sample.replacen("0.5 0.5  # PASS BET: seat 1", "-0.5 1.5 # PASS BET: seat 1", 1),
        &format!("4: {label} has -0.5 + 1.5, and no share of the hands is below 0"),
    );
    let d_12 = "is it a table with D 12, for `chukkanalli evaluate`?";
    refused("twelve.txt", &sample.replace("0.5 0.5", "5 7"), &format!("3: every set adds up to 12, {one}; {d_12}"));
}

#[test]
fn a_template_of_each_form_is_what_the_library_writes() {
    for (game, line) in [(GAMES[0], "template kuhn 2 4"), (GAMES[2], "template leduc 2 4")] {
        assert_eq!(run_line(line).out, template(&labels(game), 4, Form::Text));
        assert_eq!(run_line(&format!("{line} --format csv")).out, template(&labels(game), 4, Form::Csv));
    }
}
