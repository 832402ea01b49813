//! Random command lines for the commands, with random tables.

use std::ffi::OsString;
use std::fs;
use std::io::Cursor;
use std::os::unix::ffi::{OsStrExt, OsStringExt};
use std::panic::{self, AssertUnwindSafe};
use std::path::Path;

use chukkanalli_cli::console::{Console, Terminals};
use random::Random;

use crate::labelled::{self, Table};
use crate::model::{self, Listed};
use crate::{path_of, texts, Seen};

/// The first half of each list fits most games.
const SEATS: [&str; 16] = [
    "2",
    "2",
    "2",
    "2",
    "2",
    "3",
    "4",
    "5",
    "0",
    "1",
    "7",
    "11",
    "258",
    "4294967298",
    "18446744073709551616",
    "18446744073709551618",
];
const PARTS: [&str; 16] = [
    "1",
    "1",
    "2",
    "3",
    "3",
    "7",
    "16",
    "64",
    "0",
    "17",
    "65",
    "256",
    "257",
    "320",
    "18446744073709551616",
    "18446744073709551617",
];
const SEAT: [&str; 8] = ["0", "0", "1", "1", "2", "6", "256", "18446744073709551616"];
const ODD: [&[u8]; 38] = [
    b"",
    b"-",
    b"--",
    b"-h",
    b"--help",
    b"--jobs",
    b"--jobs=2",
    b"--jobs=0",
    b"--jobs=99999999999999999999",
    b"--format",
    b"--format=json",
    b"--format=csv",
    b"--format=xml",
    b"--labelled",
    b"--any",
    b"--seat=1",
    b"--seat",
    b"--top=0",
    b"--all",
    b"--table",
    b"--steps=2",
    b"--html=/dev/null",
    b"--from-json",
    b"--files-from",
    b"--files-from=-",
    b"--version",
    b"-1",
    b"2^64",
    b"two",
    b"+2",
    b"kuhn",
    b"\xFF",
    b"a\nb",
    b"/dev/null",
    b"/",
    b"nowhere",
    b"\x1b[2J",
    b"\xE2\x80\xAE",
];

/// One of a list, in nine of ten cases of its first half.
fn mostly_fit(random: &mut Random, list: &[&'static str]) -> &'static str {
    let (fit, other) = list.split_at(list.len() / 2);
    let half = if random.one_in(10) { other } else { fit };
    random.pick(half)
}

/// What came of a command line.
#[derive(Debug, PartialEq, Eq)]
struct Ran {
    status: u8,
    out: String,
    err: String,
}

fn run(args: &[OsString]) -> Ran {
    run_with(args, b"")
}

/// Runs a command line with something on standard input.
fn run_with(args: &[OsString], input: &[u8]) -> Ran {
    let (mut out, mut err, mut input) = (Vec::new(), Vec::new(), Cursor::new(input));
    let tried = panic::catch_unwind(AssertUnwindSafe(|| {
        chukkanalli_cli::run(args, &mut Console::new(&mut input, &mut out, &mut err, Terminals::default()))
    }));
    let status = tried.unwrap_or_else(|_| panic!("a panic on {args:?}"));
    let text = |bytes| String::from_utf8(bytes).unwrap_or_else(|_| panic!("no text from {args:?}"));
    Ran { status, out: text(out), err: text(err) }
}

pub fn try_one(random: &mut Random, games: &[Listed], folder: &Path, seen: &mut Seen) {
    let line = Line::draw(random, games, folder);
    let spoiled = random.one_in(3);
    let args = line.args(random, folder, spoiled);
    let ran = run(&args);
    sound(&args, &ran);
    if !spoiled {
        line.hold(games, &args, &ran);
    }
    seen.count(ran.status, &ran.err);
}

/// What holds of every run.
fn sound(args: &[OsString], ran: &Ran) {
    let Ran { status, out, err } = ran;
    assert!(*status <= 2, "status {status} of {args:?}");
    let only_notes = err.lines().all(|line| line.contains("named twice"));
    assert_eq!(*status == 0, only_notes, "status {status} of {args:?} with {err:?}");
    assert!(*status != 2 || out.is_empty(), "status 2 of {args:?} with {out:?}");
    assert!(err.lines().all(|line| line.starts_with("chukkanalli: ")), "{err:?} of {args:?}");
    assert!(!err.contains(|c: char| c.is_control() && c != '\n' || c == '\u{202e}'), "{err:?} of {args:?}");
    assert!(*status != 0 || !out.is_empty(), "nothing of {args:?}");
}

/// A command line whose outcome the model knows.
struct Line {
    verb: &'static str,
    game: &'static str,
    seats: &'static str,
    d: &'static str,
    seat: &'static str,
    any: bool,
    format: Option<&'static str>,
    tables: Vec<Given>,
}

/// A file, and whether a label or a heading refuses it; what else is known of it the model reads.
struct Given {
    bytes: Vec<u8>,
    labelled: Option<Labelled>,
}

/// What is known of a file with labels.
struct Labelled {
    good: bool,
    headed: bool,
    parts: Vec<u8>,
}

impl Line {
    fn draw(random: &mut Random, games: &[Listed], folder: &Path) -> Self {
        let mut line = Line {
            verb: random.pick(&[
                "evaluate", "evaluate", "ladder", "ladder", "reply", "reply", "explain", "improve", "template", "f64",
                "f64",
            ]),
            game: if random.one_in(20) { "chess" } else { random.pick(&["kuhn", "leduc", "Kuhn", "LEDUC"]) },
            seats: mostly_fit(random, &SEATS),
            d: mostly_fit(random, &PARTS),
            seat: mostly_fit(random, &SEAT),
            any: random.one_in(2),
            format: random.pick(&[None, None, Some("json"), Some("csv")]),
            tables: Vec::new(),
        };
        if random.one_in(2000) {
            (line.game, line.seats, line.d) = ("kuhn", "6", "16");
        }
        // Each step and each move is a walk through the tree.
        if matches!(line.verb, "explain" | "improve") && matches!(line.seats, "5" | "6") {
            line.seats = "3";
        }
        let many = if line.takes_many() { 1 + random.below(5) } else { 1 };
        fs::remove_dir_all(folder).and_then(|()| fs::create_dir(folder)).expect("the folder can be made anew");
        for k in 0..many {
            let given = line.table(random, games);
            fs::write(path_of(folder, k), &given.bytes).expect("the folder can be written");
            line.tables.push(given);
        }
        line
    }

    fn takes_many(&self) -> bool {
        matches!(self.verb, "evaluate" | "ladder" | "explain")
    }

    /// A table or profile of the line's game, most of the time, valid or spoiled.
    fn table(&self, random: &mut Random, games: &[Listed]) -> Given {
        let own = model::game_of(games, self.game, value(self.seats)).ok();
        let listed = match own {
            Some(listed) if !random.one_in(8) => listed,
            _ => &games[random.below(3)],
        };
        let d = u64::try_from(value(self.d)).unwrap_or(1).min(200);
        if self.verb != "f64" && random.one_in(3) {
            let table = Table::draw(random, listed, d);
            let file = labelled::file(random, listed, &table);
            let good = file.faulty.is_none() && own.is_some_and(|own| own.game == listed.game);
            let labelled = Labelled { good, headed: file.headed, parts: table.numbers() };
            return Given { bytes: file.bytes, labelled: Some(labelled) };
        }
        let mut bytes = match self.verb {
            "f64" if !random.one_in(8) => texts::valid_profile(random, listed),
            _ => texts::valid(random, listed, d),
        };
        if random.one_in(3) {
            texts::spoil(random, &mut bytes);
        }
        Given { bytes, labelled: None }
    }

    fn args(&self, random: &mut Random, folder: &Path, spoiled: bool) -> Vec<OsString> {
        let mut args: Vec<OsString> = [self.verb, self.game, self.seats].map(OsString::from).to_vec();
        if self.verb != "f64" {
            args.push(OsString::from(self.d));
        }
        if self.verb != "template" {
            args.extend((0..self.tables.len()).map(|k| path_of(folder, k).into_os_string()));
        }
        if self.verb == "reply" {
            args.push(OsString::from(self.seat));
        }
        if self.verb == "f64" && self.any {
            args.push(OsString::from("--any"));
        }
        for _ in 0..if spoiled { 1 + random.below(3) } else { 0 } {
            let at = random.below(args.len() + 1);
            let odd = OsString::from_vec(random.pick(&ODD).to_vec());
            match random.below(3) {
                0 if at < args.len() => args[at] = odd,
                1 if at < args.len() => drop(args.remove(at)),
                _ => args.insert(at, odd),
            }
        }
        args
    }

    /// Document 01's 1, 2, 3, 5 or 6 of the arguments, or the game.
    fn refusal<'a>(&self, games: &'a [Listed]) -> Result<&'a Listed, u64> {
        let listed = model::game_of(games, self.game, value(self.seats))?;
        if self.verb == "reply" && value(self.seat) >= u128::from(listed.game.seats()) {
            return Err(5);
        }
        if self.verb != "f64" && !(1..=u128::from(listed.most_parts())).contains(&value(self.d)) {
            return Err(6);
        }
        Ok(listed)
    }

    /// Holds a run to the model.
    fn hold(&self, games: &[Listed], args: &[OsString], ran: &Ran) {
        match self.refusal(games) {
            Err(number) => {
                assert_eq!(ran.status, 2, "{args:?}: {ran:?}");
                assert!(ran.err.contains(&format!("refused with {number}: ")), "{number} of {args:?}: {ran:?}");
            }
            Ok(_) if self.verb == "template" => assert_eq!(ran.status, 0, "{args:?}: {ran:?}"),
            Ok(listed) if self.verb == "f64" => self.hold_profile(listed, args, ran),
            Ok(listed) => self.hold_tables(listed, args, ran),
        }
    }

    fn hold_profile(&self, listed: &Listed, args: &[OsString], ran: &Ran) {
        let read = model::read(&self.tables[0].bytes, model::bits);
        let fits = read.as_ref().is_ok_and(|(numbers, _)| numbers.len() == listed.entries());
        let adds_up = fits && read.as_ref().is_ok_and(|(numbers, _)| listed.adds_up_to_1(numbers));
        assert_eq!(ran.status, u8::from(!(fits && (self.any || adds_up))), "{args:?}: {ran:?}");
        assert_eq!(ran.err.contains("refused with 7: "), !fits && read.is_ok(), "{args:?}: {ran:?}");
        if ran.status == 0 {
            hold_values(listed.game.seats() as usize, args, &ran.out);
        }
        self.hold_format(args, ran);
    }

    fn hold_tables(&self, listed: &Listed, args: &[OsString], ran: &Ran) {
        let d = value(self.d) as u64;
        let outcome = |given: &Given| match (&given.labelled, model::read(&given.bytes, model::part)) {
            (Some(labelled), _) => labelled.good.then(|| listed.table_refusal(d, &labelled.parts)),
            (None, Ok((parts, _))) => Some(listed.table_refusal(d, &parts)),
            (None, Err(_)) => None,
        };
        let outcomes: Vec<Option<u64>> = self.tables.iter().map(outcome).collect();
        let bad = outcomes.iter().filter(|outcome| **outcome != Some(0)).count();
        assert_eq!(ran.status, u8::from(bad > 0), "{args:?}: {ran:?}");
        for (k, outcome) in outcomes.iter().enumerate() {
            let own = |line: &&str| line.contains(&format!("/{k}.txt:"));
            let complaints: Vec<&str> = ran.err.lines().filter(own).collect();
            assert_eq!(complaints.is_empty(), *outcome == Some(0), "{k} of {args:?}: {ran:?}");
            assert!(complaints.len() <= 21, "{k} of {args:?}: {ran:?}");
            let expected = outcome.map_or(String::new(), |number| format!("refused with {number}: "));
            let numbered =
                complaints.iter().filter(|line| !line.contains(" more")).all(|line| line.contains(&expected));
            assert!(numbered, "{outcome:?} of {k} of {args:?}: {ran:?}");
            let has_number = complaints.iter().any(|line| line.contains("refused with"));
            assert_eq!(has_number, outcome.is_some_and(|number| number > 0), "{k} of {args:?}: {ran:?}");
        }
        let good = outcomes.len() - bad;
        let headings = ran.out.lines().filter(|line| line.contains(" units") && line.contains(", D ")).count();
        assert_eq!(headings, if self.verb == "ladder" { good.min(1) } else { good }, "{args:?}: {ran:?}");
        if self.takes_many() {
            let jobs = [OsString::from("--jobs=3")];
            assert_eq!(&run(&[args, &jobs].concat()), ran, "threads change the outcome of {args:?}");
            self.hold_lists(args, ran, &outcomes);
        }
        if self.verb == "explain" {
            hold_explained(args);
        }
        if self.verb == "ladder" {
            hold_page(args, ran, bad);
            hold_records(args, ran);
        }
        if matches!(self.verb, "reply" | "improve") && ran.status == 0 {
            self.hold_table(args);
        }
        self.hold_format(args, ran);
    }

    /// A table that is printed is taken by `evaluate`, by its heading and labels.
    fn hold_table(&self, args: &[OsString]) {
        let form = if self.format == Some("csv") { "--format=csv" } else { "--format=text" };
        let told = run(&[args, &["--table", form].map(OsString::from)].concat());
        let taken = run_with(&["evaluate", "--labelled", "-"].map(OsString::from), told.out.as_bytes());
        assert_eq!((told.status, taken.status), (0, 0), "the table of {args:?}: {told:?}, {taken:?}");
    }

    /// The same files by a folder, by a list, by a list on standard input, and without GAME SEATS D where all have a heading.
    fn hold_lists(&self, args: &[OsString], ran: &Ran, outcomes: &[Option<u64>]) {
        let (front, files) = args.split_at(4);
        let list = files.iter().map(|file| file.as_bytes()).collect::<Vec<_>>().join(&b"\n"[..]);
        let from = |word: &str| [front, &[OsString::from("--files-from"), OsString::from(word)]].concat();
        assert_eq!(&run_with(&from("-"), &list), ran, "a list changes the outcome of {args:?}");
        let nul: Vec<u8> = list.iter().map(|&byte| if byte == b'\n' { 0 } else { byte }).chain([0]).collect();
        assert_eq!(&run_with(&from("-"), &nul), ran, "a list with NULs changes the outcome of {args:?}");
        let folder = Path::new(&files[0]).parent().expect("a file is in a folder").as_os_str().to_os_string();
        assert_eq!(&run(&[front, &[folder]].concat()), ran, "a folder changes the outcome of {args:?}");
        let headed = self.tables.iter().all(|given| given.labelled.as_ref().is_some_and(|labelled| labelled.headed));
        if headed && outcomes.iter().all(|outcome| *outcome == Some(0)) {
            assert_eq!(&run(&[&front[..1], files].concat()), ran, "headings change the outcome of {args:?}");
        }
    }

    /// What software reads: a record for each file, with the same status and the same complaints, and the same NashConv.
    fn hold_format(&self, args: &[OsString], ran: &Ran) {
        let Some(format) = self.format else { return };
        let told = run(&[args, &[OsString::from(format!("--format={format}"))]].concat());
        assert_eq!((told.status, &told.err), (ran.status, &ran.err), "{format} of {args:?}");
        let lines: Vec<&str> = told.out.lines().collect();
        if format == "csv" {
            let columns = |line: &str| line.split(',').count();
            assert!(lines[0].starts_with("version,commit,command,file,"), "{args:?}: {}", lines[0]);
            let a_row_a_set = matches!(self.verb, "reply" | "explain" | "improve");
            assert!(a_row_a_set || lines.len() == 1 + self.tables.len(), "{args:?}: {told:?}");
            assert!(lines[1..].iter().all(|line| columns(line) >= columns(lines[0])), "{args:?}: {told:?}");
            return;
        }
        assert_eq!(lines.len(), self.tables.len(), "{args:?}: {told:?}");
        assert!(
            lines.iter().all(|line| line.starts_with("{\"version\":") && line.ends_with('}')),
            "{args:?}: {told:?}"
        );
        if self.verb == "evaluate" {
            let member = |line: &&str| {
                line.split("\"nash_conv\":").nth(1).and_then(|behind| behind.split(',').next().map(str::to_string))
            };
            let printed = ran.out.lines().filter_map(|line| line.strip_prefix("NashConv ")?.split_whitespace().next());
            let printed: Vec<&str> = printed.collect();
            let members: Vec<String> = lines.iter().filter_map(member).filter(|number| number != "null").collect();
            let members: Vec<&str> = members.iter().map(|number| number.trim_matches('"')).collect();
            assert_eq!(members, printed, "{args:?}: {told:?}");
        }
    }
}

/// A page and texts to be sent back change nothing else; a text is written for each table that was refused, and the page lists all.
fn hold_page(args: &[OsString], ran: &Ran, bad: usize) {
    let folder = std::env::temp_dir().join(format!("chukkanalli-fuzz-page-{}", std::process::id()));
    let (page, reasons) = (folder.join("page.html"), folder.join("reasons"));
    fs::create_dir_all(&folder).expect("the folder can be made");
    let more = ["--html".into(), page.clone().into_os_string(), "--reasons".into(), reasons.clone().into_os_string()];
    assert_eq!(&run(&[args, &more].concat()), ran, "a page changes the outcome of {args:?}");
    let html = fs::read_to_string(&page).expect("the page was written");
    let written = fs::read_dir(&reasons).expect("the folder was made").count();
    assert_eq!(written, bad, "the reasons of {args:?}");
    assert_eq!(html.matches("<th scope=\"row\">").count() + bad, args.len() - 4, "the page of {args:?}");
    assert!(html.ends_with("</html>\n"), "the page of {args:?}");
    fs::remove_dir_all(&folder).expect("the folder can be removed");
}

/// The records of the tables give the same standing as the tables.
fn hold_records(args: &[OsString], ran: &Ran) {
    let words = [&[OsString::from("evaluate"), OsString::from("--format=json")], &args[1..]].concat();
    let records = run(&words);
    let told = run_with(&["ladder", "--from-json", "-"].map(OsString::from), records.out.as_bytes());
    assert_eq!(&told, ran, "records change the outcome of {args:?}");
}

/// Holds what is explained to itself: what all sets of a seat add is its gain.
fn hold_explained(args: &[OsString]) {
    let told = run(&[args, &[OsString::from("--all")]].concat());
    let (mut gains, mut adds) = (Vec::new(), Vec::new());
    for line in told.out.lines() {
        let words: Vec<&str> = line.split_whitespace().collect();
        match words[..] {
            ["seat", _, "gain", units, ..] => gains.push(units.parse::<u64>().expect("units are a number")),
            ["units", "chips", "per", "hand", "table", ..] => adds.push(0),
            [units, ..] if line.contains("card ") && !line.starts_with("With ") => {
                *adds.last_mut().expect("a set stands below a heading") += units.parse::<u64>().expect("a number")
            }
            _ => {}
        }
    }
    assert_eq!(gains, adds, "{args:?}: {told:?}");
}

/// Holds what is printed of a profile to itself: NashConv adds best response value − worth by seat, and exploitability divides it by the seats.
fn hold_values(seats: usize, args: &[OsString], out: &str) {
    let value = |line: &str| line.rsplit(' ').next().and_then(|word| word.parse().ok());
    let values: Option<Vec<f64>> = out.lines().skip(2).map(value).collect();
    let values = values.unwrap_or_else(|| panic!("no numbers of {args:?}: {out}"));
    assert_eq!(values.len(), 2 * seats + 2, "{args:?}: {out}");
    let gains = (0..seats).map(|seat| values[seat] - values[seats + seat]);
    let nash_conv = gains.fold(0.0, |sum, gain| sum + gain);
    for (printed, expected) in values[2 * seats..].iter().zip([nash_conv, nash_conv / seats as f64]) {
        let both_nan = printed.is_nan() && expected.is_nan();
        assert!(both_nan || printed.to_bits() == expected.to_bits(), "{expected:?} of {args:?}: {out}");
    }
}

/// The value of digits that 128 bits hold.
fn value(word: &str) -> u128 {
    word.parse().expect("the lists of numbers hold numbers")
}
