//! Prints how much of specs/ the contracts of public calls reach. `reach files` lists the files, `reach definitions` the definitions,
//! `reach from NAME` what the definitions of a name reach. Ends with status 1 where a definition stands where it should not.

use std::collections::BTreeMap;
use std::env;
use std::fmt::Write as _;
use std::io::{self, Write as _};
use std::process::ExitCode;

use audit::files::Files;
use audit::reach::{report, Class, Mentions, Report};

const CLASSES: [(Class, &str); 3] = [
    (Class::Contract, "public contracts reach"),
    (Class::Statement, "statements for readers"),
    (Class::Internal, "between functions"),
];

fn counts(report: &Report, with_files: bool) -> String {
    let mut text = String::new();
    for (class, name) in CLASSES {
        let count = report.count(class);
        let _ = writeln!(
            text,
            "{name}: {} definitions, {} lines, in {} files",
            count.definitions, count.lines, count.files
        );
        for (path, (definitions, lines)) in report.files(class).into_iter().filter(|_| with_files) {
            let _ = writeln!(text, "  {path}: {definitions} definitions, {lines} lines");
        }
    }
    text
}

/// A line for each: class, file, name, first and last line.
fn definitions(report: &Report) -> String {
    let mut text = String::new();
    for found in report.graph.definitions.values() {
        let class = report.classes[&found.place];
        let _ =
            writeln!(text, "{class:?}\t{}\t{}\t{}\t{}", found.place.path, found.place.name, found.first, found.last);
    }
    text
}

/// What the definitions of a name reach, themselves among it, by file.
fn from(report: &Report, name: &str) -> String {
    let named = report.graph.definitions.keys().filter(|place| place.name == name).cloned();
    let roots = Mentions { definitions: named.collect(), ..Mentions::default() };
    let mut files: BTreeMap<&str, Vec<&str>> = BTreeMap::new();
    let mut lines = 0;
    let reached = report.graph.reached([&roots].into_iter());
    for place in reached.from.keys() {
        files.entry(&place.path).or_default().push(&place.name);
        lines += report.graph.definitions[place].lines;
    }
    let mut text =
        format!("{name} reaches {} definitions, {lines} lines, in {} files\n", reached.from.len(), files.len());
    for (path, names) in files {
        let _ = writeln!(text, "  {path}: {}", names.join(" "));
    }
    text
}

fn main() -> ExitCode {
    let report = match report(&Files::of_repository()) {
        Ok(report) => report,
        Err(complaint) => {
            eprintln!("{complaint}");
            return ExitCode::FAILURE;
        }
    };
    let arguments: Vec<String> = env::args().skip(1).collect();
    let text = match arguments.iter().map(String::as_str).collect::<Vec<_>>()[..] {
        [] => counts(&report, false),
        ["files"] => counts(&report, true),
        ["definitions"] => definitions(&report),
        ["from", name] => from(&report, name),
        _ => {
            eprintln!("reach: files, definitions or from NAME");
            return ExitCode::from(2);
        }
    };
    // A reader may leave before the end.
    let _ = io::stdout().write_all(text.as_bytes());
    for complaint in &report.complaints {
        eprintln!("{complaint}");
    }
    ExitCode::from(u8::from(!report.complaints.is_empty()))
}
