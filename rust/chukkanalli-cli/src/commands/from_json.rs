//! `ladder --from-json`: the standing of records that other runs printed.

use std::path::{Path, PathBuf};

use chukkanalli::tables::{self, game_words};

use super::evaluate::Evaluation;
use super::standing::{Entrant, Standing};
use super::Stop;
use crate::args::{Misuse, Verb};
use crate::console::Console;
use crate::names::file_name;
use crate::options::Options;
use crate::output::Frame;
use crate::records::{record, Ranked, Record};
use crate::same::SameTables;

/// The standing of records that `evaluate` or `ladder` printed, in any number of runs: NashConv and U are the records', and the order is that of
/// the proved comparison.
pub fn run(files: &[PathBuf], options: &Options, console: &mut Console) -> Result<u8, Stop> {
    let odd = [
        ("--html", options.html.is_some()),
        ("--files-from", options.files_from.is_some()),
        ("--labelled", options.labelled),
    ];
    if let Some((name, _)) = odd.into_iter().find(|(_, given)| *given) {
        return Err(Misuse::of(Verb::Ladder, format!("--from-json takes records, and {name} is for tables")).into());
    }
    let mut records = Vec::new();
    for path in files {
        records.extend(records_of(path, console).map_err(Stop::Refused)?);
    }
    let Some((_, first)) = records.first() else {
        return Err(Stop::Refused(vec!["there is no record".to_string()]));
    };
    let (game, d) = (first.game, first.d);
    let other = records.iter().find(|(_, record)| (record.game, record.d) != (game, d));
    if let Some((place, record)) = other {
        let (theirs, ours) = (game_words(record.game), game_words(game));
        return Err(Stop::Refused(vec![format!(
            "{place}: this record is of {theirs}, D {}, and the first of {ours}, D {d}",
            record.d
        )]));
    }
    let mut standing = Standing::default();
    let (mut same, names) =
        (SameTables::default(), records.iter().map(|(_, record)| record.file.clone()).collect::<Vec<_>>());
    for (place, (_, Record { file: name, outcome, .. })) in records.into_iter().enumerate() {
        match outcome {
            Ok(Ranked { read_by, conv, seats, fingerprint }) => {
                let first = same.before(fingerprint.clone(), place).map(|first| names[first].clone());
                let seats = Some(Evaluation::of_record(&seats, conv));
                standing.ranked.push(Entrant { name, read_by, same: first, fingerprint, conv, seats });
            }
            Err(faults) => standing.refuse(name, faults, console),
        }
    }
    let frame = Frame { verb: Verb::Ladder, format: options.format, game, d: Some(d), seat: None, any: false };
    standing.hand_out(&frame, d, options, console)
}

/// The bytes of a file of records at most.
const MOST_OF_RECORDS: usize = 1 << 30;

/// The records of a file, each with its place; else what is wrong with the first line that has none.
fn records_of(path: &Path, console: &mut Console) -> Result<Vec<(String, Record)>, Vec<String>> {
    let (name, read) = match path == Path::new("-") {
        true => ("standard input".to_string(), tables::limited(console.input(), MOST_OF_RECORDS)),
        false => (file_name(path), tables::opened(path).and_then(|file| tables::limited(file, MOST_OF_RECORDS))),
    };
    let bytes = read.map_err(|error| tables::unreadable(error).sentences(&name))?;
    let text = String::from_utf8(bytes).map_err(|_| vec![format!("{name}: this is not text")])?;
    let lines = (1..).zip(text.lines()).filter(|(_, line)| !line.trim().is_empty());
    let records = lines.map(|(line, content)| {
        let place = format!("{name}:{line}");
        record(content).map(|record| (place.clone(), record)).map_err(|sentence| vec![format!("{place}: {sentence}")])
    });
    records.collect()
}
