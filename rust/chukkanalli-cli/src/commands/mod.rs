//! The commands, one a file.

mod batch;
mod evaluate;
mod explain;
mod floats;
mod from_json;
mod game;
mod headings;
mod improve;
mod ladder;
mod reply;
mod standing;
mod table;
mod template;

use std::ffi::OsString;
use std::io::{self, ErrorKind};

use chukkanalli::tables::Faults;
use chukkanalli::Refusal;

use crate::args::{self, Misuse, Request};
use crate::console::Console;
use crate::{help, version};

/// The statuses that a run ends with.
const DONE: u8 = 0;
const REFUSED: u8 = 1;
const MISUSED: u8 = 2;

/// Why a command ended early.
enum Stop {
    Misuse(Misuse),
    /// What was given cannot be read or is refused as a whole: a sentence for each complaint.
    Refused(Vec<String>),
    /// The system has no work memory for the game.
    NoMemory(Refusal),
    /// The output cannot be written.
    Unwritable(io::Error),
}

impl From<Misuse> for Stop {
    fn from(misuse: Misuse) -> Self {
        Stop::Misuse(misuse)
    }
}

impl From<io::Error> for Stop {
    fn from(error: io::Error) -> Self {
        Stop::Unwritable(error)
    }
}

/// Carries out the arguments behind the program's name, and gives the status to end with.
pub fn run(args: &[OsString], console: &mut Console) -> u8 {
    match carry_out(args, console) {
        Ok(status) => status,
        Err(Stop::Misuse(misuse)) => {
            let named = |behind: &str| misuse.verb.map_or(String::new(), |verb| format!("{}{behind} ", verb.name()));
            console.complain(format_args!("{}{}", named(":"), misuse.sentence));
            console.complain(format_args!("`chukkanalli {}--help` says more", named("")));
            MISUSED
        }
        Err(Stop::Refused(sentences)) => {
            for sentence in sentences {
                console.complain(sentence);
            }
            REFUSED
        }
        Err(Stop::NoMemory(refusal)) => {
            console.complain(format_args!("there is too little memory: {refusal}"));
            REFUSED
        }
        // Whoever read the output has enough of it.
        Err(Stop::Unwritable(error)) if error.kind() == ErrorKind::BrokenPipe => {
            if console.has_complained() {
                REFUSED
            } else {
                DONE
            }
        }
        Err(Stop::Unwritable(error)) => {
            console.complain(format_args!("the output cannot be written: {error}"));
            REFUSED
        }
    }
}

/// Complains of each fault of a file.
fn complain_of(faults: &Faults, name: &str, console: &mut Console) {
    for sentence in faults.sentences(name) {
        console.complain(sentence);
    }
}

fn carry_out(args: &[OsString], console: &mut Console) -> Result<u8, Stop> {
    match args::parse(args)? {
        Request::Help(verb) => {
            console.print(&help::text(verb))?;
            Ok(DONE)
        }
        Request::Version => {
            console.print(&version::text())?;
            Ok(DONE)
        }
        Request::Evaluate { setting, tables, options } => evaluate::run(setting, &tables, &options, console),
        Request::Ladder { setting, tables, options } => ladder::run(setting, &tables, &options, console),
        Request::Reply { setting, table, seat, options } => reply::run(&setting, &table, &seat, &options, console),
        Request::Explain { setting, tables, options } => explain::run(setting, &tables, &options, console),
        Request::Improve { setting, table, options } => improve::run(setting, table, &options, console),
        Request::Template { setting, options } => template::run(&setting, &options, console),
        Request::F64 { asked, profile, options } => floats::run(asked, &profile, &options, console),
    }
}
