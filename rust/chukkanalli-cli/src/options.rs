//! The options of a command line, parted from what stands in places.

use std::ffi::{OsStr, OsString};
use std::os::unix::ffi::{OsStrExt, OsStringExt};
use std::path::PathBuf;

use chukkanalli::tables::{quoted, Form};

use crate::args::{number_of, value_of, Misuse, Number, Verb};
use crate::help;

/// The forms of what is printed.
#[derive(Clone, Copy, Debug, Default, PartialEq, Eq)]
pub enum Format {
    #[default]
    Text,
    Csv,
    Json,
}

impl Format {
    const ALL: [(&'static str, Format); 3] = [("text", Format::Text), ("csv", Format::Csv), ("json", Format::Json)];
}

/// What was given with options.
#[derive(Clone, Debug, Default, PartialEq, Eq)]
pub struct Options {
    pub jobs: Option<u64>,
    pub labelled: bool,
    pub any: bool,
    pub format: Format,
    pub files_from: Option<PathBuf>,
    pub seat: Option<Number>,
    pub top: Option<u64>,
    pub all: bool,
    pub table: bool,
    pub steps: Option<u64>,
    pub html: Option<PathBuf>,
    pub reasons: Option<PathBuf>,
    pub from_json: bool,
}

impl Options {
    /// The form of a table that is printed; JSON has none.
    pub fn form(&self, verb: Verb) -> Result<Form, Misuse> {
        match self.format {
            Format::Text => Ok(Form::Text),
            Format::Csv => Ok(Form::Csv),
            Format::Json => Err(Misuse::of(verb, "--table prints text or csv, and --format is 'json'")),
        }
    }
}

/// Parts options from places; nothing if help is asked for.
pub fn sort(verb: Verb, args: &[OsString]) -> Result<Option<(Vec<OsString>, Options)>, Misuse> {
    let (mut places, mut options) = (Vec::new(), Options::default());
    let mut args = args.iter();
    while let Some(arg) = args.next() {
        if help::is_asked_by(arg) {
            return Ok(None);
        } else if arg == "--" {
            places.extend(args.by_ref().cloned());
        } else if !is_option(arg) {
            places.push(arg.clone());
        } else {
            let (name, value) = parted(arg);
            let known = help::OPTIONS.iter().find(|option| option.name == name && (option.taken_by)(verb));
            let known = known.filter(|option| option.value.is_some() || value.is_none());
            let Some(option) = known else {
                return Err(unknown(verb, arg));
            };
            let value = match option.value {
                Some(what) => value.or_else(|| args.next().cloned()).ok_or_else(|| missing(verb, option.name, what))?,
                None => OsString::new(),
            };
            take(verb, &mut options, option.name, value)?;
        }
    }
    Ok(Some((places, options)))
}

/// An option's name, and the value behind a = sign.
fn parted(arg: &OsStr) -> (String, Option<OsString>) {
    let bytes = arg.as_bytes();
    let end = bytes.iter().position(|&byte| byte == b'=').unwrap_or(bytes.len());
    let name = String::from_utf8_lossy(&bytes[..end]).into_owned();
    (name, bytes.get(end + 1..).map(|value| OsString::from_vec(value.to_vec())))
}

fn unknown(verb: Verb, arg: &OsStr) -> Misuse {
    let hint = if verb.takes_a_file() { "; write -- before a file of that name" } else { "" };
    Misuse::of(verb, format!("there is no option {}{hint}", quoted(&arg.to_string_lossy())))
}

fn missing(verb: Verb, name: &str, what: &str) -> Misuse {
    Misuse::of(verb, format!("{name} takes {what}, and it is missing"))
}

fn take(verb: Verb, options: &mut Options, name: &str, value: OsString) -> Result<(), Misuse> {
    match name {
        "--jobs" => options.jobs = Some(jobs_of(verb, &value.to_string_lossy())?),
        "--format" => options.format = format_of(verb, &value.to_string_lossy())?,
        "--files-from" => options.files_from = Some(PathBuf::from(value)),
        "--html" => options.html = Some(PathBuf::from(value)),
        "--reasons" => options.reasons = Some(PathBuf::from(value)),
        "--from-json" => options.from_json = true,
        "--labelled" => options.labelled = true,
        "--any" => options.any = true,
        "--seat" => options.seat = Some(number_of(verb, name, &value)?),
        "--top" => options.top = Some(number_of(verb, name, &value)?.value),
        "--all" => options.all = true,
        "--table" => options.table = true,
        "--steps" => options.steps = Some(number_of(verb, name, &value)?.value),
        _ => {}
    }
    Ok(())
}

/// A dash with something behind it that is no number.
fn is_option(arg: &OsStr) -> bool {
    match arg.as_bytes() {
        [b'-', rest @ ..] => !rest.iter().all(u8::is_ascii_digit),
        _ => false,
    }
}

fn jobs_of(verb: Verb, text: &str) -> Result<u64, Misuse> {
    match value_of(text) {
        Some(0) | None => Err(Misuse::of(verb, format!("--jobs is {}, and a number from 1 is needed", quoted(text)))),
        Some(jobs) => Ok(jobs),
    }
}

fn format_of(verb: Verb, text: &str) -> Result<Format, Misuse> {
    let formats = Format::ALL.iter().filter(|(_, format)| verb != Verb::Template || *format != Format::Json);
    let known = formats.clone().find(|(name, _)| *name == text);
    known.map(|(_, format)| *format).ok_or_else(|| {
        let names: Vec<&str> = formats.map(|(name, _)| *name).collect();
        Misuse::of(verb, format!("--format is {}, and there are {}", quoted(text), names.join(", ")))
    })
}
