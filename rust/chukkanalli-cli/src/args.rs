//! The command line, as far as it can be understood without asking a game.

use std::ffi::{OsStr, OsString};
use std::path::PathBuf;

use chukkanalli::tables::quoted;

use crate::help;
use crate::options::{self, Options};

/// The commands.
#[derive(Clone, Copy, Debug, PartialEq, Eq)]
pub enum Verb {
    Evaluate,
    Ladder,
    Reply,
    Explain,
    Improve,
    Template,
    F64,
}

impl Verb {
    pub const ALL: [Verb; 7] =
        [Verb::Evaluate, Verb::Ladder, Verb::Reply, Verb::Explain, Verb::Improve, Verb::Template, Verb::F64];

    pub fn name(self) -> &'static str {
        match self {
            Verb::Evaluate => "evaluate",
            Verb::Ladder => "ladder",
            Verb::Reply => "reply",
            Verb::Explain => "explain",
            Verb::Improve => "improve",
            Verb::Template => "template",
            Verb::F64 => "f64",
        }
    }

    /// What it takes, in order; after the last of them, more tables only where `takes_many`.
    pub fn places(self) -> &'static [&'static str] {
        match self {
            Verb::Evaluate | Verb::Ladder | Verb::Explain | Verb::Improve => &["GAME", "SEATS", "D", "TABLE"],
            Verb::Reply => &["GAME", "SEATS", "D", "TABLE", "SEAT"],
            Verb::Template => &["GAME", "SEATS", "D"],
            Verb::F64 => &["GAME", "SEATS", "PROFILE"],
        }
    }

    /// Whether it takes any number of tables.
    pub fn takes_many(self) -> bool {
        matches!(self, Verb::Evaluate | Verb::Ladder | Verb::Explain)
    }

    pub fn takes_a_file(self) -> bool {
        self != Verb::Template
    }

    /// Whether the files' headings may stand for GAME SEATS D.
    pub fn takes_headings(self) -> bool {
        self.takes_many() || matches!(self, Verb::Improve | Verb::F64)
    }

    /// Whether the work on one table is shared out among threads.
    pub fn shares_out(self) -> bool {
        matches!(self, Verb::Explain | Verb::Improve)
    }

    fn by_name(name: &OsStr) -> Option<Verb> {
        Verb::ALL.into_iter().find(|verb| name == verb.name())
    }
}

/// A whole number as it was given, and its value; what 64 bits do not hold has the greatest that they do.
#[derive(Clone, Debug, PartialEq, Eq)]
pub struct Number {
    pub word: String,
    pub value: u64,
}

/// GAME SEATS.
#[derive(Clone, Debug, PartialEq, Eq)]
pub struct Asked {
    pub game: String,
    pub seats: Number,
}

/// GAME SEATS D.
#[derive(Clone, Debug, PartialEq, Eq)]
pub struct Setting {
    pub asked: Asked,
    pub d: Number,
}

/// What a command line asks for. Where no setting is given, it is that of the files' headings.
#[derive(Clone, Debug, PartialEq, Eq)]
pub enum Request {
    /// The help of a command, or of all.
    Help(Option<Verb>),
    Version,
    Evaluate {
        setting: Option<Setting>,
        tables: Vec<PathBuf>,
        options: Options,
    },
    Ladder {
        setting: Option<Setting>,
        tables: Vec<PathBuf>,
        options: Options,
    },
    Reply {
        setting: Setting,
        table: PathBuf,
        seat: Number,
        options: Options,
    },
    Explain {
        setting: Option<Setting>,
        tables: Vec<PathBuf>,
        options: Options,
    },
    Improve {
        setting: Option<Setting>,
        table: PathBuf,
        options: Options,
    },
    Template {
        setting: Setting,
        options: Options,
    },
    F64 {
        asked: Option<Asked>,
        profile: PathBuf,
        options: Options,
    },
}

/// Bad use: a sentence, and the command whose help it points to.
#[derive(Clone, Debug, PartialEq, Eq)]
pub struct Misuse {
    pub verb: Option<Verb>,
    pub sentence: String,
}

impl Misuse {
    pub fn of(verb: Verb, sentence: impl Into<String>) -> Self {
        Misuse { verb: Some(verb), sentence: sentence.into() }
    }
}

/// Understands the arguments behind the program's name.
pub fn parse(args: &[OsString]) -> Result<Request, Misuse> {
    let Some((first, rest)) = args.split_first() else {
        return Err(Misuse { verb: None, sentence: format!("a command is missing; there are {}", verb_names()) });
    };
    if help::is_asked_by(first) {
        return Ok(Request::Help(None));
    }
    if first == "--version" {
        return Ok(Request::Version);
    }
    if first == "help" {
        return help_of(rest);
    }
    let verb = Verb::by_name(first).ok_or_else(|| no_command(first))?;
    match options::sort(verb, rest)? {
        None => Ok(Request::Help(Some(verb))),
        Some((places, options)) => request(verb, &places, options),
    }
}

/// `help`, or `help COMMAND`.
fn help_of(words: &[OsString]) -> Result<Request, Misuse> {
    match words {
        [] => Ok(Request::Help(None)),
        [word] if help::is_asked_by(word) => Ok(Request::Help(None)),
        [word] => Verb::by_name(word).map(|verb| Request::Help(Some(verb))).ok_or_else(|| no_command(word)),
        [_, surplus, ..] => {
            let sentence = format!("help takes one command, and {} is one more", quoted(&surplus.to_string_lossy()));
            Err(Misuse { verb: None, sentence })
        }
    }
}

fn no_command(word: &OsStr) -> Misuse {
    let sentence = format!("{} is no command; there are {}", quoted(&word.to_string_lossy()), verb_names());
    Misuse { verb: None, sentence }
}

fn verb_names() -> String {
    let names: Vec<&str> = Verb::ALL.iter().map(|verb| verb.name()).collect();
    names.join(", ")
}

/// Whether GAME SEATS D are left out: the second word is no whole number.
fn leaves_out_setting(verb: Verb, places: &[OsString], options: &Options) -> bool {
    let given = !places.is_empty() || options.files_from.is_some();
    if options.from_json {
        return true;
    }
    verb.takes_headings() && given && !places.get(1).is_some_and(|word| is_whole(word))
}

/// Digits, with a sign or without.
fn is_whole(word: &OsStr) -> bool {
    let word = word.to_string_lossy();
    value_of(word.strip_prefix(['+', '-']).unwrap_or(&word)).is_some()
}

fn request(verb: Verb, places: &[OsString], options: Options) -> Result<Request, Misuse> {
    let left_out = leaves_out_setting(verb, places, &options);
    let names = if left_out { &verb.places()[verb.places().len() - 1..] } else { verb.places() };
    let listed = options.files_from.is_some();
    if let Some(missing) = names.get(places.len()).filter(|&&name| !(listed && name == "TABLE")) {
        return Err(Misuse::of(verb, format!("{missing} is missing")));
    }
    if places.len() > names.len() && !verb.takes_many() {
        let surplus = places[names.len()].to_string_lossy();
        return Err(Misuse::of(verb, format!("{} is one argument too many", quoted(&surplus))));
    }
    let number = |place: usize| number_of(verb, names[place], &places[place]);
    let asked = || Ok(Asked { game: places[0].to_string_lossy().into_owned(), seats: number(1)? });
    let setting = || Ok(Setting { asked: asked()?, d: number(2)? });
    let files = |from: usize| places[from..].iter().map(PathBuf::from).collect();
    let (setting_or_none, tables) = match verb {
        verb if verb.takes_many() && left_out => (None, files(0)),
        verb if verb.takes_many() => (Some(setting()?), files(3)),
        _ => (None, Vec::new()),
    };
    Ok(match verb {
        Verb::Evaluate => Request::Evaluate { setting: setting_or_none, tables, options },
        Verb::Ladder => Request::Ladder { setting: setting_or_none, tables, options },
        Verb::Explain => Request::Explain { setting: setting_or_none, tables, options },
        Verb::Reply => {
            Request::Reply { setting: setting()?, table: PathBuf::from(&places[3]), seat: number(4)?, options }
        }
        Verb::Improve if left_out => Request::Improve { setting: None, table: PathBuf::from(&places[0]), options },
        Verb::Improve => Request::Improve { setting: Some(setting()?), table: PathBuf::from(&places[3]), options },
        Verb::Template => Request::Template { setting: setting()?, options },
        Verb::F64 if left_out => Request::F64 { asked: None, profile: PathBuf::from(&places[0]), options },
        Verb::F64 => Request::F64 { asked: Some(asked()?), profile: PathBuf::from(&places[2]), options },
    })
}

pub fn number_of(verb: Verb, name: &str, arg: &OsStr) -> Result<Number, Misuse> {
    let word = arg.to_string_lossy().into_owned();
    match value_of(&word) {
        Some(value) => Ok(Number { word, value }),
        None => {
            Err(Misuse::of(verb, format!("{name} is {}, and a whole number without a sign is needed", quoted(&word))))
        }
    }
}

/// The value of some digits, the greatest of 64 bits where it is above that.
pub fn value_of(text: &str) -> Option<u64> {
    if text.is_empty() || !text.bytes().all(|byte| byte.is_ascii_digit()) {
        return None;
    }
    Some(text.parse().unwrap_or(u64::MAX))
}

#[cfg(test)]
mod tests {
    use super::*;
    use crate::options::Format;

    fn parsed(line: &str) -> Result<Request, Misuse> {
        let args: Vec<OsString> = line.split(' ').filter(|word| !word.is_empty()).map(OsString::from).collect();
        parse(&args)
    }

    fn sentence(line: &str) -> String {
        parsed(line).unwrap_err().sentence
    }

    fn number(word: &str, value: u64) -> Number {
        Number { word: word.to_string(), value }
    }

    fn asked(seats: &str) -> Asked {
        Asked { game: "kuhn".to_string(), seats: number(seats, seats.parse().unwrap()) }
    }

    fn setting(seats: &str, d: &str) -> Setting {
        Setting { asked: asked(seats), d: number(d, d.parse().unwrap()) }
    }

    fn paths(names: &[&str]) -> Vec<PathBuf> {
        names.iter().map(PathBuf::from).collect()
    }

    #[test]
    fn commands_take_their_places() {
        let none = Options::default;
        let template = Request::Template { setting: setting("2", "1"), options: none() };
        assert_eq!(parsed("template kuhn 2 1"), Ok(template));
        let (table, seat) = (PathBuf::from("t"), number("1", 1));
        let reply = Request::Reply { setting: setting("2", "1"), table, seat, options: none() };
        assert_eq!(parsed("reply kuhn 2 1 t 1"), Ok(reply));
        let tables = paths(&["a", "-5", "-"]);
        let evaluate = Request::Evaluate { setting: Some(setting("2", "1")), tables: tables.clone(), options: none() };
        assert_eq!(parsed("evaluate kuhn 2 1 a -5 -"), Ok(evaluate));
        let options = Options { jobs: Some(3), ..none() };
        let ladder = Request::Ladder { setting: Some(setting("2", "1")), tables, options };
        assert_eq!(parsed("ladder --jobs=3 kuhn 2 1 a -5 -"), Ok(ladder.clone()));
        assert_eq!(parsed("ladder kuhn 2 1 --jobs 3 a -- -5 -"), Ok(ladder));
        let f64 = Request::F64 { asked: Some(asked("2")), profile: PathBuf::from("p"), options: none() };
        assert_eq!(parsed("f64 kuhn 2 p"), Ok(f64));
        let options = Options { seat: Some(number("1", 1)), top: Some(3), all: true, ..none() };
        let explain = Request::Explain { setting: None, tables: paths(&["t"]), options };
        assert_eq!(parsed("explain t --seat 1 --top=3 --all"), Ok(explain));
        let options = Options { from_json: true, ..none() };
        let ladder = Request::Ladder { setting: None, tables: paths(&["a", "2"]), options };
        assert_eq!(parsed("ladder --from-json a 2"), Ok(ladder));
        let options = Options { steps: Some(5), table: true, ..none() };
        let improve = |setting| Request::Improve { setting, table: PathBuf::from("t"), options: options.clone() };
        assert_eq!(parsed("improve t --steps 5 --table"), Ok(improve(None)));
        assert_eq!(parsed("improve kuhn 2 1 t --steps 5 --table"), Ok(improve(Some(setting("2", "1")))));
    }

    #[test]
    fn the_setting_is_left_out_exactly_if_the_second_word_is_no_whole_number() {
        let evaluate =
            |names: &[&str]| Ok(Request::Evaluate { setting: None, tables: paths(names), options: Options::default() });
        assert_eq!(parsed("evaluate t"), evaluate(&["t"]));
        assert_eq!(parsed("evaluate kuhn"), evaluate(&["kuhn"]));
        assert_eq!(parsed("evaluate a b 1"), evaluate(&["a", "b", "1"]));
        assert_eq!(parsed("evaluate kuhn two 1 t"), evaluate(&["kuhn", "two", "1", "t"]));
        let f64 = Request::F64 { asked: None, profile: PathBuf::from("p"), options: Options::default() };
        assert_eq!(parsed("f64 p"), Ok(f64));
        assert_eq!(sentence("evaluate khun 2"), "D is missing");
        assert_eq!(sentence("evaluate t -1 1 t"), "SEATS is '-1', and a whole number without a sign is needed");
        let options = Options { files_from: Some(PathBuf::from("-")), ..Options::default() };
        let ladder = Request::Ladder { setting: None, tables: Vec::new(), options: options.clone() };
        assert_eq!(parsed("ladder --files-from -"), Ok(ladder));
        let ladder = Request::Ladder { setting: Some(setting("2", "3")), tables: Vec::new(), options };
        assert_eq!(parsed("ladder kuhn 2 3 --files-from=-"), Ok(ladder));
    }

    #[test]
    fn options_stand_anywhere() {
        let options = Options { labelled: true, format: Format::Json, any: true, ..Options::default() };
        let f64 = Request::F64 { asked: None, profile: PathBuf::from("p"), options };
        assert_eq!(parsed("f64 --any --format json p --labelled"), Ok(f64));
        assert_eq!(parsed("--version"), Ok(Request::Version));
        assert_eq!(sentence("evaluate t --format xml"), "--format is 'xml', and there are text, csv, json");
        assert_eq!(sentence("template kuhn 2 1 --format=json"), "--format is 'json', and there are text, csv");
        assert_eq!(sentence("evaluate t --format"), "--format takes a form, and it is missing");
        assert_eq!(sentence("ladder --files-from"), "--files-from takes a file, and it is missing");
        let unknown = |option: &str| format!("there is no option '{option}'; write -- before a file of that name");
        assert_eq!(sentence("evaluate t --any"), unknown("--any"));
        assert_eq!(sentence("evaluate t --labelled=1"), unknown("--labelled=1"));
        assert_eq!(sentence("reply kuhn 2 1 t 0 --files-from x"), unknown("--files-from"));
    }

    #[test]
    fn help_is_given_wherever_it_is_asked_for() {
        assert_eq!(parsed("--help"), Ok(Request::Help(None)));
        assert_eq!(parsed("-h"), Ok(Request::Help(None)));
        assert_eq!(parsed("ladder --help"), Ok(Request::Help(Some(Verb::Ladder))));
        assert_eq!(parsed("evaluate kuhn 2 1 t -h"), Ok(Request::Help(Some(Verb::Evaluate))));
        assert_eq!(parsed("help"), Ok(Request::Help(None)));
        assert_eq!(parsed("help --help"), Ok(Request::Help(None)));
        assert_eq!(parsed("help explain"), Ok(Request::Help(Some(Verb::Explain))));
        assert!(sentence("help play").starts_with("'play' is no command; there are evaluate, "));
        assert_eq!(sentence("help reply kuhn"), "help takes one command, and 'kuhn' is one more");
    }

    #[test]
    fn numbers_of_any_length_have_a_value() {
        assert_eq!(value_of("18446744073709551615"), Some(u64::MAX));
        assert_eq!(value_of("18446744073709551616"), Some(u64::MAX));
        assert_eq!(value_of(&"9".repeat(1000)), Some(u64::MAX));
        assert_eq!(value_of("0002"), Some(2));
        for text in ["", "-1", "+1", "2^64", "1.0", "two", " 2", "２"] {
            assert_eq!(value_of(text), None);
        }
    }

    #[test]
    fn bad_use_has_a_sentence() {
        assert_eq!(
            sentence(""),
            "a command is missing; there are evaluate, ladder, reply, explain, improve, template, f64"
        );
        assert_eq!(
            sentence("play"),
            "'play' is no command; there are evaluate, ladder, reply, explain, improve, template, f64"
        );
        assert_eq!(sentence("evaluate"), "GAME is missing");
        assert_eq!(sentence("evaluate kuhn 2 1"), "TABLE is missing");
        assert_eq!(sentence("reply kuhn 2 1 t"), "SEAT is missing");
        assert_eq!(sentence("f64 kuhn 2"), "PROFILE is missing");
        assert_eq!(sentence("template kuhn 2 1 t"), "'t' is one argument too many");
        assert_eq!(sentence("f64 kuhn 2 p p"), "'p' is one argument too many");
        assert_eq!(sentence("f64 p q"), "'q' is one argument too many");
        assert_eq!(sentence("improve t u"), "'u' is one argument too many");
        assert_eq!(sentence("evaluate kuhn +2 1 t"), "SEATS is '+2', and a whole number without a sign is needed");
        assert_eq!(sentence("evaluate kuhn 2 -1 t"), "D is '-1', and a whole number without a sign is needed");
        assert_eq!(sentence("reply kuhn two 1 t 0"), "SEATS is 'two', and a whole number without a sign is needed");
        assert_eq!(sentence("reply kuhn 2 1 t x"), "SEAT is 'x', and a whole number without a sign is needed");
        assert_eq!(sentence("ladder kuhn 2 1 t --jobs"), "--jobs takes a number, and it is missing");
        assert_eq!(sentence("ladder kuhn 2 1 t --jobs 0"), "--jobs is '0', and a number from 1 is needed");
        assert_eq!(sentence("ladder kuhn 2 1 t --jobs=x"), "--jobs is 'x', and a number from 1 is needed");
        let unknown = |option: &str| format!("there is no option '{option}'; write -- before a file of that name");
        assert_eq!(sentence("evaluate kuhn 2 1 -t"), unknown("-t"));
        assert_eq!(sentence("template kuhn 2 1 --jobs 2"), "there is no option '--jobs'");
        assert_eq!(sentence("f64 kuhn 2 p --jobs 2"), unknown("--jobs"));
        assert_eq!(sentence("evaluate t --seat 1"), unknown("--seat"));
        assert_eq!(sentence("ladder --from-json"), "TABLE is missing");
        assert_eq!(sentence("explain t --seat"), "--seat takes a seat, and it is missing");
        assert_eq!(sentence("explain t --top x"), "--top is 'x', and a whole number without a sign is needed");
    }
}
