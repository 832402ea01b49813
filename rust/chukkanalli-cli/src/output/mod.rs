//! What software reads: a record a table, as JSON or CSV. docs/output.schema.json says what a record has.

mod csv;
mod json;
mod value;

use chukkanalli::tables::{Faults, ReadBy};
use chukkanalli::{Game, NashConv};

use crate::args::Verb;
use crate::fraction::Fraction;
use crate::names::game_word;
use crate::options::Format;
use crate::version::{COMMIT, VERSION};

pub use value::{Members, Value};

/// What is the same in every record of a run.
#[derive(Clone, Copy)]
pub struct Frame {
    pub verb: Verb,
    pub format: Format,
    pub game: Game,
    /// None for a profile.
    pub d: Option<u64>,
    /// The seat of a reply.
    pub seat: Option<u64>,
    /// Whether a profile's numbers were taken as they are.
    pub any: bool,
}

/// The figures of a table or profile, each where its command has it.
#[derive(Default)]
pub struct Figures<'a> {
    pub read_by: Option<ReadBy>,
    pub same_table_as: Option<&'a str>,
    /// The SHA-256 of a table's parts, in hexadecimal digits.
    pub parts_sha256: Option<String>,
    pub rank: Option<usize>,
    pub seat_values: Vec<Members>,
    pub conv: Option<NashConv>,
    /// NashConv and exploitability of a profile.
    pub floats: Option<[f64; 2]>,
    pub reply: Option<Vec<Members>>,
    /// What each set adds to the gain of its seat.
    pub explained: Option<Vec<Members>>,
    /// What moving a part does, or the moves that were made.
    pub moves: Option<Vec<Members>>,
}

/// A seat's worth, best value and gain, in units.
pub fn seat_values(seat: u64, worth: i64, best: i64) -> Members {
    let gain = i128::from(best) - i128::from(worth);
    vec![
        ("seat", Value::from(seat)),
        ("worth", Value::whole(worth)),
        ("best_value", Value::whole(best)),
        ("gain", Value::Whole(gain)),
    ]
}

/// A seat's worth and best response value, in f64.
pub fn seat_floats(seat: u64, worth: f64, best: f64) -> Members {
    vec![("seat", Value::from(seat)), ("worth", Value::Float(worth)), ("best_value", Value::Float(best))]
}

impl Frame {
    /// What stands before all records.
    pub fn heading(&self) -> String {
        match self.format {
            Format::Csv => csv::heading(&self.columns()),
            _ => String::new(),
        }
    }

    /// The record of a file that was evaluated.
    pub fn evaluated(&self, file: &str, figures: Figures) -> String {
        self.record(file, figures, None)
    }

    /// The record of a file that was refused.
    pub fn refused(&self, file: &str, faults: &Faults) -> String {
        self.record(file, Figures::default(), Some(faults))
    }

    fn record(&self, file: &str, figures: Figures, faults: Option<&Faults>) -> String {
        let members = self.members(file, figures, faults);
        match self.format {
            Format::Csv => csv::rows(&self.columns(), &members, self.spread()),
            _ => json::line(&members),
        }
    }

    /// The list that has a row for each of its objects in CSV.
    fn spread(&self) -> &'static str {
        match self.verb {
            Verb::Explain => "explained",
            Verb::Improve => "moves",
            _ => "reply",
        }
    }

    fn members(&self, file: &str, figures: Figures, faults: Option<&Faults>) -> Members {
        let chips = figures.conv.map(|conv| Fraction::of_sum(conv.nash_conv, conv.units));
        let shared = figures.conv.map(|conv| Fraction::shared(conv.nash_conv, conv.units, self.game.seats()));
        let fraction = |fraction: Option<Fraction>| fraction.map_or(Value::None, |f| Value::Fraction(f.to_string()));
        let nash_conv = match figures.floats {
            Some([nash_conv, _]) => Value::Float(nash_conv),
            None => figures.conv.map(|conv| conv.nash_conv).into(),
        };
        let listed = |list: Vec<Members>| if faults.is_some() { Value::None } else { Value::List(list) };
        let mut members = vec![
            ("version", Value::from(VERSION)),
            ("commit", Value::from(COMMIT)),
            ("command", Value::from(self.verb.name())),
            ("file", Value::from(file)),
            ("game", Value::from(&game_word(self.game)[..])),
            ("seats", Value::from(self.game.seats())),
            ("d", self.d.into()),
            ("read_by", figures.read_by.map(ReadBy::name).into()),
            ("any", Value::Bool(self.any)),
            ("same_table_as", figures.same_table_as.into()),
            ("parts_sha256", figures.parts_sha256.as_deref().into()),
            ("rank", figures.rank.into()),
            ("seat", self.seat.into()),
            ("units", figures.conv.map(|conv| conv.units).into()),
            ("seat_values", listed(figures.seat_values)),
            ("nash_conv", nash_conv),
            ("nash_conv_fraction", fraction(chips)),
            ("nash_conv_decimal", chips.map_or(Value::None, |chips| Value::Decimal(chips.decimals()))),
            ("exploitability", figures.floats.map_or(Value::None, |[_, value]| Value::Float(value))),
            ("exploitability_fraction", fraction(shared)),
            ("reply", figures.reply.map_or(Value::None, Value::List)),
            ("explained", figures.explained.map_or(Value::None, Value::List)),
            ("moves", figures.moves.map_or(Value::None, Value::List)),
        ];
        members.extend(fault_members(faults));
        members
    }

    /// The columns of a CSV file: the members that its command has, and for each seat a column for each of its own.
    fn columns(&self) -> Vec<String> {
        let floats = self.verb == Verb::F64;
        let front = ["version", "commit", "command", "file", "game", "seats"];
        let setting: &[&str] = match self.verb {
            Verb::F64 => &["read_by", "any"],
            Verb::Reply => &["d", "read_by", "seat", "units"],
            Verb::Explain => &["d", "read_by", "same_table_as", "units"],
            Verb::Ladder => &["d", "read_by", "same_table_as", "rank", "units"],
            _ => &["d", "read_by", "same_table_as", "units"],
        };
        let own: &[&str] = if floats { &["worth", "best_value"] } else { &["worth", "best_value", "gain"] };
        let seats = self.seat.map_or(0..self.game.seats(), |seat| seat..seat + 1);
        let by_seat = seats.flat_map(|seat| own.iter().map(move |name| format!("seat_{seat}_{name}")));
        let conv: &[&str] = match self.verb {
            Verb::F64 => &["nash_conv", "exploitability"],
            _ => &["nash_conv", "nash_conv_fraction", "nash_conv_decimal", "exploitability_fraction"],
        };
        let reply: &[&str] = match self.verb {
            Verb::Reply => &["set", "action", "reached"],
            Verb::Explain => &["seat", "set", "parts", "action", "adds", "adds_fraction", "mark", "words"],
            Verb::Improve => &[
                "step",
                "set",
                "from",
                "to",
                "parts",
                "moved_nash_conv",
                "moved_nash_conv_fraction",
                "change",
                "change_fraction",
                "words",
            ],
            _ => &[],
        };
        let back = ["refusal", "sentence", "faults", "more_faults"];
        let named = |names: &[&str]| names.iter().map(|name| name.to_string()).collect::<Vec<_>>();
        [named(&front), named(setting), by_seat.collect(), named(conv), named(reply), named(&back)].concat()
    }
}

/// The refusal's number, what is said first, and each fault that is told with its line.
fn fault_members(faults: Option<&Faults>) -> Members {
    let told = faults.map_or(&[][..], Faults::told);
    let fault = |line: Option<usize>, sentence: &str| vec![("line", line.into()), ("sentence", Value::from(sentence))];
    vec![
        ("refusal", faults.and_then(Faults::refusal).map(|refusal| refusal.number()).into()),
        ("sentence", told.first().map(|fault| fault.sentence.as_str()).into()),
        ("faults", Value::List(told.iter().map(|told| fault(told.line, &told.sentence)).collect())),
        ("more_faults", Value::from(faults.map_or(0, Faults::more))),
    ]
}
