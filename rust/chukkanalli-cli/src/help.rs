//! The texts of --help.

use std::ffi::OsStr;

use crate::args::Verb;

pub fn is_asked_by(arg: &OsStr) -> bool {
    arg == "--help" || arg == "-h"
}

/// An option: its name, what it takes, which commands take it, and what it is.
pub struct Described {
    pub name: &'static str,
    pub value: Option<&'static str>,
    pub taken_by: fn(Verb) -> bool,
    shown: &'static str,
    what: &'static str,
}

/// The options.
pub const OPTIONS: [Described; 13] = [
    Described {
        name: "--format",
        value: Some("a form"),
        taken_by: |_| true,
        shown: "--format F",
        what: "\
text, csv or json, by default text; for template text or csv.
docs/API.md has the columns, docs/output.schema.json the
JSON: one object a table, on one line",
    },
    Described {
        name: "--labelled",
        value: None,
        taken_by: Verb::takes_a_file,
        shown: "--labelled",
        what: "\
refuses a file without labels, which is read by position
otherwise",
    },
    Described {
        name: "--any",
        value: None,
        taken_by: |verb| verb == Verb::F64,
        shown: "--any",
        what: "\
takes any numbers, whatever they add up to; what is printed
then says so",
    },
    Described {
        name: "--html",
        value: Some("a file"),
        taken_by: |verb| verb == Verb::Ladder,
        shown: "--html FILE",
        what: "\
writes the standing as a page to FILE too: bars, each seat's
gain, the leader's faults in words and what was refused",
    },
    Described {
        name: "--reasons",
        value: Some("a folder"),
        taken_by: |verb| verb == Verb::Ladder,
        shown: "--reasons FOLDER",
        what: "\
writes a text for each refused table to FOLDER, to be sent
back",
    },
    Described {
        name: "--from-json",
        value: None,
        taken_by: |verb| verb == Verb::Ladder,
        shown: "--from-json",
        what: "\
ranks the records in TABLE..., lines that evaluate or ladder
printed with --format json, in place of tables",
    },
    Described {
        name: "--table",
        value: None,
        taken_by: |verb| matches!(verb, Verb::Reply | Verb::Improve),
        shown: "--table",
        what: "\
prints the table alone, with a heading and labels, as text or
csv",
    },
    Described {
        name: "--steps",
        value: Some("a number"),
        taken_by: |verb| verb == Verb::Improve,
        shown: "--steps N",
        what: "\
takes the best move N times, and prints NashConv after each
and the table",
    },
    Described {
        name: "--seat",
        value: Some("a seat"),
        taken_by: |verb| verb == Verb::Explain,
        shown: "--seat S",
        what: "explains the gain of this seat alone, in place of all seats'",
    },
    Described {
        name: "--top",
        value: Some("a number"),
        taken_by: Verb::shares_out,
        shown: "--top N",
        what: "\
shows the N sets of a seat or moves that count most, by
default 10",
    },
    Described {
        name: "--all",
        value: None,
        taken_by: Verb::shares_out,
        shown: "--all",
        what: "\
shows every set of the seat or every move, those that help
nothing too",
    },
    Described {
        name: "--files-from",
        value: Some("a file"),
        taken_by: Verb::takes_many,
        shown: "--files-from FILE",
        what: "\
takes the names in FILE too, one a line or a NUL behind each;
- is standard input",
    },
    Described {
        name: "--jobs",
        value: Some("a number"),
        taken_by: |verb| verb.takes_many() || verb.shares_out(),
        shown: "--jobs N",
        what: "\
N threads, by default one a core, at most 256; what is
printed is the same",
    },
];

/// The help of a command, or of all: what it does, what each argument is, how it ends.
pub fn text(verb: Option<Verb>) -> String {
    let places: Vec<&str> = match verb {
        None => ARGUMENTS.map(|(name, _)| name).to_vec(),
        Some(verb) => verb.places().to_vec(),
    };
    let taken = ARGUMENTS.iter().filter(|(name, _)| places.contains(name));
    let places: String = taken.map(|(name, what)| described(name, what, 9)).collect();
    let own = verb.map_or(ALL, about);
    format!("{own}\n{places}\n{}\n{OUTCOME}", options_of(verb))
}

fn options_of(verb: Option<Verb>) -> String {
    let taken = OPTIONS.iter().filter(|option| verb.is_none_or(option.taken_by));
    let mut text: String = taken.map(|option| described(option.shown, option.what, 19)).collect();
    if verb.is_none_or(Verb::takes_a_file) {
        text += &described("--", DASHES, 19);
    }
    text
}

/// A name, and what it is in a column behind it.
fn described(name: &str, what: &str, width: usize) -> String {
    format!("{name:width$}{}\n", what.replace('\n', &format!("\n{:width$}", "")))
}

fn about(verb: Verb) -> &'static str {
    match verb {
        Verb::Evaluate => EVALUATE,
        Verb::Ladder => LADDER,
        Verb::Reply => REPLY,
        Verb::Explain => EXPLAIN,
        Verb::Improve => IMPROVE,
        Verb::Template => TEMPLATE,
        Verb::F64 => F64,
    }
}

const DASHES: &str = "\
behind it no word is an option, so that a file's name may
begin with a dash";

/// What each argument is.
const ARGUMENTS: [(&str, &str); 6] = [
    ("GAME", "kuhn or leduc, in any case of letters"),
    ("SEATS", "2 to 6 for kuhn, 2 for leduc"),
    ("D", "the parts per set: 1 to 64, for kuhn with 5 or 6 seats 1 to 16"),
    (
        "TABLE",
        "\
a file as `chukkanalli template` prints it, text or CSV: for each set
the part of each action as a whole number, which add up to D, and the
set's label. With labels the lines may come in any order. Numbers
without labels are read by position, in the template's order. - is
standard input. For evaluate, ladder and explain a folder stands for
the files right in it, not for its subfolders and hidden files (whose
names begin with a dot)",
    ),
    ("SEAT", "a seat, from 0"),
    (
        "PROFILE",
        "\
the same with a decimal number for each action: none below 0, and in
each set they add up to 1 within 1e-9",
    ),
];

const OUTCOME: &str = "\
What cannot be evaluated is refused on stderr, with the file and the line, and
with the number of the refusal where a proved call refuses; docs/API.md lists
the numbers. All faults of a file are told, up to 20 and how many more.
Status: 0; 1 where a table or profile was refused or cannot be read, the output
cannot be written (a reader who leaves early is no such case) or there is too
little memory; 2 for bad use.
";

const ALL: &str = "\
Evaluates strategy tables for Kuhn and Leduc poker, exactly or in f64, by proved
calls.

  chukkanalli evaluate GAME SEATS D TABLE...  worths, best values, NashConv
  chukkanalli ladder GAME SEATS D TABLE...    tables in order of NashConv
  chukkanalli reply GAME SEATS D TABLE SEAT   the perfect reply of a seat
  chukkanalli explain GAME SEATS D TABLE...   which sets lose to that reply
  chukkanalli improve GAME SEATS D TABLE      which part of a set to move
  chukkanalli template GAME SEATS D           an empty table to fill in
  chukkanalli f64 GAME SEATS PROFILE          a profile, in floating point
  chukkanalli help COMMAND                    more about a command
  chukkanalli --version                       the version and its commit

Where every file has a heading, the first line that template prints, GAME SEATS
D may be left out of evaluate, ladder, explain, improve and f64: chukkanalli
ladder TABLE...
";

const EVALUATE: &str = "\
chukkanalli evaluate GAME SEATS D TABLE... [OPTIONS]

Prints for each table what it is worth to each seat, each seat's best value (the
most that any table gets it which differs in that seat's sets only) and
NashConv, the sum of best value - worth: in units, in chips per hand as a
fraction in lowest terms, and that rounded to nine decimals; and whether it was
read by labels or by position, and which table before it has the same parts.
GAME SEATS D may be left out where every file has a heading.

  chukkanalli evaluate kuhn 2 1 samples/always-pass.txt
";

const LADDER: &str = "\
chukkanalli ladder GAME SEATS D TABLE... [OPTIONS]

Prints the tables in order of NashConv, the lowest and so the hardest to beat
first. Tables with equal NashConv have the same rank; the comparison is exact. A
table that was refused or cannot be read stands below, with the reason. GAME
SEATS D may be left out where every file has a heading.

  chukkanalli ladder kuhn 2 3 samples/equilibrium.txt samples/always-pass.txt
";

const REPLY: &str = "\
chukkanalli reply GAME SEATS D TABLE SEAT [OPTIONS]

Prints what a seat gains by its perfect reply to a table, and the reply, a line
for each of its sets: its card, the public card (leduc), what was played, and
the action that the reply takes. No table of the seat gets more. Of equally good
actions it takes the first. Sets that no hand reaches while the others play the
table come last. The reply beats this table; it is no correction of it. With
--table the table is printed in which the seat plays the reply and the others as
they do.

  chukkanalli reply kuhn 2 1 samples/always-pass.txt 0
";

const EXPLAIN: &str = "\
chukkanalli explain GAME SEATS D TABLE... [OPTIONS]

Prints for each seat what it gains by its perfect reply, and which of its sets
carry the gain: the table's own parts, the reply's action and what the switch
from the one to the other adds; the largest first, and in a sentence each. A set
is switched after all sets of the seat that can follow it, so that no switch
loses anything and together they add up to the gain. GAME SEATS D may be left
out where every file has a heading.

  chukkanalli explain kuhn 2 3 samples/one-in-three.txt --seat 0
";

const IMPROVE: &str = "\
chukkanalli improve GAME SEATS D TABLE [OPTIONS]

Prints what moving one part of a set from one action to another does to
NashConv, the moves that lower it most first: the line to put into the file, and
a sentence. With --steps the best move is taken again and again, and the table
that comes of it is printed; all of that is a table which every command takes.
GAME SEATS D may be left out where the file has a heading.

  chukkanalli improve kuhn 2 3 samples/one-in-three.txt --steps 5 >better.txt
";

const TEMPLATE: &str = "\
chukkanalli template GAME SEATS D [OPTIONS]

Prints an empty table to fill in, a line for each set: the parts of its actions,
and behind the # its label: the names of the actions, the seat, its card, the
public card (leduc) and what was played. A table has D parts in each set: one
that is left empty is refused with 8. The lines may be put in another order;
what follows a second # is a note of your own.

  chukkanalli template kuhn 2 4 >mine.txt
";

const F64: &str = "\
chukkanalli f64 GAME SEATS PROFILE [OPTIONS]

Prints the best response value of each seat, what the profile is worth to each
seat, NashConv (the sum of best response value - worth) and exploitability
(NashConv divided by the seats): in chips per hand, in f64, each with the fewest
digits that read back as the same number.

A profile has a number for each action of each set: 0.25, 1, 1e-3; with --any
also inf, -inf or NaN. A table with D 1 is a profile too, so that `template`
with D 1 prints one to fill in. The D of a heading is not read, and GAME SEATS
may be left out where the file has one.

  chukkanalli f64 kuhn 2 samples/uniform-profile.txt
";

#[cfg(test)]
mod tests {
    use super::*;

    #[test]
    fn every_command_has_a_help_that_begins_with_its_use() {
        for verb in Verb::ALL {
            let mut usage = format!("chukkanalli {} {}", verb.name(), verb.places().join(" "));
            if verb.takes_many() {
                usage += "...";
            }
            assert_eq!(text(Some(verb)).lines().next(), Some(format!("{usage} [OPTIONS]").as_str()));
            assert!(text(None).contains(&format!("  {usage}  ")), "{usage}");
        }
    }

    #[test]
    fn every_help_says_what_its_arguments_and_options_are() {
        for verb in Verb::ALL {
            let own = text(Some(verb));
            for name in verb.places() {
                assert!(own.contains(&format!("\n{name:9}")) && text(None).contains(&format!("\n{name:9}")), "{name}");
            }
            for option in &OPTIONS {
                assert_eq!(
                    own.contains(&format!("\n{:19}", option.shown)),
                    (option.taken_by)(verb),
                    "{}",
                    option.shown
                );
                assert!(text(None).contains(&format!("\n{:19}", option.shown)));
            }
        }
    }

    #[test]
    fn no_line_is_wider_than_a_terminal() {
        for verb in Verb::ALL.into_iter().map(Some).chain([None]) {
            for line in text(verb).lines() {
                assert!(line.chars().count() <= 80, "{line}");
            }
            assert!(!text(verb).contains("document 01"));
        }
    }
}
