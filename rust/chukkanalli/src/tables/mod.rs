//! Tables and profiles as files: the labels of a game's sets, the reader of text and CSV, and the writer. docs/TABLES.md has the format.
//!
//! ```
//! use chukkanalli::tables::{self, Form, Labels, ReadBy, Reader};
//! use chukkanalli::{Evaluator, Game};
//!
//! let mut evaluator = Evaluator::new(Game::Kuhn { seats: 2 })?;
//! let labels = Labels::new(&evaluator);
//! assert_eq!(labels.label(1), "PASS BET: seat 1, card 1, after PASS");
//!
//! // A line for each set, in any order: the parts, and behind the # the set's label.
//! let always_pass = tables::written(&labels, 1, &[1u8, 0].repeat(12), Form::Text);
//! let mut lines: Vec<&str> = always_pass.lines().collect();
//! lines.reverse();
//! let table = Reader::new(&labels).with_d(1).read::<u8>(lines.join("\n").as_bytes())?;
//! assert_eq!(table.read_by, ReadBy::Labels);
//! assert_eq!(evaluator.nash_conv_units(1, &table.numbers)?.nash_conv, 12);
//!
//! // What is wrong is told with its line.
//! let spoiled = always_pass.replace("1 0  # PASS BET: seat 1, card 2, after PASS", "1  # PASS BET: seat 1, card 2, after PASS");
//! let faults = Reader::new(&labels).with_d(1).read::<u8>(spoiled.as_bytes()).unwrap_err();
//! assert_eq!(faults.to_string(), "line 7: seat 1, card 2, after PASS has 1 part and needs 2 (PASS BET)");
//! # Ok::<(), Box<dyn std::error::Error>>(())
//! ```

mod csv;
mod encoding;
mod entries;
mod fault;
mod file;
mod heading;
mod hints;
mod labels;
mod mislabels;
mod number;
mod placing;
mod reader;
mod rows;
mod sums;
mod text;
mod words;
mod writer;

pub use entries::{Entries, ReadBy};
pub use fault::{Fault, Faults, MOST_TOLD};
pub use file::{bytes_from, bytes_of, limited, opened, unreadable, MOST_BYTES};
pub use heading::Heading;
pub use labels::Labels;
pub use number::Number;
pub use reader::{heading_of, Reader};
pub use sums::TOLERANCE;
pub use words::{action_words, game_words, quoted, set_words};
pub use writer::{template, written, Form};
