//! `evaluate`: worths, best values and NashConv of tables.

use std::path::PathBuf;

use chukkanalli::{Evaluator, Game, NashConv, Refusal};

use super::batch::{Batch, Same};
use super::table::Graded;
use super::{complain_of, Stop, DONE, REFUSED};
use crate::args::{Setting, Verb};
use crate::console::Console;
use crate::figures::Figures;
use crate::options::{Format, Options};
use crate::output::{self, Frame};

/// What a table is worth to each seat, each seat's best value, and NashConv.
pub struct Evaluation {
    worths: Vec<i64>,
    best: Vec<i64>,
    pub conv: NashConv,
}

impl Evaluation {
    pub fn of(evaluator: &mut Evaluator, d: u64, parts: &[u8]) -> Result<Self, Refusal> {
        let (worths, best) = (evaluator.worths(d, parts)?.to_vec(), best_values(evaluator, d, parts)?);
        Ok(Evaluation { worths, best, conv: evaluator.nash_conv_units(d, parts)? })
    }

    /// What a record says of a table: the worth and best value of each seat, and NashConv.
    pub fn of_record(seats: &[(i64, i64)], conv: NashConv) -> Self {
        Evaluation {
            worths: seats.iter().map(|seat| seat.0).collect(),
            best: seats.iter().map(|seat| seat.1).collect(),
            conv,
        }
    }

    /// Each seat with its worth and its best value.
    fn by_seat(&self) -> impl Iterator<Item = (u64, i64, i64)> + '_ {
        (0..).zip(self.worths.iter().zip(&self.best)).map(|(seat, (&worth, &best))| (seat, worth, best))
    }

    /// The same for software.
    pub fn seat_values(&self) -> Vec<output::Members> {
        self.by_seat().map(|(seat, worth, best)| output::seat_values(seat, worth, best)).collect()
    }

    /// What each seat gains by its best value, in units.
    pub fn gains(&self) -> Vec<u64> {
        self.by_seat().map(|(_, worth, best)| best.abs_diff(worth)).collect()
    }
}

fn best_values(evaluator: &mut Evaluator, d: u64, parts: &[u8]) -> Result<Vec<i64>, Refusal> {
    let mut reply = vec![0; parts.len()];
    (0..evaluator.game().seats()).map(|seat| evaluator.best_reply_into(seat, d, parts, &mut reply)).collect()
}

pub fn run(setting: Option<Setting>, tables: &[PathBuf], options: &Options, console: &mut Console) -> Result<u8, Stop> {
    let mut batch = Batch::new(Verb::Evaluate, setting, tables, options, console)?;
    let (game, d) = (batch.labels.game(), batch.d);
    let frame = Frame { verb: Verb::Evaluate, format: options.format, game, d: Some(d), seat: None, any: false };
    let names: Vec<String> = batch.sources.iter().map(|source| source.name.clone()).collect();
    let (mut gap, mut status) = ("", DONE);
    if options.format != Format::Text {
        console.print(&frame.heading())?;
    }
    batch.evaluate(
        console,
        |evaluator, parts| Evaluation::of(evaluator, d, parts),
        |console, place, outcome| {
            let name = &names[place];
            if let Err(faults) = &outcome {
                complain_of(faults, name, console);
                status = REFUSED;
            }
            let text = match (outcome, options.format) {
                (Ok((graded, same)), Format::Text) => {
                    format!("{}{}", std::mem::replace(&mut gap, "\n"), block(name, game, d, &graded, same.first))
                }
                (Ok((graded, same)), _) => frame.evaluated(name, machine_figures(&graded, same)),
                (Err(_), Format::Text) => return Ok(()),
                (Err(faults), _) => frame.refused(name, &faults),
            };
            Ok(console.print(&text)?)
        },
    )?;
    Ok(status)
}

fn machine_figures<'a>(graded: &Graded<Evaluation>, same: Same<'a>) -> output::Figures<'a> {
    output::Figures {
        read_by: Some(graded.read_by),
        same_table_as: same.first,
        parts_sha256: Some(same.fingerprint.hex()),
        seat_values: graded.result.seat_values(),
        conv: Some(graded.result.conv),
        ..output::Figures::default()
    }
}

/// What is printed of a table.
fn block(name: &str, game: Game, d: u64, graded: &Graded<Evaluation>, same: Option<&str>) -> String {
    let evaluation = &graded.result;
    let mut figures = Figures::new(name, game, d, evaluation.conv.units, graded.read_by);
    if let Some(same) = same {
        figures.mark_same(same);
    }
    for (seat, worth, best) in evaluation.by_seat() {
        figures.add_seat(seat, worth, best);
    }
    figures.add_nash_conv(evaluation.conv.nash_conv);
    figures.to_string()
}
