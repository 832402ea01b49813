//! `f64`: the five values of a profile in floating point.

use std::path::Path;

use chukkanalli::tables::{game_words, Labels, Reader};
use chukkanalli::{Evaluator, Game, Refusal, Values};

use super::table::{self, Graded};
use super::{complain_of, game, headings, Stop, DONE, REFUSED};
use crate::args::{Asked, Verb};
use crate::columns::{self, Side};
use crate::console::Console;
use crate::options::{Format, Options};
use crate::output::{self, Frame};
use crate::sources::Source;

struct Evaluation {
    best: Values,
    worths: Values,
    nash_conv: f64,
    exploitability: f64,
}

pub fn run(asked: Option<Asked>, path: &Path, options: &Options, console: &mut Console) -> Result<u8, Stop> {
    let ready = asked.map(|asked| game::evaluator(Verb::F64, &asked)).transpose()?;
    let mut source = Source::one::<f64>(path, console);
    let headed = ready.is_none();
    let mut evaluator = match ready {
        Some(evaluator) => evaluator,
        None => {
            let found = headings::first::<f64>(Verb::F64, std::slice::from_mut(&mut source))?;
            found.blame(game::evaluator(Verb::F64, &found.setting.asked))?
        }
    };
    let labels = Labels::new(&evaluator);
    let mut reader = Reader::new(&labels);
    reader = if options.labelled { reader.labelled() } else { reader };
    reader = if options.any { reader.any() } else { reader };
    reader = if headed { reader.headed() } else { reader };
    let frame =
        Frame { verb: Verb::F64, format: options.format, game: labels.game(), d: None, seat: None, any: options.any };
    console.expect(1);
    let answer = table::valued(&source, &reader, &mut evaluator, evaluate);
    let status = if answer.is_ok() { DONE } else { REFUSED };
    let text = match (&answer, options.format) {
        (Ok(graded), Format::Text) => text(&source.name, labels.game(), graded, options.any),
        (Ok(graded), _) => frame.heading() + &frame.evaluated(&source.name, machine_figures(graded)),
        (Err(_), Format::Text) => String::new(),
        (Err(faults), _) => frame.heading() + &frame.refused(&source.name, faults),
    };
    if let Err(faults) = &answer {
        complain_of(faults, &source.name, console);
    }
    console.print(&text)?;
    Ok(status)
}

fn evaluate(evaluator: &mut Evaluator, profile: &[f64]) -> Result<Evaluation, Refusal> {
    let best = evaluator.best_response_values(profile)?;
    let worths = evaluator.profile_values(profile)?;
    let nash_conv = evaluator.nash_conv(profile)?;
    let exploitability = evaluator.exploitability(profile)?;
    Ok(Evaluation { best, worths, nash_conv, exploitability })
}

/// A value a line, with the fewest digits that read back as the same number.
fn text(name: &str, game: Game, graded: &Graded<Evaluation>, any: bool) -> String {
    let evaluation = &graded.result;
    let mut rows = Vec::new();
    let mut add = |what: String, value: f64| rows.push([what, format!("{value:?}")]);
    for (seat, &value) in evaluation.best.iter().enumerate() {
        add(format!("seat {seat} best response value"), value);
    }
    for (seat, &value) in evaluation.worths.iter().enumerate() {
        add(format!("seat {seat} worth"), value);
    }
    add("NashConv".to_string(), evaluation.nash_conv);
    add("exploitability".to_string(), evaluation.exploitability);
    let lines = columns::lines([Side::Left, Side::Left], &rows);
    let taken = if any { ", whatever its numbers add up to" } else { "" };
    format!("{name}: {}, chips per hand in f64, read by {}{taken}\n\n{lines}", game_words(game), graded.read_by.name())
}

fn machine_figures<'a>(graded: &Graded<Evaluation>) -> output::Figures<'a> {
    let evaluation = &graded.result;
    let by_seat = (0..).zip(evaluation.worths.iter().zip(evaluation.best.iter()));
    output::Figures {
        read_by: Some(graded.read_by),
        seat_values: by_seat.map(|(seat, (&worth, &best))| output::seat_floats(seat, worth, best)).collect(),
        floats: Some([evaluation.nash_conv, evaluation.exploitability]),
        ..output::Figures::default()
    }
}
