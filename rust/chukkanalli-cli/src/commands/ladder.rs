//! `ladder`: tables in order of NashConv.

use std::fs;
use std::path::PathBuf;

use chukkanalli::{Evaluator, NashConv, Refusal};

use super::batch::Batch;
use super::evaluate::Evaluation;
use super::standing::{Entrant, Leader, Standing};
use super::{from_json, Stop};
use crate::args::{Setting, Verb};
use crate::console::Console;
use crate::options::{Format, Options};
use crate::output::Frame;

pub fn run(setting: Option<Setting>, tables: &[PathBuf], options: &Options, console: &mut Console) -> Result<u8, Stop> {
    if options.from_json {
        return from_json::run(tables, options, console);
    }
    let mut batch = Batch::new(Verb::Ladder, setting, tables, options, console)?;
    let (game, d) = (batch.labels.game(), batch.d);
    let frame = Frame { verb: Verb::Ladder, format: options.format, game, d: Some(d), seat: None, any: false };
    let names: Vec<String> = batch.sources.iter().map(|source| source.name.clone()).collect();
    let mut standing = Standing::default();
    let mut leader: Option<Leader> = None;
    batch.evaluate(
        console,
        |evaluator, parts| evaluate(evaluator, d, parts, options).map(|(conv, seats)| (conv, seats, parts.to_vec())),
        |console, place, outcome| {
            let name = names[place].clone();
            match outcome {
                Ok((graded, same)) => {
                    let (conv, seats, parts) = graded.result;
                    let (same, fingerprint) = (same.first.map(str::to_string), same.fingerprint.hex());
                    if leader.as_ref().is_none_or(|leader| conv.compare(&leader.conv).is_lt()) {
                        leader = Some(Leader { name: name.clone(), conv, parts });
                    }
                    standing.ranked.push(Entrant { name, read_by: graded.read_by, same, fingerprint, conv, seats });
                }
                Err(faults) => standing.refuse(name, faults, console),
            }
            Ok(())
        },
    )?;
    if let Some(path) = &options.html {
        let page = standing.page(leader, &batch.labels, d, options, console)?;
        standing.write(fs::write(path, page.html()), path, console);
    }
    standing.hand_out(&frame, d, options, console)
}

/// NashConv of a table, and for software and for a page what it is worth to each seat.
fn evaluate(
    evaluator: &mut Evaluator,
    d: u64,
    parts: &[u8],
    options: &Options,
) -> Result<(NashConv, Option<Evaluation>), Refusal> {
    if options.format == Format::Text && options.html.is_none() {
        return Ok((evaluator.nash_conv_units(d, parts)?, None));
    }
    let evaluation = Evaluation::of(evaluator, d, parts)?;
    Ok((evaluation.conv, Some(evaluation)))
}
