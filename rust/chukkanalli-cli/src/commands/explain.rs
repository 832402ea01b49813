//! `explain`: which sets of a table carry what a seat gains by its perfect reply.

use std::path::PathBuf;

use chukkanalli::tables::{action_words, set_words, Labels};
use chukkanalli::{Evaluator, NashConv, Refusal};

use super::batch::{Batch, Same};
use super::table::Graded;
use super::{complain_of, Stop, DONE, REFUSED};
use crate::args::{Setting, Verb};
use crate::columns::{self, Side};
use crate::console::Console;
use crate::figures::Figures;
use crate::fraction::Fraction;
use crate::options::{Format, Options};
use crate::output::{self, Frame, Members, Value};
use crate::sentences;
use crate::switches::{explained, Explanation, Mark, Switch};

/// The sets that are shown of a seat, unless another number is asked for.
pub const SHOWN: usize = 10;

/// The seats' explanations, with the table's own parts.
struct Answer {
    conv: NashConv,
    seats: Vec<Explanation>,
    parts: Vec<u8>,
}

pub fn run(setting: Option<Setting>, tables: &[PathBuf], options: &Options, console: &mut Console) -> Result<u8, Stop> {
    let mut batch = Batch::new(Verb::Explain, setting, tables, options, console)?;
    let (game, d) = (batch.labels.game(), batch.d);
    let seat = options.seat.as_ref().map(|seat| seat.value);
    let frame = Frame { verb: Verb::Explain, format: options.format, game, d: Some(d), seat, any: false };
    let names: Vec<String> = batch.sources.iter().map(|source| source.name.clone()).collect();
    let labels = batch.labels.clone();
    let seats = seat.map_or(0..game.seats(), |seat| seat..seat + 1);
    let (mut gap, mut status) = ("", DONE);
    if options.format != Format::Text {
        console.print(&frame.heading())?;
    }
    batch.one_by_one(
        console,
        |console, evaluators, labels, parts| explain(console, evaluators, labels, d, parts, seats.clone()),
        |console, place, outcome| {
            let name = &names[place];
            if let Err(faults) = &outcome {
                complain_of(faults, name, console);
                status = REFUSED;
            }
            let text = match (outcome, options.format) {
                (Ok((graded, same)), Format::Text) => {
                    format!(
                        "{}{}",
                        std::mem::replace(&mut gap, "\n"),
                        block(name, &labels, d, &graded, same.first, options)
                    )
                }
                (Ok((graded, same)), _) => frame.evaluated(name, machine_figures(&labels, d, &graded, same, options)),
                (Err(_), Format::Text) => return Ok(()),
                (Err(faults), _) => frame.refused(name, &faults),
            };
            Ok(console.print(&text)?)
        },
    )?;
    Ok(status)
}

fn explain(
    console: &mut Console,
    evaluators: &mut [Evaluator],
    labels: &Labels,
    d: u64,
    parts: &[u8],
    seats: std::ops::Range<u64>,
) -> Result<Answer, Refusal> {
    let conv = evaluators[0].nash_conv_units(d, parts)?;
    let seats = explained(evaluators, labels, d, parts, seats, |weighed| match weighed {
        Some(count) => console.expect(count),
        None => console.count(),
    })?;
    Ok(Answer { conv, seats, parts: parts.to_vec() })
}

/// The sets of a seat that are shown.
fn shown<'a>(own: &'a Explanation, options: &Options) -> &'a [Switch] {
    if options.all {
        return &own.switches;
    }
    let gaining = own.switches.iter().filter(|switch| switch.adds > 0).count();
    let most = options.top.map_or(SHOWN, |top| usize::try_from(top).unwrap_or(usize::MAX));
    &own.switches[..gaining.min(most)]
}

/// What is printed of a table.
fn block(
    name: &str,
    labels: &Labels,
    d: u64,
    graded: &Graded<Answer>,
    same: Option<&str>,
    options: &Options,
) -> String {
    let answer = &graded.result;
    let mut figures = Figures::new(name, labels.game(), d, answer.conv.units, graded.read_by);
    if let Some(same) = same {
        figures.mark_same(same);
    }
    for own in &answer.seats {
        figures.add_gain(own.seat, own.worth, own.best);
        figures.add_seat(own.seat, own.worth, own.best);
    }
    let seats = answer.seats.iter().map(|own| seat_text(labels, d, answer, own, options));
    format!("{figures}{}", seats.collect::<String>())
}

/// The sets of a seat in columns, and those that gain in sentences.
fn seat_text(labels: &Labels, d: u64, answer: &Answer, own: &Explanation, options: &Options) -> String {
    let seat = own.seat;
    let mut text = if own.best == own.worth {
        format!("\nthe table cannot be beaten from seat {seat}\n")
    } else {
        format!("\nwhat each set of seat {seat} adds when it is switched to the reply, after the sets that can follow it:\n")
    };
    let shown = shown(own, options);
    if !shown.is_empty() {
        let mut rows = vec![["units", "chips per hand", "table", "reply", "set"].map(str::to_string)];
        rows.extend(shown.iter().map(|switch| row(labels, answer, switch)));
        text += &columns::lines([Side::Right, Side::Right, Side::Left, Side::Left, Side::Left], &rows);
    }
    let left = &own.switches[shown.len()..];
    let adds: u64 = left.iter().map(|switch| switch.adds).sum();
    if adds > 0 {
        let count = left.iter().filter(|switch| switch.adds > 0).count();
        let sets = if count == 1 { "set more adds" } else { "sets more add" };
        text += &format!("{count} {sets} {adds} units; --all shows every set\n");
    }
    let gaining: Vec<&Switch> = shown.iter().filter(|switch| switch.adds > 0).collect();
    if !gaining.is_empty() {
        text.push('\n');
        text.extend(gaining.iter().map(|switch| sentence(labels, d, answer, switch) + "\n"));
    }
    text
}

fn row(labels: &Labels, answer: &Answer, switch: &Switch) -> [String; 5] {
    let set = &labels.sets()[switch.set];
    [
        switch.adds.to_string(),
        Fraction::of_sum(switch.adds, answer.conv.units).to_string(),
        parts_of(labels, answer, switch),
        action_words(labels.game(), &[switch.action]),
        format!("{}{}", set_words(labels.game(), set), mark_words(switch.mark)),
    ]
}

fn mark_words(mark: Mark) -> &'static str {
    match mark {
        Mark::Better => "",
        Mark::Tie => " (a tie: another action is as good)",
        Mark::Same => " (the table does so)",
        Mark::Avoided => " (its own play never gets there)",
        Mark::Unreached => " (no hand reaches it)",
    }
}

fn parts_of(labels: &Labels, answer: &Answer, switch: &Switch) -> String {
    let parts = &answer.parts[labels.sets()[switch.set].entries()];
    parts.iter().map(u8::to_string).collect::<Vec<_>>().join(" ")
}

/// What a set does, and what its switch gains.
fn sentence(labels: &Labels, d: u64, answer: &Answer, switch: &Switch) -> String {
    let set = &labels.sets()[switch.set];
    let place = set.legal.iter().position(|&action| action == switch.action).unwrap_or(0);
    let part = u64::from(answer.parts[set.first_entry + place]);
    let adds = Fraction::of_sum(switch.adds, answer.conv.units);
    sentences::switch(labels.game(), set, switch.action, part, d, adds)
}

/// What each seat gains against a table, and the sentences of the sets that add most to it.
pub fn in_words(
    evaluators: &mut [Evaluator],
    labels: &Labels,
    d: u64,
    parts: &[u8],
    console: &mut Console,
) -> Result<Vec<(String, Vec<String>)>, Refusal> {
    let answer = explain(console, evaluators, labels, d, parts, 0..labels.game().seats())?;
    let told = answer.seats.iter().map(|own| {
        let gain = Fraction::of_sum(own.best.abs_diff(own.worth), answer.conv.units);
        let heading = match own.best == own.worth {
            true => format!("the table cannot be beaten from seat {}", own.seat),
            false => format!("seat {} gains {} per hand", own.seat, sentences::chips(gain)),
        };
        let gaining = own.switches.iter().take(SHOWN).filter(|switch| switch.adds > 0);
        (heading, gaining.map(|switch| sentence(labels, d, &answer, switch)).collect())
    });
    Ok(told.collect())
}

fn machine_figures<'a>(
    labels: &Labels,
    d: u64,
    graded: &Graded<Answer>,
    same: Same<'a>,
    options: &Options,
) -> output::Figures<'a> {
    let answer = &graded.result;
    let told = |own: &Explanation, switch: &Switch| -> Members {
        let gains = switch.adds > 0;
        vec![
            ("seat", Value::from(own.seat)),
            ("set", Value::from(labels.label(switch.set))),
            ("parts", Value::text(parts_of(labels, answer, switch))),
            ("action", Value::text(action_words(labels.game(), &[switch.action]))),
            ("adds", Value::from(switch.adds)),
            ("adds_fraction", Value::Fraction(Fraction::of_sum(switch.adds, answer.conv.units).to_string())),
            ("mark", Value::from(mark_name(switch.mark))),
            ("words", if gains { Value::text(sentence(labels, d, answer, switch)) } else { Value::None }),
        ]
    };
    let sets = answer.seats.iter().flat_map(|own| shown(own, options).iter().map(move |switch| told(own, switch)));
    output::Figures {
        read_by: Some(graded.read_by),
        same_table_as: same.first,
        parts_sha256: Some(same.fingerprint.hex()),
        seat_values: answer.seats.iter().map(|own| output::seat_values(own.seat, own.worth, own.best)).collect(),
        conv: Some(answer.conv),
        explained: Some(sets.collect()),
        ..output::Figures::default()
    }
}

fn mark_name(mark: Mark) -> &'static str {
    match mark {
        Mark::Better => "better",
        Mark::Tie => "tie",
        Mark::Same => "same",
        Mark::Avoided => "avoided",
        Mark::Unreached => "unreached",
    }
}
