//! `improve`: what moving one part of a table does to NashConv, and the table that the best moves make.

use std::path::PathBuf;

use chukkanalli::tables::{action_words, written, Form, Labels};
use chukkanalli::{Evaluator, NashConv, Refusal};

use super::batch::Batch;
use super::explain::SHOWN;
use super::table::Graded;
use super::{complain_of, Stop, DONE, REFUSED};
use crate::args::{Setting, Verb};
use crate::columns::{self, Side};
use crate::console::Console;
use crate::figures::Figures;
use crate::fraction::Fraction;
use crate::moves::{moved, moves, Move};
use crate::options::{Format, Options};
use crate::output::{self, Frame, Members, Value};
use crate::sentences;

/// NashConv of the table, and the moves: all of them, or those that were made.
struct Answer {
    conv: NashConv,
    parts: Vec<u8>,
    moves: Vec<Move>,
    /// The table after the moves that were made.
    made: Option<Made>,
}

struct Made {
    table: Vec<u8>,
    conv: NashConv,
    /// Whether fewer were made than asked for, since no further one helps.
    stuck: bool,
}

pub fn run(setting: Option<Setting>, table: PathBuf, options: &Options, console: &mut Console) -> Result<u8, Stop> {
    let form = if options.table { Some(options.form(Verb::Improve)?) } else { None };
    let mut batch = Batch::new(Verb::Improve, setting, &[table], options, console)?;
    let (game, d, labels) = (batch.labels.game(), batch.d, batch.labels.clone());
    let frame = Frame { verb: Verb::Improve, format: options.format, game, d: Some(d), seat: None, any: false };
    let name = batch.sources[0].name.clone();
    let steps = options.steps.or(options.table.then_some(1));
    let mut status = DONE;
    batch.one_by_one(
        console,
        |console, evaluators, labels, parts| match steps {
            None => all_moves(console, evaluators, labels, d, parts),
            Some(steps) => best_moves(console, evaluators, labels, d, parts, steps),
        },
        |console, _, outcome| {
            if let Err(faults) = &outcome {
                complain_of(faults, &name, console);
                status = REFUSED;
            }
            let text = match (outcome, form, options.format) {
                (Ok((graded, _)), Some(form), _) => written(
                    &labels,
                    d,
                    graded.result.made.as_ref().map_or(&graded.result.parts, |made| &made.table),
                    form,
                ),
                (Err(_), Some(_), _) | (Err(_), None, Format::Text) => return Ok(()),
                (Ok((graded, _)), None, Format::Text) => match &graded.result.made {
                    None => block(&name, &labels, d, &graded, options),
                    Some(made) => improved(&name, &labels, d, &graded.result, made),
                },
                (Ok((graded, _)), None, _) => {
                    frame.heading() + &frame.evaluated(&name, machine_figures(&labels, d, &graded, options))
                }
                (Err(faults), None, _) => frame.heading() + &frame.refused(&name, &faults),
            };
            Ok(console.print(&text)?)
        },
    )?;
    Ok(status)
}

fn weighed_moves(
    console: &mut Console,
    evaluators: &mut [Evaluator],
    labels: &Labels,
    d: u64,
    parts: &[u8],
) -> Result<Vec<Move>, Refusal> {
    moves(evaluators, labels, d, parts, |weighed| match weighed {
        Some(count) => console.expect(count),
        None => console.count(),
    })
}

fn all_moves(
    console: &mut Console,
    evaluators: &mut [Evaluator],
    labels: &Labels,
    d: u64,
    parts: &[u8],
) -> Result<Answer, Refusal> {
    let conv = evaluators[0].nash_conv_units(d, parts)?;
    let moves = weighed_moves(console, evaluators, labels, d, parts)?;
    Ok(Answer { conv, parts: parts.to_vec(), moves, made: None })
}

/// Makes the best move so many times, as long as it helps.
fn best_moves(
    console: &mut Console,
    evaluators: &mut [Evaluator],
    labels: &Labels,
    d: u64,
    parts: &[u8],
    steps: u64,
) -> Result<Answer, Refusal> {
    let before = evaluators[0].nash_conv_units(d, parts)?;
    let (mut table, mut conv, mut made) = (parts.to_vec(), before, Vec::new());
    let mut stuck = false;
    for _ in 0..steps {
        let best = weighed_moves(console, evaluators, labels, d, &table)?.first().copied();
        match best.filter(|best| best.conv.compare(&conv).is_lt()) {
            Some(best) => {
                table = moved(labels, &table, best.set, best.from, best.to);
                conv = best.conv;
                made.push(best);
            }
            None => {
                stuck = true;
                break;
            }
        }
    }
    Ok(Answer { conv: before, parts: parts.to_vec(), moves: made, made: Some(Made { table, conv, stuck }) })
}

/// The moves that are shown: the first that lower NashConv, or all.
fn shown<'a>(answer: &'a Answer, options: &Options) -> &'a [Move] {
    if options.all || answer.made.is_some() {
        return &answer.moves;
    }
    let helping = answer.moves.iter().filter(|own| own.change(answer.conv) < 0).count();
    let most = options.top.map_or(SHOWN, |top| usize::try_from(top).unwrap_or(usize::MAX));
    &answer.moves[..helping.min(most)]
}

fn block(name: &str, labels: &Labels, d: u64, graded: &Graded<Answer>, options: &Options) -> String {
    let answer = &graded.result;
    let mut figures = Figures::new(name, labels.game(), d, answer.conv.units, graded.read_by);
    figures.add_nash_conv(answer.conv.nash_conv);
    let mut text = format!("{figures}\n{}", heading(answer));
    let shown = shown(answer, options);
    if !shown.is_empty() {
        let mut rows = vec![["NashConv", "change", "chips per hand", "the line in the file"].map(str::to_string)];
        rows.extend(shown.iter().map(|own| row(labels, answer, own)));
        text += &columns::lines([Side::Right, Side::Right, Side::Right, Side::Left], &rows);
    }
    let helping = answer.moves.iter().filter(|own| own.change(answer.conv) < 0);
    let left = helping.count().saturating_sub(shown.len());
    if left > 0 {
        let moves = if left == 1 { "move more lowers" } else { "moves more lower" };
        text += &format!("{left} {moves} it; --all shows every move\n");
    }
    if !shown.is_empty() {
        text.push('\n');
        text.extend(shown.iter().map(|own| sentence(labels, d, answer.conv, &answer.parts, own) + "\n"));
    }
    text
}

fn heading(answer: &Answer) -> String {
    let helps = answer.moves.first().is_some_and(|own| own.change(answer.conv) < 0);
    match answer.conv.nash_conv {
        0 => "NashConv is 0: this table cannot be beaten from any seat\n".to_string(),
        _ if helps => "what moving one part does to NashConv, the moves that lower it most first:\n".to_string(),
        _ => "no move of one part lowers NashConv, which is above 0\n".to_string(),
    }
}

fn row(labels: &Labels, answer: &Answer, own: &Move) -> [String; 4] {
    let change = own.change(answer.conv);
    [
        own.conv.nash_conv.to_string(),
        format!("{change:+}"),
        Fraction::of_units(change, own.conv.units).to_string(),
        line(labels, &moved(labels, &answer.parts, own.set, own.from, own.to), own.set),
    ]
}

fn parts_of(labels: &Labels, table: &[u8], set: usize) -> String {
    table[labels.sets()[set].entries()].iter().map(u8::to_string).collect::<Vec<_>>().join(" ")
}

/// A set's line in a file.
fn line(labels: &Labels, table: &[u8], set: usize) -> String {
    format!("{}  # {}", parts_of(labels, table, set), labels.label(set))
}

/// What a move of a table's part does.
fn sentence(labels: &Labels, d: u64, before: NashConv, parts: &[u8], own: &Move) -> String {
    let set = &labels.sets()[own.set];
    let change = Fraction::of_units(own.change(before), own.conv.units);
    let actions = [set.legal[own.from], set.legal[own.to]];
    let part = u64::from(parts[set.first_entry + own.to]);
    sentences::one_part(labels.game(), set, actions, part, d, change)
}

/// The table that the moves make, with what was done in comments above it.
fn improved(name: &str, labels: &Labels, d: u64, answer: &Answer, made: &Made) -> String {
    let chips = |conv: NashConv| {
        format!("NashConv {}, {} chips per hand", conv.nash_conv, Fraction::of_sum(conv.nash_conv, conv.units))
    };
    let mut text = format!("# improved from {name}: {}\n", chips(answer.conv));
    let mut table = answer.parts.clone();
    for (step, own) in (1..).zip(&answer.moves) {
        table = moved(labels, &table, own.set, own.from, own.to);
        text += &format!("# step {step}: {}: {}\n", chips(own.conv), line(labels, &table, own.set));
    }
    if made.conv.nash_conv == 0 {
        text += "# NashConv is 0: this table cannot be beaten from any seat\n";
    } else if made.stuck {
        text += "# no further move of one part lowers NashConv, which is above 0\n";
    }
    text + &written(labels, d, &made.table, Form::Text)
}

fn machine_figures<'a>(labels: &Labels, d: u64, graded: &Graded<Answer>, options: &Options) -> output::Figures<'a> {
    let answer = &graded.result;
    let (mut table, mut before) = (answer.parts.clone(), answer.conv);
    let mut told = Vec::new();
    for (step, own) in (1u64..).zip(shown(answer, options)) {
        let made = answer.made.is_some();
        let mut members = vec![("step", made.then_some(step).into())];
        members.extend(move_members(labels, d, before, &table, own));
        told.push(members);
        if made {
            (table, before) = (moved(labels, &table, own.set, own.from, own.to), own.conv);
        }
    }
    output::Figures {
        read_by: Some(graded.read_by),
        conv: Some(answer.conv),
        moves: Some(told),
        ..output::Figures::default()
    }
}

/// A move of a table with this NashConv, for software.
fn move_members(labels: &Labels, d: u64, before: NashConv, table: &[u8], own: &Move) -> Members {
    let set = &labels.sets()[own.set];
    let change = own.change(before);
    let action = |place: usize| Value::text(action_words(labels.game(), &[set.legal[place]]));
    let fraction = |fraction: Fraction| Value::Fraction(fraction.to_string());
    let after = moved(labels, table, own.set, own.from, own.to);
    vec![
        ("set", Value::from(labels.label(own.set))),
        ("from", action(own.from)),
        ("to", action(own.to)),
        ("parts", Value::text(parts_of(labels, &after, own.set))),
        ("moved_nash_conv", Value::from(own.conv.nash_conv)),
        ("moved_nash_conv_fraction", fraction(Fraction::of_sum(own.conv.nash_conv, own.conv.units))),
        ("change", Value::whole(change)),
        ("change_fraction", fraction(Fraction::of_units(change, own.conv.units))),
        ("words", Value::text(sentence(labels, d, before, table, own))),
    ]
}
