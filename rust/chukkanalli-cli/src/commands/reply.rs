//! `reply`: the perfect reply of a seat to a table, in words.

use std::path::Path;

use chukkanalli::tables::{action_words, set_words, written, Labels, Reader};
use chukkanalli::{BestReply, Evaluator, InfoSet, NashConv, Refusal};

use super::table::{self, Graded};
use super::{complain_of, game, Stop, DONE, REFUSED};
use crate::args::{Number, Setting, Verb};
use crate::console::Console;
use crate::figures::Figures;
use crate::options::{Format, Options};
use crate::output::{self, Frame, Members, Value};
use crate::reach::Reach;
use crate::sources::Source;

/// A best reply, beside what the table itself is worth to the seat, and the seat's sets.
struct Answer {
    worth: i64,
    best: BestReply,
    conv: NashConv,
    moves: Vec<Move>,
}

/// What the reply does in a set, and whether a hand gets there while the others play the table.
struct Move {
    set: usize,
    action: String,
    reached: bool,
}

pub fn run(
    setting: &Setting,
    path: &Path,
    seat: &Number,
    options: &Options,
    console: &mut Console,
) -> Result<u8, Stop> {
    let form = if options.table { Some(options.form(Verb::Reply)?) } else { None };
    let mut evaluator = game::evaluator_of_parts(Verb::Reply, setting, Some(seat))?;
    let labels = Labels::new(&evaluator);
    let (source, d) = (Source::one::<u8>(path, console), setting.d.value);
    let reader = Reader::new(&labels).with_d(d);
    let reader = if options.labelled { reader.labelled() } else { reader };
    let seat = seat.value;
    let frame = Frame {
        verb: Verb::Reply,
        format: options.format,
        game: labels.game(),
        d: Some(d),
        seat: Some(seat),
        any: false,
    };
    console.expect(1);
    let answer = table::evaluated(&source, &reader, &mut evaluator, |evaluator, parts| {
        reply(evaluator, &labels, seat, d, parts)
    });
    let status = if answer.is_ok() { DONE } else { REFUSED };
    let text = match (&answer, form, options.format) {
        (Ok(graded), Some(form), _) => written(&labels, d, &graded.result.best.table, form),
        (Err(_), Some(_), _) | (Err(_), None, Format::Text) => String::new(),
        (Ok(graded), None, Format::Text) => text(&source.name, &labels, seat, d, graded),
        (Ok(graded), None, _) => {
            frame.heading() + &frame.evaluated(&source.name, machine_figures(&labels, seat, graded))
        }
        (Err(faults), None, _) => frame.heading() + &frame.refused(&source.name, faults),
    };
    if let Err(faults) = &answer {
        complain_of(faults, &source.name, console);
    }
    console.print(&text)?;
    Ok(status)
}

fn reply(evaluator: &mut Evaluator, labels: &Labels, seat: u64, d: u64, parts: &[u8]) -> Result<Answer, Refusal> {
    let best = evaluator.best_reply(seat, d, parts)?;
    let worth = evaluator.worths(d, parts)?[seat as usize];
    let conv = evaluator.nash_conv_units(d, parts)?;
    let moves = moves(labels, seat, parts, &best.table);
    Ok(Answer { worth, best, conv, moves })
}

/// What the reply does in each set of the seat: those that a hand gets to, then the others, each by card, public card and set order.
fn moves(labels: &Labels, seat: u64, parts: &[u8], reply: &[u8]) -> Vec<Move> {
    let reach = Reach::new(labels, parts);
    let own = labels.sets().iter().enumerate().filter(|(_, set)| set.seat == seat);
    let mut moves: Vec<Move> = own
        .map(|(number, set)| Move {
            set: number,
            action: action_words(labels.game(), &chosen(set, reply)),
            reached: reach.gets_to(set),
        })
        .collect();
    moves.sort_by_key(|own| (!own.reached, labels.sets()[own.set].card, labels.sets()[own.set].public_card));
    moves
}

/// The actions of a set that have a part in the reply, which is one.
fn chosen(set: &InfoSet, reply: &[u8]) -> Vec<u8> {
    let parts = &reply[set.entries()];
    set.legal.iter().zip(parts).filter(|(_, &part)| part > 0).map(|(&action, _)| action).collect()
}

fn text(name: &str, labels: &Labels, seat: u64, d: u64, graded: &Graded<Answer>) -> String {
    let answer = &graded.result;
    let mut figures = Figures::new(name, labels.game(), d, answer.conv.units, graded.read_by);
    figures.add_gain(seat, answer.worth, answer.best.value);
    figures.add_seat(seat, answer.worth, answer.best.value);
    let said = if answer.best.value == answer.worth {
        format!(
            "the table cannot be beaten from seat {seat}; its reply gets as much, and is no correction of the table"
        )
    } else {
        format!("the reply of seat {seat} beats this table; it is no correction of it")
    };
    format!("{figures}\n{said}\n\nthe perfect reply of seat {seat}:\n{}", lines(labels, &answer.moves))
}

/// A line for each set; those that no hand gets to stand under a line of their own.
fn lines(labels: &Labels, moves: &[Move]) -> String {
    let mut text = String::new();
    for (place, own) in moves.iter().enumerate() {
        if !own.reached && (place == 0 || moves[place - 1].reached) {
            text += "\nin sets that no hand reaches while the others play this table:\n";
        }
        text += &format!("{}: {}\n", set_words(labels.game(), &labels.sets()[own.set]), own.action);
    }
    text
}

fn machine_figures<'a>(labels: &Labels, seat: u64, graded: &Graded<Answer>) -> output::Figures<'a> {
    let answer = &graded.result;
    let told = |own: &Move| -> Members {
        vec![
            ("set", Value::from(labels.label(own.set))),
            ("action", Value::from(&own.action[..])),
            ("reached", Value::Bool(own.reached)),
        ]
    };
    output::Figures {
        read_by: Some(graded.read_by),
        seat_values: vec![output::seat_values(seat, answer.worth, answer.best.value)],
        conv: Some(answer.conv),
        reply: Some(answer.moves.iter().map(told).collect()),
        ..output::Figures::default()
    }
}
