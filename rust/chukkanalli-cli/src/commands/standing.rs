//! A standing: tables in order of NashConv, and what was refused, as text, as records and as a page.

use std::io;
use std::path::Path;

use chukkanalli::tables::{game_words, Faults, Labels, ReadBy};
use chukkanalli::{Evaluator, Game, NashConv};

use super::evaluate::Evaluation;
use super::{explain, game, Stop, DONE, REFUSED};
use crate::columns::{self, Side};
use crate::console::Console;
use crate::fraction::Fraction;
use crate::html::{self, Page, Row};
use crate::names::file_name;
use crate::options::{Format, Options};
use crate::output::{Figures, Frame};
use crate::ranks::ranked;
use crate::{date, reasons};

/// What a table came to. What it is worth to each seat is told to software and on a page alone.
pub struct Entrant {
    pub name: String,
    pub read_by: ReadBy,
    pub same: Option<String>,
    pub fingerprint: String,
    pub conv: NashConv,
    pub seats: Option<Evaluation>,
}

impl Entrant {
    /// How it was read, and which table it is the same as.
    fn note(&self) -> String {
        let same = self.same.as_ref().map_or(String::new(), |same| format!(", same table as {same}"));
        format!("by {}{same}", self.read_by.name())
    }
}

/// The first of the tables with the least NashConv so far, with its parts.
pub struct Leader {
    pub name: String,
    pub conv: NashConv,
    pub parts: Vec<u8>,
}

/// Each fault, with its line and without the file.
fn told(faults: &Faults) -> Vec<String> {
    faults.to_string().lines().map(str::to_string).collect()
}

/// The outcomes, in the order of the tables: those with NashConv, and what is wrong with the others.
#[derive(Default)]
pub struct Standing {
    pub ranked: Vec<Entrant>,
    unranked: Vec<(String, Faults)>,
    /// Whether something could not be written.
    unwritten: bool,
}

impl Standing {
    /// Tells what is wrong with a table.
    pub fn refuse(&mut self, name: String, faults: Faults, console: &mut Console) {
        for sentence in faults.sentences(&name) {
            console.complain_beside_results(sentence);
        }
        self.unranked.push((name, faults));
    }

    /// Tells what could not be written.
    pub fn write(&mut self, written: io::Result<()>, path: &Path, console: &mut Console) {
        if let Err(error) = written {
            console.complain(format_args!("{}: this cannot be written: {error}", file_name(path)));
            self.unwritten = true;
        }
    }

    /// Writes the reasons of what was refused where they are asked for, prints the standing, and gives the status to end with.
    pub fn hand_out(&mut self, frame: &Frame, d: u64, options: &Options, console: &mut Console) -> Result<u8, Stop> {
        if let Some(folder) = &options.reasons {
            let asked = format!("{}, D {d}", game_words(frame.game));
            self.write(reasons::write(folder, &asked, &self.unranked), folder, console);
        }
        console.print(&match frame.format {
            Format::Text => self.text(frame.game, d),
            _ => self.records(frame),
        })?;
        Ok(if self.unranked.is_empty() && !self.unwritten { DONE } else { REFUSED })
    }

    fn text(&self, game: Game, d: u64) -> String {
        let mut text = format!("{}, D {d}", game_words(game));
        if let Some(first) = self.ranked.first() {
            text += &format!(", {} units\n\n{}", first.conv.units, self.ranks());
        } else {
            text.push('\n');
        }
        if !self.unranked.is_empty() {
            let sentences: Vec<String> =
                self.unranked.iter().flat_map(|(name, faults)| faults.sentences(name)).collect();
            text += &format!("\nnot ranked:\n{}\n", sentences.join("\n"));
        }
        text
    }

    /// The tables with their ranks, in the order of the proved comparison.
    fn standing(&self) -> impl Iterator<Item = (usize, &Entrant)> {
        let places = ranked(&self.ranked, |one, other| one.conv.compare(&other.conv));
        places.into_iter().map(|(rank, place)| (rank, &self.ranked[place]))
    }

    fn ranks(&self) -> String {
        let mut rows = vec![["rank", "NashConv", "chips per hand", "in decimals", "table", ""].map(str::to_string)];
        for (rank, entrant) in self.standing() {
            let chips = Fraction::of_sum(entrant.conv.nash_conv, entrant.conv.units);
            rows.push([
                rank.to_string(),
                entrant.conv.nash_conv.to_string(),
                chips.to_string(),
                chips.decimals(),
                entrant.name.clone(),
                format!("read {}", entrant.note()),
            ]);
        }
        columns::lines([Side::Right, Side::Right, Side::Right, Side::Right, Side::Left, Side::Left], &rows)
    }

    /// A record for each table, by rank and then those that have none.
    fn records(&self, frame: &Frame) -> String {
        let mut text = frame.heading();
        for (rank, entrant) in self.standing() {
            let figures = Figures {
                read_by: Some(entrant.read_by),
                same_table_as: entrant.same.as_deref(),
                parts_sha256: Some(entrant.fingerprint.clone()),
                rank: Some(rank),
                seat_values: entrant.seats.as_ref().map_or(Vec::new(), Evaluation::seat_values),
                conv: Some(entrant.conv),
                ..Figures::default()
            };
            text += &frame.evaluated(&entrant.name, figures);
        }
        text.extend(self.unranked.iter().map(|(name, faults)| frame.refused(name, faults)));
        text
    }

    /// The standing as a page, with the leader explained.
    pub fn page(
        &self,
        leader: Option<Leader>,
        labels: &Labels,
        d: u64,
        options: &Options,
        console: &mut Console,
    ) -> Result<Page, Stop> {
        let row = |(rank, entrant): (usize, &Entrant)| {
            let chips = |count| Fraction::of_sum(count, entrant.conv.units);
            let gains = entrant.seats.as_ref().map_or(Vec::new(), Evaluation::gains);
            Row {
                rank,
                name: entrant.name.clone(),
                nash_conv: entrant.conv.nash_conv,
                chips: chips(entrant.conv.nash_conv).to_string(),
                decimals: chips(entrant.conv.nash_conv).decimals(),
                gains: gains.into_iter().map(|gain| chips(gain).to_string()).collect(),
                note: entrant.note(),
            }
        };
        let leader = match leader {
            Some(Leader { name, parts, .. }) => {
                let first = Evaluator::new(labels.game()).map_err(Stop::NoMemory)?;
                let mut evaluators = game::one_a_thread(first, options.jobs, usize::MAX);
                let told = explain::in_words(&mut evaluators, labels, d, &parts, console);
                console.end();
                Some(html::Leader { name, seats: told.map_err(Stop::NoMemory)? })
            }
            None => None,
        };
        Ok(Page {
            title: format!("{}, D {d}", game_words(labels.game())),
            units: self.ranked.first().map(|first| first.conv.units),
            seats: labels.game().seats(),
            rows: self.standing().map(row).collect(),
            leader,
            refused: self.unranked.iter().map(|(name, faults)| (name.clone(), told(faults))).collect(),
            date: date::now(),
        })
    }
}
