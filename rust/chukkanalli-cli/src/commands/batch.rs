//! Tables evaluated side by side, for the commands that take several.

use std::path::PathBuf;

use chukkanalli::tables::{Faults, Labels, Reader};
use chukkanalli::{Evaluator, Refusal};

use super::table::{self, Graded};
use super::{game, headings, Stop};
use crate::args::{Setting, Verb};
use crate::console::Console;
use crate::jobs::side_by_side;
use crate::options::Options;
use crate::same::{Fingerprint, SameTables};
use crate::sources::{self, Source};

/// The tables of a command line, and what they are evaluated with.
pub struct Batch {
    pub sources: Vec<Source>,
    pub labels: Labels,
    pub d: u64,
    evaluators: Vec<Evaluator>,
    labelled: bool,
    headed: bool,
}

/// What came of a table: the figures, and which table has the same parts, or what is wrong with it.
pub type Outcome<'a, R> = Result<(Graded<R>, Same<'a>), Faults>;

/// What a table is known again by, and the name of the first that has the same parts.
#[derive(Clone, Copy)]
pub struct Same<'a> {
    pub fingerprint: Fingerprint,
    pub first: Option<&'a str>,
}

impl Batch {
    /// Gathers the tables, and takes GAME SEATS D from the first heading where they are left out.
    pub fn new(
        verb: Verb,
        setting: Option<Setting>,
        tables: &[PathBuf],
        options: &Options,
        console: &mut Console,
    ) -> Result<Self, Stop> {
        let given = setting.is_some();
        // Bad use is told before any file is read.
        let ready = setting.map(|setting| game::evaluator_of_parts(verb, &setting, None).map(|first| (first, setting)));
        let ready = ready.transpose()?;
        let gathered = match tables {
            [table] if !verb.takes_many() => Ok(vec![Source::one::<u8>(table, console)]),
            _ => sources::gather(tables, options.files_from.as_deref(), console),
        };
        let mut sources = gathered.map_err(|sentence| Stop::Refused(vec![sentence]))?;
        let (mut first, setting) = match ready {
            Some(ready) => ready,
            None => {
                let found = headings::first::<u8>(verb, &mut sources)?;
                (found.evaluator(verb)?, found.setting)
            }
        };
        if let Some(seat) = &options.seat {
            game::hold_seat(verb, &mut first, setting.d.value, seat)?;
        }
        let labels = Labels::new(&first);
        let at_most = if verb.shares_out() { usize::MAX } else { sources.len() };
        let evaluators = game::one_a_thread(first, options.jobs, at_most);
        Ok(Batch { sources, labels, d: setting.d.value, evaluators, labelled: options.labelled, headed: !given })
    }

    /// Evaluates each table, a thread for each evaluator. An evaluation is handed the parts. What came of each table goes on with its place,
    /// in the order of the tables.
    pub fn evaluate<R: Send>(
        &mut self,
        console: &mut Console,
        evaluation: impl Fn(&mut Evaluator, &[u8]) -> Result<R, Refusal> + Sync,
        mut hand_on: impl FnMut(&mut Console, usize, Outcome<R>) -> Result<(), Stop>,
    ) -> Result<(), Stop> {
        let evaluators = std::mem::take(&mut self.evaluators);
        let (sources, reader) = (&self.sources, self.reader());
        let mut same = SameTables::default();
        console.expect(sources.len());
        let work = |evaluator: &mut Evaluator, place: usize| {
            table::evaluated(&sources[place], &reader, evaluator, |evaluator, parts| {
                evaluation(evaluator, parts).map(|result| (result, Fingerprint::of(parts)))
            })
        };
        side_by_side(evaluators, sources.len(), work, |place, outcome| {
            let outcome = outcome.map(|Graded { read_by, result: (result, fingerprint) }| {
                let first = same.before(fingerprint, place).map(|first| sources[first].name.as_str());
                (Graded { read_by, result }, Same { fingerprint, first })
            });
            hand_on(console, place, outcome)?;
            console.count();
            Ok::<(), Stop>(())
        })?;
        console.end();
        Ok(())
    }

    /// Evaluates table after table, each with all evaluators, and hands on what came of it with its place.
    pub fn one_by_one<R>(
        &mut self,
        console: &mut Console,
        evaluation: impl Fn(&mut Console, &mut Vec<Evaluator>, &Labels, &[u8]) -> Result<R, Refusal>,
        mut hand_on: impl FnMut(&mut Console, usize, Outcome<R>) -> Result<(), Stop>,
    ) -> Result<(), Stop> {
        let mut evaluators = std::mem::take(&mut self.evaluators);
        let mut same = SameTables::default();
        for (place, source) in self.sources.iter().enumerate() {
            let outcome = table::evaluated(source, &self.reader(), &mut evaluators, |evaluators, parts| {
                let result = evaluation(console, evaluators, &self.labels, parts)?;
                let fingerprint = Fingerprint::of(parts);
                let first = same.before(fingerprint, place).map(|first| self.sources[first].name.as_str());
                Ok((result, Same { fingerprint, first }))
            });
            console.end();
            let outcome = outcome.map(|Graded { read_by, result: (result, same) }| (Graded { read_by, result }, same));
            hand_on(console, place, outcome)?;
        }
        Ok(())
    }

    fn reader(&self) -> Reader<'_> {
        let mut reader = Reader::new(&self.labels).with_d(self.d);
        reader = if self.labelled { reader.labelled() } else { reader };
        if self.headed {
            reader.headed()
        } else {
            reader
        }
    }
}
