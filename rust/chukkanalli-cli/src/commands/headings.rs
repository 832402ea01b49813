//! GAME SEATS D that were left out, from the files' headings.

use chukkanalli::tables::{heading_of, Heading, Number as FileNumber};
use chukkanalli::Evaluator;

use super::{game, Stop};
use crate::args::{Asked, Misuse, Number, Setting, Verb};
use crate::names::file_name;
use crate::sources::Source;

/// The setting of a heading, and where it stands.
pub struct Found {
    pub setting: Setting,
    place: String,
}

impl Found {
    /// What was refused of the setting is told of the file that has it.
    pub fn blame<T>(&self, answer: Result<T, Stop>) -> Result<T, Stop> {
        answer.map_err(|stop| match stop {
            Stop::Misuse(misuse) => Stop::Refused(vec![format!("{}: in the heading {}", self.place, misuse.sentence)]),
            stop => stop,
        })
    }

    /// The evaluator of the setting.
    pub fn evaluator(&self, verb: Verb) -> Result<Evaluator, Stop> {
        self.blame(game::evaluator_of_parts(verb, &self.setting, None))
    }
}

/// The setting of the first heading that there is. The reader then holds all files to it.
pub fn first<T: FileNumber>(verb: Verb, sources: &mut [Source]) -> Result<Found, Stop> {
    if let Some(path) = sources.first().and_then(Source::path).filter(|path| game::is_name(path) && !path.exists()) {
        let sentence = format!("there is no file {}; where that is the game, SEATS follows it", file_name(path));
        return Err(Misuse::of(verb, sentence).into());
    }
    let (mut without, mut complaints) = (None, Vec::new());
    for source in sources.iter_mut() {
        source.keep_pipe::<T>();
        match source.bytes::<T>().and_then(|bytes| heading_of(&bytes)) {
            Ok(Some((line, heading))) => {
                return Ok(Found { setting: setting_of(heading), place: format!("{}:{line}", source.name) })
            }
            Ok(None) => without = without.or(Some(source.name.clone())),
            Err(faults) => complaints.extend(faults.sentences(&source.name)),
        }
    }
    match without {
        Some(name) => {
            let left_out = verb.places()[..verb.places().len() - 1].join(" ");
            Err(Misuse::of(verb, format!("{left_out} are left out, and {name} has no heading")).into())
        }
        None => Err(Stop::Refused(complaints)),
    }
}

fn setting_of(heading: Heading) -> Setting {
    let number = |value: u64| Number { word: value.to_string(), value };
    Setting { asked: Asked { game: heading.game, seats: number(heading.seats) }, d: number(heading.d) }
}
