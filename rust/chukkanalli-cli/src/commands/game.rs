//! GAME SEATS and D: every refusal of them comes from the proved calls.

use std::fmt::Display;
use std::path::Path;
use std::thread;

use chukkanalli::tables::quoted;
use chukkanalli::{Evaluator, Game, Refusal};

use super::Stop;
use crate::args::{Asked, Misuse, Number, Setting, Verb};
use crate::names::game_word;

/// The threads at most, whatever is asked for: each takes memory of its own.
const MOST_THREADS: usize = 256;

/// The games that a name may stand for; the seats come later.
const GAMES: [Game; 2] = [Game::Kuhn { seats: 0 }, Game::Leduc];

/// The number that a game's name stands for, in any case of letters; that of no game for any other name.
fn number_of(name: &str) -> u64 {
    let named = GAMES.into_iter().find(|&game| name.eq_ignore_ascii_case(game.name()));
    named.map_or(u64::MAX, Game::number)
}

/// Whether a path is a game's name.
pub fn is_name(path: &Path) -> bool {
    GAMES.into_iter().any(|game| path.as_os_str().eq_ignore_ascii_case(game.name()))
}

/// What is said of a word of the command line that is refused.
fn refused(verb: Verb, name: &str, word: &str, refusal: impl Display) -> Stop {
    Stop::Misuse(Misuse::of(verb, format!("{name} is {}: {refusal}", quoted(word))))
}

/// The evaluator of a game.
pub fn evaluator(verb: Verb, asked: &Asked) -> Result<Evaluator, Stop> {
    let seats = &asked.seats;
    let game = Game::by_number(number_of(&asked.game), seats.value).map_err(|refusal| match refusal {
        Refusal::Game => {
            refused(verb, "GAME", &asked.game, format!("{refusal}; write {}", GAMES.map(game_word).join(" or ")))
        }
        _ => refused(verb, "SEATS", &seats.word, refusal),
    })?;
    Evaluator::new(game).map_err(|refusal| match refusal {
        Refusal::Memory => Stop::NoMemory(refusal),
        _ => refused(verb, "SEATS", &seats.word, refusal),
    })
}

/// The evaluator of a setting, once D and for a reply the seat are fit for its game.
pub fn evaluator_of_parts(verb: Verb, setting: &Setting, seat: Option<&Number>) -> Result<Evaluator, Stop> {
    let mut evaluator = evaluator(verb, &setting.asked)?;
    // No game has a table without entries, so the table is refused where nothing before it is.
    let tried = evaluator.best_reply_into(seat.map_or(0, |seat| seat.value), setting.d.value, &[], &mut []);
    match (tried, seat) {
        (Err(refusal @ Refusal::Seat), Some(seat)) => Err(refused(verb, "SEAT", &seat.word, refusal)),
        (Err(refusal @ Refusal::Parts), _) => Err(refused(verb, "D", &setting.d.word, refusal)),
        _ => Ok(evaluator),
    }
}

/// Refuses a seat that the evaluator's game does not have.
pub fn hold_seat(verb: Verb, evaluator: &mut Evaluator, d: u64, seat: &Number) -> Result<(), Stop> {
    match evaluator.best_reply_into(seat.value, d, &[], &mut []) {
        Err(refusal @ Refusal::Seat) => Err(refused(verb, "--seat", &seat.word, refusal)),
        _ => Ok(()),
    }
}

/// An evaluator for each thread: as many as asked for, by default one a core, at most so many, and as there is memory for.
pub fn one_a_thread(first: Evaluator, jobs: Option<u64>, at_most: usize) -> Vec<Evaluator> {
    let cores = || thread::available_parallelism().map_or(1, usize::from);
    let asked = jobs.map_or_else(cores, |jobs| usize::try_from(jobs).unwrap_or(MOST_THREADS));
    let wanted = asked.min(MOST_THREADS).min(at_most);
    let game = first.game();
    let mut evaluators = vec![first];
    while evaluators.len() < wanted {
        match Evaluator::new(game) {
            Ok(evaluator) => evaluators.push(evaluator),
            Err(_) => break,
        }
    }
    evaluators
}
