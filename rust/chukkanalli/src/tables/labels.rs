//! The labels of a game's sets: the words that a template has behind the parts, and the way back from them.

use std::collections::HashMap;
use std::hash::{BuildHasherDefault, Hasher};

use super::text::comment_of;
use super::words::{action_words, set_words};
use crate::{Evaluator, Game, InfoSet};

/// What stands between a label's actions and what the seat knows.
const COLON: &str = ": ";

/// The labels of a game's sets. A label names the actions, the seat, its card, the public card (Leduc) and what was played:
/// `PASS BET: seat 1, card 2, after PASS`.
#[derive(Clone, Debug)]
pub struct Labels {
    game: Game,
    sets: Vec<InfoSet>,
    labels: Vec<String>,
    exact: SetsByLabel,
    folded: SetsByLabel,
}

type SetsByLabel = HashMap<String, usize, BuildHasherDefault<Quick>>;

/// Takes the bytes of a label eight at a time. The keys are a game's own labels, so that nobody can choose them to be slow.
#[derive(Default)]
struct Quick(u64);

impl Hasher for Quick {
    fn write(&mut self, bytes: &[u8]) {
        let mut take = |word: [u8; 8]| {
            self.0 = (self.0.rotate_left(5) ^ u64::from_le_bytes(word)).wrapping_mul(0x517C_C1B7_2722_0A95);
        };
        let words = bytes.chunks_exact(8);
        let mut last = [0; 8];
        last[..words.remainder().len()].copy_from_slice(words.remainder());
        words.filter_map(|word| word.try_into().ok()).for_each(&mut take);
        take(last);
    }

    /// What a text's own hash ends with says nothing here.
    fn write_u8(&mut self, _: u8) {}

    fn finish(&self) -> u64 {
        self.0 ^ self.0 >> 32
    }
}

impl Labels {
    /// The labels of the evaluator's game.
    pub fn new(evaluator: &Evaluator) -> Self {
        let (game, sets) = (evaluator.game(), evaluator.sets());
        let labels: Vec<String> = sets.iter().map(|set| label_of(game, set)).collect();
        let exact = labels.iter().cloned().zip(0..).collect();
        let folded = labels.iter().map(|label| folded(label)).zip(0..).collect();
        Labels { game, sets, labels, exact, folded }
    }

    pub fn game(&self) -> Game {
        self.game
    }

    /// The game's sets, in set order.
    pub fn sets(&self) -> &[InfoSet] {
        &self.sets
    }

    /// The entries of a table.
    pub fn entries(&self) -> usize {
        self.sets.last().map_or(0, |set| set.entries().end)
    }

    /// The label of a set.
    pub fn label(&self, set: usize) -> &str {
        &self.labels[set]
    }

    /// The names of a set's actions, the front of its label.
    pub fn actions(&self, set: usize) -> &str {
        self.parted(set).0
    }

    /// The seat of a set and what it knows, the rest of its label.
    pub fn words(&self, set: usize) -> &str {
        self.parted(set).1
    }

    fn parted(&self, set: usize) -> (&str, &str) {
        self.labels[set].split_once(COLON).unwrap_or((&self.labels[set], ""))
    }

    /// The set that a text is the label of, in any case of letters and with any blanks between the words.
    pub fn find(&self, text: &str) -> Option<usize> {
        let text = text.trim_ascii();
        self.exact.get(text).or_else(|| self.find_folded(text)).copied()
    }

    fn find_folded(&self, text: &str) -> Option<&usize> {
        is_meant(text).then(|| self.folded.get(&folded(text))).flatten()
    }

    /// The set of a label behind a #, up to a second; tried first with the set that comes next where the lines are in order.
    pub(super) fn find_next(&self, behind: &str, next: usize) -> Option<usize> {
        match self.labels.get(next) {
            Some(label) if behind.strip_prefix(' ') == Some(label) => Some(next),
            _ => self.exact.get(behind.trim_ascii()).copied().or_else(|| self.find(comment_of(behind))),
        }
    }

    /// What is said of a text that is meant as a label and is none.
    pub(super) fn unknown(&self, text: &str) -> String {
        super::mislabels::sentence(self, text)
    }
}

fn label_of(game: Game, set: &InfoSet) -> String {
    format!("{}{COLON}seat {}, {}", action_words(game, &set.legal), set.seat, set_words(game, set))
}

/// Small letters, with one blank between words.
fn folded(text: &str) -> String {
    let mut folded = String::with_capacity(text.len());
    for word in text.split_whitespace() {
        if !folded.is_empty() {
            folded.push(' ');
        }
        folded.push_str(word);
    }
    folded.make_ascii_lowercase();
    folded
}

/// The names of the actions of all games.
pub(super) const ACTIONS: [&str; 5] = ["PASS", "BET", "FOLD", "CALL", "RAISE"];

/// Whether a comment behind parts is meant as a label: it has the word `seat` or an action's name in it.
pub(super) fn is_meant(comment: &str) -> bool {
    let meant = |word: &str| ACTIONS.iter().chain(&["seat"]).any(|name| word.eq_ignore_ascii_case(name));
    comment.split(|c: char| !c.is_alphanumeric()).any(meant)
}

#[cfg(test)]
mod tests {
    use super::*;

    fn labels(game: Game) -> Labels {
        Labels::new(&Evaluator::new(game).unwrap())
    }

    #[test]
    fn every_set_is_found_by_its_label_alone() {
        for game in [Game::Kuhn { seats: 2 }, Game::Kuhn { seats: 3 }, Game::Kuhn { seats: 4 }, Game::Leduc] {
            let labels = labels(game);
            for set in 0..labels.sets().len() {
                let label = labels.label(set);
                assert!(is_meant(label));
                assert_eq!(labels.find(label), Some(set));
                assert_eq!(labels.find(&format!("  {} ", label.to_uppercase().replace(' ', "\t "))), Some(set));
                let behind = format!(" {label}");
                assert_eq!((labels.find_next(&behind, set), labels.find_next(label, 0)), (Some(set), Some(set)));
                assert_eq!(labels.find_next(&format!(" {label} # mine"), set), Some(set));
                assert_eq!(format!("{}: {}", labels.actions(set), labels.words(set)), label);
            }
            assert_eq!(labels.find_next(labels.label(0), labels.sets().len()), Some(0));
            assert_eq!(labels.find(""), None);
            assert_eq!(labels.entries(), game.counts().unwrap().entries);
        }
    }

    #[test]
    fn actions_have_the_names_of_both_games() {
        let named = |game: Game| (0..3).filter_map(move |action| game.action_name(action));
        assert!(named(Game::Kuhn { seats: 2 }).chain(named(Game::Leduc)).eq(ACTIONS));
    }

    #[test]
    fn a_comment_is_meant_as_a_label_by_its_words() {
        for comment in ["seat 0", "PASS BET", "i always bet", "Seat_1", "(raise)", "my seat"] {
            assert!(is_meant(comment), "{comment}");
        }
        for comment in ["", "set 0", "betting", "seats", "a king", "seat0", "überpass"] {
            assert!(!is_meant(comment), "{comment}");
        }
    }
}
