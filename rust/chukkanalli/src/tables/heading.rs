//! The heading of a file: its game, seats and D, in the form of a template's first line.

use std::fmt;

use super::words::game_words;
use crate::Game;

/// What a heading says: `# Kuhn with 2 seats, D 4`. Any name and any numbers may stand there; what 64 bits do not hold is the greatest
/// that they do.
#[derive(Clone, Debug, PartialEq, Eq)]
pub struct Heading {
    pub game: String,
    pub seats: u64,
    pub d: u64,
}

impl Heading {
    pub fn new(game: Game, d: u64) -> Self {
        Heading { game: game.name().to_string(), seats: game.seats(), d }
    }

    /// Whether it says this game, whatever its D.
    pub fn is_of(&self, game: Game) -> bool {
        self.game.eq_ignore_ascii_case(game.name()) && self.seats == game.seats()
    }

    /// The heading that a comment line is, or a sentence where it says more than a heading may; nothing where it is none.
    pub(super) fn of_comment(comment: &str) -> Option<Result<Heading, String>> {
        let mut rest = comment.trim();
        let game = take(&mut rest, |c| c.is_ascii_alphabetic())?;
        word(&mut rest, "with")?;
        let seats = take(&mut rest, |c| c.is_ascii_digit())?;
        word(&mut rest, "seats,")?;
        word(&mut rest, "D")?;
        let d = take(&mut rest, |c| c.is_ascii_digit())?;
        if !rest.is_empty() && !rest.starts_with(':') {
            return Some(Err(format!(
                "this heading says more than game, seats and D: '{game} with {seats} seats, D {d}'"
            )));
        }
        let value = |digits: &str| digits.parse().unwrap_or(u64::MAX);
        Some(Ok(Heading { game: game.to_string(), seats: value(seats), d: value(d) }))
    }

    /// What is said where it is not the heading of what was asked for.
    pub(super) fn mismatch(&self, game: Game, d: Option<u64>) -> Option<String> {
        let asked = game_words(game);
        match d {
            None if !self.is_of(game) => {
                Some(format!("the heading says {} with {} seats, and {asked} is asked for", self.game, self.seats))
            }
            Some(d) if !self.is_of(game) || self.d != d => {
                Some(format!("the heading says {self}, and {asked}, D {d} is asked for"))
            }
            _ => None,
        }
    }
}

impl fmt::Display for Heading {
    fn fmt(&self, f: &mut fmt::Formatter<'_>) -> fmt::Result {
        write!(f, "{} with {} seats, D {}", self.game, self.seats, self.d)
    }
}

/// Takes characters of a kind from the front, and the blanks behind them; nothing where there are none.
fn take<'a>(rest: &mut &'a str, kind: impl Fn(char) -> bool) -> Option<&'a str> {
    let end = rest.find(|c| !kind(c)).unwrap_or(rest.len());
    let (taken, behind) = rest.split_at(end);
    *rest = behind.trim_start();
    (!taken.is_empty()).then_some(taken)
}

/// Takes a word from the front, in any case of letters, and the blanks behind it.
fn word(rest: &mut &str, word: &str) -> Option<()> {
    let front = rest.get(..word.len())?;
    if !front.eq_ignore_ascii_case(word) {
        return None;
    }
    *rest = rest[word.len()..].trim_start();
    Some(())
}

#[cfg(test)]
mod tests {
    use super::*;

    fn read(comment: &str) -> Option<Result<Heading, String>> {
        Heading::of_comment(comment)
    }

    #[test]
    fn a_template_begins_with_a_heading() {
        let kuhn = Heading::new(Game::Kuhn { seats: 2 }, 4);
        for comment in
            [" Kuhn with 2 seats, D 4: 12 sets, 24 entries", "Kuhn with 2 seats, D 4", "kuhn  with 2 SEATS, d 4 : mine"]
        {
            let heading = read(comment).unwrap().unwrap();
            assert_eq!((heading.is_of(Game::Kuhn { seats: 2 }), heading.d), (true, 4), "{comment}");
        }
        assert_eq!(kuhn.to_string(), "Kuhn with 2 seats, D 4");
        assert_eq!(read(&kuhn.to_string()), Some(Ok(kuhn)));
        let far = read("Chess with 18446744073709551617 seats, D 99999999999999999999:").unwrap().unwrap();
        assert_eq!((far.game.as_str(), far.seats, far.d), ("Chess", u64::MAX, u64::MAX));
    }

    #[test]
    fn other_comments_are_none() {
        for comment in [
            "",
            "Kuhn poker with 2 seats, D 1: both seats always PASS.",
            "A line for each set: the parts of its actions, and behind the # their names and what the seat knows.",
            "Kuhn with two seats, D 4",
            "Kuhn with 2 seats",
            "Kuhn with 2 seats, D four",
            "12 with 2 seats, D 4",
            "Kühn with 2 seats, D 4",
        ] {
            assert_eq!(read(comment), None, "{comment}");
        }
    }

    #[test]
    fn a_heading_that_says_more_is_not_guessed_at() {
        for comment in
            ["Kuhn with 2 seats, D 4, ante 2, bet 1: 12 sets", "Kuhn with 2 seats, D 4.5", "Kuhn with 2 seats, D 4 x"]
        {
            let sentence = "this heading says more than game, seats and D: 'Kuhn with 2 seats, D 4'";
            assert_eq!(read(comment), Some(Err(sentence.to_string())), "{comment}");
        }
    }

    #[test]
    fn a_heading_is_held_to_what_is_asked_for() {
        let (kuhn, leduc) = (Game::Kuhn { seats: 2 }, Game::Leduc);
        let heading = Heading::new(kuhn, 4);
        assert_eq!((heading.mismatch(kuhn, Some(4)), heading.mismatch(kuhn, None)), (None, None));
        let said = |game, d| heading.mismatch(game, d).unwrap();
        let says = "the heading says Kuhn with 2 seats";
        assert_eq!(said(kuhn, Some(3)), format!("{says}, D 4, and Kuhn with 2 seats, D 3 is asked for"));
        assert_eq!(said(leduc, Some(4)), format!("{says}, D 4, and Leduc with 2 seats, D 4 is asked for"));
        assert_eq!(said(Game::Kuhn { seats: 3 }, None), format!("{says}, and Kuhn with 3 seats is asked for"));
    }
}
