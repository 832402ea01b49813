//! Games and sets in words; words in sentences.

use crate::{Game, InfoSet};

/// The characters of a word that a sentence quotes at most.
const MOST_QUOTED: usize = 24;

/// The characters of a label that a sentence quotes at most; the longest label of a game has 113.
const MOST_OF_A_LABEL: usize = 120;

/// A word in a sentence: cut where it is long, with what does not print written out.
pub fn quoted(word: &str) -> String {
    quoted_up_to(word, MOST_QUOTED)
}

/// A label in a sentence, likewise.
pub(super) fn quoted_label(label: &str) -> String {
    quoted_up_to(label, MOST_OF_A_LABEL)
}

fn quoted_up_to(word: &str, most: usize) -> String {
    let front: String = word.chars().take(most).collect();
    let cut = if front.len() < word.len() { "..." } else { "" };
    format!("'{}{cut}'", front.escape_debug())
}

/// A game with its seats, as `Kuhn with 2 seats`.
pub fn game_words(game: Game) -> String {
    format!("{} with {} seats", game.name(), game.seats())
}

/// The names of some actions, a blank between them.
pub fn action_words(game: Game, actions: &[u8]) -> String {
    let names: Vec<&str> = actions.iter().map(|&action| game.action_name(action).unwrap_or("?")).collect();
    names.join(" ")
}

/// What a seat knows in a set: its card, the public card, what was played.
pub fn set_words(game: Game, set: &InfoSet) -> String {
    match game {
        Game::Kuhn { .. } => format!("card {}, {}", set.card, played(game, &set.rounds[0], "of the hand")),
        Game::Leduc => {
            let public =
                set.public_card.map_or("no public card".to_string(), |card| format!("public {}", ranked_card(card)));
            format!("{}, {public}, {}", ranked_card(set.card), leduc_played(game, set))
        }
    }
}

/// A Leduc card, with its rank, by which cards pair.
fn ranked_card(card: u8) -> String {
    format!("card {card} (rank {})", card / 2)
}

fn leduc_played(game: Game, set: &InfoSet) -> String {
    match set.rounds.get(1) {
        None => played(game, &set.rounds[0], "of the hand"),
        Some(round2) if round2.is_empty() => {
            format!("after {}, {}", action_words(game, &set.rounds[0]), played(game, round2, "of round 2"))
        }
        Some(round2) => {
            format!("after {}, in round 2 {}", action_words(game, &set.rounds[0]), played(game, round2, "of round 2"))
        }
    }
}

fn played(game: Game, actions: &[u8], where_first: &str) -> String {
    if actions.is_empty() {
        format!("first action {where_first}")
    } else {
        format!("after {}", action_words(game, actions))
    }
}

/// How many there are of something, as `1 part` and `2 parts`.
pub(super) fn counted(count: usize, name: &str) -> String {
    format!("{count} {name}{}", if count == 1 { "" } else { "s" })
}

#[cfg(test)]
mod tests {
    use super::*;

    fn set(card: u8, public_card: Option<u8>, rounds: &[&[u8]]) -> InfoSet {
        InfoSet {
            seat: 0,
            key: Vec::new(),
            card,
            public_card,
            rounds: rounds.iter().map(|round| round.to_vec()).collect(),
            first_cards: Vec::new(),
            legal: Vec::new(),
            first_entry: 0,
        }
    }

    #[test]
    fn words_are_shown_on_one_line() {
        assert_eq!(quoted("a\nb\u{1b}"), r"'a\nb\u{1b}'");
        assert_eq!(quoted(&"ä".repeat(25)), format!("'{}...'", "ä".repeat(24)));
        assert_eq!(quoted(&"ä".repeat(24)), format!("'{}'", "ä".repeat(24)));
        assert_eq!(counted(1, "part"), "1 part");
        assert_eq!(counted(0, "part"), "0 parts");
    }

    #[test]
    fn kuhn_tells_card_and_history() {
        let game = Game::Kuhn { seats: 3 };
        assert_eq!(game_words(game), "Kuhn with 3 seats");
        assert_eq!(set_words(game, &set(3, None, &[&[]])), "card 3, first action of the hand");
        assert_eq!(set_words(game, &set(0, None, &[&[0, 1]])), "card 0, after PASS BET");
        assert_eq!(action_words(game, &[0, 1, 2]), "PASS BET ?");
    }

    #[test]
    fn leduc_tells_both_cards_and_both_rounds() {
        let words = |card, public_card, rounds: &[&[u8]]| set_words(Game::Leduc, &set(card, public_card, rounds));
        assert_eq!(game_words(Game::Leduc), "Leduc with 2 seats");
        assert_eq!(words(4, None, &[&[]]), "card 4 (rank 2), no public card, first action of the hand");
        assert_eq!(words(5, None, &[&[1, 2]]), "card 5 (rank 2), no public card, after CALL RAISE");
        assert_eq!(
            words(0, Some(3), &[&[1, 1], &[]]),
            "card 0 (rank 0), public card 3 (rank 1), after CALL CALL, first action of round 2"
        );
        assert_eq!(
            words(0, Some(3), &[&[2, 1], &[1, 2]]),
            "card 0 (rank 0), public card 3 (rank 1), after RAISE CALL, in round 2 after CALL RAISE"
        );
    }
}
