//! What is said of a text that is meant as a set's label and is none.

use super::labels::{Labels, ACTIONS};
use super::words::{game_words, quoted_label};

/// The sentence, with the words of the text.
pub fn sentence(labels: &Labels, text: &str) -> String {
    let text = text.trim();
    let (actions, words) = text.split_once(':').unwrap_or(("", text));
    let game = game_words(labels.game());
    if let Some(set) = (0..labels.sets().len()).find(|&set| alike(labels.words(set), words)) {
        let (needed, words) = (labels.actions(set), labels.words(set));
        return if actions.is_empty() {
            format!("{} lacks the actions before it: {needed}: {words}", quoted_label(text))
        } else if alike(needed, actions) {
            format!("{} has other blanks at its colon: the label is {needed}: {words}", quoted_label(text))
        } else if lower_words(needed) == lower_words(actions) {
            format!("{} has other signs at its actions: the label is {needed}: {words}", quoted_label(text))
        } else if in_another_order(needed, actions) {
            format!("{} has the actions in another order: {words} has {needed}", quoted_label(text))
        } else {
            format!("{} has other actions: {words} has {needed}", quoted_label(text))
        };
    }
    let own: Vec<&str> = (0..=2).filter_map(|action| labels.game().action_name(action)).collect();
    if words_of(text).any(|word| ACTIONS.contains(&word) && !own.contains(&word)) {
        return format!("{} is a label of another game, not of {game}", quoted_label(text));
    }
    let note = if actions.is_empty() { "; a note of one's own stands behind a second #" } else { "" };
    format!("{} is no set of {game}{note}", quoted_label(text))
}

fn words_of(text: &str) -> impl Iterator<Item = &str> {
    text.split(|c: char| !c.is_alphanumeric()).filter(|word| !word.is_empty())
}

/// The same words, in any case of letters.
fn alike(left: &str, right: &str) -> bool {
    let (left, right) = (left.split_whitespace(), right.split_whitespace());
    left.map(str::to_ascii_lowercase).eq(right.map(str::to_ascii_lowercase))
}

fn lower_words(text: &str) -> Vec<String> {
    words_of(text).map(str::to_ascii_lowercase).collect()
}

fn in_another_order(needed: &str, actions: &str) -> bool {
    let sorted = |text: &str| {
        let mut words = lower_words(text);
        words.sort();
        words
    };
    sorted(needed) == sorted(actions)
}

#[cfg(test)]
mod tests {
    use super::*;
    use crate::{Evaluator, Game};

    #[test]
    fn the_sentence_says_what_is_wrong_where_it_can_be_seen() {
        let labels = Labels::new(&Evaluator::new(Game::Kuhn { seats: 2 }).unwrap());
        let said = |text: &str| sentence(&labels, text);
        assert_eq!(
            said(" BET PASS: seat 1, card 2, after PASS"),
            "'BET PASS: seat 1, card 2, after PASS' has the actions in another order: seat 1, card 2, after PASS has PASS BET"
        );
        assert_eq!(
            said("PASS: seat 1, card 2, after PASS"),
            "'PASS: seat 1, card 2, after PASS' has other actions: seat 1, card 2, after PASS has PASS BET"
        );
        let known = "PASS BET: seat 1, card 2, after PASS";
        for blanks in ["PASS BET : seat 1, card 2, after PASS", "pass  bet:seat 1, card 2, after PASS"] {
            assert_eq!(said(blanks), format!("'{blanks}' has other blanks at its colon: the label is {known}"));
        }
        for signs in ["PASS, BET: seat 1, card 2, after PASS", "(Pass/Bet): seat 1, card 2, after PASS"] {
            assert_eq!(said(signs), format!("'{signs}' has other signs at its actions: the label is {known}"));
        }
        assert_eq!(
            said("seat 1, card 2, after PASS"),
            "'seat 1, card 2, after PASS' lacks the actions before it: PASS BET: seat 1, card 2, after PASS"
        );
        assert_eq!(
            said("CALL RAISE: seat 0, card 0 (rank 0), no public card, first action of the hand"),
            "'CALL RAISE: seat 0, card 0 (rank 0), no public card, first action of the hand' \
             is a label of another game, not of Kuhn with 2 seats"
        );
        let third = "PASS BET: seat 2, card 2, after PASS PASS";
        assert_eq!(said(third), format!("'{third}' is no set of Kuhn with 2 seats"));
        assert_eq!(
            said("I bet here"),
            "'I bet here' is no set of Kuhn with 2 seats; a note of one's own stands behind a second #"
        );
    }
}
