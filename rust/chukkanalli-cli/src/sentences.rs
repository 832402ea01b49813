//! What a set does and what its switch adds, in sentences that can be read aloud.

use chukkanalli::tables::{action_words, set_words};
use chukkanalli::{Game, InfoSet};

use crate::fraction::Fraction;

/// `bets`, as what a seat does, and `betting`.
fn verb(game: Game, action: u8) -> [String; 2] {
    let name = action_words(game, &[action]).to_lowercase();
    let (does, doing) = match &name[..] {
        "pass" => ("passes", "passing"),
        "bet" => ("bets", "betting"),
        "fold" => ("folds", "folding"),
        "call" => ("calls", "calling"),
        "raise" => ("raises", "raising"),
        _ => (&name[..], &name[..]),
    };
    [does.to_string(), doing.to_string()]
}

/// How often an action with so many of D parts is taken: `never bets`, `bets 1 hand in 3`, `always bets`.
fn often(does: &str, part: u64, d: u64) -> String {
    match Fraction::of_sum(part, d).parts() {
        (0, _) => format!("never {does}"),
        (_, 1) => format!("always {does}"),
        (1, of) => format!("{does} 1 hand in {of}"),
        (hands, of) => format!("{does} {hands} hands in {of}"),
    }
}

/// Some chips: `20/81 of a chip`, `1 chip`, `3/2 chips`.
pub fn chips(chips: Fraction) -> String {
    match chips.parts() {
        (1, 1) => "1 chip".to_string(),
        (over, under) if over < under => format!("{chips} of a chip"),
        _ => format!("{chips} chips"),
    }
}

/// Where a seat stands in a set: `With card 0 as first action`, `With card 0 after PASS BET`.
pub fn situation(game: Game, set: &InfoSet) -> String {
    let words = set_words(game, set);
    let words = words.replace(", first action of the hand", " as first action");
    match game {
        Game::Kuhn { .. } => format!("With {}", words.replacen(", after", " after", 1)),
        Game::Leduc => format!("With {}", words.replace("first action of round", "as first action of round")),
    }
}

/// What a set does of the reply's action, and what doing that always gains.
pub fn switch(game: Game, set: &InfoSet, action: u8, part: u64, d: u64, adds: Fraction) -> String {
    let [does, doing] = verb(game, action);
    let (where_it_is, often, chips) = (situation(game, set), often(&does, part, d), chips(adds));
    format!("{where_it_is} it {often}; {doing} always gains {chips}.")
}

/// How often a set takes an action, and what one part more on it does to NashConv.
pub fn one_part(game: Game, set: &InfoSet, actions: [u8; 2], part: u64, d: u64, change: Fraction) -> String {
    let [from, to] = actions.map(|action| action_words(game, &[action]));
    let [does, _] = verb(game, actions[1]);
    let (where_it_is, often) = (situation(game, set), often(&does, part, d));
    let effect = match change.parts() {
        (0, _) => "leaves NashConv as it is".to_string(),
        _ if change.is_negative() => format!("lowers NashConv by {}", chips(change.size())),
        _ => format!("raises NashConv by {}", chips(change)),
    };
    format!("{where_it_is}, seat {} {often}; one part from {from} to {to} {effect}.", set.seat)
}

#[cfg(test)]
mod tests {
    use super::*;

    fn set(card: u8, public_card: Option<u8>, rounds: &[&[u8]]) -> InfoSet {
        InfoSet {
            seat: 0,
            key: Vec::new(),
            card,
            public_card,
            rounds: rounds.iter().map(|round| round.to_vec()).collect(),
            first_cards: Vec::new(),
            legal: Vec::new(),
            first_entry: 0,
        }
    }

    #[test]
    fn sentences_can_be_read_aloud() {
        let kuhn = Game::Kuhn { seats: 2 };
        assert_eq!(
            switch(kuhn, &set(0, None, &[&[]]), 1, 1, 3, Fraction::of_sum(40, 162)),
            "With card 0 as first action it bets 1 hand in 3; betting always gains 20/81 of a chip."
        );
        assert_eq!(
            switch(kuhn, &set(2, None, &[&[0, 1]]), 0, 0, 3, Fraction::of_sum(3, 2)),
            "With card 2 after PASS BET it never passes; passing always gains 3/2 chips."
        );
        assert_eq!(
            switch(Game::Leduc, &set(4, None, &[&[]]), 2, 4, 6, Fraction::of_sum(7, 7)),
            "With card 4 (rank 2), no public card as first action it raises 2 hands in 3; raising always gains 1 chip."
        );
        assert_eq!(
            situation(Game::Leduc, &set(0, Some(3), &[&[1, 1], &[]])),
            "With card 0 (rank 0), public card 3 (rank 1), after CALL CALL, as first action of round 2"
        );
        assert_eq!(often("calls", 6, 6), "always calls");
        let said = |change| one_part(kuhn, &set(2, None, &[&[1]]), [0, 1], 1, 3, change);
        let front = "With card 2 after BET, seat 0 bets 1 hand in 3; one part from PASS to BET";
        assert_eq!(said(Fraction::of_units(-48, 162)), format!("{front} lowers NashConv by 8/27 of a chip."));
        assert_eq!(said(Fraction::of_units(162, 162)), format!("{front} raises NashConv by 1 chip."));
        assert_eq!(said(Fraction::of_units(0, 162)), format!("{front} leaves NashConv as it is."));
    }
}
