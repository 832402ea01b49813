//! Which sets a hand gets to.

use std::collections::HashMap;

use chukkanalli::tables::Labels;
use chukkanalli::{Game, InfoSet};

/// The sets of a game by what their seats know, and the parts of a table.
pub struct Reach<'a> {
    game: Game,
    parts: &'a [u8],
    sets: HashMap<Known<'a>, &'a InfoSet>,
}

/// A card, the public card and what was played; these tell whose turn it is.
type Known<'a> = (u8, Option<u8>, &'a [Vec<u8>]);

impl<'a> Reach<'a> {
    pub fn new(labels: &'a Labels, parts: &'a [u8]) -> Self {
        let known = |set: &'a InfoSet| ((set.card, set.public_card, &set.rounds[..]), set);
        Reach { game: labels.game(), parts, sets: labels.sets().iter().map(known).collect() }
    }

    /// Whether a hand gets to a set while the other seats play the table, whatever its own seat does.
    pub fn gets_to(&self, set: &InfoSet) -> bool {
        let mut taken = vec![set.card];
        taken.extend(set.public_card);
        self.can_be_dealt(set, 0, &mut taken)
    }

    /// Whether the seat's own play in the table lets it get to a set.
    pub fn goes_to(&self, set: &InfoSet) -> bool {
        self.plays(set, set.seat, set.card)
    }

    /// Whether seats from one on can have cards with which they play what was played before the set.
    fn can_be_dealt(&self, set: &InfoSet, seat: u64, taken: &mut Vec<u8>) -> bool {
        if seat == self.game.seats() {
            return true;
        }
        if seat == set.seat {
            return self.can_be_dealt(set, seat + 1, taken);
        }
        for card in 0..self.cards() {
            if !taken.contains(&card) && self.plays(set, seat, card) {
                taken.push(card);
                if self.can_be_dealt(set, seat + 1, taken) {
                    return true;
                }
                taken.pop();
            }
        }
        false
    }

    fn cards(&self) -> u8 {
        match self.game {
            Game::Kuhn { seats } => seats as u8 + 1,
            Game::Leduc => 6,
        }
    }

    /// Whether a seat with a card has a part on each of its actions before the set.
    fn plays(&self, set: &InfoSet, seat: u64, card: u8) -> bool {
        for round in 0..set.rounds.len() {
            let public_card = if round == 0 { None } else { set.public_card };
            let mut before = set.rounds[..=round].to_vec();
            for (made, &action) in set.rounds[round].iter().enumerate() {
                before[round] = set.rounds[round][..made].to_vec();
                let acting = self.sets.get(&(card, public_card, &before[..]));
                if acting.is_some_and(|acting| acting.seat == seat && !self.has_part(acting, action)) {
                    return false;
                }
            }
        }
        true
    }

    fn has_part(&self, set: &InfoSet, action: u8) -> bool {
        let place = set.legal.iter().position(|&legal| legal == action);
        place.is_some_and(|place| self.parts[set.first_entry + place] > 0)
    }
}

#[cfg(test)]
mod tests {
    use super::*;
    use chukkanalli::{Evaluator, KuhnPoker, KuhnPosition, LeducPoker, LeducPosition};
    use random::Random;

    /// A position of either game.
    #[derive(Clone, Copy)]
    enum Position {
        Kuhn(KuhnPoker, KuhnPosition),
        Leduc(LeducPosition),
    }

    impl Position {
        fn dealt(self, outcome: u64) -> Option<Self> {
            match self {
                Position::Kuhn(game, at) => game.apply_chance_node(at, outcome).ok().map(|at| Position::Kuhn(game, at)),
                Position::Leduc(at) => LeducPoker::apply_chance_node(at, outcome).ok().map(Position::Leduc),
            }
        }

        fn stepped(self, action: u8) -> Self {
            match self {
                Position::Kuhn(game, at) => Position::Kuhn(game, game.step(at, u64::from(action)).unwrap()),
                Position::Leduc(at) => Position::Leduc(LeducPoker::step(at, u64::from(action)).unwrap()),
            }
        }

        fn legal(self, seat: u64) -> Vec<u8> {
            let mut out = [0; 3];
            match self {
                Position::Kuhn(game, at) => game.legal_actions(at, seat, &mut out).unwrap().to_vec(),
                Position::Leduc(at) => LeducPoker::legal_actions(at, seat, &mut out).unwrap().to_vec(),
            }
        }

        fn key(self, seat: u64) -> Vec<u8> {
            let mut out = [0; 21];
            match self {
                Position::Kuhn(game, at) => game.information_state_key(at, seat, &mut out).unwrap().to_vec(),
                Position::Leduc(at) => LeducPoker::information_state_key(at, seat, &mut out).unwrap().to_vec(),
            }
        }
    }

    /// Plays every hand by the rules, and marks the sets that one gets to while all other seats have a part on what they did.
    fn play(
        at: Position,
        playing: &mut [bool],
        sets: &HashMap<Vec<u8>, &InfoSet>,
        parts: &[u8],
        met: &mut Vec<Vec<u8>>,
    ) {
        let outcomes: Vec<Position> = (0..6).filter_map(|outcome| at.dealt(outcome)).collect();
        for dealt in outcomes {
            play(dealt, playing, sets, parts, met);
        }
        for seat in 0..playing.len() {
            let legal = at.legal(seat as u64);
            if legal.is_empty() {
                continue;
            }
            let key = at.key(seat as u64);
            let set = sets[&key];
            if playing.iter().enumerate().all(|(other, &plays)| other == seat || plays) {
                met.push(key);
            }
            for (place, &action) in legal.iter().enumerate() {
                let before = playing[seat];
                playing[seat] &= parts[set.first_entry + place] > 0;
                play(at.stepped(action), playing, sets, parts, met);
                playing[seat] = before;
            }
        }
    }

    #[test]
    fn the_sets_that_hands_get_to_are_those_of_all_hands_played() {
        let mut random = Random::new(3);
        for (game, rounds) in [(Game::Kuhn { seats: 2 }, 40), (Game::Kuhn { seats: 3 }, 12), (Game::Leduc, 2)] {
            let labels = Labels::new(&Evaluator::new(game).unwrap());
            let sets: HashMap<Vec<u8>, &InfoSet> = labels.sets().iter().map(|set| (set.key.clone(), set)).collect();
            for _ in 0..rounds {
                let often = 2 + random.below(3);
                let parts: Vec<u8> = (0..labels.entries()).map(|_| u8::from(random.one_in(often))).collect();
                let start = match game {
                    Game::Kuhn { seats } => Position::Kuhn(KuhnPoker { seats }, KuhnPosition::new(&[], &[])),
                    Game::Leduc => Position::Leduc(LeducPosition::new(&[], None, &[], &[])),
                };
                let (mut met, mut playing) = (Vec::new(), vec![true; game.seats() as usize]);
                play(start, &mut playing, &sets, &parts, &mut met);
                let reach = Reach::new(&labels, &parts);
                for set in labels.sets() {
                    assert_eq!(reach.gets_to(set), met.contains(&set.key), "{set:?}");
                }
            }
        }
    }
}
