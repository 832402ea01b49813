//! Where a seat's gain comes from: its sets switched to the perfect reply one after another.
//!
//! A set is switched after all sets of the seat that can follow it. Each step is what a table is worth, so that what the sets add is exact and
//! makes up best value − worth; no step loses, since the reply's action is the best one once the sets behind it play the reply.

use std::cmp::Reverse;

use chukkanalli::tables::Labels;
use chukkanalli::{Evaluator, InfoSet, Refusal};

use crate::jobs::side_by_side;
use crate::reach::Reach;

/// What a set's switch to the reply adds.
#[derive(Clone, Debug, PartialEq, Eq)]
pub struct Switch {
    pub set: usize,
    /// The reply's action.
    pub action: u8,
    /// In units.
    pub adds: u64,
    pub mark: Mark,
}

/// What is to be known of a switch beside what it adds.
#[derive(Clone, Copy, Debug, PartialEq, Eq)]
pub enum Mark {
    /// The reply's action is better than any other.
    Better,
    /// Another action is as good as the reply's.
    Tie,
    /// The table does what the reply does.
    Same,
    /// The seat's own play never gets to the set.
    Avoided,
    /// No hand gets to the set while the others play the table.
    Unreached,
}

/// What a table is worth to a seat, its best value, and what each of its sets adds on the way, the largest first.
#[derive(Clone, Debug, PartialEq, Eq)]
pub struct Explanation {
    pub seat: u64,
    pub worth: i64,
    pub best: i64,
    pub switches: Vec<Switch>,
}

/// The way of one seat from a table to its reply.
struct Way<'a> {
    seat: usize,
    best: i64,
    reply: Vec<u8>,
    /// The sets in which the two differ, in the order in which they are switched.
    sets: Vec<(usize, &'a InfoSet)>,
}

/// How many actions were made before a set: more in every set that can follow it.
fn depth(set: &InfoSet) -> usize {
    set.rounds.iter().map(Vec::len).sum()
}

impl<'a> Way<'a> {
    fn new(evaluator: &mut Evaluator, labels: &'a Labels, d: u64, parts: &[u8], seat: u64) -> Result<Self, Refusal> {
        let best = evaluator.best_reply(seat, d, parts)?;
        let differs = |set: &InfoSet| set.seat == seat && parts[set.entries()] != best.table[set.entries()];
        let mut sets: Vec<(usize, &InfoSet)> =
            labels.sets().iter().enumerate().filter(|(_, set)| differs(set)).collect();
        sets.sort_by_key(|(_, set)| Reverse(depth(set)));
        Ok(Way { seat: seat as usize, best: best.value, reply: best.table, sets })
    }

    /// The table with the first so many sets switched.
    fn switched(&self, parts: &[u8], count: usize) -> Vec<u8> {
        let mut table = parts.to_vec();
        for (_, set) in &self.sets[..count] {
            table[set.entries()].copy_from_slice(&self.reply[set.entries()]);
        }
        table
    }

    /// The same, with all parts of the last of these sets on another of its actions.
    fn with_another(&self, parts: &[u8], count: usize, place: usize) -> Vec<u8> {
        let mut table = self.switched(parts, count);
        let own = &mut table[self.sets[count - 1].1.entries()];
        let d = own.iter().copied().max().unwrap_or(0);
        own.fill(0);
        own[place] = d;
        table
    }
}

/// The place of the action that has all parts of a set in a reply.
fn chosen(set: &InfoSet, reply: &[u8]) -> usize {
    reply[set.entries()].iter().position(|&part| part > 0).unwrap_or(0)
}

/// Explains the gain of some seats. Tables are weighed side by side, one with each evaluator; `weighed` is called with how many there are to be
/// weighed, and then for each.
pub fn explained(
    evaluators: &mut [Evaluator],
    labels: &Labels,
    d: u64,
    parts: &[u8],
    seats: impl Iterator<Item = u64>,
    mut weighed: impl FnMut(Option<usize>),
) -> Result<Vec<Explanation>, Refusal> {
    let worths = evaluators[0].worths(d, parts)?;
    let ways: Result<Vec<Way>, Refusal> =
        seats.map(|seat| Way::new(&mut evaluators[0], labels, d, parts, seat)).collect();
    let ways = ways?;
    let mut weigh = |asked: &[(usize, Vec<u8>)]| -> Result<Vec<i64>, Refusal> {
        weighed(Some(asked.len()));
        let mut found = Vec::with_capacity(asked.len());
        let worth = |evaluator: &mut &mut Evaluator, place: usize| {
            let (seat, table) = &asked[place];
            evaluator.worths(d, table).map(|worths| worths[*seat])
        };
        side_by_side(evaluators.iter_mut().collect(), asked.len(), worth, |_, worth| {
            weighed(None);
            found.push(worth?);
            Ok::<(), Refusal>(())
        })?;
        Ok(found)
    };
    let steps = ways.iter().flat_map(|way| (1..=way.sets.len()).map(|count| (way.seat, way.switched(parts, count))));
    let after = weigh(&steps.collect::<Vec<_>>())?;
    let others = rivals(&ways, &worths, &after);
    let tables =
        others.iter().map(|&(way, count, place, _)| (ways[way].seat, ways[way].with_another(parts, count, place)));
    let worth_of_others = weigh(&tables.collect::<Vec<_>>())?;
    let ties: Vec<(usize, usize)> = others
        .iter()
        .zip(worth_of_others)
        .filter(|((_, _, _, worth), other)| worth == other)
        .map(|(&(way, count, ..), _)| (way, count))
        .collect();

    let reach = Reach::new(labels, parts);
    let mut after = after.into_iter();
    let told = ways.iter().enumerate().map(|(number, way)| {
        let worth = worths[way.seat];
        let after: Vec<i64> = after.by_ref().take(way.sets.len()).collect();
        let own = labels.sets().iter().enumerate().filter(|(_, set)| set.seat == way.seat as u64);
        let mut switches: Vec<Switch> = own
            .map(|(place, set)| {
                let count = way.sets.iter().position(|(own, _)| *own == place).map(|before| before + 1);
                let adds = count.map_or(0, |count| after[count - 1].abs_diff(before(worth, &after, count)));
                let mark = match count {
                    _ if !reach.gets_to(set) => Mark::Unreached,
                    None => Mark::Same,
                    Some(_) if !reach.goes_to(set) => Mark::Avoided,
                    Some(count) if adds == 0 || ties.contains(&(number, count)) => Mark::Tie,
                    Some(_) => Mark::Better,
                };
                Switch { set: place, action: set.legal[chosen(set, &way.reply)], adds, mark }
            })
            .collect();
        let order = |own: &Switch| {
            let set = &labels.sets()[own.set];
            (Reverse(own.adds), own.mark as u8, set.card, set.public_card, own.set)
        };
        switches.sort_by_key(order);
        Explanation { seat: way.seat as u64, worth, best: way.best, switches }
    });
    Ok(told.collect())
}

/// What the table was worth before the last of so many switches.
fn before(worth: i64, after: &[i64], count: usize) -> i64 {
    if count == 1 {
        worth
    } else {
        after[count - 2]
    }
}

/// The other actions of each set that gains and has more than two: way, switches, place of the action, and the worth that it may equal. Of two
/// actions the other is worse where the switch gains.
fn rivals(ways: &[Way], worths: &[i64], after: &[i64]) -> Vec<(usize, usize, usize, i64)> {
    let (mut rivals, mut rest) = (Vec::new(), after);
    for (number, way) in ways.iter().enumerate() {
        let (own, behind) = rest.split_at(way.sets.len());
        rest = behind;
        for (count, (_, set)) in (1..).zip(&way.sets) {
            let gains = own[count - 1] != before(worths[way.seat], own, count);
            if gains && set.legal.len() > 2 {
                let others = (0..set.legal.len()).filter(|&place| place != chosen(set, &way.reply));
                rivals.extend(others.map(|place| (number, count, place, own[count - 1])));
            }
        }
    }
    rivals
}

#[cfg(test)]
mod tests {
    use super::*;
    use chukkanalli::Game;
    use random::Random;

    /// Parts at random, all on one action in some sets.
    fn table(labels: &Labels, d: u64, random: &mut Random) -> Vec<u8> {
        let mut table = vec![0; labels.entries()];
        for set in labels.sets() {
            let own = &mut table[set.entries()];
            let pure = random.one_in(4);
            let all = random.below(own.len());
            for _ in 0..d {
                own[if pure { all } else { random.below(own.len()) }] += 1;
            }
        }
        table
    }

    fn explained_by(jobs: usize, game: Game, d: u64, parts: &[u8]) -> Vec<Explanation> {
        let mut evaluators: Vec<Evaluator> = (0..jobs).map(|_| Evaluator::new(game).unwrap()).collect();
        let labels = Labels::new(&evaluators[0]);
        explained(&mut evaluators, &labels, d, parts, 0..game.seats(), |_| {}).unwrap()
    }

    /// What the sets add makes up the gain, to the unit: what they add is not negative, since it is found as a difference of worths that rise.
    #[test]
    fn what_the_sets_add_makes_up_the_gain() {
        let mut random = Random::new(25);
        let kuhn = |seats| Game::Kuhn { seats };
        for (game, count) in [(kuhn(2), 700), (kuhn(3), 250), (kuhn(4), 50), (Game::Leduc, 50)] {
            let mut evaluators = vec![Evaluator::new(game).unwrap(), Evaluator::new(game).unwrap()];
            let labels = Labels::new(&evaluators[0]);
            for _ in 0..count {
                let d = random.pick(&[1, 2, 3, 10, 64]);
                let parts = table(&labels, d, &mut random);
                let told = explained(&mut evaluators, &labels, d, &parts, 0..game.seats(), |_| {}).unwrap();
                for own in &told {
                    let added: u64 = own.switches.iter().map(|switch| switch.adds).sum();
                    assert_eq!(added as i64, own.best - own.worth);
                    hold_marks(&labels, &parts, own);
                }
            }
        }
    }

    /// Only what hands get to adds anything, and what the table does already adds nothing.
    fn hold_marks(labels: &Labels, parts: &[u8], own: &Explanation) {
        assert!(own.switches.is_sorted_by_key(|switch| Reverse(switch.adds)));
        for switch in &own.switches {
            let set = &labels.sets()[switch.set];
            let place = set.legal.iter().position(|&action| action == switch.action).unwrap();
            let same = parts[set.entries()].iter().enumerate().all(|(at, &part)| (part > 0) == (at == place));
            assert!(set.seat == own.seat);
            match switch.mark {
                Mark::Better => assert!(switch.adds > 0 && !same),
                Mark::Tie => assert!(!same && (switch.adds == 0 || set.legal.len() > 2)),
                Mark::Same => assert!(switch.adds == 0 && same),
                Mark::Avoided => assert!(switch.adds == 0 && !same),
                Mark::Unreached => assert_eq!(switch.adds, 0),
            }
        }
    }

    #[test]
    fn threads_change_nothing() {
        let mut random = Random::new(3);
        let labels = Labels::new(&Evaluator::new(Game::Leduc).unwrap());
        let parts = table(&labels, 3, &mut random);
        assert_eq!(explained_by(1, Game::Leduc, 3, &parts), explained_by(3, Game::Leduc, 3, &parts));
    }

    /// Case k: nobody calls, so a bet with card 0 or 1 gains, and with card 2 either action gets the ante.
    #[test]
    fn the_gain_of_case_k_comes_from_two_bets() {
        let told = explained_by(1, Game::Kuhn { seats: 2 }, 1, &[1, 0].repeat(12));
        let shown: Vec<_> = told[0].switches.iter().map(|own| (own.set, own.action, own.adds, own.mark)).collect();
        assert_eq!(shown[..2], [(0, 1, 4, Mark::Better), (6, 1, 2, Mark::Better)]);
        assert_eq!((shown[2].0, shown[2].3, shown[3].3), (10, Mark::Same, Mark::Unreached));
    }
}
