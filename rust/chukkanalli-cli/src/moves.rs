//! What moving one part of a set from one action to another does to NashConv.

use chukkanalli::tables::Labels;
use chukkanalli::{Evaluator, NashConv, Refusal};

use crate::jobs::side_by_side;

/// One part of a set moved, and NashConv of the table that comes of it.
#[derive(Clone, Copy, Debug, PartialEq, Eq)]
pub struct Move {
    pub set: usize,
    /// The place of the action that loses the part, and of the one that gets it.
    pub from: usize,
    pub to: usize,
    pub conv: NashConv,
}

impl Move {
    /// The change of NashConv from what it was, in units.
    pub fn change(&self, before: NashConv) -> i64 {
        self.conv.nash_conv as i64 - before.nash_conv as i64
    }
}

/// A table with one part of a set moved.
pub fn moved(labels: &Labels, parts: &[u8], set: usize, from: usize, to: usize) -> Vec<u8> {
    let mut table = parts.to_vec();
    let own = &mut table[labels.sets()[set].entries()];
    own[from] -= 1;
    own[to] += 1;
    table
}

/// All moves of one part, those with the least NashConv first and equals in set order. Tables are weighed side by side, one with each evaluator;
/// `weighed` is called with how many there are, and then for each.
pub fn moves(
    evaluators: &mut [Evaluator],
    labels: &Labels,
    d: u64,
    parts: &[u8],
    mut weighed: impl FnMut(Option<usize>),
) -> Result<Vec<Move>, Refusal> {
    let mut places = Vec::new();
    for (number, set) in labels.sets().iter().enumerate() {
        for from in (0..set.legal.len()).filter(|&from| parts[set.first_entry + from] > 0) {
            places.extend((0..set.legal.len()).filter(|&to| to != from).map(|to| (number, from, to)));
        }
    }
    weighed(Some(places.len()));
    let mut found = Vec::with_capacity(places.len());
    let conv = |evaluator: &mut &mut Evaluator, place: usize| {
        let (set, from, to) = places[place];
        evaluator.nash_conv_units(d, &moved(labels, parts, set, from, to))
    };
    side_by_side(evaluators.iter_mut().collect(), places.len(), conv, |place, conv| {
        weighed(None);
        let (set, from, to) = places[place];
        found.push(Move { set, from, to, conv: conv? });
        Ok::<(), Refusal>(())
    })?;
    found.sort_by(|one, other| one.conv.compare(&other.conv));
    Ok(found)
}

#[cfg(test)]
mod tests {
    use super::*;
    use chukkanalli::Game;
    use random::Random;

    fn table(labels: &Labels, d: u64, random: &mut Random) -> Vec<u8> {
        let mut table = vec![0; labels.entries()];
        for set in labels.sets() {
            for _ in 0..d {
                table[set.first_entry + random.below(set.legal.len())] += 1;
            }
        }
        table
    }

    /// Every pair of tables of which one has a part more in one place and a part less in another of the same set.
    #[test]
    fn all_moves_are_weighed_as_the_tables_that_they_make() {
        let mut random = Random::new(25);
        for (seats, count) in [(2, 150), (3, 50)] {
            let game = Game::Kuhn { seats };
            let mut evaluators = vec![Evaluator::new(game).unwrap(), Evaluator::new(game).unwrap()];
            let labels = Labels::new(&evaluators[0]);
            for _ in 0..count {
                let d = random.pick(&[1, 2, 3, 12, 64]);
                let parts = table(&labels, d, &mut random);
                let told = moves(&mut evaluators, &labels, d, &parts, |_| {}).unwrap();
                let mut expected = Vec::new();
                for less in (0..parts.len()).filter(|&less| parts[less] > 0) {
                    let more = less ^ 1;
                    let mut other = parts.clone();
                    (other[less], other[more]) = (parts[less] - 1, parts[more] + 1);
                    expected.push((other.clone(), evaluators[1].nash_conv_units(d, &other).unwrap().nash_conv));
                }
                expected.sort_by_key(|(_, conv)| *conv);
                let table_of = |own: &Move| moved(&labels, &parts, own.set, own.from, own.to);
                let told: Vec<_> = told.iter().map(|own| (table_of(own), own.conv.nash_conv)).collect();
                assert_eq!(told, expected);
            }
        }
    }

    #[test]
    fn leduc_has_as_many_moves_as_its_pairs_of_actions() {
        let mut evaluators = vec![Evaluator::new(Game::Leduc).unwrap()];
        let labels = Labels::new(&evaluators[0]);
        let parts: Vec<u8> =
            labels.sets().iter().flat_map(|set| vec![6 / set.legal.len() as u8; set.legal.len()]).collect();
        let mut counted = (0, 0);
        let told = moves(&mut evaluators, &labels, 6, &parts, |weighed| match weighed {
            Some(count) => counted.0 += count,
            None => counted.1 += 1,
        });
        assert_eq!((told.unwrap().len(), counted), (3_120, (3_120, 3_120)));
    }
}
