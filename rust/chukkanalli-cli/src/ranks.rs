//! Ranks, equals together.

use std::cmp::Ordering;

/// The places of the values, the least by a comparison first and equals in the order given, each with its rank: one more than there are less.
pub fn ranked<T>(values: &[T], compare: impl Fn(&T, &T) -> Ordering) -> Vec<(usize, usize)> {
    let mut order: Vec<usize> = (0..values.len()).collect();
    order.sort_by(|&a, &b| compare(&values[a], &values[b]));
    let mut ranks: Vec<(usize, usize)> = Vec::with_capacity(order.len());
    for (less, place) in order.into_iter().enumerate() {
        let rank = match ranks.last() {
            Some(&(rank, before)) if compare(&values[before], &values[place]) == Ordering::Equal => rank,
            _ => less + 1,
        };
        ranks.push((rank, place));
    }
    ranks
}

#[cfg(test)]
mod tests {
    use super::*;
    use chukkanalli::{Evaluator, Game, NashConv};

    #[test]
    fn equals_share_a_rank_and_keep_their_order() {
        assert_eq!(ranked(&[5, 3, 5, 1, 3], u8::cmp), [(1, 3), (2, 1), (2, 4), (4, 0), (4, 2)]);
        assert_eq!(ranked(&[], u8::cmp), []);
        assert_eq!(ranked(&[7], u8::cmp), [(1, 0)]);
    }

    #[test]
    fn quotients_are_ranked_exactly() {
        let values = [(1, 3), (333_333_333, 1_000_000_000), (2, 6)];
        let values = values.map(|(nash_conv, units)| NashConv { nash_conv, units });
        assert_eq!(ranked(&values, NashConv::compare), [(1, 1), (2, 0), (2, 2)]);
    }

    #[test]
    fn tables_of_two_games_and_several_d_stand_in_one_ranking() {
        let mut kuhn = Evaluator::new(Game::Kuhn { seats: 2 }).unwrap();
        let mut leduc = Evaluator::new(Game::Leduc).unwrap();
        let first_actions: Vec<u8> =
            leduc.sets().iter().flat_map(|set| (0..set.legal.len()).map(|action| u8::from(action == 0))).collect();
        let equilibrium: Vec<u8> = "303030210303302121303003".bytes().map(|digit| digit - b'0').collect();
        let values = [
            kuhn.nash_conv_units(1, &[1, 0].repeat(12)).unwrap(),
            kuhn.nash_conv_units(3, &[2, 1].repeat(12)).unwrap(),
            leduc.nash_conv_units(1, &first_actions).unwrap(),
            kuhn.nash_conv_units(3, &equilibrium).unwrap(),
            kuhn.nash_conv_units(2, &[2, 0].repeat(12)).unwrap(),
        ];
        let quotients = values.map(|value| (value.nash_conv, value.units));
        assert_eq!(quotients, [(12, 6), (198, 162), (240, 120), (0, 162), (96, 48)]);
        assert_eq!(ranked(&values, NashConv::compare), [(1, 3), (2, 1), (3, 0), (3, 2), (3, 4)]);
    }
}
