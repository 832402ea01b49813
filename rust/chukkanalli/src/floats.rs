//! The values of profiles in f64, rounded in the order that document 01 says.

use crate::archive::{self, accepted, ValuesAnswer};
use crate::{Evaluator, PerSeat, Refusal, Values};

/// A call that is handed no seat.
type ProfileCall = fn(u64, u64, &mut [u64], &[f64]) -> ValuesAnswer;

impl Evaluator {
    /// The best response value of a seat. Refuses with 5, 7.
    pub fn best_response_value(&mut self, seat: u64, profile: &[f64]) -> Result<f64, Refusal> {
        let (game, seats) = (self.game().number(), self.game().seats());
        one(archive::best_response_value(game, seats, &mut self.work, seat, profile))
    }

    /// The best response value of each seat. Refuses with 7.
    pub fn best_response_values(&mut self, profile: &[f64]) -> Result<Values, Refusal> {
        each(self.valued(archive::best_response_values, profile))
    }

    /// What a profile is worth to each seat. Refuses with 7.
    pub fn profile_values(&mut self, profile: &[f64]) -> Result<Values, Refusal> {
        each(self.valued(archive::profile_values, profile))
    }

    /// NashConv of a profile: the sum of best response value − worth by seat. Refuses with 7.
    pub fn nash_conv(&mut self, profile: &[f64]) -> Result<f64, Refusal> {
        one(self.valued(archive::nash_conv, profile))
    }

    /// Exploitability of a profile: NashConv divided by the seats. Refuses with 7.
    pub fn exploitability(&mut self, profile: &[f64]) -> Result<f64, Refusal> {
        one(self.valued(archive::exploitability, profile))
    }

    fn valued(&mut self, call: ProfileCall, profile: &[f64]) -> ValuesAnswer {
        let (game, seats) = (self.game().number(), self.game().seats());
        call(game, seats, &mut self.work, profile)
    }
}

fn one(answer: ValuesAnswer) -> Result<f64, Refusal> {
    accepted(answer.refusal).map(|()| answer.values[0])
}

fn each(answer: ValuesAnswer) -> Result<Values, Refusal> {
    accepted(answer.refusal).map(|()| PerSeat::new(answer.count, answer.values))
}

#[cfg(test)]
mod tests {
    use super::*;
    use crate::Game;

    const PROFILE_CALLS: [ProfileCall; 4] =
        [archive::best_response_values, archive::profile_values, archive::nash_conv, archive::exploitability];

    /// What the calls are lent: a game number, a seat count, words of work memory, a seat and entries.
    type Lent = (u64, u64, usize, u64, usize);

    /// The five answers to a profile of halves, that of a seat first; the words that no call may touch are checked.
    fn answers((game, seats, words, seat, entries): Lent, kept: usize) -> Vec<ValuesAnswer> {
        let mut work = vec![9; words];
        let profile = vec![0.5; entries];
        let mut answers = vec![archive::best_response_value(game, seats, &mut work, seat, &profile)];
        answers.extend(PROFILE_CALLS.map(|call| call(game, seats, &mut work, &profile)));
        assert!(work[kept..].iter().all(|&word| word == 9));
        answers
    }

    /// Whether all is 0, to the bit, but the refusal.
    fn is_refused(answer: &ValuesAnswer, refusal: Refusal) -> bool {
        let zeros = answer.values.iter().all(|value| value.to_bits() == 0);
        answer.refusal == refusal.number() && answer.count == 0 && zeros
    }

    #[test]
    fn calls_are_refused_by_their_first_fault() {
        let faults: [(Refusal, Lent); 9] = [
            (Refusal::Game, (2, 11, 0, 9, 0)),
            (Refusal::Game, (u64::MAX, 7, 0, 9, 0)),
            (Refusal::Seats, (0, 11, 0, 99, 0)),
            (Refusal::Seats, (1, 3, 0, 99, 0)),
            (Refusal::Tree, (0, 7, 0, 99, 0)),
            (Refusal::Tree, (0, 10, 0, 99, 0)),
            (Refusal::Memory, (0, 2, 12 * 58 - 1, 2, 0)),
            (Refusal::Memory, (1, 2, 12 * 9_457 - 1, 2, 0)),
            (Refusal::Table, (0, 2, 12 * 58, 1, 23)),
        ];
        for (refusal, lent) in faults {
            for answer in answers(lent, 0) {
                assert!(is_refused(&answer, refusal), "{answer:?} to {lent:?}");
            }
        }
        for seat in [2, 256, 1 << 32, u64::MAX] {
            let all = answers((0, 2, 12 * 58, seat, 25), 0);
            assert!(is_refused(&all[0], Refusal::Seat), "{:?}", all[0]);
            assert!(all[1..].iter().all(|answer| is_refused(answer, Refusal::Table)), "{all:?}");
        }
    }

    #[test]
    fn answers_have_six_places_with_0_past_the_values() {
        for seats in 2..=6 {
            let counts = Game::Kuhn { seats }.counts().unwrap();
            let words = 12 * counts.nodes;
            let answers = answers((0, seats, words + 3, 1, counts.entries), words);
            for (answer, count) in answers.iter().zip([1, seats, seats, 1, 1]) {
                assert_eq!((answer.refusal, answer.count), (0, count));
                assert!(answer.values[count as usize..].iter().all(|value| value.to_bits() == 0), "{answer:?}");
                assert!(answer.values[..count as usize].iter().all(|&value| value != 0.0), "{answer:?}");
            }
        }
    }
}
