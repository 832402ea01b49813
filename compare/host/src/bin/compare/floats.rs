//! The calls in f64: random profiles of each game and calls that are refused, held to the unchanged Rust bit for bit; and the uniform profile, held
//! to the whole units of the archive.

use crate::game::Game;
use crate::number::{more, number_but, other_length};
use crate::Counts;
use chukkanalli::archive::{best_reply, nash_conv_units, worths};
use host::floats::{evaluate, judged};
use host::memory::Memory;
use host::stack::stack_of;
use judge::exact::probabilities;
use judge::floats::{Call, Evaluation, EVALUATIONS};
use judge::parts;
use judge::profiles::{profile, KINDS};
use judge::units::words;
use random::Random;

/// The numbers that the calls give.
const NUMBERS: [u64; 6] = [1, 2, 3, 4, 5, 7];

/// A game, and how much of it is compared.
struct Plan {
    game: Game,
    profiles: usize,
    /// The calls on each profile: all five, or one of them in turn where the Rust is slow.
    calls: usize,
    /// The calls refused with each number.
    refused: usize,
}

pub fn compare(random: &mut Random) {
    let plan = |game, profiles, calls, refused| Plan { game, profiles, calls, refused };
    let plans = [
        plan(Game::kuhn(2), 6_000, 5, 100),
        plan(Game::kuhn(3), 3_000, 5, 100),
        plan(Game::kuhn(4), 600, 5, 20),
        plan(Game::kuhn(5), 1_020, 1, 2),
        plan(Game::kuhn(6), 20, 1, 1),
        plan(Game::leduc(), 600, 5, 20),
    ];
    let mut counts = Counts::new();
    for plan in &plans {
        plan.all_profiles(&mut counts, random);
        plan.all_refusals(&mut counts, random);
        plan.uniform();
        let Plan { game, profiles, calls, .. } = plan;
        println!("f64, {}: {profiles} profiles agree, {calls} calls on each", game.name);
    }
    println!("f64: at most {} bytes of stack", plans.iter().map(Plan::stack).max().expect("six games"));
    counts.print();
}

/// Makes a call and holds all it leaves to the Rust's answer.
fn held(call: &Call, asked: Evaluation, counts: &mut Counts, random: &mut Random) {
    let Call { game, seats, seat, profile, .. } = call;
    let mut memory = Memory::new(call.words, 0);
    memory.fill_at_random(random);
    let ours = judged(evaluate(asked, *game, *seats, &mut memory.work, *seat, profile));
    assert_eq!(ours, call.answer(asked), "{asked:?} of {call:?}");
    let from = if ours.refusal == 0 { call.kept() } else { 0 };
    assert!(memory.words_kept(from), "the work memory from word {from} after {asked:?} of {call:?}");
    counts.count(ours.refusal);
}

impl Plan {
    /// A profile of each kind in turn, for each seat in turn, with as many words as are needed or a few more.
    fn some_call(&self, number: usize, random: &mut Random) -> Call {
        let tree = self.game.tree;
        let seat = (number / KINDS.len() % tree.seats) as u64;
        let profile = profile(tree, KINDS[number % KINDS.len()], random);
        let mut call = Call::of(self.game.number, tree, seat, profile);
        call.words += more(random);
        call
    }

    fn all_profiles(&self, counts: &mut Counts, random: &mut Random) {
        for number in 0..self.profiles {
            let call = self.some_call(number, random);
            for asked in EVALUATIONS.into_iter().cycle().skip(number % EVALUATIONS.len()).take(self.calls) {
                held(&call, asked, counts, random);
            }
        }
    }

    /// Each of the numbers so many times, for every call that gives it.
    fn all_refusals(&self, counts: &mut Counts, random: &mut Random) {
        for number in NUMBERS {
            let gives = |asked: &Evaluation| number != 5 || *asked == Evaluation::BestResponseValue;
            for time in 0..self.refused {
                let call = self.refused_with(number, time, random);
                assert_eq!(call.answer(Evaluation::BestResponseValue).refusal, number, "{call:?}");
                EVALUATIONS.into_iter().filter(gives).for_each(|asked| held(&call, asked, counts, random));
            }
        }
    }

    /// A call that is refused with a number, and may have reason to be refused with later ones.
    fn refused_with(&self, number: u64, time: usize, random: &mut Random) -> Call {
        let mut call = self.some_call(time, random);
        for later in [7, 5, 4].into_iter().filter(|&later| later > number) {
            if random.below(4) == 0 {
                self.damage(&mut call, later, random);
            }
        }
        self.damage(&mut call, number, random);
        call
    }

    /// Makes the call one that a check refuses.
    fn damage(&self, call: &mut Call, number: u64, random: &mut Random) {
        let tree = self.game.tree;
        match number {
            1..=4 => self.game.damage(number, &mut call.game, &mut call.seats, &mut call.words, random),
            5 => call.seat = number_but(random, |seat| seat >= tree.seats as u64),
            _ => call.profile.resize(other_length(tree.entries, random), 0.5),
        }
    }

    /// The values of the uniform profile, and those in whole units of the uniform table with D = 6, / U, are near each other.
    fn uniform(&self) {
        let Game { name, number, tree } = &self.game;
        let seats = tree.seats as u64;
        let table = parts::table(tree, 6, parts::Kind::Even, &mut Random::new(1));
        let mut memory = Memory::new(words(tree), tree.entries as u64);
        let Memory { work, out, .. } = &mut memory;
        let whole = nash_conv_units(*number, seats, work, 6, &table);
        let share = |units: i64| units as f64 / whole.units as f64;
        let bests: Vec<f64> =
            (0..seats).map(|seat| share(best_reply(*number, seats, work, seat, 6, &table, out).value)).collect();
        let worths = worths(*number, seats, work, 6, &table).worths.map(share);
        let nash_conv = whole.nash_conv as f64 / whole.units as f64;
        let exploitability = nash_conv / seats as f64;
        let expected = [&bests[1..2], &bests, &worths[..tree.seats], &[nash_conv], &[exploitability]];
        for (asked, expected) in EVALUATIONS.into_iter().zip(expected) {
            let answer = evaluate(asked, *number, seats, work, 1, &probabilities(&table, 6));
            assert_eq!((answer.refusal, answer.count), (0, expected.len() as u64), "{asked:?} of {name}");
            let near = answer.values.iter().zip(expected).all(|(value, whole)| (value - whole).abs() <= 1e-12);
            assert!(near, "{asked:?} of {name}: {answer:?} and {expected:?}");
        }
    }

    /// The most stack that a call takes.
    fn stack(&self) -> usize {
        let Call { game, seats, words, seat, profile } = self.some_call(0, &mut Random::new(1));
        let mut memory = Memory::new(words, 0);
        let mut stack = |asked| stack_of(|| _ = evaluate(asked, game, seats, &mut memory.work, seat, &profile));
        EVALUATIONS.into_iter().map(&mut stack).max().expect("five calls")
    }
}
