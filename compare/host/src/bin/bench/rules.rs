//! Whole hands at random, from the start to the payoffs, by the same draws in both. A legal list is asked for before each step. Ours checks at every call
//! that the position can be reached; the Rust trusts its caller.

use crate::row;
use chukkanalli::{KuhnPosition, LeducPosition};
use host::rules::{Calls, Kuhn, Leduc};
use judge::whole;
use random::Random;
use reinfors_core::game::{Actor, ChanceDist, Game};
use reinfors_games::kuhn::KuhnPoker;
use reinfors_games::leduc::LeducPoker;

/// The hands of one timed call.
const HANDS: u64 = 1_000;

pub fn bench(rounds: usize) {
    let rows: Vec<_> = [2, 3, 6, 10]
        .map(|players| {
            let name = format!("Kuhn {players}");
            let both = hands(&name, &Kuhn(players as u64), &KuhnPoker { players }, rounds);
            (name, both)
        })
        .into_iter()
        .chain([("Leduc".to_string(), hands("Leduc", &Leduc, &LeducPoker, rounds))])
        .collect();
    println!("hands per second, the Rust's and ours:");
    for (name, (rust, ours)) in rows {
        let per_second = |milliseconds: f64| HANDS as f64 * 1_000.0 / milliseconds;
        println!("  {name}: {:.0} and {:.0}", per_second(rust), per_second(ours));
    }
}

/// Whose move it is at a position that has not ended, by the caller's own count.
trait Turns: Calls {
    /// How many cards are left, if one is due.
    fn fan(&self, position: &Self::Position) -> Option<usize>;

    fn seat(&self, position: &Self::Position) -> u64;
}

impl Turns for Kuhn {
    fn fan(&self, position: &KuhnPosition) -> Option<usize> {
        (position.dealt < self.0).then_some((self.0 + 1 - position.dealt) as usize)
    }

    fn seat(&self, position: &KuhnPosition) -> u64 {
        position.acted % self.0
    }
}

impl Turns for Leduc {
    fn fan(&self, position: &LeducPosition) -> Option<usize> {
        if position.dealt < 2 {
            return Some(6 - position.dealt as usize);
        }
        (closed(position) && position.public().is_none()).then_some(4)
    }

    fn seat(&self, position: &LeducPosition) -> u64 {
        let acted = if closed(position) { position.acted2 } else { position.acted1 };
        acted % 2
    }
}

/// Whether round 1 has closed.
fn closed(position: &LeducPosition) -> bool {
    let acted = position.acted1 as usize;
    acted >= 2 && position.history[acted - 1] == 1
}

fn hands<C: Turns, G: Game<Event = f64>>(name: &str, calls: &C, game: &G, rounds: usize) -> (f64, f64) {
    let (mut rust_sum, mut our_sum) = (0, 0);
    let mut rust = || rust_sum = all_hands(|random| rust_hand(game, random));
    let mut ours = || our_sum = all_hands(|random| our_hand(calls, random));
    let both = row(&format!("{HANDS} hands, {name}"), rounds, &mut rust, &mut ours);
    assert_eq!(rust_sum, our_sum, "{name}: both pay the same");
    both
}

/// A sum over the payoffs of all hands, in which the seats differ.
fn all_hands(mut hand: impl FnMut(&mut Random) -> i64) -> i64 {
    let mut random = Random::new(2026);
    (0..HANDS).map(|number| (number as i64 + 1) * hand(&mut random)).sum()
}

fn rust_hand<G: Game<Event = f64>>(game: &G, random: &mut Random) -> i64 {
    let mut state = game.initial_state();
    let mut joint = vec![0; game.num_agents()];
    loop {
        match game.actor(&state) {
            Actor::Chance => {
                let ChanceDist::Uniform(fan) = game.chance_node(&state) else { panic!("the deal is uniform") };
                state = game.apply_chance_node(&state, random.below(fan)).next_state;
            }
            Actor::Agent(seat) => {
                joint[seat] = random.pick(&game.legal_actions(&state, seat));
                let made = game.step(&state, &joint);
                if made.terminal {
                    let payoffs = made.events.into_iter().map(|event| whole(event.expect("a payoff")));
                    return (1..).zip(payoffs).map(|(place, payoff): (i64, i64)| place * payoff).sum();
                }
                state = made.next_state;
            }
            Actor::Simultaneous => panic!("one seat acts at a time"),
        }
    }
}

fn our_hand<C: Turns>(calls: &C, random: &mut Random) -> i64 {
    let mut position = calls.start().position;
    let mut out = [0; 3];
    loop {
        if let Some(fan) = calls.fan(&position) {
            position = calls.deal(position, random.below(fan) as u64).position;
            continue;
        }
        let legal = calls.legal(position, calls.seat(&position), &mut out);
        if legal.count == 0 {
            let answer = calls.payoff(position);
            let payoffs = &answer.payoffs[..answer.count as usize];
            return (1..).zip(payoffs).map(|(place, payoff): (i64, &i64)| place * payoff).sum();
        }
        position = calls.step(position, u64::from(out[random.below(legal.count as usize)])).position;
    }
}
