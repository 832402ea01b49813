//! Leduc's list: the rules calls, then the saved-position check.

use crate::leduc::{number_of_public, Position, CARDS, HALF};
use crate::leduc_paper::{all, Hand};
use crate::list::{self, changed, histories, List, Words, FAR, WHOLE};
use random::Random;
use reinfors_games::leduc::LeducPoker;

#[derive(Clone)]
pub struct Given {
    dealt: u64,
    public: Option<u8>,
    acted: [u64; 2],
    fill: u8,
    cards: Vec<u8>,
    rounds: [Vec<u8>; 2],
}

impl Given {
    fn new(hand: &Hand, fill: u8) -> Self {
        Given {
            dealt: hand.cards.len() as u64,
            public: hand.public,
            acted: [hand.rounds[0].len() as u64, hand.rounds[1].len() as u64],
            fill,
            cards: hand.cards.clone(),
            rounds: hand.rounds.clone(),
        }
    }
}

impl list::Given for Given {
    type Game = LeducPoker;

    fn game(_: &[u64]) -> LeducPoker {
        LeducPoker
    }

    fn read(record: &mut Words) -> Self {
        Given {
            dealt: record.number(),
            public: record.number().checked_sub(1).map(|card| card as u8),
            acted: [record.number(), record.number()],
            fill: record.number() as u8,
            cards: record.bytes(),
            rounds: [record.bytes(), record.bytes()],
        }
    }

    fn words(&self) -> Vec<u64> {
        let [first, second] = self.acted;
        let heads = [self.dealt, number_of_public(self.public), first, second, u64::from(self.fill)];
        list::words(&heads, &[&self.cards, &self.rounds[0], &self.rounds[1]])
    }

    fn position(&self) -> Position {
        let action = |at: usize| list::place(&self.rounds[at / HALF], at % HALF, CARDS + at, self.fill);
        Position {
            cards: std::array::from_fn(|at| list::place(&self.cards, at, at, self.fill)),
            dealt: self.dealt,
            public: self.public,
            history: std::array::from_fn(action),
            acted: self.acted,
        }
    }
}

/// A position with one byte changed, each in turn to several values, then with the public card or one length changed.
fn damaged(given: &Given) -> Vec<Given> {
    let mut out = changed(given, |next| &mut next.cards, &[0, 1, 2, 3, 4, 5, 6, 7, 128, 255]);
    for round in 0..2 {
        out.extend(changed(given, |next| &mut next.rounds[round], &[0, 1, 2, 3, 255]));
        for acted in (0..=9).chain(FAR) {
            let mut next = given.clone();
            next.acted[round] = acted;
            out.push(next);
        }
    }
    let publics = (0..=7).chain([128, 255]).map(Some).chain([None]);
    out.extend(publics.map(|public| Given { public, ..given.clone() }));
    out.extend((0..=4).chain(FAR).map(|dealt| Given { dealt, ..given.clone() }));
    out
}

/// A position with no rule to it: cards near the deck, actions up to 2, now and then 3.
fn wild(random: &mut Random) -> Given {
    let dealt = random.pick(&[0, 1, 2, 2, 2, 2, 2, 3]);
    let kinds = random.pick(&[2, 3, 3, 3, 4]);
    let mut actions = || (0..random.below(6)).map(|_| random.below(kinds) as u8).collect::<Vec<u8>>();
    let rounds = [actions(), actions()];
    let deck = random.pick(&[6, 6, 6, 7]);
    let mut rounds_given = rounds.clone();
    rounds_given.iter_mut().for_each(|round| round.truncate(HALF));
    Given {
        dealt: dealt as u64,
        public: if random.below(2) == 0 { None } else { Some(random.below(deck) as u8) },
        acted: [rounds[0].len() as u64, rounds[1].len() as u64],
        fill: random.pick(&[0, 0, 1, 7, 85]),
        cards: (0..dealt.min(CARDS)).map(|_| random.below(deck) as u8).collect(),
        rounds: rounds_given,
    }
}

/// The whole list.
pub fn list(seed: u64) -> List {
    List::drawn(seed, &[rules, saved])
}

/// The rules calls.
fn rules(list: &mut List, random: &mut Random) {
    list.start::<Given>(&[]);
    let hands = all();
    for (at, hand) in hands.iter().enumerate() {
        list.rules(at % 32 == 0, WHOLE, &Given::new(hand, random.pick(&[0, 7])));
    }
    for _ in 0..40 {
        let hand = &hands[random.below(hands.len())];
        for room in 0..=13 {
            list.rules(room % 4 == 1, room, &Given::new(hand, 7));
        }
    }
    damaged_positions(8, &hands, random, |given| list.rules(false, WHOLE, given));
    (0..1000).for_each(|_| list.rules(false, WHOLE, &wild(random)));
}

/// The saved-position check.
fn saved(list: &mut List, random: &mut Random) {
    let hands = all();
    for hand in hands.iter().filter(|hand| hand.cards.len() < 2) {
        list.saved(true, &Given::new(hand, 7));
    }
    for _ in 0..1500 {
        let hand = &hands[random.below(hands.len())];
        list.saved(true, &Given::new(hand, random.pick(&[0, 7])));
    }
    every_history(list, random);
    damaged_positions(16, &hands, random, |given| list.saved(true, given));
    (0..3000).for_each(|_| list.saved(true, &wild(random)));
}

/// Damaged copies of some of the hands.
fn damaged_positions(count: usize, hands: &[Hand], random: &mut Random, mut put: impl FnMut(&Given)) {
    for _ in 0..count {
        let hand = &hands[random.below(hands.len())];
        for fill in [0, 7] {
            damaged(&Given::new(hand, fill)).iter().for_each(&mut put);
        }
    }
}

/// Every pair of histories up to length 4: all on two deals, the first in text, and a sample on two others.
fn every_history(list: &mut List, random: &mut Random) {
    let every = histories(3, HALF);
    for (at, cards, public) in [(0, [0, 5], 1), (1, [3, 2], 4), (2, [1, 0], 2), (3, [4, 1], 5)] {
        for first in &every {
            for second in &every {
                if at < 2 || random.below(16) == 0 {
                    let rounds = [first.clone(), second.clone()];
                    let hand = Hand { cards: cards.to_vec(), public: Some(public), rounds };
                    list.saved(at != 1, &Given::new(&hand, random.pick(&[0, 1])));
                }
            }
        }
    }
}
