//! Kuhn's list: the rules calls, then the saved-position check.

use crate::kuhn::{Position, ACTIONS, CARDS};
use crate::kuhn_paper::{all, Hand};
use crate::list::{self, changed, histories, List, Words, FAR, WHOLE};
use random::Random;
use reinfors_games::kuhn::KuhnPoker;

#[derive(Clone)]
pub struct Given {
    seats: u64,
    dealt: u64,
    acted: u64,
    fill: u8,
    cards: Vec<u8>,
    history: Vec<u8>,
}

impl Given {
    fn new(seats: usize, hand: &Hand, fill: u8) -> Self {
        Given {
            seats: seats as u64,
            dealt: hand.cards.len() as u64,
            acted: hand.history.len() as u64,
            fill,
            cards: hand.cards.clone(),
            history: hand.history.clone(),
        }
    }
}

impl list::Given for Given {
    type Game = KuhnPoker;

    fn game(words: &[u64]) -> KuhnPoker {
        KuhnPoker { players: words[0] as usize }
    }

    fn read(record: &mut Words) -> Self {
        Given {
            seats: record.number(),
            dealt: record.number(),
            acted: record.number(),
            fill: record.number() as u8,
            cards: record.bytes(),
            history: record.bytes(),
        }
    }

    fn words(&self) -> Vec<u64> {
        let heads = [self.seats, self.dealt, self.acted, u64::from(self.fill)];
        list::words(&heads, &[&self.cards, &self.history])
    }

    fn position(&self) -> Position {
        Position {
            cards: std::array::from_fn(|at| list::place(&self.cards, at, at, self.fill)),
            dealt: self.dealt,
            history: std::array::from_fn(|at| list::place(&self.history, at, CARDS + at, self.fill)),
            acted: self.acted,
        }
    }
}

/// Every position along a random play, from the start to an end.
fn play(n: usize, random: &mut Random) -> Vec<Hand> {
    let mut hands = vec![Hand::start()];
    loop {
        let moves = hands[hands.len() - 1].moves(n);
        if moves.is_empty() {
            return hands;
        }
        hands.push(moves[random.below(moves.len())].clone());
    }
}

/// A position with one byte changed, each in turn to several values, then with one length changed.
fn damaged(given: &Given) -> Vec<Given> {
    let cards: Vec<u8> = (0..=given.seats as u8 + 1).chain([128, 255]).collect();
    let mut out = changed(given, |next| &mut next.cards, &cards);
    out.extend(changed(given, |next| &mut next.history, &[0, 1, 2, 255]));
    out.extend((0..=12).chain(FAR).map(|dealt| Given { dealt, ..given.clone() }));
    out.extend((0..=21).chain(FAR).map(|acted| Given { acted, ..given.clone() }));
    out
}

/// Some hands of n seats: two from each of `plays` random plays, one of them the last.
fn some_hands(n: usize, plays: usize, random: &mut Random) -> Vec<Hand> {
    let mut out = Vec::new();
    for _ in 0..plays {
        let hands = play(n, random);
        out.push(hands[random.below(hands.len())].clone());
        out.push(hands[hands.len() - 1].clone());
    }
    out
}

/// A position with no rule to it: lengths near the right ones, cards near the deck, actions up to 2.
fn wild(random: &mut Random) -> Given {
    let seats = 2 + random.below(4);
    let dealt = if random.below(4) > 0 { seats } else { random.below(CARDS + 1) };
    let acted = random.below(2 * seats + 1);
    let known = random.below(3) > 0;
    Given {
        seats: seats as u64,
        dealt: dealt as u64,
        acted: acted as u64,
        fill: random.pick(&[0, 0, 1, 7, 85]),
        cards: (0..dealt).map(|_| random.below(seats + 1 + usize::from(!known)) as u8).collect(),
        history: (0..acted.min(ACTIONS)).map(|_| random.below(if known { 2 } else { 3 }) as u8).collect(),
    }
}

/// The whole list.
pub fn list(seed: u64) -> List {
    List::drawn(seed, &[rules, saved])
}

/// The rules calls.
fn rules(list: &mut List, random: &mut Random) {
    (0..=12).chain(FAR).for_each(|seats| list.start::<Given>(&[seats]));
    reachable_positions(list, random);
    random_plays(list, random);
    short_outputs(list, random);
    wrong_seats(random, |given| list.rules(true, WHOLE, given));
    damaged_positions(1, random, |given| list.rules(false, WHOLE, given));
    (0..1000).for_each(|_| list.rules(false, WHOLE, &wild(random)));
}

/// The saved-position check.
fn saved(list: &mut List, random: &mut Random) {
    for n in 2..=3 {
        all(n).iter().for_each(|hand| list.saved(true, &Given::new(n, hand, random.pick(&[0, 7]))));
    }
    for n in 4..=10 {
        for hand in (0..6).flat_map(|_| play(n, random)).collect::<Vec<_>>() {
            list.saved(true, &Given::new(n, &hand, random.pick(&[0, 7])));
        }
    }
    every_history(list, random);
    wrong_seats(random, |given| list.saved(true, given));
    damaged_positions(2, random, |given| list.saved(true, given));
    (0..4000).for_each(|_| list.saved(true, &wild(random)));
}

/// Every reachable position of 2 to 4 seats; 2 and 3 in full text, 4 in samples.
fn reachable_positions(list: &mut List, random: &mut Random) {
    for n in 2..=4 {
        for (at, hand) in all(n).iter().enumerate() {
            let fill = random.pick(&[0, 7]);
            list.rules(n < 4 || at % 64 == 0, WHOLE, &Given::new(n, hand, fill));
        }
    }
}

/// Every position of random plays of 5 to 10 seats; the first play in full text.
fn random_plays(list: &mut List, random: &mut Random) {
    for n in 5..=10 {
        for turn in 0..25 {
            for hand in play(n, random) {
                let fill = random.pick(&[0, 7]);
                list.rules(turn == 0, WHOLE, &Given::new(n, &hand, fill));
            }
        }
    }
}

/// Outputs of every length up to the key's.
fn short_outputs(list: &mut List, random: &mut Random) {
    let small = all(2);
    for n in 2..=10 {
        let hands = if n == 2 { small.clone() } else { some_hands(n, 2, random) };
        for hand in hands {
            for room in 0..=hand.history.len() as u64 + 2 {
                list.rules(n == 2, room, &Given::new(n, &hand, 7));
            }
        }
    }
}

/// Positions of 2 to 4 seats given with every seat count from 0 to 12, and with far ones.
fn wrong_seats(random: &mut Random, mut put: impl FnMut(&Given)) {
    for n in 2..=4 {
        for hand in some_hands(n, 1, random) {
            for seats in (0..=12).chain(FAR) {
                put(&Given { seats, ..Given::new(n, &hand, 7) });
            }
        }
    }
}

/// Damaged copies of positions of 2 to 10 seats.
fn damaged_positions(plays: usize, random: &mut Random, mut put: impl FnMut(&Given)) {
    for n in 2..=10 {
        for hand in some_hands(n, plays, random) {
            for fill in [0, 7] {
                damaged(&Given::new(n, &hand, fill)).iter().for_each(&mut put);
            }
        }
    }
}

/// Every history of passes and bets up to length 6 on every deal of 2 and 3 seats; on the first deal with unknown ones.
fn every_history(list: &mut List, random: &mut Random) {
    for n in 2..=3 {
        let deals: Vec<Hand> = all(n).into_iter().filter(|h| h.cards.len() == n && h.history.is_empty()).collect();
        for (at, deal) in deals.iter().enumerate() {
            for history in histories(if at == 0 { 3 } else { 2 }, 6) {
                let hand = Hand { cards: deal.cards.clone(), history };
                list.saved(true, &Given::new(n, &hand, random.pick(&[0, 1])));
            }
        }
    }
}
