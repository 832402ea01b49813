//! The sets of a tree as the listing call writes them: 24 bytes each, from the unchanged Rust.

use reinfors_core::best_response::{enumerate_infosets, InfosetExemplars};
use reinfors_core::game::{Actor, Game};
use reinfors_games::kuhn::{KuhnPoker, KuhnState};
use reinfors_games::leduc::{LeducPoker, LeducState};
use std::collections::HashSet;
use std::fmt::Debug;

/// The bytes of a set: seat, key length, key, public card, cards, legal count, 0.
pub const RECORD: usize = 24;
const KEY: std::ops::Range<usize> = 2..15;
const PUBLIC: usize = 15;
const CARDS: std::ops::Range<usize> = 16..22;
const LEGAL: usize = 22;

/// A game whose positions show their cards.
pub trait Listed: Game<State: PartialEq + Debug> {
    fn cards(state: &Self::State) -> &[u8];

    /// The public card, or 255.
    fn public(state: &Self::State) -> u8;
}

impl Listed for KuhnPoker {
    fn cards(state: &KuhnState) -> &[u8] {
        &state.cards
    }

    fn public(_: &KuhnState) -> u8 {
        255
    }
}

impl Listed for LeducPoker {
    fn cards(state: &LeducState) -> &[u8] {
        &state.cards
    }

    fn public(state: &LeducState) -> u8 {
        state.public.unwrap_or(255)
    }
}

/// The words of work memory that a node takes.
pub const WORDS: u64 = 12;

/// How many nodes a tree has, and its sets in order.
pub struct Listing {
    pub nodes: u64,
    pub sets: Vec<[u8; RECORD]>,
}

impl Listing {
    /// The words of work memory that the call needs.
    pub fn words(&self) -> u64 {
        WORDS * self.nodes
    }

    /// The bytes of output that it needs.
    pub fn room(&self) -> u64 {
        (RECORD * self.sets.len()) as u64
    }
}

/// The listing of a game; none where the Rust refuses its tree as too large. The Rust hands out each set's key, seat and
/// first position, but no node count: that comes from a walk over its moves, which must meet the same sets in the same order.
pub fn listing<G: Listed>(game: &G) -> Option<Listing> {
    let sets = enumerate_infosets(game).ok()?;
    let mut walk = Walk { game, nodes: 0, keys: HashSet::new(), firsts: Vec::new() };
    walk.node(&game.initial_state(), false);
    assert_eq!(walk.firsts, sets, "the walk meets the Rust's sets in the Rust's order");
    let records = sets.iter().map(|(key, state, seat)| record(game, key, state, *seat)).collect();
    Some(Listing { nodes: walk.nodes, sets: records })
}

fn record<G: Listed>(game: &G, key: &[u8], state: &G::State, seat: usize) -> [u8; RECORD] {
    let mut bytes = [0; RECORD];
    bytes[0] = seat as u8;
    bytes[1] = key.len() as u8;
    bytes[KEY][..key.len()].copy_from_slice(key);
    bytes[PUBLIC] = G::public(state);
    let cards = G::cards(state);
    bytes[CARDS][..cards.len()].copy_from_slice(cards);
    bytes[LEGAL] = game.legal_actions(state, seat).len() as u8;
    bytes
}

/// A walk that numbers a node before its children, ends included, and a set at its first node.
struct Walk<'a, G: Game> {
    game: &'a G,
    nodes: u64,
    keys: HashSet<Vec<u8>>,
    firsts: InfosetExemplars<G::State>,
}

impl<G: Game> Walk<'_, G> {
    fn node(&mut self, state: &G::State, ended: bool) {
        self.nodes += 1;
        if ended {
            return;
        }
        match self.game.actor(state) {
            Actor::Chance => {
                let fan = self.game.chance_node(state).enumerable_count().expect("the deal can be enumerated");
                for outcome in 0..fan {
                    let next = self.game.apply_chance_node(state, outcome);
                    self.node(&next.next_state, next.terminal);
                }
            }
            Actor::Agent(seat) => {
                self.meet(state, seat);
                for action in self.game.legal_actions(state, seat) {
                    let next = self.game.step(state, &vec![action; self.game.num_agents()]);
                    self.node(&next.next_state, next.terminal);
                }
            }
            Actor::Simultaneous => unreachable!("both games are sequential"),
        }
    }

    fn meet(&mut self, state: &G::State, seat: usize) {
        let key = self.game.information_state_key(state, seat);
        if self.keys.insert(key.clone()) {
            self.firsts.push((key, state.clone(), seat));
        }
    }
}
