//! Document 01's whole units over the tree of the unchanged Rust's moves: worths, best values with their replies, NashConv; and what a rival of
//! another grain is worth (document 02, Eight). Written for reading, not for speed, in i128, which no sum here can leave.

use crate::whole;
use reinfors_core::game::{Actor, Game};
use reinfors_games::kuhn::KuhnPoker;
use reinfors_games::leduc::LeducPoker;
use std::collections::HashMap;
use std::sync::OnceLock;

/// The places of an answer that has a number for each seat.
pub const SEATS: usize = 6;

/// A game with the numbers of U = C × D^m and the limit of D.
pub trait Whole: Game<Event = f64> {
    /// C, which every product of fans divides.
    fn deals(&self) -> i128;

    /// m, the decisions of the longest hand.
    fn moves(&self) -> u32;

    fn most_parts(&self) -> u64;
}

impl Whole for KuhnPoker {
    fn deals(&self) -> i128 {
        (1..=self.players as i128 + 1).product()
    }

    fn moves(&self) -> u32 {
        2 * self.players as u32 - 1
    }

    fn most_parts(&self) -> u64 {
        if self.players <= 4 {
            64
        } else {
            16
        }
    }
}

impl Whole for LeducPoker {
    fn deals(&self) -> i128 {
        120
    }

    fn moves(&self) -> u32 {
        8
    }

    fn most_parts(&self) -> u64 {
        64
    }
}

pub enum Node {
    /// The payoffs, 0 past the seats.
    End([i64; SEATS]),
    Chance(Vec<usize>),
    Decision {
        set: usize,
        children: Vec<usize>,
    },
}

pub struct Set {
    pub seat: usize,
    /// The place of its first entry in a table.
    pub first: usize,
    pub actions: usize,
    /// Its nodes, in order.
    pub members: Vec<usize>,
}

/// A game's tree: a node is numbered before its children, ends included, and a set at its first node.
pub struct Tree {
    pub seats: usize,
    pub deals: i128,
    pub moves: u32,
    pub most_parts: u64,
    pub nodes: Vec<Node>,
    pub sets: Vec<Set>,
    pub entries: usize,
    /// No payoff is further from 0.
    pub largest_payoff: i128,
    numbers: HashMap<Vec<u8>, usize>,
}

impl Tree {
    pub fn of<G: Whole>(game: &G) -> Tree {
        let mut tree = Tree {
            seats: game.num_agents(),
            deals: game.deals(),
            moves: game.moves(),
            most_parts: game.most_parts(),
            nodes: Vec::new(),
            sets: Vec::new(),
            entries: 0,
            largest_payoff: 0,
            numbers: HashMap::new(),
        };
        tree.grow(game, &game.initial_state());
        tree
    }

    /// Adds the tree from a position that has not ended; answers its number.
    fn grow<G: Game<Event = f64>>(&mut self, game: &G, state: &G::State) -> usize {
        let number = self.nodes.len();
        let mut children = Vec::new();
        match game.actor(state) {
            Actor::Chance => {
                self.nodes.push(Node::Chance(Vec::new()));
                let fan = game.chance_node(state).enumerable_count().expect("the deal can be enumerated");
                for outcome in 0..fan {
                    let made = game.apply_chance_node(state, outcome);
                    assert!(!made.terminal, "a deal ends no hand");
                    children.push(self.grow(game, &made.next_state));
                }
                self.nodes[number] = Node::Chance(children);
            }
            Actor::Agent(seat) => {
                let legal = game.legal_actions(state, seat);
                let set = self.meet(game.information_state_key(state, seat), seat, legal.len());
                self.sets[set].members.push(number);
                self.nodes.push(Node::Decision { set, children: Vec::new() });
                for action in legal {
                    let made = game.step(state, &vec![action; self.seats]);
                    let end = made.terminal;
                    children.push(if end { self.end(&made.events) } else { self.grow(game, &made.next_state) });
                }
                self.nodes[number] = Node::Decision { set, children };
            }
            Actor::Simultaneous => unreachable!("both games are sequential"),
        }
        number
    }

    fn end(&mut self, events: &[Option<f64>]) -> usize {
        let mut payoffs = [0; SEATS];
        for (payoff, event) in payoffs.iter_mut().zip(events) {
            *payoff = whole(event.expect("every seat has a payoff at an end"));
            self.largest_payoff = self.largest_payoff.max(i128::from(payoff.abs()));
        }
        self.nodes.push(Node::End(payoffs));
        self.nodes.len() - 1
    }

    /// The number of the set with a key.
    fn meet(&mut self, key: Vec<u8>, seat: usize, actions: usize) -> usize {
        let next = self.sets.len();
        let set = *self.numbers.entry(key).or_insert(next);
        if set == next {
            self.sets.push(Set { seat, first: self.entries, actions, members: Vec::new() });
            self.entries += actions;
        }
        assert_eq!((self.sets[set].seat, self.sets[set].actions), (seat, actions), "members of a set are alike");
        set
    }

    /// A set's own part of a table or of a profile.
    pub fn part<'a, T>(&self, table: &'a [T], set: usize) -> &'a [T] {
        &table[self.sets[set].first..][..self.sets[set].actions]
    }

    /// The number of the set with a key.
    pub fn number(&self, key: &[u8]) -> usize {
        self.numbers[key]
    }

    /// The entries of a set by its key, as the Rust's evaluations ask for them.
    pub fn profile<'a>(&'a self, entries: &'a [f64]) -> impl Fn(&[u8], usize) -> Vec<f64> + 'a {
        |key, _| self.part(entries, self.number(key)).to_vec()
    }

    /// The child behind an action of a decision.
    fn child(&self, node: usize, action: usize) -> usize {
        match &self.nodes[node] {
            Node::Decision { children, .. } => children[action],
            _ => unreachable!("a member is a decision"),
        }
    }

    /// Whether the parts of each set add up to D.
    pub fn adds_up(&self, table: &[u8], d: u64) -> bool {
        self.adds_up_by(table, |_| d)
    }

    /// Whether the parts of each set add up to what its seat has.
    fn adds_up_by<T: Part>(&self, table: &[T], parts: impl Fn(usize) -> u64) -> bool {
        let sum = |set| self.part(table, set).iter().map(|&part| u128::from(part.into())).sum::<u128>();
        self.sets.iter().enumerate().all(|(number, set)| sum(number) == u128::from(parts(set.seat)))
    }

    /// The units of each node from the root's: a deal shares them evenly, and a decision hands on what `share` says of its seat, an entry and its own.
    fn units_of_nodes(&self, root: i128, share: impl Fn(usize, usize, i128) -> i128) -> Vec<i128> {
        let mut units = vec![0; self.nodes.len()];
        units[0] = root;
        for (number, node) in self.nodes.iter().enumerate() {
            let own = units[number];
            match node {
                Node::End(_) => {}
                Node::Chance(children) => {
                    children.iter().for_each(|&child| units[child] = evenly(own, children.len() as i128));
                }
                Node::Decision { set, children } => {
                    let Set { seat, first, .. } = self.sets[*set];
                    children.iter().zip(first..).for_each(|(&child, entry)| units[child] = share(seat, entry, own));
                }
            }
        }
        units
    }
}

/// A part: of a table a byte, of a rival of any grain a number.
pub trait Part: Copy + Into<u64> + TryFrom<u64> {}

impl Part for u8 {}

impl Part for u64 {}

/// A table as probabilities: part / D.
pub fn probabilities(table: &[u8], d: u64) -> Vec<f64> {
    table.iter().map(|&part| f64::from(part) / d as f64).collect()
}

/// The tree of Kuhn with 2 to 6 seats, made once.
pub fn kuhn(players: usize) -> &'static Tree {
    static TREES: [OnceLock<Tree>; 7] = [const { OnceLock::new() }; 7];
    TREES[players].get_or_init(|| Tree::of(&KuhnPoker { players }))
}

/// Leduc's tree, made once.
pub fn leduc() -> &'static Tree {
    static TREE: OnceLock<Tree> = OnceLock::new();
    TREE.get_or_init(|| Tree::of(&LeducPoker))
}

/// A valid table of a tree, with D parts in each set.
#[derive(Clone, Copy)]
pub struct Played<'a> {
    pub tree: &'a Tree,
    pub d: u64,
    pub table: &'a [u8],
}

/// A seat's best value and its reply.
pub struct Best {
    pub value: i128,
    pub reply: Vec<u8>,
}

impl<'a> Played<'a> {
    pub fn new(tree: &'a Tree, d: u64, table: &'a [u8]) -> Self {
        assert!((1..=tree.most_parts).contains(&d) && table.len() == tree.entries && tree.adds_up(table, d));
        let played = Played { tree, d, table };
        // No sum has more terms than the tree has nodes, no node more units than the root, and NashConv has two such sums for each seat.
        let terms = (2 * SEATS * tree.nodes.len()) as i128;
        played.units().checked_mul(tree.largest_payoff * terms).expect("no sum below can leave i128");
        played
    }

    /// U, the root's units.
    pub fn units(&self) -> i128 {
        let power = i128::from(self.d).checked_pow(self.tree.moves);
        power.and_then(|power| power.checked_mul(self.tree.deals)).expect("U is within i128")
    }

    /// The units of each node; a responder's moves pass all of them on.
    pub fn units_of_nodes(&self, responder: Option<usize>) -> Vec<i128> {
        self.tree.units_of_nodes(self.units(), |seat, entry, own| match Some(seat) == responder {
            true => own,
            false => evenly(own * i128::from(self.table[entry]), i128::from(self.d)),
        })
    }

    /// What each seat's table is worth, 0 past the seats.
    pub fn worths(&self) -> [i128; SEATS] {
        let mut worths = [0; SEATS];
        for (node, units) in self.tree.nodes.iter().zip(self.units_of_nodes(None)) {
            if let Node::End(payoffs) = node {
                worths.iter_mut().zip(payoffs).for_each(|(worth, &payoff)| *worth += units * i128::from(payoff));
            }
        }
        worths
    }

    pub fn best(&self, seat: usize) -> Best {
        let units = self.units_of_nodes(Some(seat));
        let mut search = Search { tree: self.tree, seat, units, choices: vec![None; self.tree.sets.len()] };
        let value = search.value(0);
        let mut reply = self.table.to_vec();
        for (number, set) in self.tree.sets.iter().enumerate().filter(|(_, set)| set.seat == seat) {
            reply[set.first..][..set.actions].fill(0);
            reply[set.first + search.choice(number)] = self.d as u8;
        }
        Best { value, reply }
    }

    /// A seat's rivals with E parts in its own sets, where i128 holds U × E^m × the largest payoff.
    pub fn grain(&self, seat: usize, e: u64) -> Option<Grain<'a>> {
        assert!(seat < self.tree.seats && e >= 1);
        let scale = i128::from(e).checked_pow(self.tree.moves)?;
        self.units().checked_mul(scale)?.checked_mul(self.tree.largest_payoff)?;
        Some(Grain { played: *self, seat, parts: e, scale })
    }

    /// The ends by a seat's own moves, for the worths of its rivals with D parts.
    pub fn sequences(&self, seat: usize) -> Sequences<'a> {
        let tree = self.tree;
        let units = self.units_of_nodes(Some(seat));
        let mut totals = vec![0; tree.entries + 1];
        let mut before = vec![None; tree.sets.len()];
        let mut sequences = vec![0; tree.nodes.len()];
        for (number, node) in tree.nodes.iter().enumerate() {
            let sequence = sequences[number];
            match node {
                Node::End(payoffs) => totals[sequence] += units[number] * i128::from(payoffs[seat]),
                Node::Decision { set, children } if tree.sets[*set].seat == seat => {
                    assert_eq!(*before[*set].get_or_insert(sequence), sequence, "a seat recalls all its moves");
                    let first = tree.sets[*set].first + 1;
                    children.iter().zip(first..).for_each(|(&child, entry)| sequences[child] = entry);
                }
                Node::Chance(children) | Node::Decision { children, .. } => {
                    children.iter().for_each(|&child| sequences[child] = sequence);
                }
            }
        }
        Sequences::new(Grain { played: *self, seat, parts: self.d, scale: 1 }, before, totals)
    }

    /// The sum of best − worth over the seats.
    pub fn nash_conv(&self) -> i128 {
        let worths = self.worths();
        (0..self.tree.seats).map(|seat| self.best(seat).value - worths[seat]).sum()
    }
}

fn evenly(units: i128, by: i128) -> i128 {
    let share = units / by;
    assert_eq!(share * by, units, "units divide evenly");
    share
}

fn times(number: i128, by: i128) -> i128 {
    number.checked_mul(by).expect("the product is within i128")
}

/// A seat's rivals of one grain: so many parts in each of its own sets, and in the others the table's entries. The root has U × scale units: E^m for E
/// parts of any number, and 1 is enough for D. The units of all ends add up to these, so no sum of units × payoff leaves what `Played` checks.
#[derive(Clone, Copy)]
pub struct Grain<'a> {
    pub played: Played<'a>,
    pub seat: usize,
    pub parts: u64,
    scale: i128,
}

impl Grain<'_> {
    /// The parts of each set of a seat.
    fn parts_of(&self, seat: usize) -> u64 {
        if seat == self.seat {
            self.parts
        } else {
            self.played.d
        }
    }

    /// Whether a list is one of the rivals.
    pub fn has<T: Part>(&self, rival: &[T]) -> bool {
        let Played { tree, table, .. } = self.played;
        let same = |(&part, &own): (&T, &u8)| part.into() == u64::from(own);
        let kept = |number| tree.part(rival, number).iter().zip(tree.part(table, number)).all(same);
        rival.len() == tree.entries
            && tree.adds_up_by(rival, |seat| self.parts_of(seat))
            && tree.sets.iter().enumerate().all(|(number, set)| set.seat == self.seat || kept(number))
    }

    /// The units of each node under a rival, divided before they are multiplied, since units × part may leave i128.
    pub fn units_of_nodes<T: Part>(&self, rival: &[T]) -> Vec<i128> {
        assert!(self.has(rival));
        self.played.tree.units_of_nodes(times(self.played.units(), self.scale), |seat, entry, own| {
            times(evenly(own, i128::from(self.parts_of(seat))), i128::from(rival[entry].into()))
        })
    }

    /// What a rival is worth to the seat.
    pub fn worth<T: Part>(&self, rival: &[T]) -> i128 {
        let mut worth: i128 = 0;
        for (node, units) in self.played.tree.nodes.iter().zip(self.units_of_nodes(rival)) {
            if let Node::End(payoffs) = node {
                let more = times(units, i128::from(payoffs[self.seat]));
                worth = worth.checked_add(more).expect("the sum is within i128");
            }
        }
        worth
    }

    /// A reply, which has all D parts of each of the seat's sets on one action, with all parts of this grain there.
    pub fn copy(&self, reply: &[u8]) -> Vec<u64> {
        let mut copy: Vec<u64> = reply.iter().map(|&part| u64::from(part)).collect();
        for set in self.played.tree.sets.iter().filter(|set| set.seat == self.seat) {
            for part in &mut copy[set.first..][..set.actions] {
                *part = *part / self.played.d * self.parts;
            }
        }
        copy
    }
}

/// Units × payoff of a table's ends, added up for each sequence of a seat's own moves. A sequence is told by its last move: 0 has none, and
/// e + 1 ends with the move of entry e.
pub struct Sequences<'a> {
    pub grain: Grain<'a>,
    /// The sequence on the way to each of the seat's sets.
    before: Vec<Option<usize>>,
    /// What a sequence gains from U units with all parts on each of its moves: no more than U × the largest payoff.
    totals: Vec<i128>,
    /// What it gains from the grain's units with one part on each.
    gains: Vec<i128>,
}

impl<'a> Sequences<'a> {
    fn new(grain: Grain<'a>, before: Vec<Option<usize>>, totals: Vec<i128>) -> Self {
        let mut sequences = Sequences { grain, before, totals, gains: Vec::new() };
        let parts = sequences.products(|_| i128::from(grain.parts));
        let gain = |(&total, parts)| evenly(times(total, grain.scale), parts);
        sequences.gains = sequences.totals.iter().zip(parts).map(gain).collect();
        sequences
    }

    /// The same ends for the rivals with E parts, where i128 holds them.
    pub fn finer(&self, e: u64) -> Option<Self> {
        let grain = self.grain.played.grain(self.grain.seat, e)?;
        Some(Sequences::new(grain, self.before.clone(), self.totals.clone()))
    }

    /// Of each sequence the product of a factor for each of its moves.
    fn products(&self, factor: impl Fn(usize) -> i128) -> Vec<i128> {
        let mut products = vec![1; self.totals.len()];
        for (set, before) in self.grain.played.tree.sets.iter().zip(&self.before) {
            let Some(before) = *before else { continue };
            (set.first..set.first + set.actions).for_each(|e| products[e + 1] = times(products[before], factor(e)));
        }
        products
    }

    /// What a rival is worth to the seat.
    pub fn worth<T: Part>(&self, rival: &[T]) -> i128 {
        assert!(self.grain.has(rival));
        let parts = self.products(|e| i128::from(rival[e].into()));
        let terms = self.gains.iter().zip(parts).map(|(&gain, parts)| times(gain, parts));
        terms.fold(0, |sum: i128, term| sum.checked_add(term).expect("the sum is within i128"))
    }
}

/// The values and choices of a responder. A choice asks the values below all members, and those ask deeper choices.
struct Search<'a> {
    tree: &'a Tree,
    seat: usize,
    units: Vec<i128>,
    choices: Vec<Option<usize>>,
}

impl Search<'_> {
    fn value(&mut self, node: usize) -> i128 {
        let tree = self.tree;
        match &tree.nodes[node] {
            Node::End(payoffs) => self.units[node] * i128::from(payoffs[self.seat]),
            Node::Decision { set, children } if tree.sets[*set].seat == self.seat => {
                let choice = self.choice(*set);
                self.value(children[choice])
            }
            Node::Chance(children) | Node::Decision { children, .. } => {
                children.iter().map(|&child| self.value(child)).sum()
            }
        }
    }

    /// The lowest action with the greatest sum over the set's members.
    fn choice(&mut self, set: usize) -> usize {
        if let Some(choice) = self.choices[set] {
            return choice;
        }
        let sums: Vec<i128> = (0..self.tree.sets[set].actions).map(|action| self.sum(set, action)).collect();
        let greatest = *sums.iter().max().expect("a set has actions");
        let choice = sums.iter().position(|&sum| sum == greatest).expect("the greatest is one of them");
        self.choices[set] = Some(choice);
        choice
    }

    fn sum(&mut self, set: usize, action: usize) -> i128 {
        let tree = self.tree;
        tree.sets[set].members.iter().map(|&member| self.value(tree.child(member, action))).sum()
    }
}
