//! The calls on a position of either game: the unchanged Rust's answers where document 01 lets the question through, else
//! document 01's number.

use crate::answer::{written, Moved, Noted, Payoffs, Written};
use crate::line::Line;
use crate::list::List;
use reinfors_core::game::{ChanceDist, Game};
use std::fmt::Debug;

/// A game of the Rust, with what document 01 says of its positions.
pub trait Judged: Game<Event = f64, State: PartialEq + Debug> {
    /// A position with its arrays and lengths, as the calls take it.
    type Position: Noted + Copy + PartialEq + Debug;
    /// What lies within the lengths, as document 01 has it.
    type Hand;

    /// What the start call answers.
    fn start(&self) -> Moved<Self::Position>;

    /// The hand of a position that legal moves reach, else the number that every rules call refuses it with.
    fn admitted(&self, position: &Self::Position) -> Result<Self::Hand, u64>;

    fn state(hand: &Self::Hand) -> Self::State;

    /// How many seats have a card.
    fn dealt(hand: &Self::Hand) -> usize;

    fn card_due(&self, hand: &Self::Hand) -> bool;

    fn ended(&self, hand: &Self::Hand) -> bool;

    /// Takes the last action of a state that has one away, and hands it back.
    fn take_back(state: &mut Self::State) -> u8;

    /// The Rust's state written over a position: places past its lengths stay.
    fn over(position: &Self::Position, state: &Self::State) -> Self::Position;

    /// The seats, outcomes and actions that the rules calls are tried with.
    fn tries(&self) -> [Vec<u64>; 3];

    /// The number of the Rust's error for a saved position with this end mark; 0 for none.
    fn saved_refusal(&self, position: &Self::Position, done: bool) -> u64;

    /// The positions that one record has the saved-position check made on.
    fn saved_forms(position: Self::Position) -> Vec<Self::Position>;
}

/// A position handed to the rules calls.
pub struct Asked<'a, G: Judged> {
    game: &'a G,
    position: G::Position,
    hand: Result<G::Hand, u64>,
}

impl<'a, G: Judged> Asked<'a, G> {
    pub fn new(game: &'a G, position: G::Position) -> Self {
        Asked { game, position, hand: game.admitted(&position) }
    }

    fn hand(&self) -> Result<&G::Hand, u64> {
        self.hand.as_ref().map_err(|&refusal| refusal)
    }

    /// The hand, if the call fits it: else 20.
    fn fitting(&self, fits: impl Fn(&G::Hand) -> bool) -> Result<&G::Hand, u64> {
        self.hand().and_then(|hand| if fits(hand) { Ok(hand) } else { Err(20) })
    }

    fn moved(&self, next: Result<G::State, u64>) -> Moved<G::Position> {
        match next {
            Ok(state) => Moved { refusal: 0, position: G::over(&self.position, &state) },
            Err(refusal) => Moved { refusal, position: self.position },
        }
    }

    /// One action for each seat, of which the Rust reads that of the seat whose turn it is.
    fn joint(&self, action: u64) -> Vec<usize> {
        vec![action as usize; self.game.num_agents()]
    }

    pub fn legal(&self, agent: u64, room: u64) -> Written {
        let legal = |hand| self.game.legal_actions(&G::state(hand), agent as usize);
        written(self.hand().map(|hand| legal(hand).into_iter().map(|action| action as u8).collect()), room)
    }

    pub fn deal(&self, outcome: u64) -> Moved<G::Position> {
        let below_the_fan = |hand: &G::Hand| {
            let ChanceDist::Uniform(fan) = self.game.chance_node(&G::state(hand)) else {
                panic!("the deal is uniform")
            };
            outcome < fan as u64
        };
        let hand = self.fitting(|hand| self.game.card_due(hand) && below_the_fan(hand));
        self.moved(hand.map(|hand| self.game.apply_chance_node(&G::state(hand), outcome as usize).next_state))
    }

    pub fn step(&self, action: u64) -> Moved<G::Position> {
        let hand = self.fitting(|hand| !self.game.card_due(hand) && !self.game.ended(hand));
        self.moved(hand.map(|hand| self.game.step(&G::state(hand), &self.joint(action)).next_state))
    }

    pub fn key(&self, agent: u64, room: u64) -> Written {
        let hand = self.fitting(|hand| agent < G::dealt(hand) as u64);
        written(hand.map(|hand| self.game.information_state_key(&G::state(hand), agent as usize)), room)
    }

    /// The events of the step that ended the hand.
    pub fn payoff(&self) -> Payoffs {
        match self.fitting(|hand| !self.game.card_due(hand) && self.game.ended(hand)) {
            Err(refusal) => Payoffs::refused(refusal),
            Ok(hand) => {
                let mut before = G::state(hand);
                let last = G::take_back(&mut before);
                let end = self.game.step(&before, &self.joint(u64::from(last)));
                assert!(end.terminal, "the Rust ends the hand there too");
                assert_eq!(end.next_state, G::state(hand), "it ends as document 01 has it");
                Payoffs::of(&end.events)
            }
        }
    }
}

/// What the saved-position check answers. The Rust's mark is a bool: any other mark differs from every position.
pub fn validate<G: Judged>(game: &G, position: &G::Position, done: u64) -> u64 {
    match game.saved_refusal(position, done == 1) {
        0 if done > 1 => 18,
        refusal => refusal,
    }
}

/// Document 01's number for an error of the Rust, known by one word of it.
pub fn number_of(text: &str, words: &[(&str, u64)]) -> u64 {
    let found = words.iter().find(|(word, _)| text.contains(word));
    found.expect("an error of the list").1
}

/// The first bytes of an array; none where the length is above it.
pub fn within(bytes: &[u8], length: u64) -> Option<Vec<u8>> {
    Some(bytes.get(..usize::try_from(length).ok()?)?.to_vec())
}

/// The bytes of a saved position. A length above its array keeps its length, up to 300.
pub fn lengthened(bytes: &[u8], length: u64) -> Vec<u8> {
    let mut list = bytes.to_vec();
    list.resize(length.min(300) as usize, 0);
    list
}

/// The numbers 0 to `most`, then 256, which is 0 if cut to a byte, and the largest.
pub fn tried(most: u64) -> Vec<u64> {
    (0..=most).chain([256, u64::MAX]).collect()
}

/// The start call, as one line.
pub fn start_line<G: Judged>(game: &G, list: &mut List) -> String {
    let mut line = Line::new(true);
    game.start().note(&mut line, "I", list);
    line.end()
}

/// The whole family of rules calls on one position, as one line.
pub fn rules_line<G: Judged>(shown: bool, room: u64, game: &G, position: G::Position, list: &mut List) -> String {
    let asked = Asked::new(game, position);
    let mut line = Line::new(shown);
    let [agents, outcomes, actions] = game.tries();
    for &agent in &agents {
        asked.legal(agent, room).note(&mut line, "L", &position, list);
    }
    for outcome in outcomes {
        asked.deal(outcome).note(&mut line, "D", list);
    }
    for action in actions {
        asked.step(action).note(&mut line, "S", list);
    }
    for &agent in &agents {
        asked.key(agent, room).note(&mut line, "K", &position, list);
    }
    asked.payoff().note(&mut line, &position, list);
    line.end()
}

/// The saved-position check with four marks, as one line.
pub fn saved_line<G: Judged>(shown: bool, game: &G, position: G::Position, list: &mut List) -> String {
    let mut line = Line::new(shown);
    for position in G::saved_forms(position) {
        for done in [0, 1, 2, u64::MAX] {
            Moved { refusal: validate(game, &position, done), position }.note_mark(&mut line, done, list);
        }
    }
    line.end()
}
