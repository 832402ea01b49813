//! Kuhn as document 01 has it, for the answers that the Rust does not give: which positions can be reached, found by
//! making every move from the start, breadth first. Nothing of the Rust is called, and no saved-position check.

#[derive(Clone, Debug, PartialEq, Eq, Hash)]
pub struct Hand {
    pub cards: Vec<u8>,
    pub history: Vec<u8>,
}

impl Hand {
    pub fn start() -> Self {
        Hand { cards: Vec::new(), history: Vec::new() }
    }

    pub fn card_due(&self, n: usize) -> bool {
        self.cards.len() < n
    }

    /// After n passes, or n − 1 actions after the first bet.
    pub fn ended(&self, n: usize) -> bool {
        let passes = self.history.iter().take_while(|&&action| action == 0).count();
        let after_the_bet = self.history.len().checked_sub(passes + 1);
        passes == n || after_the_bet == Some(n - 1)
    }

    pub fn seat_acts(&self, n: usize) -> bool {
        !self.card_due(n) && !self.ended(n)
    }

    /// Every position one move on: a card of those left, or PASS and BET by the seat whose turn it is.
    pub fn moves(&self, n: usize) -> Vec<Hand> {
        let mut next = Vec::new();
        if self.card_due(n) {
            for card in (0..=n as u8).filter(|card| !self.cards.contains(card)) {
                let mut hand = self.clone();
                hand.cards.push(card);
                next.push(hand);
            }
        } else if !self.ended(n) {
            for action in 0..=1 {
                let mut hand = self.clone();
                hand.history.push(action);
                next.push(hand);
            }
        }
        next
    }
}

/// Every position that can be reached, breadth first.
pub fn all(n: usize) -> Vec<Hand> {
    let mut found = vec![Hand::start()];
    let mut at = 0;
    while at < found.len() {
        let next = found[at].moves(n);
        found.extend(next);
        at += 1;
    }
    found
}

/// Whether moves from the start reach `hand`: breadth first, along those moves that keep to its cards and its history.
pub fn reachable(n: usize, hand: &Hand) -> bool {
    let towards = |h: &Hand| hand.cards.starts_with(&h.cards) && hand.history.starts_with(&h.history);
    let mut front = vec![Hand::start()];
    while !front.is_empty() {
        if front.contains(hand) {
            return true;
        }
        front = front.iter().flat_map(|h| h.moves(n)).filter(towards).collect();
    }
    false
}
