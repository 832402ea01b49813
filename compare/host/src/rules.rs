//! The rules calls and saved-position checks of either game.

use chukkanalli::archive::{self, Moved, Payoffs, Written};
use chukkanalli::{KuhnPosition, LeducPosition};

/// The calls of a game on its positions.
pub trait Calls {
    type Position: Copy;

    /// The refusal number of the game itself.
    fn validate(&self) -> u64;
    fn start(&self) -> Moved<Self::Position>;
    fn legal(&self, position: Self::Position, seat: u64, out: &mut [u8]) -> Written<Self::Position>;
    fn deal(&self, position: Self::Position, outcome: u64) -> Moved<Self::Position>;
    fn step(&self, position: Self::Position, action: u64) -> Moved<Self::Position>;
    fn key(&self, position: Self::Position, seat: u64, out: &mut [u8]) -> Written<Self::Position>;
    fn payoff(&self, position: Self::Position) -> Payoffs<Self::Position>;
    fn saved(&self, position: Self::Position, done: u64) -> Moved<Self::Position>;
}

/// Kuhn with so many seats.
pub struct Kuhn(pub u64);

pub struct Leduc;

impl Calls for Kuhn {
    type Position = KuhnPosition;

    fn validate(&self) -> u64 {
        archive::kuhn_validate(self.0)
    }

    fn start(&self) -> Moved<KuhnPosition> {
        archive::kuhn_initial_state(self.0)
    }

    fn legal(&self, position: KuhnPosition, seat: u64, out: &mut [u8]) -> Written<KuhnPosition> {
        archive::kuhn_legal_actions(self.0, position, seat, out)
    }

    fn deal(&self, position: KuhnPosition, outcome: u64) -> Moved<KuhnPosition> {
        archive::kuhn_apply_chance_node(self.0, position, outcome)
    }

    fn step(&self, position: KuhnPosition, action: u64) -> Moved<KuhnPosition> {
        archive::kuhn_step(self.0, position, action)
    }

    fn key(&self, position: KuhnPosition, seat: u64, out: &mut [u8]) -> Written<KuhnPosition> {
        archive::kuhn_information_state_key(self.0, position, seat, out)
    }

    fn payoff(&self, position: KuhnPosition) -> Payoffs<KuhnPosition> {
        archive::kuhn_payouts(self.0, position)
    }

    fn saved(&self, position: KuhnPosition, done: u64) -> Moved<KuhnPosition> {
        archive::kuhn_validate_decoded_state(self.0, position, done)
    }
}

impl Calls for Leduc {
    type Position = LeducPosition;

    /// Leduc has no seat count to check.
    fn validate(&self) -> u64 {
        0
    }

    fn start(&self) -> Moved<LeducPosition> {
        archive::leduc_initial_state()
    }

    fn legal(&self, position: LeducPosition, seat: u64, out: &mut [u8]) -> Written<LeducPosition> {
        archive::leduc_legal_actions(position, seat, out)
    }

    fn deal(&self, position: LeducPosition, outcome: u64) -> Moved<LeducPosition> {
        archive::leduc_apply_chance_node(position, outcome)
    }

    fn step(&self, position: LeducPosition, action: u64) -> Moved<LeducPosition> {
        archive::leduc_step(position, action)
    }

    fn key(&self, position: LeducPosition, seat: u64, out: &mut [u8]) -> Written<LeducPosition> {
        archive::leduc_information_state_key(position, seat, out)
    }

    fn payoff(&self, position: LeducPosition) -> Payoffs<LeducPosition> {
        archive::leduc_payouts(position)
    }

    fn saved(&self, position: LeducPosition, done: u64) -> Moved<LeducPosition> {
        archive::leduc_validate_decoded_state(position, done)
    }
}
