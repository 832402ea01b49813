//! Kuhn and Leduc poker by proved calls: the rules, the saved-position checks, the listing of information sets, and the evaluation of
//! strategy tables in whole units and of profiles in f64.
//!
//! The calls are those of libchukkanalli.a, each proved equal to a definition of the game on every input; this crate is safe Rust around
//! them, and is tested, not proved. Every function is defined on every input. What a call cannot take it refuses, with document 01's
//! number ([`Refusal`]).
//!
//! ```
//! use chukkanalli::{Evaluator, Game, Refusal};
//!
//! let mut evaluator = Evaluator::new(Game::Kuhn { seats: 2 })?;
//! let always_pass = [1, 0].repeat(evaluator.counts().sets);
//! assert_eq!(*evaluator.worths(1, &always_pass)?, [0, 0]);
//!
//! let best = evaluator.best_reply(0, 1, &always_pass)?;
//! assert_eq!(best.value, 6);
//! let first = &evaluator.sets()[0];
//! assert_eq!((first.seat, first.card, &best.table[first.entries()]), (0, 0, &[0, 1][..])); // BET on card 0
//!
//! let conv = evaluator.nash_conv_units(1, &always_pass)?;
//! assert_eq!((conv.nash_conv, conv.units), (12, 6));
//! assert_eq!(evaluator.worths(2, &always_pass), Err(Refusal::Sum));
//!
//! let always_pass = [1.0, 0.0].repeat(evaluator.counts().sets);
//! assert_eq!(evaluator.nash_conv(&always_pass)?, 2.0);
//! # Ok::<(), Refusal>(())
//! ```

pub mod archive;
mod evaluator;
mod exports;
mod floats;
mod game;
mod info_set;
mod kuhn;
mod leduc;
mod per_seat;
mod refusal;
pub mod tables;

pub use evaluator::{BestReply, Evaluator, NashConv};
pub use game::{Counts, Game};
pub use info_set::{InfoSet, RECORD};
pub use kuhn::{KuhnPoker, KuhnPosition};
pub use leduc::{LeducPoker, LeducPosition};
pub use per_seat::{Payoffs, PerSeat, Values, Worths};
pub use refusal::Refusal;
