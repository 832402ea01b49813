//! game.rs, reward.rs and best_response.rs unchanged, over stand-ins for what they and the two games lean on.

include!(concat!(env!("OUT_DIR"), "/source.rs"));

pub use game::Rng;
pub use space::Space;

/// Random sources: nothing that is compared draws.
pub mod rng {
    use crate::game::Rng;

    pub fn weighted_index(_: &mut dyn Rng, _: &[f64]) -> usize {
        unreachable!("no compared call draws")
    }
}

/// Descriptions of actions and observations: nothing that is compared asks for one.
pub mod space {
    pub enum Space {
        Discrete { n: usize },
        UnitBox { shape: Vec<usize> },
    }

    impl Space {
        pub fn unit_box(shape: Vec<usize>) -> Self {
            Space::UnitBox { shape }
        }
    }
}

/// The largest fan that is enumerated: far above the eleven and six cards of the two games' decks.
pub mod policy {
    pub const MAX_ENUMERATED_OUTCOMES: usize = 1_048_576;
}

/// Saved positions. Only `validate_decoded_state` is called.
pub trait StateCodec {
    type State;

    fn encode(&self, state: &Self::State) -> Vec<u8>;
    fn decode(&self, bytes: &[u8]) -> Result<Self::State, String>;
    fn validate_decoded_state(&self, state: &Self::State, done: bool) -> Result<(), String>;
}

pub trait ActionView {}

/// Observations as floats: never called.
pub trait StateEncoder: ActionView {
    type State;

    fn encode(&self, state: &Self::State, agent: usize) -> Vec<f32>;
    fn obs_shape(&self) -> (usize, usize, usize);
    fn observation_space(&self) -> Space;
}
