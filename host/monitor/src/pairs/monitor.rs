//! What the pairs are run on, and the lists for leaky copies of the model.

use crate::call::Call;
use crate::lent::Lent;
use monitor_model::{Model, STATE_BYTES};
use second_checker::random::Random;

/// A monitor with a state of its own.
pub trait Monitor {
    /// Makes a call on this store. Answers its number.
    fn number(&mut self, call: &Call, store: &mut [u8]) -> u64;
}

impl Monitor for Model {
    fn number(&mut self, call: &Call, store: &mut [u8]) -> u64 {
        call.on_model(self, STATE_BYTES, store).number()
    }
}

/// The library under test, with the state lent to it.
pub struct Library {
    state: Lent,
    random: Random,
}

impl Library {
    /// Its state holds any bytes before the load.
    pub fn new(seed: u64) -> Library {
        let mut random = Random::new(seed);
        let surplus = random.pick(&[0, 0, 1, 100]);
        let bytes = random.bytes(STATE_BYTES + surplus);
        Library {
            state: Lent::new(&bytes, &mut random),
            random,
        }
    }
}

impl Monitor for Library {
    fn number(&mut self, call: &Call, store: &mut [u8]) -> u64 {
        call.on_library(self.state.bytes_mut(), store, &mut self.random)
            .unwrap_or_else(|problem| panic!("{problem}"))
            .number()
    }
}
