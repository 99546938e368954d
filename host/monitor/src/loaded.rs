//! A file loaded by the library and by the model.

use crate::library;
use monitor_model::{Model, Policy, STATE_BYTES};

pub struct Loaded {
    pub state: Vec<u8>,
    pub model: Model,
}

impl Loaded {
    /// Loads a file that both must accept.
    pub fn new(file: &[u8]) -> Loaded {
        let mut model = Model::default();
        let mut state = vec![0; STATE_BYTES];
        let expected = model.load(file, STATE_BYTES);
        assert_eq!(library::load(&mut file.to_vec(), &mut state), expected);
        assert_eq!(expected.number, 0, "the file was refused");
        Loaded { state, model }
    }

    pub fn policy(&self) -> &Policy {
        self.model.policy().expect("a loaded file")
    }
}
