//! The monitor as one would write it first: hash sets and recursion, rule by rule. It keeps no
//! bytes of a state, so it never answers 7 or 21.

mod file;
mod flow;
mod levels;
mod load;
mod order;
mod review;
mod session;

pub use load::load;
use std::collections::{HashMap, HashSet};

const READ: u64 = 1;
const WRITE: u64 = 2;

/// A level of a role.
#[derive(Clone, Copy)]
enum Level {
    Free,
    At(u64),
    Undefined,
}

/// What a file says.
pub struct Policy {
    labels: u64,
    roles: u64,
    users: u64,
    cards: u64,
    /// Pairs of labels: the first dominates the second.
    dominance: HashSet<(u64, u64)>,
    /// The seniors of each role by the S lines.
    seniors: HashMap<u64, Vec<u64>>,
    clearances: HashMap<u64, u64>,
    card_labels: HashMap<u64, u64>,
    /// Role, card and mode, inherited ones included.
    permissions: HashSet<(u64, u64, u64)>,
    read_levels: HashMap<u64, Level>,
    write_levels: HashMap<u64, Level>,
    /// User and role.
    assignments: HashSet<(u64, u64)>,
}

struct Session {
    user: u64,
    label: u64,
    roles: HashSet<u64>,
}

/// A policy, the sessions by their places, and the store.
pub struct Simple {
    policy: Policy,
    sessions: HashMap<u64, Session>,
    store: Vec<u8>,
}

impl Simple {
    pub fn new(policy: Policy, store: Vec<u8>) -> Simple {
        Simple {
            policy,
            sessions: HashMap::new(),
            store,
        }
    }

    pub fn store(&self) -> &[u8] {
        &self.store
    }
}
