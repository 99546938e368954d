//! What the pairs came to: a test that grants nothing shows nothing.

use crate::call::{Call, Kind};
use std::collections::BTreeMap;

#[derive(Default)]
pub struct Tally {
    pub pairs: u64,
    /// Pairs whose calls differ: others were struck, replaced or added.
    pub calls_differ: u64,
    /// Pairs whose stores differ.
    pub stores_differ: u64,
    /// Pairs whose stores are too short for the cards.
    pub short_stores: u64,
    /// Calls in both runs, by whether they are shared.
    calls: BTreeMap<bool, u64>,
    granted: BTreeMap<(bool, Kind), u64>,
}

impl Tally {
    pub fn count(&mut self, call: &Call, shared: bool, number: u64) {
        *self.calls.entry(shared).or_default() += 1;
        let empty = call.part().is_some_and(|part| part.length == 0);
        if number == 0 && !empty {
            *self.granted.entry((shared, call.kind())).or_default() += 1;
        }
    }

    fn calls(&self, shared: bool) -> u64 {
        self.calls.get(&shared).copied().unwrap_or(0)
    }

    /// How many of these calls got number 0; of reads and writes those of a
    /// byte or more.
    pub fn granted(&self, shared: bool, kind: Kind) -> u64 {
        self.granted.get(&(shared, kind)).copied().unwrap_or(0)
    }

    pub fn table(&self) -> String {
        let mut table = format!(
            "{} pairs of runs: {} with calls that differed, {} with stores that differed, \
             {} with short stores",
            self.pairs, self.calls_differ, self.stores_differ, self.short_stores
        );
        for (name, shared) in [("shared", true), ("unshared", false)] {
            let calls = self.calls(shared);
            table.push_str(&format!("\n{calls} {name} calls in both runs, granted:"));
            for kind in [Kind::Take, Kind::Read, Kind::Write] {
                let granted = self.granted(shared, kind);
                table.push_str(&format!(" {granted} {}s", kind.name()));
            }
        }
        table
    }
}
