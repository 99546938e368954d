//! Pairs of runs, built as document 01 says under "Two runs side by side": L
//! is any label of a file; the shared calls are the same in both, the others
//! are struck, replaced and added; the stores differ outside the cards under
//! L.

pub mod caller;
pub mod compare;
pub mod leaks;
pub mod monitor;
pub mod rich;
pub mod tally;
pub mod tracker;

use crate::call::Call;
use crate::generate::some_places;
use caller::Caller;
use monitor_model::{Policy, CARD_BYTES};
use second_checker::check::RoleFile;
use second_checker::generate::write;
use second_checker::random::Random;
use std::ops::Range;
use tracker::{Labels, Tracker};

/// How many calls the first run has.
const CALLS: usize = 60;

/// A list of calls and the store that they are made on.
pub struct Run {
    pub calls: Vec<Call>,
    /// Which of the calls are shared.
    pub shared: Vec<bool>,
    pub store: Vec<u8>,
}

impl Run {
    /// "Strike every other call"
    pub fn struck(&self) -> Vec<&Call> {
        let marked = self.calls.iter().zip(&self.shared);
        marked
            .filter_map(|(call, &shared)| shared.then_some(call))
            .collect()
    }
}

pub struct Pair {
    pub file: Vec<u8>,
    /// How many cards it has.
    pub cards: usize,
    /// The bytes of the stores that are of cards under L.
    pub under: Vec<Range<usize>>,
    pub runs: [Run; 2],
}

impl Pair {
    /// Pair `index` of this seed.
    pub fn new(seed: u64, index: u64) -> Pair {
        let random = &mut Random::for_file(seed, index);
        let file = rich::accepted_file(random);
        let label = random.between(1, file.counts.labels);
        let labels = Labels::of(&file);
        let calls = two_lists(random, &labels, label, &file);
        let length = store_length(random, CARD_BYTES * file.counts.cards);
        let under = labels.bytes_under(label, length);
        let mut stores = two_stores(random, length, &under).into_iter();
        let runs = calls.map(|calls| Run {
            shared: shared(&labels, label, &calls),
            calls,
            store: stores.next().expect("a store for each run"),
        });
        Pair {
            file: write(&file),
            cards: file.counts.cards,
            under,
            runs,
        }
    }

    /// That it is a pair: one struck list, and stores alike under L.
    fn check(&self) {
        let [one, other] = &self.runs;
        assert!(one.struck() == other.struck(), "one and the same list");
        assert!(one.store.len() == other.store.len(), "stores of one length");
        let under = |run: &Run| compare::bytes_of(&run.store, &self.under);
        assert!(under(one) == under(other), "the same cards under L");
    }
}

/// Which calls of a list are shared.
fn shared(labels: &Labels, label: usize, calls: &[Call]) -> Vec<bool> {
    let mut tracker = Tracker::new(labels);
    let mut shared = Vec::new();
    for call in calls {
        shared.push(tracker.is_shared(label, call));
        tracker.follow(call);
    }
    shared
}

/// A list while it is made.
struct Making<'a> {
    tracker: Tracker<'a>,
    caller: Caller<'a>,
    calls: Vec<Call>,
}

impl Making<'_> {
    fn push(&mut self, call: Call) {
        self.tracker.follow(&call);
        self.caller.note(&call);
        self.calls.push(call);
    }

    fn push_other(&mut self, random: &mut Random, label: usize) {
        let call = self.caller.other(random, &self.tracker, label);
        self.push(call);
    }
}

fn two_lists(
    random: &mut Random,
    labels: &Labels,
    label: usize,
    file: &RoleFile,
) -> [Vec<Call>; 2] {
    let policy = &Policy::unchecked(file);
    let count = random.between(2, 7);
    let places = some_places(random, count);
    let [mut first, mut second] = [0, 1].map(|_| Making {
        tracker: Tracker::new(labels),
        caller: Caller::new(policy, &places),
        calls: Vec::new(),
    });
    while first.calls.len() < CALLS {
        let call = first.caller.any(random, &first.tracker);
        first.push(call);
    }
    alter(random, label, &first.calls, &mut second);
    [first.calls, second.calls]
}

/// Makes the second list from the first: the shared calls are kept, the others
/// are struck, replaced or kept, and new ones are added.
fn alter(random: &mut Random, label: usize, first: &[Call], second: &mut Making) {
    let strike = random.pick(&[20, 20, 60, 100]);
    let replace = random.pick(&[0, 50, 100]);
    let add = random.pick(&[0, 15, 40]);
    for call in first {
        while random.percent(add) {
            second.push_other(random, label);
        }
        if second.tracker.is_shared(label, call) {
            second.push(call.clone());
        } else if random.percent(strike) {
            continue;
        } else if random.percent(replace) {
            second.push_other(random, label);
        } else {
            second.push(call.clone());
        }
    }
    while random.percent(add) {
        second.push_other(random, label);
    }
}

/// Mostly enough for the cards or more, else too short, down to empty.
fn store_length(random: &mut Random, whole: usize) -> usize {
    match random.below(20) {
        0 => 0,
        1 => random.below(whole),
        2 => whole.saturating_sub(1),
        _ => whole + random.pick(&[0, 0, 1, 64, 100]),
    }
}

/// Stores of one length that agree on these bytes; most differ elsewhere.
fn two_stores(random: &mut Random, length: usize, under: &[Range<usize>]) -> [Vec<u8>; 2] {
    let first = random.bytes(length);
    if random.percent(10) {
        return [first.clone(), first];
    }
    let mut second = random.bytes(length);
    for range in under {
        second[range.clone()].copy_from_slice(&first[range.clone()]);
    }
    [first, second]
}
