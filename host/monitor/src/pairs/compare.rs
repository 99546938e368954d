//! Both runs of a pair on a monitor, and what they show under L.

use super::monitor::{Library, Monitor};
use super::tally::Tally;
use super::{Pair, Run};
use crate::call::Call;
use monitor_model::CARD_BYTES;
use std::ops::Range;

/// What is compared of a shared call.
#[derive(PartialEq, Eq)]
struct Shown {
    number: u64,
    /// A read's bytes.
    bytes: Vec<u8>,
    /// The cards under L after the call.
    cards: Vec<u8>,
}

/// Runs both runs of a pair, each on a monitor just made. Tells the first
/// difference under L, if there is one.
pub fn compare<M: Monitor>(pair: &Pair, monitors: [M; 2], tally: &mut Tally) -> Result<(), String> {
    pair.check();
    let [one, other] = &pair.runs;
    tally.pairs += 1;
    tally.calls_differ += u64::from(one.calls != other.calls);
    tally.stores_differ += u64::from(one.store != other.store);
    tally.short_stores += u64::from(one.store.len() < CARD_BYTES * pair.cards);
    let [mut first, mut second] = monitors;
    for monitor in [&mut first, &mut second] {
        let file = pair.file.clone();
        if monitor.number(&Call::Load { file }, &mut []) != 0 {
            return Err("a good file is refused".to_string());
        }
    }
    let (shown, end) = show(pair, one, &mut first, tally);
    let (other_shown, other_end) = show(pair, other, &mut second, tally);
    for ((one, other), call) in shown.iter().zip(&other_shown).zip(pair.runs[0].struck()) {
        if let Some(difference) = difference(one, other) {
            return Err(format!("{call}: {difference}"));
        }
    }
    if end != other_end {
        return Err("the cards under L differ at the end".to_string());
    }
    Ok(())
}

/// Makes the calls of a run. What each shared one shows, and the cards under L
/// at the end.
fn show(
    pair: &Pair,
    run: &Run,
    monitor: &mut impl Monitor,
    tally: &mut Tally,
) -> (Vec<Shown>, Vec<u8>) {
    let mut store = run.store.clone();
    let mut shown = Vec::new();
    for (call, &shared) in run.calls.iter().zip(&run.shared) {
        let number = monitor.number(call, &mut store);
        tally.count(call, shared, number);
        if shared {
            shown.push(Shown {
                number,
                bytes: handed_on(call, number, &store),
                cards: bytes_of(&store, &pair.under),
            });
        }
    }
    (shown, bytes_of(&store, &pair.under))
}

/// What a server hands on after a read with number 0: that part of its store.
fn handed_on(call: &Call, number: u64, store: &[u8]) -> Vec<u8> {
    match *call {
        Call::Read(part) if number == 0 => store[part.bytes()].to_vec(),
        _ => Vec::new(),
    }
}

/// The bytes of these parts, one after the other.
pub(super) fn bytes_of(store: &[u8], parts: &[Range<usize>]) -> Vec<u8> {
    parts
        .iter()
        .flat_map(|part| &store[part.clone()])
        .copied()
        .collect()
}

fn difference(one: &Shown, other: &Shown) -> Option<String> {
    if one.number != other.number {
        return Some(format!("numbers {} and {}", one.number, other.number));
    }
    if one.bytes != other.bytes {
        return Some("its bytes differ".to_string());
    }
    (one.cards != other.cards).then(|| "the cards under L differ after it".to_string())
}

/// The pairs of this seed on the library.
pub fn on_library(count: u64, seed: u64) -> Result<Tally, String> {
    let mut tally = Tally::default();
    for index in 0..count {
        let states = [2 * index, 2 * index + 1].map(Library::new);
        compare(&Pair::new(seed, index), states, &mut tally)
            .map_err(|problem| format!("seed {seed} pair {index}: {problem}"))?;
    }
    Ok(tally)
}
