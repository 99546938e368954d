//! States that no load left: random bytes, and loaded states that were
//! damaged. A call gets some number of its list, keeps to its buffers and
//! does the same each time.

use monitor_model::{Model, STATE_BYTES};
use monitor_tests::call::{Answer, Call, Kind};
use monitor_tests::generate::{any_call, wild_number, Caller};
use monitor_tests::laws::{self, Change};
use monitor_tests::lent::Lent;
use monitor_tests::library;
use monitor_tests::lists::{List, Tally};
use second_checker::differential::show;
use second_checker::generate::LIMITS;
use second_checker::random::Random;
use std::collections::BTreeMap;

const STATES: u64 = 4_000;
const CALLS: usize = 12;

/// A state that a load and calls left, with sessions in it.
struct Used {
    state: Vec<u8>,
    model: Model,
    /// The bytes that the calls changed: where sessions are kept, whatever the
    /// layout.
    changed: Vec<usize>,
}

fn used_states(random: &mut Random) -> Vec<Used> {
    let mut tally = Tally::default();
    let mut used = Vec::new();
    while used.len() < 40 {
        let mut list = List::new(random, &mut |_| (), &mut tally).unwrap();
        let after_load = list.state.bytes().to_vec();
        let caller = Caller::new(random);
        for _ in 0..random.between(20, 60) {
            list.step(random, &caller, &mut tally, &mut |_| ()).unwrap();
        }
        let state = list.state.bytes()[..STATE_BYTES].to_vec();
        let changed: Vec<usize> = (0..STATE_BYTES)
            .filter(|&at| state[at] != after_load[at])
            .collect();
        if !changed.is_empty() {
            used.push(Used {
                state,
                model: list.model,
                changed,
            });
        }
    }
    used
}

/// Puts plausible counts at the front, as numbers of 1, 2, 4 or 8 bytes.
fn put_counts(random: &mut Random, state: &mut [u8]) {
    let width = random.pick(&[1, 2, 2, 4, 8]);
    let high_byte_first = random.percent(20);
    for (index, limit) in LIMITS.into_iter().enumerate() {
        let count = match random.below(8) {
            0 => limit,
            1 => limit + 1,
            _ => random.between(usize::from(index == 0), limit),
        };
        let low = (count as u64).to_le_bytes();
        let field = &mut state[index * width..(index + 1) * width];
        field.copy_from_slice(&low[..width]);
        if high_byte_first {
            field.reverse();
        }
    }
}

/// Bytes of a number that may lie outside its limits: 1, 2, 4 or 8 of them.
fn wild_bytes(random: &mut Random) -> Vec<u8> {
    let limit = random.pick(&[1, 32, 64, 128, 256, 512]);
    let width = random.pick(&[1, 1, 2, 2, 4, 8]);
    let mut bytes = wild_number(random, limit).to_le_bytes()[..width].to_vec();
    if random.percent(20) {
        bytes.reverse();
    }
    bytes
}

/// Puts such a number into the state.
fn put_wild_bytes(random: &mut Random, state: &mut [u8], at: usize) {
    let bytes = wild_bytes(random);
    state[at..at + bytes.len()].copy_from_slice(&bytes);
}

/// A state that no load left, and what it is.
fn hostile_state(random: &mut Random, used: &[Used], from: &Used) -> (&'static str, Vec<u8>) {
    let other = &used[random.below(used.len())];
    match random.below(16) {
        kind @ 0..=5 => made_up_state(random, kind),
        kind => damaged_state(random, from, other, kind),
    }
}

/// Kinds 0 to 5: nothing of a loaded state.
fn made_up_state(random: &mut Random, kind: usize) -> (&'static str, Vec<u8>) {
    let (name, mut state) = match kind {
        0 => return ("random bytes", random.bytes(STATE_BYTES)),
        1..=2 => {
            let bytes = random.bytes(STATE_BYTES);
            ("counts, then random bytes", bytes)
        }
        3..=4 => {
            let below = random.pick(&[1, 2, 3, 5, 33]);
            let bytes = (0..STATE_BYTES).map(|_| random.below(below) as u8);
            ("counts, then small bytes", bytes.collect())
        }
        _ => {
            let byte = random.pick(&[0x00, 0xff, 0x80, 0x01]);
            ("counts, then one byte throughout", vec![byte; STATE_BYTES])
        }
    };
    put_counts(random, &mut state);
    (name, state)
}

/// Kinds 6 and above: a loaded state, or what is made from it.
fn damaged_state(
    random: &mut Random,
    from: &Used,
    other: &Used,
    kind: usize,
) -> (&'static str, Vec<u8>) {
    let mut state = from.state.clone();
    // Where the state isn't 0, it holds something.
    let in_use: Vec<usize> = (0..STATE_BYTES - 8).filter(|&at| state[at] != 0).collect();
    let any_byte = |random: &mut Random| match random.below(4) {
        0 => random.below(64),
        1 => random.below(STATE_BYTES - 8),
        _ => random.pick(&in_use),
    };
    let name = match kind {
        6..=7 => {
            for _ in 0..random.between(1, 8) {
                let at = any_byte(random);
                state[at] ^= 1 << random.below(8);
            }
            "a loaded state with bits changed"
        }
        8..=9 => {
            for _ in 0..random.between(1, 3) {
                let at = any_byte(random);
                put_wild_bytes(random, &mut state, at);
            }
            "a loaded state with wild numbers"
        }
        10..=12 => {
            for _ in 0..random.between(1, 3) {
                let at = random.pick(&from.changed).min(STATE_BYTES - 8);
                put_wild_bytes(random, &mut state, at);
            }
            "a loaded state with wild numbers in its sessions"
        }
        13 => {
            let at = any_byte(random);
            let run = random.between(1, 4_000).min(STATE_BYTES - at);
            let bytes = random.bytes(run);
            state[at..at + run].copy_from_slice(&bytes);
            "a loaded state with a run of random bytes"
        }
        14 => {
            let at = any_byte(random);
            state[at..].copy_from_slice(&other.state[at..]);
            "the front of a loaded state and the rest of another"
        }
        _ => {
            state.fill(0);
            for _ in 0..random.between(1, 40) {
                let at = any_byte(random);
                state[at] = random.byte();
            }
            "a zeroed state with bytes changed"
        }
    };
    (name, state)
}

/// Makes a call on copies of state and store, in new surroundings: other
/// canaries, another alignment, other bytes past 65,536.
fn made_on_copies(
    call: &Call,
    state: &[u8],
    store: &[u8],
    random: &mut Random,
) -> (Answer, Vec<u8>, Vec<u8>) {
    let surplus = random.pick(&[0, 0, 1, 9, 500]);
    let tail = random.bytes(surplus);
    let state = [state, &tail].concat();
    let mut lent_state = Lent::new(&state, random);
    let mut lent_store = Lent::new(store, random);
    let answer = call
        .on_library(lent_state.bytes_mut(), lent_store.bytes_mut(), random)
        .unwrap();
    assert!(
        lent_state.canaries_unchanged() && lent_store.canaries_unchanged(),
        "{call}: {answer:?}: bytes around a buffer were changed"
    );
    let state_change = Change {
        before: &state,
        after: lent_state.bytes(),
    };
    let store_change = Change {
        before: store,
        after: lent_store.bytes(),
    };
    if let Err(law) = laws::check(call, answer, state_change, store_change) {
        panic!("{law}");
    }
    (
        answer,
        lent_state.bytes()[..STATE_BYTES].to_vec(),
        lent_store.bytes().to_vec(),
    )
}

/// Half the calls would be made on the loaded state, the others on any.
fn hostile_call(random: &mut Random, caller: &Caller, model: &Model, store: usize) -> Call {
    loop {
        let call = if random.percent(50) {
            caller.next(random, model, store).0
        } else {
            let kind = random.pick(&Kind::ALL[1..]);
            any_call(random, kind)
        };
        if call.kind() != Kind::Load {
            return call;
        }
    }
}

#[test]
fn hostile_states() {
    let used = used_states(&mut Random::new(5));
    // Of each kind of state: calls, and those that didn't get 21.
    let mut counts: BTreeMap<&str, (u64, u64)> = BTreeMap::new();
    for index in 0..STATES {
        let random = &mut Random::for_file(6, index);
        let from = &used[random.below(used.len())];
        let (kind_of_state, mut state) = hostile_state(random, &used, from);
        let length = random.pick(&[0, 64, 1_280, 32_767, 32_768, 32_768, 40_000]);
        let mut store = random.bytes(length);
        let caller = Caller::new(random);
        for _ in 0..CALLS {
            let call = hostile_call(random, &caller, &from.model, length);
            let first = made_on_copies(&call, &state, &store, random);
            let second = made_on_copies(&call, &state, &store, random);
            assert!(
                first == second,
                "state {index} ({kind_of_state}): {call}: {:?}, then {:?}",
                first.0,
                second.0
            );
            let count = counts.entry(kind_of_state).or_default();
            count.0 += 1;
            count.1 += u64::from(first.0.number() != 21);
            (_, state, store) = first;
        }
    }
    let mut lines = format!("hostile states ({}):", library::UNDER_TEST);
    for (kind, (calls, usable)) in counts {
        lines += &format!("\n{calls:>6} calls, {usable:>6} not 21: {kind}");
    }
    show(&lines);
}
