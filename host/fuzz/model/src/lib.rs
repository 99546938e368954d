//! The model for C: a handle for what a state holds, and the calls by it.

use monitor_model::answer::{Figure, Verdict};
use monitor_model::{Model, Part};
use std::slice::{from_raw_parts, from_raw_parts_mut};

/// A call's numbers and its set of roles, whatever the call uses of them.
#[repr(C)]
pub struct Numbers {
    first: u64,
    second: u64,
    third: u64,
    fourth: u64,
    low: u64,
    high: u64,
}

/// A call's number, then what it tells in the order of its struct, then 0.
#[repr(C)]
pub struct Answer {
    number: u64,
    told: [u64; 4],
}

/// The counts of an H line.
#[repr(C)]
pub struct ModelCounts {
    labels: usize,
    roles: usize,
    users: usize,
    cards: usize,
}

/// A model that holds what a zeroed state holds.
#[no_mangle]
pub extern "C" fn model_new() -> *mut Model {
    Box::into_raw(Box::default())
}

/// # Safety
/// The handle comes from `model_new` and is not used again.
#[no_mangle]
pub unsafe extern "C" fn model_free(model: *mut Model) {
    drop(Box::from_raw(model));
}

/// # Safety
/// The handle comes from `model_new`; the file has so many bytes.
#[no_mangle]
pub unsafe extern "C" fn model_load(
    model: *mut Model,
    file: *const u8,
    file_len: usize,
    state_len: usize,
) -> Verdict {
    (*model).load(from_raw_parts(file, file_len), state_len)
}

/// What the loaded file counts; all 0 before a load.
///
/// # Safety
/// The handle comes from `model_new`.
#[no_mangle]
pub unsafe extern "C" fn model_counts(model: *const Model) -> ModelCounts {
    let counts = (*model).policy().map(|policy| policy.counts);
    let counts = counts.unwrap_or_default();
    ModelCounts {
        labels: counts.labels,
        roles: counts.roles,
        users: counts.users,
        cards: counts.cards,
    }
}

/// Makes a call, numbered as in model.h.
/// A write that is done puts `value`, `value` + 1 and so on into the store.
///
/// # Safety
/// The handle comes from `model_new`; the store has so many bytes.
#[no_mangle]
pub unsafe extern "C" fn model_call(
    model: *mut Model,
    kind: u64,
    state: usize,
    store: *mut u8,
    store_len: usize,
    numbers: &Numbers,
    value: u8,
) -> Answer {
    let store = from_raw_parts_mut(store, store_len);
    call(&mut *model, kind, state, store, numbers, value)
}

fn call(
    model: &mut Model,
    kind: u64,
    state: usize,
    store: &mut [u8],
    numbers: &Numbers,
    value: u8,
) -> Answer {
    let &Numbers {
        first,
        second,
        third,
        fourth,
        ..
    } = numbers;
    let part = Part {
        place: first,
        card: second,
        offset: third,
        length: fourth,
    };
    let number = match kind {
        1 => model.open(state, first, second, third),
        2 => model.close(state, first),
        3 => model.take(state, first, second),
        4 => model.drop(state, first, second),
        5 => model.read(state, store, part).0,
        6 => {
            let bytes: Vec<u8> = (0..fourth).map(|at| value.wrapping_add(at as u8)).collect();
            model.write(state, store, first, second, third, &bytes)
        }
        7 => return told(model.flows(state, first, second)),
        8 => return told(model.circle(state)),
        10 => return told(model.can(state, first, second, third, fourth)),
        _ => return review(model, kind, state, numbers),
    };
    told(Figure { number, figure: 0 })
}

fn told(figure: Figure) -> Answer {
    Answer {
        number: figure.number,
        told: [figure.figure, 0, 0, 0],
    }
}

fn review(model: &Model, kind: u64, state: usize, numbers: &Numbers) -> Answer {
    let &Numbers {
        first,
        second,
        third,
        low,
        high,
        ..
    } = numbers;
    match kind {
        11 => counts(model, state),
        12 => session(model, state, first),
        13 => told(model.clearance(state, first)),
        14 => told(model.card_label(state, first)),
        15 => told(model.level(state, first, second)),
        16 => told(model.dominates(state, first, second)),
        17 => told(model.senior(state, first, second)),
        18 => told(model.assigned(state, first, second)),
        19 => {
            let set = model.takable(state, first, second);
            Answer {
                number: set.number,
                told: [set.low, set.high, 0, 0],
            }
        }
        20 => told(model.gives(state, (low, high), first, second, third)),
        _ => unreachable!("no call has the number {kind}"),
    }
}

fn counts(model: &Model, state: usize) -> Answer {
    let counts = model.counts_of(state);
    Answer {
        number: counts.number,
        told: [counts.labels, counts.roles, counts.users, counts.cards],
    }
}

fn session(model: &Model, state: usize, place: u64) -> Answer {
    let session = model.session_at(state, place);
    Answer {
        number: session.number,
        told: [session.user, session.label, session.low, session.high],
    }
}
