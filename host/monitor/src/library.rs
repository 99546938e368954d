//! Safe wrappers over the C functions of include/monitor.h.
//!
//! Every buffer is borrowed mutably, also where the C function takes a
//! pointer to const: a library that writes there all the same is then seen by
//! a comparison.

pub use monitor_model::answer::{CountsAnswer, Figure, SessionAnswer, SetAnswer, Verdict};

use crate::c;

/// The library the tests are linked with.
pub const UNDER_TEST: &str = env!("LIBRARY_UNDER_TEST");

pub fn load(file: &mut [u8], state: &mut [u8]) -> Verdict {
    unsafe {
        c::monitor_load(
            file.as_mut_ptr(),
            file.len(),
            state.as_mut_ptr(),
            state.len(),
        )
    }
}

pub fn open(state: &mut [u8], place: u64, user: u64, label: u64) -> u64 {
    unsafe { c::monitor_open(state.as_mut_ptr(), state.len(), place, user, label) }
}

pub fn close(state: &mut [u8], place: u64) -> u64 {
    unsafe { c::monitor_close(state.as_mut_ptr(), state.len(), place) }
}

pub fn take(state: &mut [u8], place: u64, role: u64) -> u64 {
    unsafe { c::monitor_take(state.as_mut_ptr(), state.len(), place, role) }
}

pub fn drop(state: &mut [u8], place: u64, role: u64) -> u64 {
    unsafe { c::monitor_drop(state.as_mut_ptr(), state.len(), place, role) }
}

pub fn read_number(
    state: &mut [u8],
    store: &mut [u8],
    place: u64,
    card: u64,
    offset: u64,
    length: u64,
) -> u64 {
    unsafe {
        c::monitor_read_number(
            state.as_mut_ptr(),
            state.len(),
            store.as_mut_ptr(),
            store.len(),
            place,
            card,
            offset,
            length,
        )
    }
}

pub fn write(
    state: &mut [u8],
    store: &mut [u8],
    place: u64,
    card: u64,
    offset: u64,
    bytes: &mut [u8],
) -> u64 {
    unsafe {
        c::monitor_write(
            state.as_mut_ptr(),
            state.len(),
            store.as_mut_ptr(),
            store.len(),
            place,
            card,
            offset,
            bytes.as_mut_ptr(),
            bytes.len(),
        )
    }
}

pub fn flows(state: &mut [u8], from: u64, to: u64) -> Figure {
    unsafe { c::monitor_flows(state.as_mut_ptr(), state.len(), from, to) }
}

pub fn circle(state: &mut [u8]) -> Figure {
    unsafe { c::monitor_circle(state.as_mut_ptr(), state.len()) }
}

pub fn can(state: &mut [u8], user: u64, label: u64, card: u64, mode: u64) -> Figure {
    unsafe { c::monitor_can(state.as_mut_ptr(), state.len(), user, label, card, mode) }
}

pub fn counts_of(state: &mut [u8]) -> CountsAnswer {
    unsafe { c::monitor_counts_of(state.as_mut_ptr(), state.len()) }
}

pub fn session_at(state: &mut [u8], place: u64) -> SessionAnswer {
    unsafe { c::monitor_session_at(state.as_mut_ptr(), state.len(), place) }
}

pub fn clearance(state: &mut [u8], user: u64) -> Figure {
    unsafe { c::monitor_clearance(state.as_mut_ptr(), state.len(), user) }
}

pub fn card_label(state: &mut [u8], card: u64) -> Figure {
    unsafe { c::monitor_card_label(state.as_mut_ptr(), state.len(), card) }
}

pub fn level(state: &mut [u8], role: u64, mode: u64) -> Figure {
    unsafe { c::monitor_level(state.as_mut_ptr(), state.len(), role, mode) }
}

pub fn dominates(state: &mut [u8], a: u64, b: u64) -> Figure {
    unsafe { c::monitor_dominates(state.as_mut_ptr(), state.len(), a, b) }
}

pub fn senior(state: &mut [u8], r: u64, q: u64) -> Figure {
    unsafe { c::monitor_senior(state.as_mut_ptr(), state.len(), r, q) }
}

pub fn assigned(state: &mut [u8], user: u64, role: u64) -> Figure {
    unsafe { c::monitor_assigned(state.as_mut_ptr(), state.len(), user, role) }
}

pub fn takable(state: &mut [u8], user: u64, label: u64) -> SetAnswer {
    unsafe { c::monitor_takable(state.as_mut_ptr(), state.len(), user, label) }
}

pub fn gives(
    state: &mut [u8],
    (low, high): (u64, u64),
    label: u64,
    card: u64,
    mode: u64,
) -> Figure {
    let (bytes, length) = (state.as_mut_ptr(), state.len());
    unsafe { c::monitor_gives(bytes, length, low, high, label, card, mode) }
}
