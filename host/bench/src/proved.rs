//! The proved monitor, as a C server calls it.

use crate::monitor::{Figure, Lent, Monitor};
use crate::review::{CountsAnswer, Review, SessionAnswer, SetAnswer};
use crate::verdict::Verdict;
use monitor_tests::c;

// SAFETY, of every call here: each pointer comes with the length of its slice, and the slices of a
// call do not overlap.

pub fn load(file: &[u8], state: &mut [u8]) -> Verdict {
    unsafe { c::monitor_load(file.as_ptr(), file.len(), state.as_mut_ptr(), state.len()) }
}

/// The proved monitor over what it is lent.
pub struct Proved<'b>(pub Lent<'b>);

#[rustfmt::skip]
impl Monitor for Proved<'_> {
    fn open(&mut self, place: u64, user: u64, label: u64) -> u64 {
        let state = &mut *self.0.state;
        unsafe { c::monitor_open(state.as_mut_ptr(), state.len(), place, user, label) }
    }

    fn close(&mut self, place: u64) -> u64 {
        let state = &mut *self.0.state;
        unsafe { c::monitor_close(state.as_mut_ptr(), state.len(), place) }
    }

    fn take(&mut self, place: u64, role: u64) -> u64 {
        let state = &mut *self.0.state;
        unsafe { c::monitor_take(state.as_mut_ptr(), state.len(), place, role) }
    }

    fn drop(&mut self, place: u64, role: u64) -> u64 {
        let state = &mut *self.0.state;
        unsafe { c::monitor_drop(state.as_mut_ptr(), state.len(), place, role) }
    }

    fn read_number(&self, place: u64, card: u64, offset: u64, length: u64) -> u64 {
        let (state, store) = (&*self.0.state, &*self.0.store);
        unsafe {
            c::monitor_read_number(
                state.as_ptr(), state.len(), store.as_ptr(), store.len(),
                place, card, offset, length,
            )
        }
    }

    fn write(&mut self, place: u64, card: u64, offset: u64, bytes: &[u8]) -> u64 {
        let (state, store) = (&*self.0.state, &mut *self.0.store);
        unsafe {
            c::monitor_write(
                state.as_ptr(), state.len(), store.as_mut_ptr(), store.len(),
                place, card, offset, bytes.as_ptr(), bytes.len(),
            )
        }
    }

    fn flows(&self, from: u64, to: u64) -> Figure {
        unsafe { c::monitor_flows(self.0.state.as_ptr(), self.0.state.len(), from, to) }
    }

    fn circle(&self) -> Figure {
        unsafe { c::monitor_circle(self.0.state.as_ptr(), self.0.state.len()) }
    }
}

#[rustfmt::skip]
impl Review for Proved<'_> {
    fn counts_of(&self) -> CountsAnswer {
        unsafe { c::monitor_counts_of(self.0.state.as_ptr(), self.0.state.len()) }
    }

    fn session_at(&self, place: u64) -> SessionAnswer {
        unsafe { c::monitor_session_at(self.0.state.as_ptr(), self.0.state.len(), place) }
    }

    fn clearance(&self, user: u64) -> Figure {
        unsafe { c::monitor_clearance(self.0.state.as_ptr(), self.0.state.len(), user) }
    }

    fn card_label(&self, card: u64) -> Figure {
        unsafe { c::monitor_card_label(self.0.state.as_ptr(), self.0.state.len(), card) }
    }

    fn level(&self, role: u64, mode: u64) -> Figure {
        unsafe { c::monitor_level(self.0.state.as_ptr(), self.0.state.len(), role, mode) }
    }

    fn dominates(&self, a: u64, b: u64) -> Figure {
        unsafe { c::monitor_dominates(self.0.state.as_ptr(), self.0.state.len(), a, b) }
    }

    fn senior(&self, r: u64, q: u64) -> Figure {
        unsafe { c::monitor_senior(self.0.state.as_ptr(), self.0.state.len(), r, q) }
    }

    fn assigned(&self, user: u64, role: u64) -> Figure {
        unsafe { c::monitor_assigned(self.0.state.as_ptr(), self.0.state.len(), user, role) }
    }

    fn takable(&self, user: u64, label: u64) -> SetAnswer {
        unsafe { c::monitor_takable(self.0.state.as_ptr(), self.0.state.len(), user, label) }
    }

    fn gives(&self, (low, high): (u64, u64), label: u64, card: u64, mode: u64) -> Figure {
        let state = &*self.0.state;
        unsafe { c::monitor_gives(state.as_ptr(), state.len(), low, high, label, card, mode) }
    }
}
