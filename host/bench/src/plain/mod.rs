//! The same monitor in plain safe Rust: the same steps over the same tables, with ordinary bounds
//! checks and no proofs.

mod build;
mod cards;
mod check;
mod flow;
mod levels;
mod order;
mod read;
mod review;
mod roleset;
mod session;
mod state;
mod tables;

use crate::monitor::{Figure, Lent, Monitor};
use crate::review::{CountsAnswer, Review, SessionAnswer, SetAnswer};
use crate::verdict::{refused, Verdict};
use std::hint::black_box;

/// The bytes of a state.
pub const STATE: usize = 65536;

/// Where the tables stand in a state.
const DOMINANCE: usize = 16;
const CLEARANCES: usize = 1040;
const CARD_LABELS: usize = 1296;
const READ_LEVELS: usize = 1808;
const WRITE_LEVELS: usize = 1936;
const SENIORS: usize = 2064;
const ASSIGNED: usize = 4112;
const READERS: usize = 12304;
const WRITERS: usize = 20496;
const PLACES: usize = 61456;

/// The byte of a level that is undefined.
const UNDEFINED: u8 = 99;

/// Checks a role file and, on acceptance, replaces the state by its policy.
pub fn load(file: &[u8], state: &mut [u8]) -> Verdict {
    if state.len() < STATE {
        return refused(7, 0, 0);
    }
    let mut scratch = [0u8; STATE];
    match build::build(file, &mut scratch) {
        Ok(()) => {
            state[..STATE].copy_from_slice(&scratch);
            Verdict::default()
        }
        Err(verdict) => verdict,
    }
}

/// The plain monitor over what it is lent.
pub struct Plain<'b>(pub Lent<'b>);

impl Plain<'_> {
    /// Takes the addresses of the calls, so that the compiler leaves their parameters as they are:
    /// it cannot fit an archive's to their callers either.
    pub fn over(lent: Lent<'_>) -> Plain<'_> {
        black_box([
            session::open as *const (),
            session::close as *const (),
            session::take as *const (),
            session::drop as *const (),
            cards::read_number as *const (),
            cards::write as *const (),
            flow::flows as *const (),
            flow::circle as *const (),
            review::counts_of as *const (),
            review::session_at as *const (),
            review::clearance as *const (),
            review::card_label as *const (),
            review::level as *const (),
            review::dominates as *const (),
            review::senior as *const (),
            review::assigned as *const (),
            review::takable as *const (),
            review::gives as *const (),
        ]);
        Plain(lent)
    }
}

impl Monitor for Plain<'_> {
    fn open(&mut self, place: u64, user: u64, label: u64) -> u64 {
        session::open(self.0.state, place, user, label)
    }

    fn close(&mut self, place: u64) -> u64 {
        session::close(self.0.state, place)
    }

    fn take(&mut self, place: u64, role: u64) -> u64 {
        session::take(self.0.state, place, role)
    }

    fn drop(&mut self, place: u64, role: u64) -> u64 {
        session::drop(self.0.state, place, role)
    }

    fn read_number(&self, place: u64, card: u64, offset: u64, length: u64) -> u64 {
        cards::read_number(self.0.state, self.0.store, place, card, offset, length)
    }

    fn write(&mut self, place: u64, card: u64, offset: u64, bytes: &[u8]) -> u64 {
        cards::write(self.0.state, self.0.store, place, card, offset, bytes)
    }

    fn flows(&self, from: u64, to: u64) -> Figure {
        flow::flows(self.0.state, from, to)
    }

    fn circle(&self) -> Figure {
        flow::circle(self.0.state)
    }
}

impl Review for Plain<'_> {
    fn counts_of(&self) -> CountsAnswer {
        review::counts_of(self.0.state)
    }

    fn session_at(&self, place: u64) -> SessionAnswer {
        review::session_at(self.0.state, place)
    }

    fn clearance(&self, user: u64) -> Figure {
        review::clearance(self.0.state, user)
    }

    fn card_label(&self, card: u64) -> Figure {
        review::card_label(self.0.state, card)
    }

    fn level(&self, role: u64, mode: u64) -> Figure {
        review::level(self.0.state, role, mode)
    }

    fn dominates(&self, a: u64, b: u64) -> Figure {
        review::dominates(self.0.state, a, b)
    }

    fn senior(&self, r: u64, q: u64) -> Figure {
        review::senior(self.0.state, r, q)
    }

    fn assigned(&self, user: u64, role: u64) -> Figure {
        review::assigned(self.0.state, user, role)
    }

    fn takable(&self, user: u64, label: u64) -> SetAnswer {
        review::takable(self.0.state, user, label)
    }

    fn gives(&self, (low, high): (u64, u64), label: u64, card: u64, mode: u64) -> Figure {
        review::gives(self.0.state, low, high, label, card, mode)
    }
}
