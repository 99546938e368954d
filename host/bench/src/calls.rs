//! Batches of calls of one kind.

use crate::monitor::Monitor;
use crate::review::{self, in_one};
use std::hint::black_box;

/// What a batch calls. A kind of two calls makes the first at 64 places, then the second at the
/// same 64, so that it leaves the sessions as they were.
#[derive(Clone, Copy, PartialEq)]
pub enum Kind {
    Open,
    Close,
    OpenClose,
    Take,
    Drop,
    DropTake,
    ReadNumber,
    Write,
    Flows,
    Circle,
    Counts,
    Session,
    Clearance,
    CardLabel,
    Level,
    Dominates,
    Senior,
    Assigned,
    Takable,
    Gives,
}

impl Kind {
    /// The time that a call is to take at most, in nanoseconds.
    pub fn aim(self) -> f64 {
        match self {
            Kind::ReadNumber | Kind::Write => 20.0,
            _ => 50.0,
        }
    }

    /// How many calls one set of arguments makes.
    pub fn calls(self) -> usize {
        match self {
            Kind::OpenClose | Kind::DropTake => 2,
            _ => 1,
        }
    }
}

/// The arguments of a call, in the order of the C interface; 0 where there is none.
pub type Arguments = [u16; 4];

/// The bytes that are written.
const BYTES: [u8; 64] = *b"the quick brown fox jumps over the lazy dog, and the dog sleeps.";

/// The sum of the answers.
pub fn sum(batch: &[Arguments], mut answer: impl FnMut([u64; 4]) -> u64) -> u64 {
    let answers = batch.iter().map(|call| answer(call.map(u64::from)));
    answers.sum()
}

/// Makes two calls at 64 places each time.
fn in_turn<M: Monitor>(monitor: &mut M, first: Kind, second: Kind, batch: &[Arguments]) -> u64 {
    let both = |part| run(monitor, first, part) + run(monitor, second, part);
    batch.chunks(64).map(both).sum()
}

/// Makes a batch of calls: the sum of their numbers and figures.
#[rustfmt::skip]
#[inline(never)]
pub fn run<M: Monitor>(m: &mut M, kind: Kind, batch: &[Arguments]) -> u64 {
    let bytes = black_box(&BYTES[..]);
    match kind {
        Kind::Open => sum(batch, |[place, user, label, _]| m.open(place, user, label)),
        Kind::Close => sum(batch, |[place, ..]| m.close(place)),
        Kind::OpenClose => in_turn(m, Kind::Open, Kind::Close, batch),
        Kind::Take => sum(batch, |[place, role, ..]| m.take(place, role)),
        Kind::Drop => sum(batch, |[place, role, ..]| m.drop(place, role)),
        Kind::DropTake => in_turn(m, Kind::Drop, Kind::Take, batch),
        Kind::ReadNumber => sum(batch, |[place, card, offset, length]| {
            m.read_number(place, card, offset, length)
        }),
        Kind::Write => sum(batch, |[place, card, offset, length]| {
            m.write(place, card, offset, &bytes[..length as usize])
        }),
        Kind::Flows => sum(batch, |[from, to, ..]| in_one(m.flows(from, to))),
        Kind::Circle => sum(batch, |_| in_one(m.circle())),
        _ => review::run(m, kind, batch),
    }
}
