//! The review calls of a monitor, and batches of them.

use crate::calls::{sum, Arguments, Kind};
pub use monitor_tests::library::{CountsAnswer, Figure, SessionAnswer, SetAnswer};

/// What each version of the monitor answers. Numbers are those of the C interface.
pub trait Review {
    fn counts_of(&self) -> CountsAnswer;
    fn session_at(&self, place: u64) -> SessionAnswer;
    fn clearance(&self, user: u64) -> Figure;
    fn card_label(&self, card: u64) -> Figure;
    fn level(&self, role: u64, mode: u64) -> Figure;
    fn dominates(&self, a: u64, b: u64) -> Figure;
    fn senior(&self, r: u64, q: u64) -> Figure;
    fn assigned(&self, user: u64, role: u64) -> Figure;
    fn takable(&self, user: u64, label: u64) -> SetAnswer;
    fn gives(&self, set: (u64, u64), label: u64, card: u64, mode: u64) -> Figure;
}

/// The number and the figure in one: a refusal has the figure 0.
pub fn in_one(report: Figure) -> u64 {
    report.number + report.figure
}

/// The number and the sum of the counts.
fn all_counts(counts: CountsAnswer) -> u64 {
    counts.number + counts.labels + counts.roles + counts.users + counts.cards
}

/// The number and how many roles the set has.
fn size(set: SetAnswer) -> u64 {
    set.number + u64::from(set.low.count_ones() + set.high.count_ones())
}

/// A set of up to 128 roles: the 16 bits again and again.
fn set(bits: u64) -> (u64, u64) {
    let half = bits * 0x0001_0001_0001_0001;
    (half, half)
}

/// Makes a batch of review calls: the sum of what they answer.
#[rustfmt::skip]
#[inline(never)]
pub fn run(m: &impl Review, kind: Kind, batch: &[Arguments]) -> u64 {
    match kind {
        Kind::Counts => sum(batch, |_| all_counts(m.counts_of())),
        Kind::Session => sum(batch, |[place, ..]| {
            let session = m.session_at(place);
            session.number + session.label
        }),
        Kind::Clearance => sum(batch, |[user, ..]| in_one(m.clearance(user))),
        Kind::CardLabel => sum(batch, |[card, ..]| in_one(m.card_label(card))),
        Kind::Level => sum(batch, |[role, mode, ..]| in_one(m.level(role, mode))),
        Kind::Dominates => sum(batch, |[a, b, ..]| in_one(m.dominates(a, b))),
        Kind::Senior => sum(batch, |[r, q, ..]| in_one(m.senior(r, q))),
        Kind::Assigned => sum(batch, |[user, role, ..]| in_one(m.assigned(user, role))),
        Kind::Takable => sum(batch, |[user, label, ..]| size(m.takable(user, label))),
        Kind::Gives => sum(batch, |[bits, label, card, mode]| {
            in_one(m.gives(set(bits), label, card, mode))
        }),
        _ => unreachable!("no review call"),
    }
}
