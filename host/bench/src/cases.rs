//! The batches that are timed.

use crate::calls::{run, Arguments, Kind};
use crate::draw::Draw;
use crate::monitor::Buffers;
use crate::plain::{self, Plain};
use crate::seats::Seats;
use second_checker::check::RoleFile;
use second_checker::generate::write;
use Seats::{Empty, Holding, Low};

/// How many sets of arguments a batch has.
const BATCH: usize = 1024;

/// A batch of calls of one kind that all get the same answer.
pub struct Case {
    pub what: &'static str,
    pub seats: Seats,
    pub kind: Kind,
    /// The number, or a report's figure.
    pub answer: u64,
    draw: fn(&mut Draw) -> Arguments,
}

pub const fn case(
    what: &'static str,
    seats: Seats,
    kind: Kind,
    answer: u64,
    draw: fn(&mut Draw) -> Arguments,
) -> Case {
    Case {
        what,
        seats,
        kind,
        answer,
        draw,
    }
}

/// At the largest counts.
#[rustfmt::skip]
pub const CASES: &[Case] = &[
    case("open and close in turn", Empty, Kind::OpenClose, 0, Draw::opening),
    case("open", Holding(1), Kind::Open, 23, Draw::opening),
    case("open", Empty, Kind::Open, 26, Draw::high_opening),
    case("close", Empty, Kind::Close, 24, Draw::place_only),
    case("take a role held", Holding(1), Kind::Take, 0, Draw::role_held),
    case("take a role held", Holding(16), Kind::Take, 0, Draw::role_held),
    case("take a role held", Holding(128), Kind::Take, 0, Draw::role_held),
    case("take", Holding(1), Kind::Take, 27, Draw::role),
    case("take", Holding(16), Kind::Take, 27, Draw::role),
    case("take", Holding(128), Kind::Take, 25, Draw::no_role),
    case("take", Low, Kind::Take, 28, Draw::role),
    case("drop and take in turn", Holding(1), Kind::DropTake, 0, Draw::role_held),
    case("drop and take in turn", Holding(16), Kind::DropTake, 0, Draw::role_held),
    case("drop and take in turn", Holding(128), Kind::DropTake, 0, Draw::role_held),
    case("drop a role not held", Holding(1), Kind::Drop, 0, Draw::role_not_held),
    case("drop a role not held", Holding(16), Kind::Drop, 0, Draw::role_not_held),
    case("drop", Holding(128), Kind::Drop, 25, Draw::no_role),
    case("drop", Empty, Kind::Drop, 24, Draw::role),
    case("read number", Holding(1), Kind::ReadNumber, 0, Draw::part),
    case("read number", Holding(16), Kind::ReadNumber, 0, Draw::part),
    case("read number", Holding(128), Kind::ReadNumber, 0, Draw::part),
    case("read number", Holding(1), Kind::ReadNumber, 29, Draw::part),
    case("read number", Holding(16), Kind::ReadNumber, 29, Draw::part),
    case("read number", Holding(128), Kind::ReadNumber, 29, Draw::part),
    case("write of 8 bytes", Holding(1), Kind::Write, 0, Draw::part),
    case("write of 8 bytes", Holding(16), Kind::Write, 0, Draw::part),
    case("write of 8 bytes", Holding(128), Kind::Write, 0, Draw::part),
    case("write of 8 bytes", Holding(1), Kind::Write, 29, Draw::part),
    case("write of 8 bytes", Holding(16), Kind::Write, 29, Draw::part),
    case("write of 8 bytes", Holding(128), Kind::Write, 29, Draw::part),
    case("flows, every role to every other", Empty, Kind::Flows, 1, Draw::two_roles),
    case("circle, every role on one", Empty, Kind::Circle, 1, Draw::two_roles),
];

/// With the file that has no flow.
#[rustfmt::skip]
pub const WITHOUT_FLOW: &[Case] = &[
    case("flows, after 512 cards", Empty, Kind::Flows, 0, Draw::two_roles),
    case("circle, no flow", Empty, Kind::Circle, 0, Draw::two_roles),
];

/// With the file in which one role flows by the last card.
#[rustfmt::skip]
pub const FLOWING: &[Case] = &[
    case("flows, by card 512", Empty, Kind::Flows, 1, Draw::two_roles),
    case("circle, no role on one", Empty, Kind::Circle, 0, Draw::two_roles),
];

/// Of the review calls, at the largest counts. The answer of counts is their sum, of a session its
/// label, of takable how many roles.
#[rustfmt::skip]
pub const REVIEW: &[Case] = &[
    case("counts", Empty, Kind::Counts, 928, Draw::place_only),
    case("session", Holding(1), Kind::Session, 29, Draw::place_only),
    case("session", Holding(128), Kind::Session, 29, Draw::place_only),
    case("session", Empty, Kind::Session, 24, Draw::place_only),
    case("clearance", Empty, Kind::Clearance, 29, Draw::user),
    case("card label", Empty, Kind::CardLabel, 5, Draw::card),
    case("r-level or w-level", Empty, Kind::Level, 29, Draw::level),
    case("dominates", Empty, Kind::Dominates, 1, Draw::two_labels),
    case("dominates", Empty, Kind::Dominates, 0, Draw::two_labels),
    case("senior", Empty, Kind::Senior, 1, Draw::two_roles),
    case("senior", Empty, Kind::Senior, 0, Draw::two_roles),
    case("assigned", Empty, Kind::Assigned, 1, Draw::user_and_role),
    case("assigned", Empty, Kind::Assigned, 0, Draw::user_and_role),
    case("takable", Empty, Kind::Takable, 128, Draw::user_at_29),
    case("takable", Empty, Kind::Takable, 65, Draw::user_at_29),
    case("takable", Empty, Kind::Takable, 26, Draw::user_above),
    case("gives", Empty, Kind::Gives, 1, Draw::giving),
    case("gives", Empty, Kind::Gives, 0, Draw::giving),
];

impl Case {
    /// The arguments drawn that get the answer.
    pub fn batch(&self, file: &RoleFile) -> Vec<Arguments> {
        if self.kind == Kind::Circle {
            return vec![[0; 4]];
        }
        let mut buffers = Buffers::zeroed();
        plain::load(&write(file), &mut buffers.state);
        let mut plain = Plain::over(buffers.lend());
        self.seats.take(&mut plain);
        let mut draw = Draw::new(file.counts, self.seats.held());
        let mut batch = Vec::new();
        while batch.len() < BATCH {
            let arguments = (self.draw)(&mut draw);
            if run(&mut plain, self.kind, &[arguments]) == self.answer {
                batch.push(arguments);
            }
        }
        batch
    }
}
