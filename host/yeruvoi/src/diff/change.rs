//! One thing that is different.

use crate::monitor::Mode;
use crate::names::Kind;

/// What relates two things.
#[derive(Clone, Copy, Debug, PartialEq, Eq)]
pub enum Link {
    Dominates,
    Senior,
    Assigned,
    Flows,
}

impl Link {
    /// The things that it relates.
    pub fn kinds(self) -> (Kind, Kind) {
        match self {
            Link::Dominates => (Kind::Label, Kind::Label),
            Link::Senior | Link::Flows => (Kind::Role, Kind::Role),
            Link::Assigned => (Kind::User, Kind::Role),
        }
    }

    /// What the first does to the second, in two parts.
    pub fn words(self) -> [&'static str; 2] {
        match self {
            Link::Dominates => ["", "dominates"],
            Link::Senior => ["is ", "senior to"],
            Link::Assigned => ["is ", "assigned to"],
            Link::Flows => ["", "flows to"],
        }
    }
}

/// A label that a thing has.
#[derive(Clone, Copy, Debug, PartialEq, Eq)]
pub enum Figure {
    Clearance,
    CardLabel,
    Level(Mode),
}

impl Figure {
    /// Whose it is, and what it is called.
    pub fn words(self) -> (Kind, &'static str) {
        match self {
            Figure::Clearance => (Kind::User, "clearance"),
            Figure::CardLabel => (Kind::Card, "label"),
            Figure::Level(mode) => (Kind::Role, mode.level_word()),
        }
    }
}

#[derive(Clone, Debug, PartialEq, Eq)]
pub enum Change {
    Right(Right),
    Kept(Kept),
    Count(Count),
    Labelled(Labelled),
    Linked(Linked),
    Permitted(Permitted),
    Circle(Circle),
}

/// What the user may do at some label now, and could not before; or the other way round.
#[derive(Clone, Debug, PartialEq, Eq)]
pub struct Right {
    pub user: u64,
    pub gained: bool,
    pub mode: Mode,
    pub cards: Vec<u64>,
}

/// What the user may do as before, but at other labels.
#[derive(Clone, Debug, PartialEq, Eq)]
pub struct Kept {
    pub user: u64,
    pub mode: Mode,
    pub cards: Vec<u64>,
    pub old: Vec<u64>,
    pub new: Vec<u64>,
}

/// How many there are of a thing.
#[derive(Clone, Debug, PartialEq, Eq)]
pub struct Count {
    pub kind: Kind,
    pub old: u64,
    pub new: u64,
}

/// The label that a thing has; none where one of the files has no such thing.
#[derive(Clone, Debug, PartialEq, Eq)]
pub struct Labelled {
    pub figure: Figure,
    pub number: u64,
    pub old: Option<u64>,
    pub new: Option<u64>,
}

/// What a thing is related to now, or no longer.
#[derive(Clone, Debug, PartialEq, Eq)]
pub struct Linked {
    pub link: Link,
    pub number: u64,
    pub others: Vec<u64>,
    pub now: bool,
}

/// P lines of a role that are there now, or no longer.
#[derive(Clone, Debug, PartialEq, Eq)]
pub struct Permitted {
    pub role: u64,
    pub mode: Mode,
    pub cards: Vec<u64>,
    pub now: bool,
}

/// The lowest role on a circle of flow, or 0.
#[derive(Clone, Debug, PartialEq, Eq)]
pub struct Circle {
    pub old: u64,
    pub new: u64,
}

impl Change {
    /// Whose rights change, where it is that.
    pub fn user(&self) -> Option<u64> {
        match self {
            Change::Right(right) => Some(right.user),
            Change::Kept(kept) => Some(kept.user),
            _ => None,
        }
    }
}
