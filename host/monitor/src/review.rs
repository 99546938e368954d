//! The review calls as values, to be made on the model and on the library.

use crate::call::{Answer, Kind};
use crate::library;
use monitor_model::Model;

/// A review call with the numbers handed in.
#[derive(Clone, Copy, Debug, PartialEq, Eq)]
pub enum Review {
    Counts,
    Session {
        place: u64,
    },
    Clearance {
        user: u64,
    },
    CardLabel {
        card: u64,
    },
    Level {
        role: u64,
        mode: u64,
    },
    Dominates {
        a: u64,
        b: u64,
    },
    Senior {
        r: u64,
        q: u64,
    },
    Assigned {
        user: u64,
        role: u64,
    },
    Takable {
        user: u64,
        label: u64,
    },
    Gives {
        /// Low and high.
        set: (u64, u64),
        label: u64,
        card: u64,
        mode: u64,
    },
}

impl Review {
    pub fn kind(self) -> Kind {
        match self {
            Review::Counts => Kind::Counts,
            Review::Session { .. } => Kind::Session,
            Review::Clearance { .. } => Kind::Clearance,
            Review::CardLabel { .. } => Kind::CardLabel,
            Review::Level { .. } => Kind::Level,
            Review::Dominates { .. } => Kind::Dominates,
            Review::Senior { .. } => Kind::Senior,
            Review::Assigned { .. } => Kind::Assigned,
            Review::Takable { .. } => Kind::Takable,
            Review::Gives { .. } => Kind::Gives,
        }
    }

    /// The place it names.
    pub fn place(self) -> Option<u64> {
        match self {
            Review::Session { place } => Some(place),
            _ => None,
        }
    }

    /// What the model answers.
    pub fn on_model(self, model: &Model, state: usize) -> Answer {
        match self {
            Review::Counts => Answer::Counts(model.counts_of(state)),
            Review::Session { place } => Answer::Session(model.session_at(state, place)),
            Review::Clearance { user } => Answer::Figure(model.clearance(state, user)),
            Review::CardLabel { card } => Answer::Figure(model.card_label(state, card)),
            Review::Level { role, mode } => Answer::Figure(model.level(state, role, mode)),
            Review::Dominates { a, b } => Answer::Figure(model.dominates(state, a, b)),
            Review::Senior { r, q } => Answer::Figure(model.senior(state, r, q)),
            Review::Assigned { user, role } => Answer::Figure(model.assigned(state, user, role)),
            Review::Takable { user, label } => Answer::Set(model.takable(state, user, label)),
            Review::Gives {
                set,
                label,
                card,
                mode,
            } => Answer::Figure(model.gives(state, set, label, card, mode)),
        }
    }

    /// What the library answers.
    pub fn on_library(self, state: &mut [u8]) -> Answer {
        match self {
            Review::Counts => Answer::Counts(library::counts_of(state)),
            Review::Session { place } => Answer::Session(library::session_at(state, place)),
            Review::Clearance { user } => Answer::Figure(library::clearance(state, user)),
            Review::CardLabel { card } => Answer::Figure(library::card_label(state, card)),
            Review::Level { role, mode } => Answer::Figure(library::level(state, role, mode)),
            Review::Dominates { a, b } => Answer::Figure(library::dominates(state, a, b)),
            Review::Senior { r, q } => Answer::Figure(library::senior(state, r, q)),
            Review::Assigned { user, role } => Answer::Figure(library::assigned(state, user, role)),
            Review::Takable { user, label } => Answer::Set(library::takable(state, user, label)),
            Review::Gives {
                set,
                label,
                card,
                mode,
            } => Answer::Figure(library::gives(state, set, label, card, mode)),
        }
    }
}
