//! The flow report.

use super::order::{lowest_on_circle, next, paths};
use super::{Policy, READ, WRITE};
use crate::monitor::Figure;
use std::collections::HashSet;

impl Policy {
    pub fn flows(&self, from: u64, to: u64) -> Figure {
        let roles = 1..=self.roles;
        if !roles.contains(&from) || !roles.contains(&to) {
            return Figure {
                number: 25,
                figure: 0,
            };
        }
        let may = |role, card, mode| self.permissions.contains(&(role, card, mode));
        let passes = |card| may(from, card, WRITE) && (may(to, card, READ) || may(to, card, WRITE));
        Figure {
            number: 0,
            figure: (from != to && (1..=self.cards).any(passes)).into(),
        }
    }

    /// The roles that may use the card in this mode.
    fn roles_with(&self, card: u64, mode: u64) -> Vec<u64> {
        let may = |role: &u64| self.permissions.contains(&(*role, card, mode));
        (1..=self.roles).filter(may).collect()
    }

    pub fn circle(&self) -> Figure {
        let mut flows = HashSet::new();
        for card in 1..=self.cards {
            let writers = self.roles_with(card, WRITE);
            let either = [self.roles_with(card, READ), writers.clone()].concat();
            for writer in writers {
                let others = either.iter().filter(|&&other| other != writer);
                flows.extend(others.map(|&other| (writer, other)));
            }
        }
        let paths = paths(&next(flows), self.roles);
        Figure {
            number: 0,
            figure: lowest_on_circle(&paths, self.roles).unwrap_or(0),
        }
    }
}
