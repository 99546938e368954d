//! Role flow, by what makes it.

use crate::cards::Cards;
use crate::monitor::{Mode, Policy, Roles};
use crate::relation::Relation;

/// What makes a circle of flow.
#[derive(Clone, Copy, Debug, PartialEq, Eq)]
pub enum Circle {
    /// Each role on it may read what the one before it may write.
    Reading,
    /// It takes roles that may write one card.
    SharedWriting,
}

impl Circle {
    pub fn words(self) -> &'static str {
        match self {
            Circle::Reading => "reading",
            Circle::SharedWriting => "shared writing",
        }
    }
}

pub struct Flow {
    /// From a role to each, itself too, that may read what it may write.
    pub reading: Relation,
    /// From a role to each, itself too, that may write what it may write.
    pub sharing: Relation,
    /// All that flow by reading leads to, in one step or more.
    by_reading: Relation,
    /// All that flow leads to.
    leads: Relation,
}

impl Flow {
    pub fn of(policy: &Policy) -> Flow {
        let roles = policy.counts().roles;
        let (reads, writes) = (scopes(policy, Mode::Read), scopes(policy, Mode::Write));
        let meeting = |others: &[Cards]| {
            let cards = |of: &[Cards], role: u64| of[role as usize - 1];
            Relation::of(roles, |from, to| {
                cards(&writes, from).meets(&cards(others, to))
            })
        };
        let (reading, sharing) = (meeting(&reads), meeting(&writes));
        Flow {
            by_reading: reading.strict().paths(),
            leads: Relation::of(roles, |from, to| policy.flows(from, to)).paths(),
            reading,
            sharing,
        }
    }

    /// The circle that a flow from one role to another lies on; of a role and itself, the role's.
    pub fn circle(&self, from: u64, to: u64) -> Option<Circle> {
        if self.by_reading.holds(to, from) {
            Some(Circle::Reading)
        } else if self.leads.holds(to, from) {
            Some(Circle::SharedWriting)
        } else {
            None
        }
    }

    /// The circle of two that a role and its senior are where the role may write, which its senior then
    /// may too.
    pub fn circle_of_two(&self, junior: u64, senior: u64) -> Option<Circle> {
        let both_ways = |flow: &Relation| flow.holds(junior, senior) && flow.holds(senior, junior);
        if both_ways(&self.reading) {
            Some(Circle::Reading)
        } else if both_ways(&self.sharing) {
            Some(Circle::SharedWriting)
        } else {
            None
        }
    }
}

/// By role from 1, the cards that it may use in this mode, itself or by a junior.
fn scopes(policy: &Policy, mode: Mode) -> Vec<Cards> {
    let counts = policy.counts();
    let gives = |role: u64, card: u64| {
        let label = policy.card_label(card);
        policy.gives(Roles::one(role), label, card, mode)
    };
    let cards = Cards::first(counts.cards);
    let scope = |role: u64| cards.filtered(|card| gives(role, card));
    (1..=counts.roles).map(scope).collect()
}
