//! The review calls: what the loaded file says, what a session may take, and
//! who sits at a place. They change nothing.

use crate::answer::{CountsAnswer, Figure, SessionAnswer, SetAnswer};
use crate::{figure, in_range, mode_in_range, Mode, Model};
use second_checker::check::Level;
use std::collections::BTreeSet;

/// "roles held: role r is bit r - 1 of low, or from 65 on bit r - 65 of high"
pub fn halves(roles: &BTreeSet<usize>) -> (u64, u64) {
    let bit = |role: usize| 1u128 << (role - 1);
    let all: u128 = roles.iter().map(|&role| bit(role)).sum();
    (all as u64, (all >> 64) as u64)
}

/// The roles 1 to 128 whose bits are set.
pub fn roles_of(low: u64, high: u64) -> BTreeSet<usize> {
    let is_set = |&role: &usize| match role {
        1..=64 => low >> (role - 1) & 1 == 1,
        _ => high >> (role - 65) & 1 == 1,
    };
    (1..=128).filter(is_set).collect()
}

/// "0 free, 99 undefined"
fn level_figure(level: Level) -> u64 {
    match level {
        Level::Free => 0,
        Level::Label(label) => label as u64,
        Level::Undefined => 99,
    }
}

impl Model {
    /// 21
    pub fn counts_of(&self, state_length: usize) -> CountsAnswer {
        match self.usable(state_length) {
            Err(number) => CountsAnswer {
                number,
                ..CountsAnswer::default()
            },
            Ok(policy) => CountsAnswer {
                number: 0,
                labels: policy.counts.labels as u64,
                roles: policy.counts.roles as u64,
                users: policy.counts.users as u64,
                cards: policy.counts.cards as u64,
            },
        }
    }

    /// 21, 22, 24
    pub fn session_at(&self, state_length: usize, place: u64) -> SessionAnswer {
        match self.in_session(state_length, place) {
            Err(number) => SessionAnswer {
                number,
                ..SessionAnswer::default()
            },
            Ok((_, _, session)) => {
                let (low, high) = halves(&session.roles);
                SessionAnswer {
                    number: 0,
                    user: session.user as u64,
                    label: session.label as u64,
                    low,
                    high,
                }
            }
        }
    }

    /// 21, 25
    pub fn clearance(&self, state_length: usize, user: u64) -> Figure {
        figure(self.usable(state_length).and_then(|policy| {
            let user = in_range(user, policy.counts.users)?;
            Ok(policy.meaning.clearance[user] as u64)
        }))
    }

    /// 21, 25
    pub fn card_label(&self, state_length: usize, card: u64) -> Figure {
        figure(self.usable(state_length).and_then(|policy| {
            let card = in_range(card, policy.counts.cards)?;
            Ok(policy.meaning.card_label[card] as u64)
        }))
    }

    /// 21, 25; "mode 1 r-level, 2 w-level"
    pub fn level(&self, state_length: usize, role: u64, mode: u64) -> Figure {
        figure(self.usable(state_length).and_then(|policy| {
            let role = in_range(role, policy.counts.roles)?;
            let levels = match mode_in_range(mode)? {
                Mode::Read => &policy.meaning.read_level,
                Mode::Write => &policy.meaning.write_level,
            };
            Ok(level_figure(levels[role]))
        }))
    }

    /// 21, 25: whether label a dominates label b or is the same.
    pub fn dominates(&self, state_length: usize, a: u64, b: u64) -> Figure {
        figure(self.usable(state_length).and_then(|policy| {
            let a = in_range(a, policy.counts.labels)?;
            let b = in_range(b, policy.counts.labels)?;
            Ok(policy.meaning.dominance.over(a, b).into())
        }))
    }

    /// 21, 25: whether role r is senior to role q or is the same.
    pub fn senior(&self, state_length: usize, r: u64, q: u64) -> Figure {
        figure(self.usable(state_length).and_then(|policy| {
            let r = in_range(r, policy.counts.roles)?;
            let q = in_range(q, policy.counts.roles)?;
            Ok(policy.meaning.seniority.over(r, q).into())
        }))
    }

    /// 21, 25: whether an A line says so; inheritance doesn't count.
    pub fn assigned(&self, state_length: usize, user: u64, role: u64) -> Figure {
        figure(self.usable(state_length).and_then(|policy| {
            let user = in_range(user, policy.counts.users)?;
            let role = in_range(role, policy.counts.roles)?;
            Ok(policy.assigned.contains(&(user, role)).into())
        }))
    }

    /// 21, 25, 26: "the roles that a session there may take"
    pub fn takable(&self, state_length: usize, user: u64, label: u64) -> SetAnswer {
        match self.taking_all(state_length, user, label) {
            Err(number) => SetAnswer {
                number,
                ..SetAnswer::default()
            },
            Ok(roles) => {
                let (low, high) = halves(&roles);
                SetAnswer {
                    number: 0,
                    low,
                    high,
                }
            }
        }
    }

    fn taking_all(&self, state: usize, user: u64, label: u64) -> Result<BTreeSet<usize>, u64> {
        let policy = self.usable(state)?;
        let user = in_range(user, policy.counts.users)?;
        let label = in_range(label, policy.counts.labels)?;
        if !policy.is_cleared(user, label) {
            return Err(26);
        }
        Ok(policy.roles_to_take(user, label).collect())
    }

    /// 21, 25: "one of these roles gives it to a session at the label"; bits
    /// past the number of roles count for nothing.
    pub fn gives(
        &self,
        state_length: usize,
        (low, high): (u64, u64),
        label: u64,
        card: u64,
        mode: u64,
    ) -> Figure {
        figure(self.usable(state_length).and_then(|policy| {
            in_range(label, policy.counts.labels)?;
            let card = in_range(card, policy.counts.cards)?;
            let mode = mode_in_range(mode)?;
            let mut roles = roles_of(low, high);
            roles.retain(|&role| role <= policy.counts.roles);
            let gives = |&role: &usize| policy.cards(role, mode).contains(&card);
            Ok(roles.iter().any(gives).into())
        }))
    }
}
