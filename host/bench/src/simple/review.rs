//! The review calls.

use super::{Level, Simple, READ};
use crate::review::{CountsAnswer, Figure, Review, SessionAnswer, SetAnswer};
use std::collections::HashSet;

/// The figure where all numbers are from 1 to their counts, else 25.
fn figure(numbers: &[(u64, u64)], figure: impl FnOnce() -> u64) -> Figure {
    if !numbers.iter().all(|(n, count)| (1..=*count).contains(n)) {
        return Figure::refused(25);
    }
    Figure {
        number: 0,
        figure: figure(),
    }
}

/// The low and the high half of a set.
fn halves(roles: impl Iterator<Item = u64>) -> (u64, u64) {
    let set = roles.fold(0u128, |set, role| set | 1 << (role - 1));
    (set as u64, (set >> 64) as u64)
}

fn refused_set(number: u64) -> SetAnswer {
    SetAnswer {
        number,
        ..SetAnswer::default()
    }
}

impl Simple {
    /// Whether there is a way up from one role to another by the S lines.
    fn has_senior(&self, role: u64, senior: u64, seen: &mut HashSet<u64>) -> bool {
        if role == senior {
            return true;
        }
        if !seen.insert(role) {
            return false;
        }
        let mut next = self.policy.seniors.get(&role).into_iter().flatten();
        next.any(|&over| self.has_senior(over, senior, seen))
    }
}

impl Review for Simple {
    fn counts_of(&self) -> CountsAnswer {
        CountsAnswer {
            number: 0,
            labels: self.policy.labels,
            roles: self.policy.roles,
            users: self.policy.users,
            cards: self.policy.cards,
        }
    }

    fn session_at(&self, place: u64) -> SessionAnswer {
        let mut answer = SessionAnswer::default();
        match self.sessions.get(&place) {
            _ if !(1..=64).contains(&place) => answer.number = 22,
            None => answer.number = 24,
            Some(session) => {
                (answer.user, answer.label) = (session.user, session.label);
                (answer.low, answer.high) = halves(session.roles.iter().copied());
            }
        }
        answer
    }

    fn clearance(&self, user: u64) -> Figure {
        figure(&[(user, self.policy.users)], || {
            self.policy.clearances[&user]
        })
    }

    fn card_label(&self, card: u64) -> Figure {
        figure(&[(card, self.policy.cards)], || {
            self.policy.card_labels[&card]
        })
    }

    fn level(&self, role: u64, mode: u64) -> Figure {
        let levels = match mode {
            READ => &self.policy.read_levels,
            _ => &self.policy.write_levels,
        };
        figure(&[(role, self.policy.roles), (mode, 2)], || {
            match levels[&role] {
                Level::Free => 0,
                Level::At(label) => label,
                Level::Undefined => 99,
            }
        })
    }

    fn dominates(&self, a: u64, b: u64) -> Figure {
        let labels = self.policy.labels;
        figure(&[(a, labels), (b, labels)], || {
            self.policy.dominates(a, b).into()
        })
    }

    fn senior(&self, r: u64, q: u64) -> Figure {
        let roles = self.policy.roles;
        figure(&[(r, roles), (q, roles)], || {
            self.has_senior(q, r, &mut HashSet::new()).into()
        })
    }

    fn assigned(&self, user: u64, role: u64) -> Figure {
        figure(
            &[(user, self.policy.users), (role, self.policy.roles)],
            || self.policy.assignments.contains(&(user, role)).into(),
        )
    }

    fn takable(&self, user: u64, label: u64) -> SetAnswer {
        let policy = &self.policy;
        if !(1..=policy.users).contains(&user) || !(1..=policy.labels).contains(&label) {
            return refused_set(25);
        }
        if !policy.dominates(policy.clearances[&user], label) {
            return refused_set(26);
        }
        let may = |&role: &u64| {
            policy.entitled(user, role, &mut HashSet::new()) && policy.fitting(label, role)
        };
        let (low, high) = halves((1..=policy.roles).filter(may));
        SetAnswer {
            number: 0,
            low,
            high,
        }
    }

    fn gives(&self, (low, high): (u64, u64), label: u64, card: u64, mode: u64) -> Figure {
        let policy = &self.policy;
        let set = u128::from(high) << 64 | u128::from(low);
        let gives = |role: u64| {
            set >> (role - 1) & 1 == 1 && policy.permissions.contains(&(role, card, mode))
        };
        let numbers = [(label, policy.labels), (card, policy.cards), (mode, 2)];
        figure(&numbers, || (1..=policy.roles).any(gives).into())
    }
}
