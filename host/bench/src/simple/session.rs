//! The session calls.

use super::{Level, Policy, Session, Simple, READ, WRITE};
use crate::monitor::{Figure, Monitor};
use std::collections::{HashMap, HashSet};

/// A refusal is its number.
type Outcome = Result<(), u64>;

fn number(outcome: Outcome) -> u64 {
    outcome.err().unwrap_or(0)
}

fn require(holds: bool, number: u64) -> Outcome {
    holds.then_some(()).ok_or(number)
}

fn at_place(sessions: &mut HashMap<u64, Session>, place: u64) -> Result<&mut Session, u64> {
    require((1..=64).contains(&place), 22)?;
    sessions.get_mut(&place).ok_or(24)
}

impl Policy {
    /// Whether the user is assigned to the role or to a senior of it that is not seen yet.
    pub fn entitled(&self, user: u64, role: u64, seen: &mut HashSet<u64>) -> bool {
        if !seen.insert(role) {
            return false;
        }
        let mut seniors = self.seniors.get(&role).into_iter().flatten();
        self.assignments.contains(&(user, role))
            || seniors.any(|&senior| self.entitled(user, senior, seen))
    }

    /// Whether the levels of the role allow it at the label.
    pub fn fitting(&self, label: u64, role: u64) -> bool {
        let dominates = |a, b| match (a, b) {
            (Level::At(a), Level::At(b)) => self.dominates(a, b),
            (Level::Undefined, _) | (_, Level::Undefined) => false,
            _ => true,
        };
        let label = Level::At(label);
        dominates(label, self.read_levels[&role]) && dominates(self.write_levels[&role], label)
    }
}

impl Simple {
    fn try_open(&mut self, place: u64, user: u64, label: u64) -> Outcome {
        let policy = &self.policy;
        require((1..=64).contains(&place), 22)?;
        require(!self.sessions.contains_key(&place), 23)?;
        require((1..=policy.users).contains(&user), 25)?;
        require((1..=policy.labels).contains(&label), 25)?;
        require(policy.dominates(policy.clearances[&user], label), 26)?;
        let roles = HashSet::new();
        self.sessions.insert(place, Session { user, label, roles });
        Ok(())
    }

    fn try_close(&mut self, place: u64) -> Outcome {
        at_place(&mut self.sessions, place)?;
        self.sessions.remove(&place);
        Ok(())
    }

    fn try_take(&mut self, place: u64, role: u64) -> Outcome {
        let session = at_place(&mut self.sessions, place)?;
        let policy = &self.policy;
        require((1..=policy.roles).contains(&role), 25)?;
        require(policy.entitled(session.user, role, &mut HashSet::new()), 27)?;
        require(policy.fitting(session.label, role), 28)?;
        session.roles.insert(role);
        Ok(())
    }

    fn try_drop(&mut self, place: u64, role: u64) -> Outcome {
        let session = at_place(&mut self.sessions, place)?;
        require((1..=self.policy.roles).contains(&role), 25)?;
        session.roles.remove(&role);
        Ok(())
    }

    /// The outcome of a read or a write of n bytes.
    fn try_part(&self, mode: u64, place: u64, card: u64, offset: u64, n: u64) -> Outcome {
        require((1..=64).contains(&place), 22)?;
        let session = self.sessions.get(&place).ok_or(24u64)?;
        let policy = &self.policy;
        require((1..=policy.cards).contains(&card), 25)?;
        let gives = |&role: &u64| policy.permissions.contains(&(role, card, mode));
        require(session.roles.iter().any(gives), 29)?;
        require(offset.checked_add(n).is_some_and(|end| end <= 64), 30)?;
        require(self.store.len() as u64 >= 64 * policy.cards, 31)
    }
}

impl Monitor for Simple {
    fn open(&mut self, place: u64, user: u64, label: u64) -> u64 {
        number(self.try_open(place, user, label))
    }

    fn close(&mut self, place: u64) -> u64 {
        number(self.try_close(place))
    }

    fn take(&mut self, place: u64, role: u64) -> u64 {
        number(self.try_take(place, role))
    }

    fn drop(&mut self, place: u64, role: u64) -> u64 {
        number(self.try_drop(place, role))
    }

    fn read_number(&self, place: u64, card: u64, offset: u64, length: u64) -> u64 {
        number(self.try_part(READ, place, card, offset, length))
    }

    fn write(&mut self, place: u64, card: u64, offset: u64, bytes: &[u8]) -> u64 {
        let outcome = self.try_part(WRITE, place, card, offset, bytes.len() as u64);
        if outcome.is_ok() {
            let at = (64 * (card - 1) + offset) as usize;
            self.store[at..at + bytes.len()].copy_from_slice(bytes);
        }
        number(outcome)
    }

    fn flows(&self, from: u64, to: u64) -> Figure {
        self.policy.flows(from, to)
    }

    fn circle(&self) -> Figure {
        self.policy.circle()
    }
}
