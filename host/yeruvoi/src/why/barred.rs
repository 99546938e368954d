//! Levels that keep a user from taking a role at a label.

use crate::monitor::{Mode, Policy, Roles, FREE};

/// A level of some roles, and the labels at which it forbids to take them.
#[derive(Debug, PartialEq, Eq)]
pub struct Barred {
    /// Whether it is the r-level or the w-level.
    pub mode: Mode,
    pub level: u64,
    pub roles: Vec<u64>,
    pub labels: Vec<u64>,
}

/// What bars the roles that the user has, among these, at the labels that the user may open beside
/// those that serve. Of a role and a senior of it the role alone is told: what its levels bar, those of
/// the senior bar too. None of them is undefined: that of a role assigned would be, and so refused.
pub fn of(policy: &Policy, user: u64, among: Roles, served: &[u64]) -> Vec<Barred> {
    let counts = policy.counts();
    let opens = |label: &u64| !served.contains(label) && policy.takable(user, *label).is_some();
    let labels: Vec<u64> = (1..=counts.labels).filter(opens).collect();
    let has = |role: &u64| {
        let mut seniors = 1..=counts.roles;
        seniors.any(|senior| policy.assigned(user, senior) && policy.senior(senior, *role))
    };
    let roles = Roles::of(among.iter().filter(has));
    let under = |role: u64, junior: u64| junior != role && policy.senior(role, junior);
    let lowest = |role: &u64| !roles.iter().any(|junior| under(*role, junior));
    let mut all: Vec<Barred> = Vec::new();
    for role in roles.iter().filter(lowest) {
        for barred in Mode::BOTH.map(|mode| by_level(policy, role, mode, &labels)) {
            put(&mut all, barred);
        }
    }
    all
}

/// What a level of one role bars.
fn by_level(policy: &Policy, role: u64, mode: Mode, labels: &[u64]) -> Barred {
    let level = policy.level(role, mode);
    let bars = |&label: &u64| match level {
        FREE => false,
        _ if mode == Mode::Read => !policy.dominates(label, level),
        _ => !policy.dominates(level, label),
    };
    Barred {
        mode,
        level,
        roles: vec![role],
        labels: labels.iter().copied().filter(bars).collect(),
    }
}

/// Puts roles that the same level bars at the same labels together.
fn put(all: &mut Vec<Barred>, one: Barred) {
    let alike = |other: &&mut Barred| {
        (other.mode, other.level, &other.labels) == (one.mode, one.level, &one.labels)
    };
    match all.iter_mut().find(alike) {
        _ if one.labels.is_empty() => {}
        Some(other) => other.roles.extend(one.roles),
        None => all.push(one),
    }
}
