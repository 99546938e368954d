//! Levels of roles.

use super::order::{bound, Pairs};
use super::{Level, Policy, READ, WRITE};
use std::collections::{HashMap, HashSet};

/// The level of each role: the bound of the labels of the cards that it may use in this mode.
fn levels(
    policy: &Policy,
    card_labels: &HashMap<u64, u64>,
    mode: u64,
    over: impl Fn(u64, u64) -> bool,
) -> HashMap<u64, Level> {
    let mut used: HashMap<u64, HashSet<u64>> = HashMap::new();
    for &(role, card, its_mode) in &policy.permissions {
        if its_mode == mode {
            used.entry(role).or_default().insert(card_labels[&card]);
        }
    }
    let level = |role: u64| match used.get(&role) {
        None => Level::Free,
        Some(labels) => {
            let labels: Vec<u64> = labels.iter().copied().collect();
            bound(policy.labels, &labels, &over).map_or(Level::Undefined, Level::At)
        }
    };
    (1..=policy.roles).map(|role| (role, level(role))).collect()
}

/// Works out both levels of each role.
pub fn put_levels(policy: &mut Policy, card_labels: &HashMap<u64, u64>) {
    let dominance: &Pairs = &policy.dominance;
    let over = |a, b| dominance.contains(&(a, b));
    let reads = levels(policy, card_labels, READ, over);
    let writes = levels(policy, card_labels, WRITE, |a, b| over(b, a));
    policy.read_levels = reads;
    policy.write_levels = writes;
}
