//! The load, and the numbers 11 to 16.

use super::file::{labels, lines, numbers, pairs};
use super::order::{bound, lowest_on_circle, next, paths, Pairs};
use super::{levels, Level, Policy};
use crate::verdict::{refused, Verdict};
use std::collections::{HashMap, HashSet};

/// 11 and 12, or dominance.
fn dominance(pairs: Vec<(u64, u64)>, n: u64) -> Result<Pairs, Verdict> {
    let mut paths = paths(&next(pairs), n);
    if let Some(label) = lowest_on_circle(&paths, n) {
        return Err(refused(11, label as usize, 0));
    }
    paths.extend((1..=n).map(|label| (label, label)));
    for a in 1..=n {
        for b in a + 1..=n {
            if bound(n, &[a, b], |x, y| paths.contains(&(x, y))).is_none() {
                return Err(refused(12, a as usize, b as usize));
            }
        }
    }
    Ok(paths)
}

/// 13, or the seniors of each role by the S lines.
fn seniors(pairs: Vec<(u64, u64)>, n: u64) -> Result<HashMap<u64, Vec<u64>>, Verdict> {
    let seniors = next(pairs.into_iter().map(|(senior, junior)| (junior, senior)));
    match lowest_on_circle(&paths(&seniors, n), n) {
        Some(role) => Err(refused(13, role as usize, 0)),
        None => Ok(seniors),
    }
}

impl Policy {
    /// Gives a permission to a role and to its seniors.
    fn grant(&mut self, role: u64, card: u64, mode: u64) {
        if self.permissions.insert((role, card, mode)) {
            for senior in self.seniors.get(&role).cloned().unwrap_or_default() {
                self.grant(senior, card, mode);
            }
        }
    }

    pub fn dominates(&self, a: u64, b: u64) -> bool {
        self.dominance.contains(&(a, b))
    }

    /// 14 to 16 for an assignment.
    fn judge(&self, user: u64, role: u64) -> Result<(), Verdict> {
        let clearance = self.clearances[&user];
        let refusal = |number| Err(refused(number, user as usize, role as usize));
        match (self.write_levels[&role], self.read_levels[&role]) {
            (Level::Undefined, _) => refusal(14),
            (_, Level::At(read)) if !self.dominates(clearance, read) => refusal(15),
            _ if !(1..=self.labels).any(|y| self.serves(y, clearance, role)) => refusal(16),
            _ => Ok(()),
        }
    }

    /// Whether a label is dominated by the clearance and lies at or above the r-level and at or below the w-level.
    fn serves(&self, label: u64, clearance: u64, role: u64) -> bool {
        let over = |level| !matches!(level, Level::At(read) if !self.dominates(label, read));
        let under = |level| !matches!(level, Level::At(write) if !self.dominates(write, label));
        self.dominates(clearance, label)
            && over(self.read_levels[&role])
            && under(self.write_levels[&role])
    }
}

/// Checks a role file: a refusal, or what it says.
pub fn load(file: &[u8]) -> Result<Policy, Verdict> {
    let lines = lines(file)?;
    let counts = numbers(&lines, 'H').next().expect("line 1 has the counts");
    let [n, roles, users, cards] = [0, 1, 2, 3].map(|i| counts[i]);
    let clearances = labels(&lines, 'U', users, 1)?;
    let card_labels = labels(&lines, 'O', cards, 2)?;
    let mut policy = Policy {
        labels: n,
        roles,
        users,
        cards,
        dominance: dominance(pairs(&lines, 'D'), n)?,
        seniors: seniors(pairs(&lines, 'S'), roles)?,
        clearances,
        card_labels: HashMap::new(),
        permissions: HashSet::new(),
        read_levels: HashMap::new(),
        write_levels: HashMap::new(),
        assignments: pairs(&lines, 'A').into_iter().collect(),
    };
    for line in numbers(&lines, 'P') {
        policy.grant(line[0], line[1], line[2]);
    }
    levels::put_levels(&mut policy, &card_labels);
    policy.card_labels = card_labels;
    for (user, role) in pairs(&lines, 'A') {
        policy.judge(user, role)?;
    }
    Ok(policy)
}
