//! What answers tell, as far as a test must have seen it, and how often it was
//! seen.

use crate::call::{Answer, Kind};
use second_checker::differential::add_counts;
use std::collections::BTreeMap;

const YES_OR_NO: &[&str] = &["1", "0"];
const ROLES: &[&str] = &["no roles", "roles up to 64", "roles above 64"];

/// All that answers of this kind can tell; nothing of calls that answer with a
/// number alone.
pub fn outcomes(kind: Kind) -> &'static [&'static str] {
    match kind {
        Kind::Flows | Kind::Can | Kind::Dominates | Kind::Senior | Kind::Assigned | Kind::Gives => {
            YES_OR_NO
        }
        Kind::Circle => &["a role", "none"],
        Kind::Counts => &["counts"],
        Kind::Clearance | Kind::CardLabel => &["a label"],
        Kind::Level => &["free", "undefined", "a label"],
        Kind::Session | Kind::Takable => ROLES,
        _ => &[],
    }
}

/// What this answer tells; nothing on a refusal.
pub fn outcome(kind: Kind, answer: Answer) -> Option<&'static str> {
    if answer.number() != 0 {
        return None;
    }
    match (kind, answer) {
        (_, Answer::Counts(_)) => Some("counts"),
        (_, Answer::Session(session)) => Some(roles(session.low, session.high)),
        (_, Answer::Set(set)) => Some(roles(set.low, set.high)),
        (Kind::Level, Answer::Figure(level)) => Some(match level.figure {
            0 => "free",
            99 => "undefined",
            _ => "a label",
        }),
        (Kind::Clearance | Kind::CardLabel, Answer::Figure(_)) => Some("a label"),
        (Kind::Circle, Answer::Figure(role)) => {
            Some(if role.figure > 0 { "a role" } else { "none" })
        }
        (_, Answer::Figure(figure)) => Some(if figure.figure == 1 { "1" } else { "0" }),
        (_, Answer::Verdict(_) | Answer::Number(_)) => None,
    }
}

fn roles(low: u64, high: u64) -> &'static str {
    match (low, high) {
        (0, 0) => "no roles",
        (_, 0) => "roles up to 64",
        _ => "roles above 64",
    }
}

/// How often each number and each outcome was seen.
#[derive(Default)]
pub struct Seen {
    pub numbers: BTreeMap<(Kind, u64), u64>,
    pub told: BTreeMap<(Kind, &'static str), u64>,
}

impl Seen {
    pub fn count(&mut self, kind: Kind, answer: Answer) {
        *self.numbers.entry((kind, answer.number())).or_default() += 1;
        if let Some(outcome) = outcome(kind, answer) {
            *self.told.entry((kind, outcome)).or_default() += 1;
        }
    }

    pub fn add(&mut self, other: Seen) {
        add_counts(&mut self.numbers, other.numbers);
        add_counts(&mut self.told, other.told);
    }

    /// How often calls of these kinds got a number.
    pub fn number(&self, kinds: &[Kind], number: u64) -> u64 {
        let counts = kinds.iter().map(|&kind| (kind, number));
        counts.filter_map(|key| self.numbers.get(&key)).sum()
    }

    /// What calls of these kinds told less often than so many times, of all
    /// that they can tell.
    pub fn rarely_told(&self, kinds: &[Kind], often: u64) -> Vec<String> {
        let mut rare = Vec::new();
        for &kind in kinds {
            for &outcome in outcomes(kind) {
                if self.told.get(&(kind, outcome)).is_none_or(|&n| n < often) {
                    rare.push(format!("{} {outcome}", kind.name()));
                }
            }
        }
        rare
    }

    /// The counts: a column for each of these calls, a row for each number.
    pub fn columns(&self, kinds: &[Kind]) -> String {
        let mut table = String::from("number    calls");
        for kind in kinds {
            table.push_str(&format!("{:>11}", kind.name()));
        }
        let seen = |number: &u64| self.number(kinds, *number) > 0;
        for number in (0..=31).filter(seen) {
            table.push_str(&format!("\n{number:>6} {:>8}", self.number(kinds, number)));
            for &kind in kinds {
                match self.numbers.get(&(kind, number)) {
                    Some(count) => table.push_str(&format!("{count:>11}")),
                    None => table.push_str("          ."),
                }
            }
        }
        table
    }

    /// How often calls told what.
    pub fn lines(&self) -> String {
        let mut lines = String::new();
        for ((kind, outcome), count) in &self.told {
            lines.push_str(&format!("\n{count:>9} {} {outcome}", kind.name()));
        }
        lines
    }
}
