//! The lines of a file by which a user comes to what a role gives.

use crate::lines::{Line, Lines};
use crate::monitor::{Mode, Roles};
use crate::paths::{Steps, Walks};

/// The lines that can be part of a way.
pub struct Ways<'a> {
    /// The user's A lines, each with the walks down from its role.
    assignments: Vec<(Line<'a>, Walks<'a>)>,
    seniority: Steps<'a>,
    /// The P lines of the card and the mode.
    permissions: Vec<Line<'a>>,
}

/// The lines from an assignment of the user down to a permission, past the role that is taken.
pub struct Way<'a> {
    pub taken: u64,
    pub assignment: Line<'a>,
    pub seniority: Vec<Line<'a>>,
    pub permission: Line<'a>,
    /// How many of the S lines lead from the role taken to that of the permission.
    below: usize,
}

impl<'a> Way<'a> {
    /// From the assignment down to the permission.
    pub fn lines(&self) -> impl Iterator<Item = &Line<'a>> {
        let first = std::iter::once(&self.assignment);
        let last = std::iter::once(&self.permission);
        first.chain(&self.seniority).chain(last)
    }

    /// A way with fewer lines is told first, and of these one that takes a role nearer to the
    /// permission.
    fn rank(&self) -> (usize, usize, u64) {
        (self.seniority.len(), self.below, self.taken)
    }
}

impl<'a> Ways<'a> {
    pub fn of(lines: &Lines<'a>, user: u64, card: u64, mode: Mode) -> Ways<'a> {
        let seniority = Steps::of(lines, b'S');
        let permits = |line: &&Line| line.fields[1..3] == [card, mode as u64];
        let assigns = |line: &&Line| line.fields[0] == user;
        let assigned = lines.with(b'A').filter(assigns);
        Ways {
            assignments: assigned
                .map(|line| (*line, seniority.from(line.fields[1])))
                .collect(),
            seniority,
            permissions: lines.with(b'P').filter(permits).copied().collect(),
        }
    }

    /// A shortest way past each of these roles, the one to be told first in front.
    pub fn past(&self, roles: Roles) -> Vec<Way<'a>> {
        let ways = roles.iter().filter_map(|role| self.past_one(role));
        let mut ways: Vec<Way> = ways.collect();
        ways.sort_by_key(Way::rank);
        ways
    }

    /// A shortest way past this role.
    fn past_one(&self, taken: u64) -> Option<Way<'a>> {
        let above = self
            .assignments
            .iter()
            .filter_map(|(line, walks)| Some((*line, descent(line.fields[1], taken, walks)?)));
        let (assignment, mut seniority) = above.min_by_key(|(_, lines)| lines.len())?;
        let walks = self.seniority.from(taken);
        let below = self
            .permissions
            .iter()
            .filter_map(|line| Some((*line, descent(taken, line.fields[0], &walks)?)));
        let (permission, below) = below.min_by_key(|(_, lines)| lines.len())?;
        seniority.extend(&below);
        Some(Way {
            taken,
            assignment,
            seniority,
            permission,
            below: below.len(),
        })
    }
}

/// The lines down from one role to another, none where they are the same.
fn descent<'a>(from: u64, to: u64, walks: &Walks<'a>) -> Option<Vec<Line<'a>>> {
    match from == to {
        true => Some(Vec::new()),
        false => walks.to(to),
    }
}
