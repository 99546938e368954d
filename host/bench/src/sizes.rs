//! Role files of any size, all of one form.

use second_checker::check::{Counts, RoleFile, READ, WRITE};
use second_checker::generate::lines_of;

/// How many lines a file has, and its counts but that of labels, which is 32.
#[derive(Clone, Copy)]
pub struct Size {
    pub lines: usize,
    pub roles: usize,
    pub users: usize,
    pub cards: usize,
}

/// The largest counts and 2,900 lines.
pub const LARGEST: Size = Size {
    lines: 2900,
    roles: 128,
    users: 256,
    cards: 512,
};

/// Labels 1 to 28 are a tree that grows upward, 29 is over its leaves, 31 and 32 over 29, and 30
/// over both.
fn dominance() -> Vec<(usize, usize)> {
    let mut lines: Vec<_> = (2..=28).map(|a| (a, a / 2)).collect();
    lines.extend((15..=28).map(|leaf| (29, leaf)));
    lines.extend([(30, 31), (30, 32), (31, 29), (32, 29)]);
    lines
}

impl Size {
    /// The file: accepted, for roles read in the tree of labels and write above it, and every user is cleared
    /// to 29. Permissions are the lines that the other letters leave.
    pub fn file(self) -> RoleFile {
        let mut file = RoleFile {
            counts: Counts {
                labels: 32,
                roles: self.roles,
                users: self.users,
                cards: self.cards,
            },
            dominance: dominance(),
            seniority: self.seniority(),
            clearances: (1..=self.users).map(|u| (u, 29)).collect(),
            card_labels: (1..=self.cards).map(|o| (o, self.label(o))).collect(),
            permissions: Vec::new(),
            assignments: self.assignments(),
        };
        file.permissions = self.permissions(self.lines - lines_of(&file));
        assert_eq!(lines_of(&file), self.lines);
        file
    }

    /// A chain with shortcuts.
    fn seniority(self) -> Vec<(usize, usize)> {
        let mut lines: Vec<_> = (2..=self.roles).map(|r| (r, r - 1)).collect();
        lines.extend((3..=self.roles).map(|r| (r, r / 2)));
        lines.sort_unstable();
        lines
    }

    /// How many cards, the last ones, are written; the others are read.
    fn written(self) -> usize {
        self.cards / 8
    }

    fn label(self, card: usize) -> usize {
        if card <= self.cards - self.written() {
            1 + card % 28
        } else {
            29 + card % 4
        }
    }

    /// So many lines, at most three of a role for writing and the others for reading.
    fn permissions(self, count: usize) -> Vec<(usize, usize, usize)> {
        let written = self.written();
        let read = self.cards - written;
        let writes = written.min(3);
        let reads = count - writes * self.roles;
        let step = read / reads.div_ceil(self.roles);
        let mut lines = Vec::new();
        for r in 1..=self.roles {
            let reads = (reads + self.roles - r) / self.roles;
            lines.extend((0..reads).map(|j| (r, 1 + (37 * r + step * j) % read, READ)));
            let step = written / writes;
            lines.extend((0..writes).map(|j| (r, 1 + read + (5 * r + step * j) % written, WRITE)));
        }
        lines.sort_unstable();
        lines
    }

    /// Two roles for each user.
    fn assignments(self) -> Vec<(usize, usize)> {
        let role = |turn: usize| 1 + turn % self.roles;
        let both = |u| [(u, role(3 * u)), (u, role(3 * u + self.roles / 2))];
        let mut lines: Vec<_> = (1..=self.users).flat_map(both).collect();
        lines.sort_unstable();
        lines
    }
}
