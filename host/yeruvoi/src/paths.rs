//! Walks along the lines of one letter, from the first field to the second:
//! `D a b` leads from label a to label b, `S r q` from role r to role q.

use crate::lines::{Line, Lines};
use std::collections::{BTreeMap, VecDeque};

/// The lines of one letter.
pub struct Steps<'a> {
    lines: Vec<Line<'a>>,
}

/// The walks that start at one thing.
pub struct Walks<'a> {
    start: u64,
    /// For each thing that is reached, the last line of a shortest walk to it.
    last: BTreeMap<u64, Line<'a>>,
}

impl<'a> Steps<'a> {
    pub fn of(lines: &Lines<'a>, letter: u8) -> Steps<'a> {
        Steps {
            lines: lines.with(letter).copied().collect(),
        }
    }

    /// The walks of one line or more that start at a thing.
    pub fn from(&self, start: u64) -> Walks<'a> {
        let mut last = BTreeMap::new();
        let mut waiting = VecDeque::from([start]);
        while let Some(thing) = waiting.pop_front() {
            for line in self.lines.iter().filter(|line| line.fields[0] == thing) {
                last.entry(line.fields[1]).or_insert_with(|| {
                    waiting.push_back(line.fields[1]);
                    *line
                });
            }
        }
        Walks { start, last }
    }
}

impl<'a> Walks<'a> {
    /// Whether a walk of one line or more leads to the thing.
    pub fn reach(&self, thing: u64) -> bool {
        self.last.contains_key(&thing)
    }

    /// The lines of a shortest walk of one line or more to the thing; none
    /// where there is no walk. Back to the start it is a circle.
    pub fn to(&self, thing: u64) -> Option<Vec<Line<'a>>> {
        let mut lines = vec![*self.last.get(&thing)?];
        while lines[lines.len() - 1].fields[0] != self.start {
            lines.push(self.last[&lines[lines.len() - 1].fields[0]]);
        }
        lines.reverse();
        Some(lines)
    }
}

#[cfg(test)]
mod tests {
    use super::*;

    const FILE: &[u8] = b"H    4    0    0    0\n\
        D    1    2          \nD    1    3          \nD    2    4          \n\
        D    3    1          \nD    4    3          \n";

    #[test]
    fn a_shortest_walk_is_found_and_a_circle_leads_back() {
        let steps = Steps::of(&Lines::of(FILE), b'D');
        let numbers = |from, to| -> Option<Vec<usize>> {
            let walk = steps.from(from).to(to)?;
            Some(walk.iter().map(|line| line.number).collect())
        };
        assert_eq!(numbers(1, 4), Some(vec![2, 4]));
        assert_eq!(numbers(1, 1), Some(vec![3, 5]));
        assert_eq!(numbers(4, 2), Some(vec![6, 5, 2]));
        assert_eq!(numbers(1, 5), None);
        assert!(steps.from(3).reach(3) && !steps.from(3).reach(0));
    }

    #[test]
    fn the_shorter_of_two_walks_is_found_though_its_lines_come_first_or_last() {
        for (short, long) in [(2, 3), (3, 2)] {
            let pairs = [(1, 2), (1, 3), (short, 5), (long, 4), (4, 5)];
            let lines = pairs.map(|(from, to)| format!("D{from:>5}{to:>5}          \n"));
            let file = lines.concat();
            let walk = Steps::of(&Lines::of(file.as_bytes()), b'D')
                .from(1)
                .to(5)
                .unwrap();
            assert_eq!(walk.len(), 2);
            assert_eq!(walk[1].fields[..2], [short, 5]);
        }
    }
}
