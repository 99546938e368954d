//! Graphs of things numbered from 1, their circles, their closures, and the
//! bounds in an order. Used for labels, for roles and for role flow.

use std::collections::BTreeSet;
use std::ops::RangeInclusive;

/// The things reached from `start` by one step or more, found by search.
pub fn reached(steps: &[Vec<usize>], start: usize) -> BTreeSet<usize> {
    let mut found = BTreeSet::new();
    let mut waiting = vec![start];
    while let Some(thing) = waiting.pop() {
        for &next in &steps[thing] {
            if found.insert(next) {
                waiting.push(next);
            }
        }
    }
    found
}

/// For each thing (from 1 to `size`), where one step leads: from the first to
/// the second thing of a pair.
pub fn steps(size: usize, pairs: &[(usize, usize)]) -> Vec<Vec<usize>> {
    let mut steps = vec![Vec::new(); size + 1];
    for &(from, to) in pairs {
        steps[from].push(to);
    }
    steps
}

/// The lowest thing on a circle: one that is reached from itself by one step
/// or more. A pair (a, a) is a circle too.
pub fn lowest_on_circle(size: usize, pairs: &[(usize, usize)]) -> Option<usize> {
    let steps = steps(size, pairs);
    (1..=size).find(|&thing| reached(&steps, thing).contains(&thing))
}

/// The reflexive, transitive closure of pairs over things 1 to `size`.
#[derive(Clone, Debug)]
pub struct Order {
    size: usize,
    /// `over[a][b]`: a dominates b, or a is senior to b; both from 1.
    over: Vec<Vec<bool>>,
}

impl Order {
    /// "the reflexive, transitive closure of the D lines, and seniority that
    /// of the S lines"
    pub fn closure(size: usize, pairs: &[(usize, usize)]) -> Order {
        let steps = steps(size, pairs);
        let mut over = vec![vec![false; size + 1]; size + 1];
        for (upper, row) in over.iter_mut().enumerate().skip(1) {
            row[upper] = true;
            for lower in reached(&steps, upper) {
                row[lower] = true;
            }
        }
        Order { size, over }
    }

    pub fn things(&self) -> RangeInclusive<usize> {
        1..=self.size
    }

    /// Whether `upper` stands over `lower` or is the same thing.
    pub fn over(&self, upper: usize, lower: usize) -> bool {
        self.over[upper][lower]
    }

    /// The thing over all of `things` that every other such thing is over.
    pub fn least_upper_bound(&self, things: &BTreeSet<usize>) -> Option<usize> {
        self.nearest_bound(things, |upper, lower| self.over(upper, lower))
    }

    /// The thing under all of `things` that is over every other such thing.
    pub fn greatest_lower_bound(&self, things: &BTreeSet<usize>) -> Option<usize> {
        self.nearest_bound(things, |lower, upper| self.over(upper, lower))
    }

    /// The thing beyond all of `things` that every other such thing is beyond.
    fn nearest_bound(
        &self,
        things: &BTreeSet<usize>,
        beyond: impl Fn(usize, usize) -> bool,
    ) -> Option<usize> {
        let bounds: Vec<usize> = self
            .things()
            .filter(|&bound| things.iter().all(|&thing| beyond(bound, thing)))
            .collect();
        bounds
            .iter()
            .copied()
            .find(|&nearest| bounds.iter().all(|&bound| beyond(bound, nearest)))
    }

    /// "Every two labels must have a least upper bound": the pair without one
    /// "that comes first by its lower, then by its higher label".
    pub fn first_pair_without_bound(&self) -> Option<(usize, usize)> {
        for lower in self.things() {
            for higher in lower + 1..=self.size {
                if self
                    .least_upper_bound(&BTreeSet::from([lower, higher]))
                    .is_none()
                {
                    return Some((lower, higher));
                }
            }
        }
        None
    }
}
