//! Orders as sets of pairs.

use std::collections::{HashMap, HashSet};

pub type Pairs = HashSet<(u64, u64)>;

/// What each thing stands before.
pub fn next(pairs: impl IntoIterator<Item = (u64, u64)>) -> HashMap<u64, Vec<u64>> {
    let mut next: HashMap<u64, Vec<u64>> = HashMap::new();
    for (a, b) in pairs {
        next.entry(a).or_default().push(b);
    }
    next
}

fn walk(next: &HashMap<u64, Vec<u64>>, start: u64, here: u64, paths: &mut Pairs) {
    for &there in next.get(&here).into_iter().flatten() {
        if paths.insert((start, there)) {
            walk(next, start, there, paths);
        }
    }
}

/// The paths of one step or more among n things.
pub fn paths(next: &HashMap<u64, Vec<u64>>, n: u64) -> Pairs {
    let mut paths = HashSet::new();
    (1..=n).for_each(|start| walk(next, start, start, &mut paths));
    paths
}

/// The lowest of n things with a path to itself.
pub fn lowest_on_circle(paths: &Pairs, n: u64) -> Option<u64> {
    (1..=n).find(|&a| paths.contains(&(a, a)))
}

/// The bound of a set among n things that is nearest to it, by what stands over what.
pub fn bound(n: u64, set: &[u64], over: impl Fn(u64, u64) -> bool) -> Option<u64> {
    let bounds: Vec<u64> = (1..=n)
        .filter(|&b| set.iter().all(|&a| over(b, a)))
        .collect();
    let nearest = |b: &u64| bounds.iter().all(|&other| over(other, *b));
    bounds.iter().copied().find(nearest)
}
