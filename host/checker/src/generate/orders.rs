//! Orders of labels and of roles that are accepted.

use crate::order::Order;
use crate::random::Random;
use std::collections::BTreeSet;

/// An order while it is made: `over[a][b]` where a dominates b, from 0.
type Table = Vec<Vec<bool>>;

fn table(size: usize, over: impl Fn(usize, usize) -> bool) -> Table {
    (0..size)
        .map(|upper| (0..size).map(|lower| over(upper, lower)).collect())
        .collect()
}

/// D lines of an order of this many labels in which every two have a least
/// upper bound; the labels' numbers are shuffled.
pub(super) fn label_order(random: &mut Random, labels: usize) -> Vec<(usize, usize)> {
    let mut over = match random.below(7) {
        0 => chain(labels),
        1 => product_of_chains(random, labels),
        2 => power_set(labels),
        3 => tree_with_top(random, labels),
        4 => family_closed_under_union(random, labels),
        5 => random_order_with_top(random, labels),
        _ => top_over_all(labels),
    };
    let style = random.below(4);
    while over.len() < labels {
        grow(random, &mut over, style);
    }
    let extra = random.pick(&[0, 0, 15, 100]);
    let names = random.shuffled(labels);
    let mut pairs = Vec::new();
    for upper in 0..labels {
        for lower in 0..labels {
            if upper == lower || !over[upper][lower] {
                continue;
            }
            let covers = !(0..labels).any(|between| {
                between != upper && between != lower && over[upper][between] && over[between][lower]
            });
            if covers || random.percent(extra) {
                pairs.push((names[upper], names[lower]));
            }
        }
    }
    pairs.sort_unstable();
    pairs
}

fn chain(labels: usize) -> Table {
    table(labels, |upper, lower| upper >= lower)
}

fn top_over_all(labels: usize) -> Table {
    table(labels, |upper, lower| upper == lower || upper == 0)
}

/// Every combination of a place in each of two or three chains.
fn product_of_chains(random: &mut Random, labels: usize) -> Table {
    let first = random.between(1, labels.min(8));
    let second = random.between(1, (labels / first).max(1));
    let third = (labels / (first * second)).max(1);
    let places = |thing: usize| {
        [
            thing % first,
            thing / first % second,
            thing / (first * second),
        ]
    };
    table(first * second * third, |upper, lower| {
        let (upper, lower) = (places(upper), places(lower));
        (0..3).all(|index| upper[index] >= lower[index])
    })
}

/// The subsets of the largest set that has no more than this many.
fn power_set(labels: usize) -> Table {
    let mut subsets = 1;
    while subsets * 2 <= labels {
        subsets *= 2;
    }
    table(subsets, |upper, lower| upper & lower == lower)
}

/// Each label but the first has one label directly over it.
fn tree_with_top(random: &mut Random, labels: usize) -> Table {
    let mut over = vec![vec![true]];
    let reach = random.pick(&[1, 2, 4, 32]);
    while over.len() < labels {
        let low = over.len().saturating_sub(reach);
        let parent = random.between(low, over.len() - 1);
        add_below(&mut over, parent);
    }
    over
}

/// Random sets and all unions of them: the least upper bound is the union.
fn family_closed_under_union(random: &mut Random, labels: usize) -> Table {
    let things = random.between(2, 7);
    let mut family: BTreeSet<usize> = BTreeSet::from([random.below(1 << things)]);
    for _ in 0..12 {
        let set = random.below(1 << things);
        let mut wider = family.clone();
        wider.insert(set);
        wider.extend(family.iter().map(|other| other | set));
        if wider.len() <= labels {
            family = wider;
        }
    }
    let family: Vec<usize> = family.into_iter().collect();
    table(family.len(), |upper, lower| {
        family[upper] & family[lower] == family[lower]
    })
}

/// A random order with a top, taken where it has the bounds by luck.
fn random_order_with_top(random: &mut Random, labels: usize) -> Table {
    for _ in 0..8 {
        let size = random.between(1, labels.min(12));
        let chance = random.between(10, 60);
        let mut pairs = Vec::new();
        for lower in 1..=size {
            for upper in lower + 1..=size {
                if upper == size || random.percent(chance) {
                    pairs.push((upper, lower));
                }
            }
        }
        let order = Order::closure(size, &pairs);
        if order.first_pair_without_bound().is_none() {
            return table(size, |upper, lower| order.over(upper + 1, lower + 1));
        }
    }
    top_over_all(labels.min(5))
}

/// Adds one label so that every two keep a least upper bound.
fn grow(random: &mut Random, over: &mut Table, style: usize) {
    let parent = random.below(over.len());
    let step = if style == 3 { random.below(4) } else { style };
    let size = over.len();
    match step {
        1 => add_above(over, parent),
        // Over all others, or under them.
        2 if random.percent(50) => add(over, vec![true; size], vec![false; size]),
        2 => add(over, vec![false; size], vec![true; size]),
        _ => add_below(over, parent),
    }
}

/// Adds a label: `under` marks what it dominates, `above` what dominates it.
fn add(over: &mut Table, under: Vec<bool>, above: Vec<bool>) {
    for (row, mark) in over.iter_mut().zip(above) {
        row.push(mark);
    }
    let mut row = under;
    row.push(true);
    over.push(row);
}

/// A new label right below `parent` with nothing below it.
fn add_below(over: &mut Table, parent: usize) {
    let above = over.iter().map(|row| row[parent]).collect();
    let size = over.len();
    add(over, vec![false; size], above);
}

/// A new label right above `parent`, below all that stood above it.
fn add_above(over: &mut Table, parent: usize) {
    let above = over
        .iter()
        .enumerate()
        .map(|(label, row)| label != parent && row[parent])
        .collect();
    let under = over[parent].clone();
    add(over, under, above);
}

/// S lines without a circle, at most this many.
pub(super) fn role_seniority(
    random: &mut Random,
    roles: usize,
    most: usize,
) -> Vec<(usize, usize)> {
    if roles < 2 || most == 0 {
        return Vec::new();
    }
    let names = random.shuffled(roles);
    let mut places = Vec::new();
    match random.below(6) {
        // No seniority at all.
        0 => {}
        // One chain with gaps.
        1 => places.extend(
            (1..roles)
                .filter(|_| random.percent(85))
                .map(|senior| (senior, senior - 1)),
        ),
        // A tree downwards or upwards.
        2 => places.extend((1..roles).map(|senior| (senior, random.below(senior)))),
        3 => places.extend((1..roles).map(|junior| (roles - 1 - random.below(junior), junior))),
        4 => places = five_layers(random, roles),
        // Anything that leads downwards.
        _ => {
            for _ in 0..random.below(roles * 2) {
                let senior = random.between(1, roles - 1);
                places.push((senior, random.below(senior)));
            }
        }
    }
    random.shuffle(&mut places);
    let pairs: BTreeSet<(usize, usize)> = places
        .into_iter()
        .filter(|(senior, junior)| senior > junior)
        .take(most)
        .map(|(senior, junior)| (names[senior], names[junior]))
        .collect();
    pairs.into_iter().collect()
}

/// Each role is senior to some of the layer below it.
fn five_layers(random: &mut Random, roles: usize) -> Vec<(usize, usize)> {
    let width = roles.div_ceil(5);
    let mut places = Vec::new();
    for senior in width..roles {
        let layer = senior / width;
        for _ in 0..random.between(1, 3) {
            places.push((senior, (layer - 1) * width + random.below(width)));
        }
    }
    places
}
