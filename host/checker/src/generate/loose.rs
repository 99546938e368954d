//! Loose files: well-formed lines in order, the rest left to chance.

use super::arrange;
use crate::check::{Counts, RoleFile, READ, WRITE};
use crate::random::Random;

/// A small file whose lines are in order and in range, but not arranged to
/// mean anything good. Most come to 0 or to 6 and above.
pub fn loose(random: &mut Random) -> RoleFile {
    let scale = random.pick(&[3, 4, 4, 5, 6, 9]);
    let counts = Counts {
        labels: random.between(1, scale),
        roles: random.below(scale + 1),
        users: random.below(scale + 1),
        cards: random.below(scale + 2),
    };
    let mut file = RoleFile {
        counts,
        ..RoleFile::default()
    };
    add_loose_orders(random, &mut file);
    add_loose_labels(random, &mut file);
    if counts.roles > 0 && counts.cards > 0 {
        for _ in 0..random.below(scale * 3) {
            file.permissions.push((
                random.between(1, counts.roles),
                random.between(1, counts.cards),
                random.between(READ, WRITE),
            ));
        }
    }
    if counts.users > 0 && counts.roles > 0 {
        let most = random.below(scale * 2);
        for _ in 0..random.below(most + 1) {
            file.assignments.push((
                random.between(1, counts.users),
                random.between(1, counts.roles),
            ));
        }
    }
    arrange(&mut file);
    file
}

/// D and S lines. Most orders lead from lower to higher numbers or the other
/// way.
fn add_loose_orders(random: &mut Random, file: &mut RoleFile) {
    let Counts { labels, roles, .. } = file.counts;
    let turned = random.percent(50);
    let wild = random.pick(&[0, 0, 0, 5, 30]);
    let pairs = |random: &mut Random, size: usize, most: usize| {
        let mut pairs = Vec::new();
        for _ in 0..random.below(most + 1) {
            let (one, other) = (random.between(1, size), random.between(1, size));
            let (low, high) = (one.min(other), one.max(other));
            if random.percent(wild) {
                pairs.push((one, other));
            } else if low != high {
                pairs.push(if turned { (low, high) } else { (high, low) });
            }
        }
        pairs
    };
    file.dominance = pairs(random, labels, labels * 3);
    if random.percent(60) {
        // A top makes least upper bounds more likely.
        let top = if turned { 1 } else { labels };
        let others = (1..=labels).filter(|&label| label != top);
        file.dominance.extend(others.map(|label| (top, label)));
    }
    if roles > 0 {
        file.seniority = pairs(random, roles, roles + 2);
    }
}

/// U and O lines; in some files a user or card may have none or two.
fn add_loose_labels(random: &mut Random, file: &mut RoleFile) {
    let counts = file.counts;
    let careless = random.pick(&[0, 0, 0, 10]);
    for (count, lines) in [
        (counts.users, &mut file.clearances),
        (counts.cards, &mut file.card_labels),
    ] {
        for thing in 1..=count {
            let times = if random.percent(careless) {
                random.below(3)
            } else {
                1
            };
            for _ in 0..times {
                lines.push((thing, random.between(1, counts.labels)));
            }
        }
    }
}
