//! Accepted files made for their role flow.

use super::accepted::{add_assignments, add_labels};
use super::orders::{label_order, role_seniority};
use super::{arrange, LIMITS};
use crate::check::{Counts, RoleFile, READ, WRITE};
use crate::random::Random;

/// An accepted file whose role flow has few pairs: one ring or none, now and
/// then roles that write one card, or seniors of those that write, and some
/// roles that write only for themselves. The rest is without a circle.
pub fn sparse_flow(random: &mut Random) -> RoleFile {
    let most_roles = random.pick(&[4, 8, 8, 20, 128]);
    let roles = random.between(2, most_roles);
    let names = random.shuffled(roles);
    let flows = few_flows(random, roles);
    let shared = few_shared(random, roles);
    let labels = random.pick(&[1, 1, 2, 5]);
    let home = random.between(1, labels);
    let scatter = random.pick(&[0, 0, 10]);
    let mut file = RoleFile {
        counts: Counts {
            labels,
            roles,
            users: random.below(6),
            cards: flows.len() + shared.len() + random.below(3),
        },
        dominance: label_order(random, labels),
        ..RoleFile::default()
    };
    file.counts.cards = file.counts.cards.min(LIMITS[3]);
    add_labels(random, &mut file, |random| {
        if random.percent(scatter) {
            random.between(1, labels)
        } else {
            home
        }
    });
    if random.percent(25) {
        file.seniority = role_seniority(random, roles, 3);
    }
    let cards = random.shuffled(file.counts.cards);
    let (for_flows, for_shared) = cards.split_at(flows.len().min(cards.len()));
    file.permissions = flow_permissions(&flows, &names, for_flows.iter().copied());
    for (writers, &card) in shared.iter().zip(for_shared) {
        let lines = writers.iter().map(|&writer| (names[writer], card, WRITE));
        file.permissions.extend(lines);
    }
    arrange(&mut file);
    add_assignments(random, &mut file, 12);
    file
}

/// Flows between roles, which are numbered from 0 here: few for each role, at
/// most one ring of them, and as many as there can be cards.
fn few_flows(random: &mut Random, roles: usize) -> Vec<(usize, usize)> {
    let mut flows = Vec::new();
    for _ in 0..random.below(roles + roles / 2) {
        let from = random.below(roles - 1);
        let to = random.between(from + 1, (from + 4).min(roles - 1));
        flows.push((from, to));
    }
    let ring = random.pick(&[0, 0, 2, 3, 4, 5, roles]);
    if (2..=roles).contains(&ring) {
        let start = random.below(roles - ring + 1);
        flows.extend(flow_ring(start, ring));
    }
    for _ in 0..random.below(3) {
        let role = random.below(roles);
        flows.push((role, role));
    }
    flows.truncate(LIMITS[3]);
    flows
}

/// The writers of a few cards that nobody reads, one or more of each; or none.
fn few_shared(random: &mut Random, roles: usize) -> Vec<Vec<usize>> {
    let cards = random.pick(&[0, 0, 1, 1, 3]);
    let writers = |random: &mut Random| {
        let count = random.between(1, 3);
        (0..count).map(|_| random.below(roles)).collect()
    };
    (0..cards).map(|_| writers(random)).collect()
}

/// A ring of flows through so many roles from a first one on.
pub fn flow_ring(start: usize, length: usize) -> impl Iterator<Item = (usize, usize)> {
    (0..length).map(move |step| (start + step, start + (step + 1) % length))
}

/// P lines by which roles flow, a card for each flow; `names` has the number of
/// each role.
pub fn flow_permissions(
    flows: &[(usize, usize)],
    names: &[usize],
    cards: impl IntoIterator<Item = usize>,
) -> Vec<(usize, usize, usize)> {
    let mut permissions = Vec::new();
    for (&(from, to), card) in flows.iter().zip(cards) {
        permissions.push((names[from], card, WRITE));
        permissions.push((names[to], card, READ));
    }
    permissions
}
