//! Random accepted files.

use second_checker::check::{Counts, RoleFile};
use second_checker::generate::{accepted, flow_permissions, flow_ring, sparse_flow, Size};
use second_checker::random::Random;

/// File `index` of the run with this seed.
pub fn random(seed: u64, index: u64) -> (Random, RoleFile) {
    let mut random = Random::for_file(seed, index);
    let file = match index % 8 {
        0 => circles(&mut random),
        1 => sparse_flow(&mut random),
        2 | 3 => accepted(&mut random, Size::Tiny),
        7 if index % 40 == 7 => accepted(&mut random, Size::Large),
        7 => accepted(&mut random, Size::Middle),
        _ => accepted(&mut random, Size::Small),
    };
    (random, file)
}

/// Circles of role flow in a row, each leading to the next; now and then one
/// role is senior to another.
pub fn circles(random: &mut Random) -> RoleFile {
    let mut flows = Vec::new();
    let mut roles = 0;
    for _ in 0..random.between(2, 4) {
        let ring = random.between(1, 3);
        if roles > 0 {
            flows.push((random.below(roles), roles + random.below(ring)));
        }
        if ring > 1 {
            flows.extend(flow_ring(roles, ring));
        }
        roles += ring;
    }
    let names = random.shuffled(roles);
    let cards = flows.len();
    let mut permissions = flow_permissions(&flows, &names, 1..=cards);
    permissions.sort_unstable();
    let seniority = match random.below(3) {
        0 => vec![(names[0], names[1])],
        _ => Vec::new(),
    };
    RoleFile {
        counts: Counts {
            labels: 1,
            roles,
            users: 1,
            cards,
        },
        seniority,
        clearances: vec![(1, 1)],
        card_labels: (1..=cards).map(|card| (card, 1)).collect(),
        permissions,
        assignments: vec![(1, random.between(1, roles))],
        ..RoleFile::default()
    }
}
