//! Files that meet every rule.

use super::orders::{label_order, role_seniority};
use super::{lines_of, Size, LIMITS};
use crate::check::{Counts, Level, Meaning, RoleFile, READ, WRITE};
use crate::line::MOST_LINES;
use crate::order::Order;
use crate::random::Random;
use std::collections::BTreeSet;

/// A file that meets every rule.
pub fn accepted(random: &mut Random, size: Size) -> RoleFile {
    let counts = counts(random, size);
    let most_lines = size.most_lines();
    let mut file = RoleFile {
        counts,
        dominance: label_order(random, counts.labels),
        ..RoleFile::default()
    };
    let room = most_lines - lines_of(&file) - counts.users - counts.cards;
    file.seniority = role_seniority(random, counts.roles, room / 4);

    // Most users and roles keep to a few labels, so that many assignments are
    // acceptable although seniors inherit from their juniors.
    let homes: Vec<usize> = (0..random.pick(&[1, 1, 1, 2, 3, 6]))
        .map(|_| random.between(1, counts.labels))
        .collect();
    let stray = random.pick(&[0, 0, 2, 10, 40]);
    add_labels_near(random, &mut file, &homes);

    let room = most_lines.saturating_sub(lines_of(&file));
    let permissions = match size {
        Size::Full => room * random.between(30, 80) / 100,
        _ => random.below(room * 3 / 4 + 1),
    };
    add_permissions(random, &mut file, &homes, stray, permissions);
    let assignments = most_lines - lines_of(&file);
    let assignments = match size {
        Size::Full => assignments,
        _ => random.below(assignments + 1),
    };
    add_assignments(random, &mut file, assignments);
    if size == Size::Full {
        fill(random, &mut file, MOST_LINES);
    }
    file
}

/// U and O lines: a label for each user, then for each card.
pub(super) fn add_labels(
    random: &mut Random,
    file: &mut RoleFile,
    label: impl Fn(&mut Random) -> usize,
) {
    file.clearances = (1..=file.counts.users)
        .map(|user| (user, label(random)))
        .collect();
    file.card_labels = (1..=file.counts.cards)
        .map(|card| (card, label(random)))
        .collect();
}

/// U and O lines: most at the homes. In some files users are cleared higher, so
/// that they have roles for low sessions alone.
fn add_labels_near(random: &mut Random, file: &mut RoleFile, homes: &[usize]) {
    let labels = file.counts.labels;
    add_labels(random, file, |random| {
        if random.percent(60) {
            random.pick(homes)
        } else {
            random.between(1, labels)
        }
    });
    let higher = random.pick(&[0, 50, 100]);
    let dominance = Order::closure(labels, &file.dominance);
    for (_, clearance) in &mut file.clearances {
        if random.percent(higher) {
            let mut above: Vec<usize> = dominance.things().collect();
            above.retain(|&label| dominance.over(label, *clearance));
            *clearance = random.pick(&above);
        }
    }
}

fn counts(random: &mut Random, size: Size) -> Counts {
    let highest = match size {
        Size::Tiny => [4, 4, 3, 5],
        Size::Small => [10, 12, 10, 20],
        Size::Middle => [20, 40, 60, 120],
        Size::Large | Size::Full => LIMITS,
    };
    let [labels, roles, users, cards] = highest;
    if size == Size::Full {
        return Counts {
            labels,
            roles,
            users,
            cards,
        };
    }
    let mut count = |low: usize, high: usize| {
        if random.percent(15) {
            high
        } else {
            random.between(low, high)
        }
    };
    Counts {
        labels: count(1, labels),
        roles: count(0, roles),
        users: count(0, users),
        cards: count(0, cards),
    }
}

/// P lines: a role reads under one of the homes and writes over it, and
/// sometimes strays.
fn add_permissions(
    random: &mut Random,
    file: &mut RoleFile,
    homes: &[usize],
    stray: usize,
    most: usize,
) {
    let counts = file.counts;
    if counts.roles == 0 || counts.cards == 0 {
        return;
    }
    let dominance = Order::closure(counts.labels, &file.dominance);
    let role_home: Vec<usize> = (0..=counts.roles).map(|_| random.pick(homes)).collect();
    // Some roles stay without permissions, and some only read or only write.
    let habit: Vec<usize> = (0..=counts.roles).map(|_| random.below(10)).collect();
    let mut permissions = BTreeSet::new();
    for _ in 0..most * 2 {
        if permissions.len() == most {
            break;
        }
        let role = random.between(1, counts.roles);
        let card = random.between(1, counts.cards);
        let label = file.card_labels[card - 1].1;
        let home = role_home[role];
        let mode = match habit[role] {
            0 => continue,
            1 => READ,
            2 => WRITE,
            _ => random.between(READ, WRITE),
        };
        if suits(&dominance, home, label, mode) || random.percent(stray) {
            permissions.insert((role, card, mode));
        }
        // At its home's label a role may do both.
        if label == home && habit[role] > 2 && permissions.len() + 2 <= most && random.percent(10) {
            permissions.insert((role, card, READ));
            permissions.insert((role, card, WRITE));
        }
    }
    file.permissions = permissions.into_iter().collect();
}

/// Whether a role with this home may use cards of the label in this mode.
fn suits(dominance: &Order, home: usize, label: usize, mode: usize) -> bool {
    match mode {
        READ => dominance.over(home, label),
        _ => dominance.over(label, home),
    }
}

/// Adds at most this many A lines, all of them good.
pub(super) fn add_assignments(random: &mut Random, file: &mut RoleFile, most: usize) {
    let counts = file.counts;
    if counts.users == 0 || counts.roles == 0 {
        return;
    }
    let meaning = Meaning::of(file);
    let mut assignments = BTreeSet::new();
    for _ in 0..most * 2 {
        if assignments.len() == most {
            break;
        }
        let user = random.between(1, counts.users);
        let role = random.between(1, counts.roles);
        if meaning.assignment_number(user, role) == 0 {
            assignments.insert((user, role));
        }
    }
    file.assignments = assignments.into_iter().collect();
}

/// Adds P lines that change no level until the file has this many lines.
fn fill(random: &mut Random, file: &mut RoleFile, lines: usize) {
    let counts = file.counts;
    if counts.roles == 0 || counts.cards == 0 {
        return;
    }
    let meaning = Meaning::of(file);
    let mut permissions: BTreeSet<(usize, usize, usize)> =
        file.permissions.iter().copied().collect();
    let wanted = permissions.len() + lines.saturating_sub(lines_of(file));
    for _ in 0..200_000 {
        if permissions.len() >= wanted {
            break;
        }
        let role = random.between(1, counts.roles);
        let card = random.between(1, counts.cards);
        let label = meaning.card_label[card];
        let reads_it = match meaning.read_level[role] {
            Level::Label(level) => meaning.dominance.over(level, label),
            _ => false,
        };
        let writes_it = match meaning.write_level[role] {
            Level::Label(level) => meaning.dominance.over(label, level),
            Level::Undefined => true,
            Level::Free => false,
        };
        if reads_it {
            permissions.insert((role, card, READ));
        } else if writes_it {
            permissions.insert((role, card, WRITE));
        }
    }
    file.permissions = permissions.into_iter().collect();
}
