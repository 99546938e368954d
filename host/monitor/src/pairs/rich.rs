//! Accepted files in which sessions at many labels are granted reads and
//! writes.

use second_checker::check::{Counts, Meaning, RoleFile, READ, WRITE};
use second_checker::generate::{accepted, assignments_with, Size};
use second_checker::random::Random;

/// A file that meets every rule: mostly a rich one, else any small one.
pub fn accepted_file(random: &mut Random) -> RoleFile {
    if random.percent(15) {
        return accepted(random, Size::Small);
    }
    let degrees = random.between(1, 4);
    let sets = 1 << random.pick(&[2, 2, 2, 3]);
    let mut file = RoleFile {
        counts: Counts {
            labels: degrees * sets,
            roles: random.between(6, 20),
            users: random.between(4, 10),
            cards: random.between(8, 24),
        },
        dominance: lattice(random, degrees, sets),
        ..RoleFile::default()
    };
    add_users_and_cards(random, &mut file);
    add_roles(random, &mut file);
    file.assignments = assignments_with(&file, 0);
    file.assignments.retain(|_| random.percent(75));
    file
}

/// A label is a degree and a set of makers, who are rivals: neither's label
/// dominates the other's. Its D lines lead to one degree less or to one maker
/// less. The labels' numbers are shuffled.
fn lattice(random: &mut Random, degrees: usize, sets: usize) -> Vec<(usize, usize)> {
    let numbers = random.shuffled(degrees * sets);
    let label = |degree: usize, set: usize| numbers[degree * sets + set];
    let mut lines = Vec::new();
    for degree in 0..degrees {
        for set in 0..sets {
            if degree > 0 {
                lines.push((label(degree, set), label(degree - 1, set)));
            }
            for maker in [1, 2, 4] {
                if set & maker != 0 {
                    lines.push((label(degree, set), label(degree, set - maker)));
                }
            }
        }
    }
    lines.sort_unstable();
    lines
}

/// U and O lines. Most cards have the clearance of a user.
fn add_users_and_cards(random: &mut Random, file: &mut RoleFile) {
    let labels = file.counts.labels;
    file.clearances = (1..=file.counts.users)
        .map(|user| (user, random.between(1, labels)))
        .collect();
    for card in 1..=file.counts.cards {
        let label = match random.below(3) {
            0 => random.between(1, labels),
            _ => random.pick(&file.clearances).1,
        };
        file.card_labels.push((card, label));
    }
}

/// P and S lines. Each role is made for a clearance: it reads cards under it
/// and writes cards over it. A junior is mostly made for the same one.
fn add_roles(random: &mut Random, file: &mut RoleFile) {
    let dominance = Meaning::of(file).dominance;
    let mut homes = Vec::new();
    for role in 1..=file.counts.roles {
        let home = random.pick(&file.clearances).1;
        for &(card, label) in &file.card_labels {
            if dominance.over(home, label) && random.percent(25) {
                file.permissions.push((role, card, READ));
            }
            if dominance.over(label, home) && random.percent(35) {
                file.permissions.push((role, card, WRITE));
            }
        }
        for (junior, &made_for) in (1..).zip(&homes) {
            let chance = if made_for == home { 40 } else { 2 };
            if random.percent(chance) {
                file.seniority.push((role, junior));
            }
        }
        homes.push(home);
    }
}
