//! Review calls, most of them about what the file says.

use super::{held, label, label_to_open, mode, number, some, user, wild_number};
use crate::call::Kind;
use crate::review::Review;
use monitor_model::review::halves;
use monitor_model::{Mode, Model, Policy};
use second_checker::random::Random;
use std::collections::BTreeSet;

/// A review call of this kind that may well get the number wished for.
pub fn fitting(
    random: &mut Random,
    model: &Model,
    policy: &Policy,
    kind: Kind,
    wish: u64,
    place: u64,
) -> Review {
    let counts = policy.counts;
    match kind {
        Kind::Counts => Review::Counts,
        Kind::Session => Review::Session { place },
        Kind::Clearance => Review::Clearance {
            user: one_of(random, counts.users, wish),
        },
        Kind::CardLabel => Review::CardLabel {
            card: one_of(random, counts.cards, wish),
        },
        Kind::Level => level(random, policy, wish),
        Kind::Dominates => {
            let (a, b) = pair(random, counts.labels, wish, |a, b| {
                policy.meaning.dominance.over(a, b)
            });
            Review::Dominates { a, b }
        }
        Kind::Senior => {
            let (r, q) = pair(random, counts.roles, wish, |r, q| {
                policy.meaning.seniority.over(r, q)
            });
            Review::Senior { r, q }
        }
        Kind::Assigned => assigned(random, policy, wish),
        Kind::Takable => takable(random, policy, wish),
        _ => gives(random, model, policy, wish, place),
    }
}

/// With numbers within these counts of labels, roles, users and cards, or
/// wild ones.
pub fn any(random: &mut Random, kind: Kind, limits: [usize; 4], place: u64) -> Review {
    let [label, role, user, card] = limits.map(|limit| number(random, limit));
    let mode = mode(random, 0);
    match kind {
        Kind::Counts => Review::Counts,
        Kind::Session => Review::Session { place },
        Kind::Clearance => Review::Clearance { user },
        Kind::CardLabel => Review::CardLabel { card },
        Kind::Level => Review::Level { role, mode },
        Kind::Dominates => Review::Dominates {
            a: number(random, limits[0]),
            b: label,
        },
        Kind::Senior => Review::Senior {
            r: number(random, limits[1]),
            q: role,
        },
        Kind::Assigned => Review::Assigned { user, role },
        Kind::Takable => Review::Takable { user, label },
        _ => Review::Gives {
            set: wild_set(random),
            label,
            card,
            mode,
        },
    }
}

/// One of so many things, rather none of them where 25 is wished for.
fn one_of(random: &mut Random, count: usize, wish: u64) -> u64 {
    if wish == 25 && random.percent(60) {
        return wild_number(random, count);
    }
    number(random, count)
}

/// Two of so many things, every second time such that the first is over the
/// second.
fn pair(
    random: &mut Random,
    count: usize,
    wish: u64,
    over: impl Fn(usize, usize) -> bool,
) -> (u64, u64) {
    let upper = one_of(random, count, wish);
    let lower = one_of(random, count, wish);
    if wish == 25 || !(1..=count as u64).contains(&upper) || random.percent(50) {
        return (upper, lower);
    }
    let below: BTreeSet<usize> = (1..=count)
        .filter(|&lower| over(upper as usize, lower))
        .collect();
    let lower = some(random, &below).expect("a thing is over itself");
    (upper, lower as u64)
}

fn level(random: &mut Random, policy: &Policy, wish: u64) -> Review {
    Review::Level {
        role: one_of(random, policy.counts.roles, wish),
        mode: mode(random, wish),
    }
}

/// Every second time as an A line says.
fn assigned(random: &mut Random, policy: &Policy, wish: u64) -> Review {
    match some(random, &policy.assigned) {
        Some((user, role)) if wish != 25 && random.percent(50) => Review::Assigned {
            user: user as u64,
            role: role as u64,
        },
        _ => Review::Assigned {
            user: one_of(random, policy.counts.users, wish),
            role: one_of(random, policy.counts.roles, wish),
        },
    }
}

fn takable(random: &mut Random, policy: &Policy, wish: u64) -> Review {
    let user = user(random, policy, wish);
    let label = label(random, policy, user, wish);
    Review::Takable { user, label }
}

/// About a set of roles, rather of a card that one of them gives.
fn gives(random: &mut Random, model: &Model, policy: &Policy, wish: u64, place: u64) -> Review {
    let set = set_of_roles(random, model, policy, place);
    let mode = mode(random, wish);
    let roles = monitor_model::review::roles_of(set.0, set.1);
    let wanted = match mode {
        1 => Mode::Read,
        _ => Mode::Write,
    };
    let given: BTreeSet<usize> = roles
        .into_iter()
        .filter(|&role| role <= policy.counts.roles)
        .flat_map(|role| policy.cards(role, wanted).iter().copied())
        .collect();
    let card = match some(random, &given) {
        Some(card) if wish != 25 && random.percent(50) => card as u64,
        _ => one_of(random, policy.counts.cards, wish),
    };
    Review::Gives {
        set,
        label: one_of(random, policy.counts.labels, wish),
        card,
        mode,
    }
}

/// The roles held at a place, those that a user may take, a single one, or
/// bits of any kind, past the number of roles too.
fn set_of_roles(random: &mut Random, model: &Model, policy: &Policy, place: u64) -> (u64, u64) {
    let roles = policy.counts.roles;
    let role = 1 + random.below(roles.max(1));
    match random.below(6) {
        0 => {
            let held = held(random, model, place).into_iter();
            halves(&held.collect())
        }
        1 => match some(random, &policy.assigned) {
            Some((user, _)) => {
                let label = label_to_open(random, policy, user);
                halves(&policy.roles_to_take(user, label).collect())
            }
            None => (0, 0),
        },
        2 => halves(&BTreeSet::from([role])),
        // Past the number of roles alone.
        3 => halves(&(roles + 1..=128).collect()),
        _ => wild_set(random),
    }
}

/// Any bits: a few, half of them, or one of the first and last sets.
pub fn wild_set(random: &mut Random) -> (u64, u64) {
    let bits = |random: &mut Random| match random.below(8) {
        0 => 0,
        1 => u64::MAX,
        2 => 1 << 63,
        3 => random.next(),
        4 => random.next() & random.next() & random.next(),
        _ => 1 << random.below(64),
    };
    (bits(random), bits(random))
}
