//! Review calls with every number handed in, and the states to ask them of.

use crate::call::Kind;
use crate::generate::review::wild_set;
use crate::generate::{accepted_file, number, Caller, LentState};
use crate::library;
use crate::loaded::Loaded;
use crate::review::Review;
use monitor_model::{CARD_BYTES, PLACES, STATE_BYTES};
use second_checker::check::Counts;
use second_checker::generate::{accepted, write, Size};
use second_checker::random::Random;

/// Up to so many calls of a kind, all are asked.
const ALL: usize = 1_500;
const DRAWN: usize = 200;

/// How many there are of what each number of a call names.
fn limits(kind: Kind, counts: Counts) -> Vec<usize> {
    let Counts {
        labels,
        roles,
        users,
        cards,
    } = counts;
    match kind {
        Kind::Session => vec![PLACES],
        Kind::Clearance => vec![users],
        Kind::CardLabel => vec![cards],
        Kind::Level => vec![roles, 2],
        Kind::Dominates => vec![labels, labels],
        Kind::Senior => vec![roles, roles],
        Kind::Assigned => vec![users, roles],
        Kind::Takable => vec![users, labels],
        Kind::Gives => vec![labels, cards, 2],
        _ => vec![],
    }
}

/// The call of a kind with these numbers.
fn review(random: &mut Random, kind: Kind, numbers: &[u64]) -> Review {
    match (kind, numbers) {
        (Kind::Counts, _) => Review::Counts,
        (Kind::Session, &[place]) => Review::Session { place },
        (Kind::Clearance, &[user]) => Review::Clearance { user },
        (Kind::CardLabel, &[card]) => Review::CardLabel { card },
        (Kind::Level, &[role, mode]) => Review::Level { role, mode },
        (Kind::Dominates, &[a, b]) => Review::Dominates { a, b },
        (Kind::Senior, &[r, q]) => Review::Senior { r, q },
        (Kind::Assigned, &[user, role]) => Review::Assigned { user, role },
        (Kind::Takable, &[user, label]) => Review::Takable { user, label },
        (Kind::Gives, &[label, card, mode]) => Review::Gives {
            set: wild_set(random),
            label,
            card,
            mode,
        },
        _ => unreachable!("{kind:?} of {numbers:?}"),
    }
}

/// From 0 to one past the last, and two that are far from all.
fn numbers(limit: usize) -> Vec<u64> {
    let near = 0..=limit as u64 + 1;
    near.chain([1 << 63, u64::MAX]).collect()
}

/// Calls of a kind on a state with these counts: all there are with numbers in
/// range, next to it and far from it, or where that is too many, some of them.
pub fn questions(random: &mut Random, kind: Kind, counts: Counts) -> Vec<Review> {
    let limits = limits(kind, counts);
    let size: usize = limits.iter().map(|limit| limit + 4).product();
    if size > ALL {
        return drawn(random, kind, &limits);
    }
    let mut rows: Vec<Vec<u64>> = vec![vec![]];
    for limit in limits {
        let more = |row: &Vec<u64>| {
            let row = row.clone();
            numbers(limit)
                .into_iter()
                .map(move |last| [&row[..], &[last]].concat())
        };
        rows = rows.iter().flat_map(more).collect();
    }
    rows.iter().map(|row| review(random, kind, row)).collect()
}

fn drawn(random: &mut Random, kind: Kind, limits: &[usize]) -> Vec<Review> {
    let one = |random: &mut Random, limit: usize| match random.below(10) {
        0 => random.pick(&[0, limit as u64 + 1, 1 << 63, u64::MAX]),
        _ => number(random, limit),
    };
    let row = |random: &mut Random| -> Vec<u64> {
        let numbers = limits.iter().map(|&limit| one(random, limit));
        numbers.collect()
    };
    let mut calls = Vec::new();
    for _ in 0..DRAWN {
        let row = row(random);
        calls.push(review(random, kind, &row));
    }
    calls
}

/// A state that a load and random session calls left. Every fourth file is a full
/// one; every second state has many roles held.
pub fn used(random: &mut Random) -> Loaded {
    let file = match random.below(4) {
        0 => write(&accepted(random, Size::Full)),
        _ => accepted_file(random),
    };
    let mut loaded = Loaded::new(&file);
    let caller = Caller::new(random);
    for _ in 0..random.below(60) {
        make_call(random, &mut loaded, &caller);
    }
    if random.percent(50) {
        fill_places(random, &mut loaded);
    }
    loaded
}

/// A session call on the library and the model.
fn make_call(random: &mut Random, loaded: &mut Loaded, caller: &Caller) {
    let mut store = vec![0; CARD_BYTES * 512];
    let (call, lending) = caller.next(random, &loaded.model, store.len());
    if lending.state != LentState::Whole || call.kind() == Kind::Load {
        return;
    }
    let expected = call.on_model(&mut loaded.model, STATE_BYTES, &mut store.clone());
    let answer = call.on_library(&mut loaded.state, &mut store, random);
    assert_eq!(answer, Ok(expected), "{call}");
}

/// Opens many places, each for a user with a role, and takes most of the roles
/// that may be taken there.
fn fill_places(random: &mut Random, loaded: &mut Loaded) {
    let policy = loaded.model.policy().expect("a loaded file").clone();
    let assigned: Vec<(usize, usize)> = policy.assigned.iter().copied().collect();
    if assigned.is_empty() {
        return;
    }
    for place in (1..=PLACES as u64).filter(|place| place % 3 > 0) {
        let (user, _) = random.pick(&assigned);
        let labels: Vec<usize> = policy.labels_to_open(user).collect();
        let label = match random.below(2) {
            0 => policy.meaning.clearance[user],
            _ => random.pick(&labels),
        };
        let (state, numbers) = (&mut loaded.state, (user as u64, label as u64));
        let opened = loaded.model.open(STATE_BYTES, place, numbers.0, numbers.1);
        assert_eq!(library::open(state, place, numbers.0, numbers.1), opened);
        let roles = policy.roles_to_take(user, label);
        for role in roles.filter(|_| random.percent(80)) {
            let taken = loaded.model.take(STATE_BYTES, place, role as u64);
            assert_eq!(library::take(state, place, role as u64), taken);
        }
    }
}
