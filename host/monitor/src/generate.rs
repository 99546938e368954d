//! Random files, numbers and calls, the same ones for the same source of
//! numbers.

pub mod review;

use crate::call::{Call, Kind};
use crate::review::Review;
use monitor_model::{Mode, Model, Part, Policy, CARD_BYTES, PLACES, STATE_BYTES};
use second_checker::check::REFUSALS;
use second_checker::generate::{
    accepted, bent, bent_small, mixed, sparse_flow, write, Size, LIMITS,
};
use second_checker::line::has_assignments;
use second_checker::random::Random;
use std::collections::BTreeSet;

/// An accepted role file of any size, mostly a small one, and mostly one with
/// assignments.
pub fn accepted_file(random: &mut Random) -> Vec<u8> {
    let any = random.percent(10);
    loop {
        let file = accepted_file_of_any_size(random);
        if any || has_assignments(&file) {
            return file;
        }
    }
}

fn accepted_file_of_any_size(random: &mut Random) -> Vec<u8> {
    let size = match random.below(100) {
        0..=19 => Size::Tiny,
        20..=61 => Size::Small,
        62..=81 => Size::Middle,
        82..=87 => Size::Large,
        88..=91 => Size::Full,
        _ => return write(&sparse_flow(random)),
    };
    write(&accepted(random, size))
}

/// A role file of any kind: accepted, bent or torn. Most are bent, each number
/// as often as another: a refused load leaves the sessions open.
fn any_file(random: &mut Random) -> Vec<u8> {
    let number = random.pick(&REFUSALS);
    match random.below(100) {
        0..=4 => accepted_file(random),
        5..=9 => mixed(random.next(), random.next() % 50),
        10..=14 => bent(random, number),
        _ => bent_small(random, number),
    }
}

/// A number that may lie anywhere: at the limit or past it, at the powers of
/// two, at the end of all numbers, or a good one with a high bit set.
pub fn wild_number(random: &mut Random, limit: usize) -> u64 {
    let limit = limit as u64;
    let good = 1 + random.next() % limit.max(1);
    match random.below(14) {
        0 => 0,
        1 => 1,
        2 => limit,
        3 | 4 => limit + 1,
        5 => limit + 1 + random.next() % 300,
        6 => 1 << 32,
        7 => 1 << 63,
        8 => u64::MAX,
        9 => u64::MAX - random.next() % 600,
        // Cut to fewer bits it would be a good one.
        10 | 11 => good + (1 << random.pick(&[8, 16, 32, 58, 63])),
        12 => good.wrapping_neg(),
        _ => random.next(),
    }
}

/// A number from 1 to `count`, now and then a wild one.
pub fn number(random: &mut Random, count: usize) -> u64 {
    if count == 0 || random.percent(4) {
        wild_number(random, count)
    } else {
        1 + index(random, count) as u64
    }
}

/// An index below `count`, which isn't 0: any, the last or the first.
fn index(random: &mut Random, count: usize) -> usize {
    match random.below(20) {
        0 | 1 => count - 1,
        2 => 0,
        _ => random.below(count),
    }
}

/// Offset and length within a card.
pub fn good_span(random: &mut Random) -> (u64, u64) {
    let offset = random.between(0, CARD_BYTES);
    let length = match random.below(4) {
        0 => CARD_BYTES - offset,
        _ => random.between(0, CARD_BYTES - offset),
    };
    (offset as u64, length as u64)
}

/// Offset and length past the card's end, also where their sum wraps round.
pub fn bad_span(random: &mut Random) -> (u64, u64) {
    let some = random.next() % 65;
    match random.below(10) {
        // One byte too far.
        0..=2 => (some, 65 - some),
        3 => (65, 0),
        4 => (0, 65 + random.next() % 4_000),
        5 => (64 + some, 64),
        // Their sum wraps round to 0 to 64.
        6 | 7 => {
            let length = some + 1;
            ((random.next() % length).wrapping_sub(length), length)
        }
        8 => (wild_number(random, 64).max(65), some),
        // Cut to fewer bits the offset would be a good one.
        _ => (some + (1 << random.pick(&[8, 16, 32, 63])), 0),
    }
}

/// A length for a read that no buffer could have.
fn wild_span(random: &mut Random) -> (u64, u64) {
    let length = wild_number(random, 64);
    match random.below(3) {
        0 => (random.next() % 65, length),
        1 => ((random.next() % 65).wrapping_sub(length), length),
        _ => (wild_number(random, 64), length),
    }
}

/// A read of this offset and length.
pub fn reading(place: u64, card: u64, (offset, length): (u64, u64)) -> Call {
    Call::Read(Part {
        place,
        card,
        offset,
        length,
    })
}

/// A write of any bytes, as many as the length says, at this offset.
pub fn writing(random: &mut Random, place: u64, card: u64, (offset, length): (u64, u64)) -> Call {
    Call::Write {
        place,
        card,
        offset,
        bytes: random.bytes(length as usize),
    }
}

/// So many places, the first and the last of all more often than others.
pub fn some_places(random: &mut Random, count: usize) -> Vec<u64> {
    (0..count)
        .map(|_| random.place(1, PLACES + 1) as u64)
        .collect()
}

/// Mostly one of these places, else any.
pub fn place_among(random: &mut Random, places: &[u64]) -> u64 {
    if random.percent(90) {
        random.pick(places)
    } else {
        number(random, PLACES)
    }
}

/// Which state is lent to a call.
#[derive(Clone, Copy, Debug, PartialEq, Eq)]
pub enum LentState {
    Whole,
    /// Only its first bytes.
    First(usize),
    /// Another one, all bytes 0.
    Zeroed,
}

/// What is lent to a call.
#[derive(Clone, Copy, Debug, PartialEq, Eq)]
pub struct Lending {
    pub state: LentState,
    /// How many bytes of the store.
    pub store: usize,
}

/// Makes calls that fit what the model holds, so that they succeed often.
pub struct Caller {
    /// Most calls are at these places, so that places are used again.
    places: Vec<u64>,
}

impl Caller {
    pub fn new(random: &mut Random) -> Caller {
        let count = random.between(1, 10);
        Caller {
            places: some_places(random, count),
        }
    }

    /// The next call on this model, with what is lent to it.
    pub fn next(&self, random: &mut Random, model: &Model, store: usize) -> (Call, Lending) {
        let kind = self.kind(random, model);
        let mut lending = Lending {
            state: LentState::Whole,
            store,
        };
        if kind == Kind::Load {
            if random.percent(10) {
                lending.state = LentState::First(short_length(random, STATE_BYTES));
            }
            let file = any_file(random);
            return (Call::Load { file }, lending);
        }
        let wish = if random.percent(65) {
            0
        } else {
            random.pick(kind.numbers())
        };
        if wish == 21 && random.percent(30) {
            lending.state = if random.percent(25) {
                LentState::Zeroed
            } else {
                LentState::First(short_length(random, STATE_BYTES))
            };
        }
        let cards = model.policy().map_or(0, |policy| policy.counts.cards);
        if wish == 31 {
            lending.store = short_length(random, CARD_BYTES * cards).min(store);
        }
        let mut call = self.call(random, model, kind, wish);
        for _ in 0..8 {
            if call.number_on_model(model, STATE_BYTES, lending.store) == wish {
                break;
            }
            call = self.call(random, model, kind, wish);
        }
        (call, lending)
    }

    /// A review call of this kind on this model.
    pub fn review(&self, random: &mut Random, model: &Model, kind: Kind) -> Review {
        let wish = random.pick(kind.numbers());
        match self.call(random, model, kind, wish) {
            Call::Review(review) => review,
            call => unreachable!("{call} is no review call"),
        }
    }

    fn kind(&self, random: &mut Random, model: &Model) -> Kind {
        let open = model.open_places();
        let holding = open
            .iter()
            .filter_map(|&place| model.session(place))
            .any(|session| !session.roles.is_empty());
        if open.is_empty() && random.percent(60) {
            return Kind::Open;
        }
        if !open.is_empty() && !holding && random.percent(50) {
            return random.pick(&[Kind::Take, Kind::Take, Kind::Open]);
        }
        if random.percent(15) {
            return random.pick(Kind::reviews());
        }
        match random.below(1_000) {
            0..=114 => Kind::Load,
            115..=229 => Kind::Open,
            230..=294 => Kind::Close,
            295..=469 => Kind::Take,
            470..=529 => Kind::Drop,
            530..=724 => Kind::Read,
            725..=919 => Kind::Write,
            920..=949 => Kind::Flows,
            950..=964 => Kind::Circle,
            _ => Kind::Can,
        }
    }

    /// A call of this kind that may well get the number wished for.
    fn call(&self, random: &mut Random, model: &Model, kind: Kind, wish: u64) -> Call {
        let Some(policy) = model.policy().cloned() else {
            return any_call(random, kind);
        };
        let place = self.place(random, model, kind, wish);
        match kind {
            Kind::Load => unreachable!("a load is made from a file"),
            Kind::Open => {
                let user = user(random, &policy, wish);
                let label = label(random, &policy, user, wish);
                Call::Open { place, user, label }
            }
            Kind::Close => Call::Close { place },
            Kind::Take => {
                let role = role_to_take(random, model, &policy, place, wish);
                Call::Take { place, role }
            }
            Kind::Drop => {
                let role = held(random, model, place)
                    .filter(|_| random.percent(50))
                    .map_or_else(|| number(random, policy.counts.roles), |role| role as u64);
                Call::Drop { place, role }
            }
            Kind::Read => {
                let card = card(random, model, &policy, place, Mode::Read, wish);
                let span = match (wish, random.below(4)) {
                    (30, 0) => wild_span(random),
                    (30, _) => bad_span(random),
                    _ => good_span(random),
                };
                reading(place, card, span)
            }
            Kind::Write => {
                let card = card(random, model, &policy, place, Mode::Write, wish);
                let span = match wish {
                    30 => bad_span(random),
                    _ => good_span(random),
                };
                writing(random, place, card, span)
            }
            Kind::Flows => two_roles(random, &policy),
            Kind::Circle => Call::Circle,
            Kind::Can => {
                let user = user(random, &policy, wish);
                let label = label(random, &policy, user, wish);
                question(random, &policy, user, label, wish)
            }
            _ => Call::Review(review::fitting(random, model, &policy, kind, wish, place)),
        }
    }

    fn place(&self, random: &mut Random, model: &Model, kind: Kind, wish: u64) -> u64 {
        if wish == 22 {
            return wild_number(random, PLACES);
        }
        let open = model.open_places();
        if [0, 30, 31].contains(&wish) {
            let giving: Vec<usize> = open
                .iter()
                .copied()
                .filter(|&place| gives_a_card(model, place, kind))
                .collect();
            if !giving.is_empty() {
                return random.pick(&giving) as u64;
            }
        }
        if kind != Kind::Open && !open.is_empty() && random.percent(90) {
            return random.pick(&open) as u64;
        }
        place_among(random, &self.places)
    }
}

/// A length below `whole` where that is possible.
fn short_length(random: &mut Random, whole: usize) -> usize {
    match random.below(4) {
        0 => 0,
        1 => whole.saturating_sub(1),
        2 => random.below(whole.min(64)),
        _ => random.below(whole),
    }
}

/// Any element of a set.
fn some<T: Copy>(random: &mut Random, set: &BTreeSet<T>) -> Option<T> {
    if set.is_empty() {
        return None;
    }
    set.iter().nth(index(random, set.len())).copied()
}

/// A user, rather one with a role assigned.
fn user(random: &mut Random, policy: &Policy, wish: u64) -> u64 {
    if wish == 25 && random.percent(50) {
        return wild_number(random, policy.counts.users);
    }
    match some(random, &policy.assigned) {
        Some((user, _)) if random.percent(75) => user as u64,
        _ => number(random, policy.counts.users),
    }
}

/// A label, rather one that the user's clearance dominates.
fn label(random: &mut Random, policy: &Policy, user: u64, wish: u64) -> u64 {
    if wish == 25 {
        return wild_number(random, policy.counts.labels);
    }
    if wish == 0 && (1..=policy.counts.users as u64).contains(&user) {
        return label_to_open(random, policy, user as usize) as u64;
    }
    number(random, policy.counts.labels)
}

/// A label that the user's clearance dominates: the clearance itself, any, or
/// one at which a role can be taken.
fn label_to_open(random: &mut Random, policy: &Policy, user: usize) -> usize {
    let dominated: Vec<usize> = policy.labels_to_open(user).collect();
    let mut serving = dominated.clone();
    serving.retain(|&label| policy.roles_to_take(user, label).next().is_some());
    match random.below(10) {
        0..=2 => policy.meaning.clearance[user],
        3..=5 if !serving.is_empty() => random.pick(&serving),
        _ => random.pick(&dominated),
    }
}

/// A role for which taking it at this place gets the number wished for.
fn role_to_take(random: &mut Random, model: &Model, policy: &Policy, place: u64, wish: u64) -> u64 {
    if wish == 25 {
        return wild_number(random, policy.counts.roles);
    }
    let mut fitting: Vec<u64> = (1..=policy.counts.roles as u64)
        .filter(|&role| model.taking(STATE_BYTES, place, role).err().unwrap_or(0) == wish)
        .collect();
    // Rather one that gives anything.
    let gives = |role: u64| {
        [Mode::Read, Mode::Write]
            .into_iter()
            .any(|mode| !policy.cards(role as usize, mode).is_empty())
    };
    if random.percent(70) && fitting.iter().any(|&role| gives(role)) {
        fitting.retain(|&role| gives(role));
    }
    if fitting.is_empty() {
        number(random, policy.counts.roles)
    } else {
        fitting[index(random, fitting.len())]
    }
}

/// A role that the session at a place holds.
fn held(random: &mut Random, model: &Model, place: u64) -> Option<usize> {
    if !(1..=PLACES as u64).contains(&place) {
        return None;
    }
    some(random, &model.session(place as usize)?.roles)
}

/// Whether the session at a place may read or write any card.
fn gives_a_card(model: &Model, place: usize, kind: Kind) -> bool {
    let mode = match kind {
        Kind::Read => Mode::Read,
        Kind::Write => Mode::Write,
        _ => return false,
    };
    match (model.policy(), model.session(place)) {
        (Some(policy), Some(session)) => session
            .roles
            .iter()
            .any(|&role| !policy.cards(role, mode).is_empty()),
        _ => false,
    }
}

/// A card, rather one that a role held lets the session read or write.
fn card(
    random: &mut Random,
    model: &Model,
    policy: &Policy,
    place: u64,
    mode: Mode,
    wish: u64,
) -> u64 {
    if wish == 25 {
        return wild_number(random, policy.counts.cards);
    }
    let given = |random: &mut Random, mode: Mode| {
        let role = held(random, model, place)?;
        some(random, policy.cards(role, mode))
    };
    if [0, 30, 31].contains(&wish) {
        for _ in 0..4 {
            if let Some(card) = given(random, mode) {
                return card as u64;
            }
        }
    }
    // The other mode alone isn't enough.
    if wish == 29 && random.percent(50) {
        let other = match mode {
            Mode::Read => Mode::Write,
            Mode::Write => Mode::Read,
        };
        if let Some(card) = given(random, other) {
            return card as u64;
        }
    }
    number(random, policy.counts.cards)
}

/// Whether one role flows to another: every second time roles that do.
fn two_roles(random: &mut Random, policy: &Policy) -> Call {
    let from = number(random, policy.counts.roles);
    let to = number(random, policy.counts.roles);
    match some(random, &policy.flows) {
        Some((from, to)) if random.percent(50) => Call::Flows {
            from: from as u64,
            to: to as u64,
        },
        _ => Call::Flows { from, to },
    }
}

/// A mode, now and then a wild one.
fn mode(random: &mut Random, wish: u64) -> u64 {
    match random.below(20) {
        0 => wild_number(random, 2),
        1..=8 if wish == 25 => wild_number(random, 2),
        _ => random.pick(&[1, 2]),
    }
}

/// What a user can at a label: rather of a card that a role assigned to the
/// user gives in this mode.
fn question(random: &mut Random, policy: &Policy, user: u64, label: u64, wish: u64) -> Call {
    let mode = random.pick(&[Mode::Read, Mode::Write]);
    let mut given: BTreeSet<usize> = BTreeSet::new();
    for &(_, role) in policy.assigned.iter().filter(|line| line.0 as u64 == user) {
        given.extend(policy.cards(role, mode));
    }
    let card = match some(random, &given) {
        Some(card) if random.percent(60) => card as u64,
        _ => number(random, policy.counts.cards),
    };
    let mode = match random.below(20) {
        0 => wild_number(random, 2),
        1..=8 if wish == 25 => wild_number(random, 2),
        _ => mode as u64,
    };
    Call::Can {
        user,
        label,
        card,
        mode,
    }
}

/// A call of this kind with numbers within document 01's limits or wild ones;
/// loads are of any file.
pub fn any_call(random: &mut Random, kind: Kind) -> Call {
    let limits: [usize; 4] = random.pick(&[[4, 4, 3, 5], [10, 12, 10, 20], LIMITS]);
    let [labels, roles, users, cards] = limits;
    let place = match random.below(3) {
        0 => random.between(1, 3) as u64,
        _ => number(random, PLACES),
    };
    let (offset, length) = match random.below(8) {
        0 => bad_span(random),
        1 => wild_span(random),
        _ => good_span(random),
    };
    match kind {
        Kind::Load => Call::Load {
            file: any_file(random),
        },
        Kind::Open => Call::Open {
            place,
            user: number(random, users),
            label: number(random, labels),
        },
        Kind::Close => Call::Close { place },
        Kind::Take => Call::Take {
            place,
            role: number(random, roles),
        },
        Kind::Drop => Call::Drop {
            place,
            role: number(random, roles),
        },
        Kind::Read => reading(place, number(random, cards), (offset, length)),
        Kind::Write => {
            let card = number(random, cards);
            writing(random, place, card, (offset, length.min(5_000)))
        }
        Kind::Flows => Call::Flows {
            from: number(random, roles),
            to: number(random, roles),
        },
        Kind::Circle => Call::Circle,
        Kind::Can => Call::Can {
            user: number(random, users),
            label: number(random, labels),
            card: number(random, cards),
            mode: number(random, 2),
        },
        _ => Call::Review(review::any(random, kind, limits, place)),
    }
}
