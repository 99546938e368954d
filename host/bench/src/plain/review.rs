//! The review calls.

use super::roleset::{add, has, row, taken, ROW};
use super::session::{entitled, fitting};
use super::state::{among, dominates as over, roles_of, session_at as seat, sound, Counts, State};
use super::{
    ASSIGNED, CARD_LABELS, CLEARANCES, READERS, READ_LEVELS, SENIORS, WRITERS, WRITE_LEVELS,
};
use crate::review::{CountsAnswer, Figure, SessionAnswer, SetAnswer};

/// The low and the high half of a row.
fn halves(row: [u8; ROW]) -> (u64, u64) {
    let set = u128::from_le_bytes(row);
    (set as u64, (set >> 64) as u64)
}

#[inline(never)]
pub fn counts_of(state: &[u8]) -> CountsAnswer {
    let Some((_, counts)) = sound(state) else {
        return CountsAnswer {
            number: 21,
            ..CountsAnswer::default()
        };
    };
    CountsAnswer {
        number: 0,
        labels: counts.labels,
        roles: counts.roles,
        users: counts.users,
        cards: counts.cards,
    }
}

fn session(state: &[u8], place: u64) -> Result<SessionAnswer, u64> {
    let (state, _) = sound(state).ok_or(21u64)?;
    let at = seat(state, place)?;
    let (low, high) = halves(taken(&state[at + 4..at + 4 + ROW]));
    Ok(SessionAnswer {
        number: 0,
        user: u64::from(state[at + 1]) + 1,
        label: state[at + 2].into(),
        low,
        high,
    })
}

#[inline(never)]
pub fn session_at(state: &[u8], place: u64) -> SessionAnswer {
    session(state, place).unwrap_or_else(|number| SessionAnswer {
        number,
        ..SessionAnswer::default()
    })
}

/// 21, 25 where a number is out of range, or the figure.
#[inline(always)]
fn figure(
    state: &[u8],
    in_range: impl Fn(&Counts) -> bool,
    figure: impl Fn(&State) -> u64,
) -> Figure {
    let Some((state, counts)) = sound(state) else {
        return Figure::refused(21);
    };
    if !in_range(&counts) {
        return Figure::refused(25);
    }
    Figure {
        number: 0,
        figure: figure(state),
    }
}

#[inline(never)]
pub fn clearance(state: &[u8], user: u64) -> Figure {
    let in_range = |counts: &Counts| among(counts.users, user);
    figure(state, in_range, |state| {
        state[CLEARANCES + user as usize - 1].into()
    })
}

#[inline(never)]
pub fn card_label(state: &[u8], card: u64) -> Figure {
    let in_range = |counts: &Counts| among(counts.cards, card);
    figure(state, in_range, |state| {
        state[CARD_LABELS + card as usize - 1].into()
    })
}

#[inline(never)]
pub fn level(state: &[u8], role: u64, mode: u64) -> Figure {
    let in_range = |counts: &Counts| among(counts.roles, role) & among(2, mode);
    let levels = if mode == 1 { READ_LEVELS } else { WRITE_LEVELS };
    figure(state, in_range, |state| {
        state[levels + role as usize - 1].into()
    })
}

#[inline(never)]
pub fn dominates(state: &[u8], a: u64, b: u64) -> Figure {
    let in_range = |counts: &Counts| among(counts.labels, a) & among(counts.labels, b);
    figure(state, in_range, |state| over(state, a, b).into())
}

#[inline(never)]
pub fn senior(state: &[u8], r: u64, q: u64) -> Figure {
    let in_range = |counts: &Counts| among(counts.roles, r) & among(counts.roles, q);
    figure(state, in_range, |state| {
        has(row(state, SENIORS, q as usize), r as usize).into()
    })
}

#[inline(never)]
pub fn assigned(state: &[u8], user: u64, role: u64) -> Figure {
    let in_range = |counts: &Counts| among(counts.users, user) & among(counts.roles, role);
    figure(state, in_range, |state| {
        has(row(state, ASSIGNED, user as usize), role as usize).into()
    })
}

fn roles_to_take(state: &[u8], user: u64, label: u64) -> Result<[u8; ROW], u64> {
    let (state, counts) = sound(state).ok_or(21u64)?;
    if !among(counts.users, user) || !among(counts.labels, label) {
        return Err(25);
    }
    let clearance = state[CLEARANCES + user as usize - 1];
    if !over(state, clearance.into(), label) {
        return Err(26);
    }
    let mut row = [0; ROW];
    for role in 1..=counts.roles {
        if entitled(state, user, role) && fitting(state, label, role) {
            add(&mut row, role as usize);
        }
    }
    Ok(row)
}

#[inline(never)]
pub fn takable(state: &[u8], user: u64, label: u64) -> SetAnswer {
    let (number, row) = match roles_to_take(state, user, label) {
        Ok(row) => (0, row),
        Err(number) => (number, [0; ROW]),
    };
    let (low, high) = halves(row);
    SetAnswer { number, low, high }
}

#[inline(never)]
pub fn gives(state: &[u8], low: u64, high: u64, label: u64, card: u64, mode: u64) -> Figure {
    let in_range =
        |counts: &Counts| among(counts.labels, label) & among(counts.cards, card) & among(2, mode);
    let at = if mode == 1 { READERS } else { WRITERS };
    let set = u128::from(high) << 64 | u128::from(low);
    figure(state, in_range, |state| {
        (roles_of(state, at, card) & set != 0).into()
    })
}
