//! What the review calls answer by docs/LAYOUT.md, whatever the bytes are: "A
//! mark counts where it is 1, a label that is 0 or above 32 dominates nothing
//! and is dominated by nothing, and a place is in use where its first byte is
//! 1." What it leaves open is as crates/monitor/specs/Review.antt has it: bits of
//! a row past the number of roles count for what a set gives and for who may
//! take a role. No load leaves such bits.

use crate::call::Answer;
use crate::layout::{
    Table, ASSIGNED, CARD_LABELS, CLEARANCES, COUNTS, DOMINANCE, PLACES, READERS, READ_LEVELS,
    SENIORS, WRITERS, WRITE_LEVELS,
};
use crate::library::{CountsAnswer, Figure, SessionAnswer, SetAnswer};
use crate::review::Review;
use monitor_model::STATE_BYTES;
use second_checker::generate::LIMITS;

/// "What number 21 tests": the state's bytes, where it is none of those.
struct Bytes<'a> {
    state: &'a [u8],
    labels: u64,
    roles: u64,
    users: u64,
    cards: u64,
}

/// What a review call answers on these bytes.
pub fn answer(review: Review, state: &[u8]) -> Answer {
    let answer = Bytes::of(state).and_then(|bytes| bytes.answer(review));
    answer.unwrap_or_else(|number| Answer::refused(review.kind(), number))
}

/// 25 where a number is not one from 1 to its count.
fn in_range(numbers: &[(u64, u64)]) -> Result<(), u64> {
    let good = |&(number, count): &(u64, u64)| (1..=count).contains(&number);
    numbers.iter().all(good).then_some(()).ok_or(25)
}

impl Bytes<'_> {
    fn of(state: &[u8]) -> Result<Bytes<'_>, u64> {
        if state.len() < STATE_BYTES {
            return Err(21);
        }
        let count = |nth: usize| {
            let bytes = &state[COUNTS.entry(nth)];
            u64::from(bytes[0]) + 256 * u64::from(bytes[1])
        };
        let counts = [1, 2, 3, 4].map(count);
        let within = counts.iter().zip(LIMITS);
        if counts[0] == 0 || !within.into_iter().all(|(&n, limit)| n <= limit as u64) {
            return Err(21);
        }
        let [labels, roles, users, cards] = counts;
        Ok(Bytes {
            state,
            labels,
            roles,
            users,
            cards,
        })
    }

    fn answer(&self, review: Review) -> Result<Answer, u64> {
        Ok(match review {
            Review::Counts => Answer::Counts(self.counts()),
            Review::Session { place } => Answer::Session(self.session(place)?),
            Review::Takable { user, label } => Answer::Set(self.takable(user, label)?),
            _ => Answer::Figure(Figure {
                number: 0,
                figure: self.figure(review)?,
            }),
        })
    }

    fn figure(&self, review: Review) -> Result<u64, u64> {
        in_range(&self.ranges(review))?;
        Ok(match review {
            Review::Clearance { user } => self.byte(&CLEARANCES, user),
            Review::CardLabel { card } => self.byte(&CARD_LABELS, card),
            Review::Level { role, mode: 1 } => self.byte(&READ_LEVELS, role),
            Review::Level { role, .. } => self.byte(&WRITE_LEVELS, role),
            Review::Dominates { a, b } => self.dominates(a, b).into(),
            Review::Senior { r, q } => self.row(&SENIORS, q)[r as usize].into(),
            Review::Assigned { user, role } => self.row(&ASSIGNED, user)[role as usize].into(),
            Review::Gives {
                set, card, mode, ..
            } => {
                let givers = self.row([&READERS, &WRITERS][mode as usize - 1], card);
                meet(&givers, &from_halves(set)).into()
            }
            Review::Counts | Review::Session { .. } | Review::Takable { .. } => {
                unreachable!("{review:?} has no figure")
            }
        })
    }

    /// The numbers that 25 is about, each with its count.
    fn ranges(&self, review: Review) -> Vec<(u64, u64)> {
        match review {
            Review::Counts | Review::Session { .. } => vec![],
            Review::Clearance { user } => vec![(user, self.users)],
            Review::CardLabel { card } => vec![(card, self.cards)],
            Review::Level { role, mode } => vec![(role, self.roles), (mode, 2)],
            Review::Dominates { a, b } => vec![(a, self.labels), (b, self.labels)],
            Review::Senior { r, q } => vec![(r, self.roles), (q, self.roles)],
            Review::Assigned { user, role } => vec![(user, self.users), (role, self.roles)],
            Review::Takable { user, label } => vec![(user, self.users), (label, self.labels)],
            Review::Gives {
                label, card, mode, ..
            } => vec![(label, self.labels), (card, self.cards), (mode, 2)],
        }
    }

    fn counts(&self) -> CountsAnswer {
        CountsAnswer {
            number: 0,
            labels: self.labels,
            roles: self.roles,
            users: self.users,
            cards: self.cards,
        }
    }

    fn session(&self, place: u64) -> Result<SessionAnswer, u64> {
        in_range(&[(place, 64)]).map_err(|_| 22u64)?;
        let entry = &self.state[PLACES.entry(place as usize)];
        if entry[0] != 1 {
            return Err(24);
        }
        let (low, high) = halves(&roles_in(&entry[4..]));
        Ok(SessionAnswer {
            number: 0,
            user: u64::from(entry[1]) + 1,
            label: entry[2].into(),
            low,
            high,
        })
    }

    fn takable(&self, user: u64, label: u64) -> Result<SetAnswer, u64> {
        in_range(&self.ranges(Review::Takable { user, label }))?;
        if !self.dominates(self.byte(&CLEARANCES, user), label) {
            return Err(26);
        }
        let assigned = self.row(&ASSIGNED, user);
        let mut roles = [false; 129];
        for role in 1..=self.roles {
            roles[role as usize] =
                meet(&assigned, &self.row(&SENIORS, role)) && self.levels_allow(role, label);
        }
        let (low, high) = halves(&roles);
        Ok(SetAnswer {
            number: 0,
            low,
            high,
        })
    }

    fn levels_allow(&self, role: u64, label: u64) -> bool {
        let read = self.byte(&READ_LEVELS, role);
        let write = self.byte(&WRITE_LEVELS, role);
        (read == 0 || self.dominates(label, read)) && (write == 0 || self.dominates(write, label))
    }

    fn byte(&self, table: &Table, number: u64) -> u64 {
        self.state[table.entry(number as usize)][0].into()
    }

    fn dominates(&self, a: u64, b: u64) -> bool {
        in_range(&[(a, 32), (b, 32)]).is_ok()
            && self.state[DOMINANCE.entry(a as usize)][b as usize - 1] == 1
    }

    fn row(&self, table: &Table, number: u64) -> Roles {
        roles_in(&self.state[table.entry(number as usize)])
    }
}

/// Of each role from 1 to 128 whether it is in a set.
type Roles = [bool; 129];

/// "role r is bit (r − 1) mod 8 of byte (r − 1) / 8"
fn roles_in(row: &[u8]) -> Roles {
    let mut roles = [false; 129];
    for (role, is_in) in roles.iter_mut().enumerate().skip(1) {
        *is_in = row[(role - 1) / 8] & 1 << ((role - 1) % 8) != 0;
    }
    roles
}

/// Whether two sets have a role in common.
fn meet(one: &Roles, other: &Roles) -> bool {
    one.iter().zip(other).any(|(&one, &other)| one && other)
}

/// "role r is bit r - 1 of low, or from 65 on bit r - 65 of high"
fn halves(roles: &Roles) -> (u64, u64) {
    let number = |part: &[bool]| part.iter().rev().fold(0, |n, &bit| n << 1 | u64::from(bit));
    (number(&roles[1..65]), number(&roles[65..]))
}

fn from_halves((low, high): (u64, u64)) -> Roles {
    let mut row = [0; 16];
    row[..8].copy_from_slice(&low.to_le_bytes());
    row[8..].copy_from_slice(&high.to_le_bytes());
    roles_in(&row)
}
