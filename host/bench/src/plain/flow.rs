//! The flow report.

use super::roleset::ROW;
use super::state::{among, roles_of, sound, State};
use super::{READERS, WRITERS};
use crate::monitor::Figure;

fn refused(number: u64) -> Figure {
    Figure { number, figure: 0 }
}

fn done(figure: u64) -> Figure {
    Figure { number: 0, figure }
}

/// The rows of the first n cards in the table at `at`.
fn rows(state: &State, at: usize, n: u64) -> std::slice::ChunksExact<'_, u8> {
    state[at..at + ROW * n as usize].chunks_exact(ROW)
}

/// Where in a row a role stands: the byte, and the bit in it.
fn bit(role: u64) -> (usize, u8) {
    ((role as usize - 1) / 8, 1 << ((role - 1) % 8))
}

#[inline(never)]
pub fn flows(state: &[u8], from: u64, to: u64) -> Figure {
    let Some((state, counts)) = sound(state) else {
        return refused(21);
    };
    if !among(counts.roles, from) || !among(counts.roles, to) {
        return refused(25);
    }
    let ((i, from_bit), (j, to_bit)) = (bit(from), bit(to));
    let mut cards = rows(state, WRITERS, counts.cards).zip(rows(state, READERS, counts.cards));
    let flowing = from != to
        && cards.any(|(writers, readers)| {
            (writers[i] & from_bit != 0) & ((readers[j] & to_bit != 0) | (writers[j] & to_bit != 0))
        });
    done(flowing.into())
}

/// For each role, the roles that it flows to, itself left out.
fn flow_table(state: &State, cards: u64) -> [u128; 128] {
    let mut table = [0; 128];
    for card in 1..=cards {
        let mut writers = roles_of(state, WRITERS, card);
        let either = roles_of(state, READERS, card) | writers;
        while writers != 0 {
            table[writers.trailing_zeros() as usize] |= either;
            writers &= writers - 1;
        }
    }
    for (i, row) in table.iter_mut().enumerate() {
        *row &= !(1 << i);
    }
    table
}

/// Leaves the paths of one step or more.
fn close(table: &mut [u128]) {
    for k in 0..table.len() {
        let (other, bit) = (table[k], 1 << k);
        for row in table.iter_mut() {
            if *row & bit != 0 {
                *row |= other;
            }
        }
    }
}

#[inline(never)]
pub fn circle(state: &[u8]) -> Figure {
    let Some((state, counts)) = sound(state) else {
        return refused(21);
    };
    let mut table = flow_table(state, counts.cards);
    let table = &mut table[..counts.roles as usize];
    close(table);
    let lowest = (0..table.len()).find(|&i| table[i] >> i & 1 == 1);
    done(lowest.map_or(0, |i| i as u64 + 1))
}
