//! Reads and writes of a part of a card.

use super::state::{among, roles_at, roles_of, session_at, sound};
use super::{READERS, WRITERS};

/// The number of a read or a write of n bytes, by the table at `at` of the roles that may.
#[inline(always)]
fn part_number(
    state: &[u8],
    at: usize,
    store_len: usize,
    [place, card, offset, n]: [u64; 4],
) -> u64 {
    let Some((state, counts)) = sound(state) else {
        return 21;
    };
    let seat = match session_at(state, place) {
        Ok(seat) => seat,
        Err(number) => return number,
    };
    if !among(counts.cards, card) {
        return 25;
    }
    if roles_at(state, seat + 4) & roles_of(state, at, card) == 0 {
        return 29;
    }
    if 64 < n || 64 - n < offset {
        return 30;
    }
    if (store_len as u64) < 64 * counts.cards {
        return 31;
    }
    0
}

#[inline(never)]
pub fn read_number(
    state: &[u8],
    store: &[u8],
    place: u64,
    card: u64,
    offset: u64,
    length: u64,
) -> u64 {
    part_number(state, READERS, store.len(), [place, card, offset, length])
}

#[inline(never)]
pub fn write(
    state: &[u8],
    store: &mut [u8],
    place: u64,
    card: u64,
    offset: u64,
    bytes: &[u8],
) -> u64 {
    let length = bytes.len() as u64;
    let number = part_number(state, WRITERS, store.len(), [place, card, offset, length]);
    if number == 0 {
        let at = (64 * (card - 1) + offset) as usize;
        store[at..at + bytes.len()].copy_from_slice(bytes);
    }
    number
}
