//! What the session calls read of a state.

use super::roleset::{taken, ROW};
use super::{DOMINANCE, PLACES, STATE};

pub type State = [u8; STATE];

/// The counts of a state.
pub struct Counts {
    pub labels: u64,
    pub roles: u64,
    pub users: u64,
    pub cards: u64,
}

/// Whether x is one of the numbers 1 to n.
pub fn among(n: u64, x: u64) -> bool {
    (1..=n).contains(&x)
}

/// The counts, where they are within their limits.
fn counts(state: &State) -> Option<Counts> {
    let word = |at: usize| u64::from(u16::from_le_bytes([state[at], state[at + 1]]));
    let counts = Counts {
        labels: word(0),
        roles: word(2),
        users: word(4),
        cards: word(6),
    };
    let fit = among(32, counts.labels)
        & (counts.roles <= 128)
        & (counts.users <= 256)
        & (counts.cards <= 512);
    fit.then_some(counts)
}

/// The state and its counts; none where the number is 21.
pub fn sound(state: &[u8]) -> Option<(&State, Counts)> {
    let state = state.first_chunk()?;
    Some((state, counts(state)?))
}

pub fn sound_mut(state: &mut [u8]) -> Option<(&mut State, Counts)> {
    let state = state.first_chunk_mut()?;
    let counts = counts(state)?;
    Some((state, counts))
}

/// Where the place's 20 bytes start.
pub fn place_at(place: u64) -> usize {
    PLACES + 20 * (place as usize - 1)
}

/// Where the bytes of a place with a session start, or the number: 22, 24.
#[inline(always)]
pub fn session_at(state: &State, place: u64) -> Result<usize, u64> {
    if !among(64, place) {
        return Err(22);
    }
    let at = place_at(place);
    if state[at] != 1 {
        return Err(24);
    }
    Ok(at)
}

/// The set of roles at `at`.
pub fn roles_at(state: &State, at: usize) -> u128 {
    u128::from_le_bytes(taken(&state[at..at + ROW]))
}

/// The row of thing x in the table of role sets at `at`.
pub fn roles_of(state: &State, at: usize, x: u64) -> u128 {
    roles_at(state, at + ROW * (x as usize - 1))
}

/// Whether label a dominates label b.
pub fn dominates(state: &State, a: u64, b: u64) -> bool {
    among(32, a) && among(32, b) && state[DOMINANCE + 32 * (a as usize - 1) + (b as usize - 1)] == 1
}
