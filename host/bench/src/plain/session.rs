//! Opening and closing a place, taking and dropping a role.

use super::roleset::{add, remove, ROW};
use super::state::{among, dominates, place_at, roles_of, session_at, sound_mut, State};
use super::{ASSIGNED, CLEARANCES, READ_LEVELS, SENIORS, WRITE_LEVELS};

#[inline(never)]
pub fn open(state: &mut [u8], place: u64, user: u64, label: u64) -> u64 {
    let Some((state, counts)) = sound_mut(state) else {
        return 21;
    };
    if !among(64, place) {
        return 22;
    }
    let at = place_at(place);
    if state[at] == 1 {
        return 23;
    }
    if !among(counts.users, user) || !among(counts.labels, label) {
        return 25;
    }
    let clearance = state[CLEARANCES + user as usize - 1];
    if !dominates(state, clearance.into(), label) {
        return 26;
    }
    let mut bytes = [0; 20];
    bytes[..3].copy_from_slice(&[1, (user - 1) as u8, label as u8]);
    state[at..at + 20].copy_from_slice(&bytes);
    0
}

#[inline(never)]
pub fn close(state: &mut [u8], place: u64) -> u64 {
    let Some((state, _)) = sound_mut(state) else {
        return 21;
    };
    let at = match session_at(state, place) {
        Ok(at) => at,
        Err(number) => return number,
    };
    state[at..at + 20].fill(0);
    0
}

/// The state and where the place's bytes start, or the number: 21, 22, 24, 25.
#[inline(always)]
fn with_role(state: &mut [u8], place: u64, role: u64) -> Result<(&mut State, usize), u64> {
    let Some((state, counts)) = sound_mut(state) else {
        return Err(21);
    };
    let at = session_at(state, place)?;
    if !among(counts.roles, role) {
        return Err(25);
    }
    Ok((state, at))
}

/// Whether the user is assigned to the role or to a senior of it.
pub fn entitled(state: &State, user: u64, role: u64) -> bool {
    roles_of(state, ASSIGNED, user) & roles_of(state, SENIORS, role) != 0
}

/// Whether the levels of the role allow it at the label.
pub fn fitting(state: &State, label: u64, role: u64) -> bool {
    let read = state[READ_LEVELS + role as usize - 1].into();
    let write = state[WRITE_LEVELS + role as usize - 1].into();
    (read == 0 || dominates(state, label, read)) && (write == 0 || dominates(state, write, label))
}

#[inline(never)]
pub fn take(state: &mut [u8], place: u64, role: u64) -> u64 {
    let (state, at) = match with_role(state, place, role) {
        Ok(found) => found,
        Err(number) => return number,
    };
    let user = u64::from(state[at + 1]) + 1;
    if !entitled(state, user, role) {
        return 27;
    }
    if !fitting(state, state[at + 2].into(), role) {
        return 28;
    }
    add(&mut state[at + 4..at + 4 + ROW], role as usize);
    0
}

#[inline(never)]
pub fn drop(state: &mut [u8], place: u64, role: u64) -> u64 {
    let (state, at) = match with_role(state, place, role) {
        Ok(found) => found,
        Err(number) => return number,
    };
    remove(&mut state[at + 4..at + 4 + ROW], role as usize);
    0
}
