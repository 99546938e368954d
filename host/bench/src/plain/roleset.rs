//! Sets of roles 1 to 128 as rows of 16 bytes, and seniority as a table of 128 such rows.

pub const ROW: usize = 16;

pub fn has(row: &[u8], role: usize) -> bool {
    row[(role - 1) / 8] >> ((role - 1) % 8) & 1 == 1
}

pub fn add(row: &mut [u8], role: usize) {
    row[(role - 1) / 8] |= 1 << ((role - 1) % 8);
}

pub fn remove(row: &mut [u8], role: usize) {
    row[(role - 1) / 8] &= !(1 << ((role - 1) % 8));
}

pub fn unite(row: &mut [u8], other: &[u8; ROW]) {
    for (byte, &also) in row.iter_mut().zip(other) {
        *byte |= also;
    }
}

/// A row by value.
pub fn taken(row: &[u8]) -> [u8; ROW] {
    row.try_into().expect("a row has 16 bytes")
}

/// The row of thing x in a table that starts at `at`.
pub fn row(state: &[u8], at: usize, x: usize) -> &[u8] {
    let start = at + ROW * (x - 1);
    &state[start..start + ROW]
}

pub fn row_mut(state: &mut [u8], at: usize, x: usize) -> &mut [u8] {
    let start = at + ROW * (x - 1);
    &mut state[start..start + ROW]
}

/// Leaves the paths of one step or more among the first n roles.
pub fn close(state: &mut [u8], at: usize, n: usize) {
    for k in 1..=n {
        let other = taken(row(state, at, k));
        for row in state[at..at + ROW * n].chunks_exact_mut(ROW) {
            if has(row, k) {
                unite(row, &other);
            }
        }
    }
}

/// The lowest role that has a path to itself, or 0.
pub fn lowest_loop(state: &[u8], at: usize, n: usize) -> usize {
    (1..=n).find(|&r| has(row(state, at, r), r)).unwrap_or(0)
}

/// Each of the first n roles with itself.
pub fn reflect(state: &mut [u8], at: usize, n: usize) {
    for r in 1..=n {
        add(row_mut(state, at, r), r);
    }
}
