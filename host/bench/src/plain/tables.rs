//! The tables that the lines of each letter fill.

use super::order::{Dominance, Members, Rows, Table};
use super::read::Part;
use super::roleset::{add, row, row_mut, taken, unite};
use super::state::{dominates, State};
use super::{
    CLEARANCES, DOMINANCE, READERS, READ_LEVELS, SENIORS, UNDEFINED, WRITERS, WRITE_LEVELS,
};
use crate::verdict::{refused, Verdict};

/// Notes the label of each thing: 255 for a thing with several.
pub fn note_labels(state: &mut [u8], at: usize, part: Part) {
    for (x, label, _) in part.numbers() {
        let byte = &mut state[at + x - 1];
        *byte = if *byte == 0 { label as u8 } else { 255 };
    }
}

/// The lowest of n things with no label or several.
pub fn lowest_unlabelled(state: &[u8], at: usize, n: usize) -> Option<usize> {
    let bytes = &state[at..at + n];
    bytes
        .iter()
        .position(|&byte| byte == 0 || byte == 255)
        .map(|i| i + 1)
}

/// The marks of the D lines.
pub fn dominance(part: Part) -> Table {
    let mut table = [[false; 32]; 32];
    for (a, b, _) in part.numbers() {
        table[a - 1][b - 1] = true;
    }
    table
}

/// Puts the closed marks into the state, a byte for each.
pub fn put_dominance(state: &mut [u8], table: &Table) {
    let bytes = &mut state[DOMINANCE..DOMINANCE + 1024];
    for (byte, &mark) in bytes.iter_mut().zip(table.iter().flatten()) {
        *byte = mark as u8;
    }
}

/// Each S line puts its first role into the row of its second.
pub fn note_seniors(state: &mut [u8], part: Part) {
    for (senior, junior, _) in part.numbers() {
        add(row_mut(state, SENIORS, junior), senior);
    }
}

/// Each A line puts its role into the row of its user.
pub fn note_assigned(state: &mut [u8], at: usize, part: Part) {
    for (user, role, _) in part.numbers() {
        add(row_mut(state, at, user), role);
    }
}

/// Each P line lets the seniors of its role read or write its card.
pub fn grant(state: &mut [u8], part: Part) {
    for (role, card, mode) in part.numbers() {
        let seniors = taken(row(state, SENIORS, role));
        let at = if mode == 1 { READERS } else { WRITERS };
        unite(row_mut(state, at, card), &seniors);
    }
}

/// The row of a level: every label where it is free, 0.
fn level_row(rows: &Rows, level: u8) -> Members {
    match level {
        0 => Members::MAX,
        label => rows[label as usize - 1],
    }
}

/// 14 to 16: each assignment against the levels of its role.
pub fn judge_assignments(state: &State, order: &Dominance, part: Part) -> Result<(), Verdict> {
    for (user, role, _) in part.numbers() {
        let clearance = state[CLEARANCES + user - 1];
        let read = state[READ_LEVELS + role - 1];
        let write = state[WRITE_LEVELS + role - 1];
        if write == UNDEFINED {
            return Err(refused(14, user, role));
        }
        if read != 0 && !dominates(state, clearance.into(), read.into()) {
            return Err(refused(15, user, role));
        }
        let lower = order.under[clearance as usize - 1];
        if lower & level_row(&order.over, read) & level_row(&order.under, write) == 0 {
            return Err(refused(16, user, role));
        }
    }
    Ok(())
}
