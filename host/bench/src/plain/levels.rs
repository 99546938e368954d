//! Levels: the labels that a role may read or write are gathered, and bounded.

use super::order::{first_labels, greatest_lower, with, Dominance, Members, Rows};
use super::roleset::{has, row, taken, unite, ROW};
use super::{CARD_LABELS, READERS, READ_LEVELS, UNDEFINED, WRITERS, WRITE_LEVELS};

/// For each label, the roles that may read, and those that may write, a card of that label.
pub struct Gathered {
    reads: [[u8; ROW]; 32],
    writes: [[u8; ROW]; 32],
}

/// Gathers the roles of the first n cards.
pub fn gather(state: &[u8], n: usize) -> Gathered {
    let mut gathered = Gathered {
        reads: [[0; ROW]; 32],
        writes: [[0; ROW]; 32],
    };
    for card in 1..=n {
        let label = state[CARD_LABELS + card - 1] as usize;
        unite(
            &mut gathered.reads[label - 1],
            &taken(row(state, READERS, card)),
        );
        unite(
            &mut gathered.writes[label - 1],
            &taken(row(state, WRITERS, card)),
        );
    }
    gathered
}

/// The labels whose row has the role.
fn labels_of(rows: &[[u8; ROW]; 32], role: usize) -> Members {
    rows.iter()
        .enumerate()
        .fold(0, |set, (i, row)| with(set, i + 1, has(row, role)))
}

/// The level of a set of labels, bounded by the rows, as it is kept: 0 where it is empty.
fn level(rows: &Rows, all: Members, set: Members) -> u8 {
    if set == 0 {
        return 0;
    }
    match greatest_lower(rows, all, set) {
        0 => UNDEFINED,
        bound => bound as u8,
    }
}

/// Puts both levels of each role, of n labels.
pub fn put_levels(
    state: &mut [u8],
    gathered: &Gathered,
    order: &Dominance,
    n: usize,
    roles: usize,
) {
    let all = first_labels(n);
    for i in 0..roles {
        let reads = labels_of(&gathered.reads, i + 1);
        state[READ_LEVELS + i] = level(&order.over, all, reads);
        let writes = labels_of(&gathered.writes, i + 1);
        state[WRITE_LEVELS + i] = level(&order.under, all, writes);
    }
}
