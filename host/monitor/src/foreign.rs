//! States that no load left, with counts in their limits.

use crate::layout::{
    Table, ASSIGNED, CARD_LABELS, CLEARANCES, COUNTS, DOMINANCE, PLACES, READERS, READ_LEVELS,
    SENIORS, WRITERS, WRITE_LEVELS,
};
use crate::questions::used;
use monitor_model::STATE_BYTES;
use second_checker::check::Counts;
use second_checker::generate::LIMITS;
use second_checker::random::Random;

/// A state and the counts that it begins with.
pub fn state(random: &mut Random, index: u64) -> (Vec<u8>, Counts) {
    let mut state = match index % 4 {
        0 => random.bytes(STATE_BYTES),
        1 => {
            let below = random.pick(&[2, 3, 33]);
            (0..STATE_BYTES)
                .map(|_| random.below(below) as u8)
                .collect()
        }
        2 => damaged(random),
        _ => plausible(random),
    };
    let counts = match random.below(3) {
        0 => LIMITS,
        _ => [
            random.between(1, LIMITS[0]),
            random.between(0, LIMITS[1]),
            random.between(0, LIMITS[2]),
            random.between(0, LIMITS[3]),
        ],
    };
    for (count, nth) in counts.into_iter().zip(1..) {
        state[COUNTS.entry(nth)].copy_from_slice(&(count as u16).to_le_bytes());
    }
    let [labels, roles, users, cards] = counts;
    let counts = Counts {
        labels,
        roles,
        users,
        cards,
    };
    (state, counts)
}

/// A loaded state with bytes changed in the tables.
fn damaged(random: &mut Random) -> Vec<u8> {
    let mut state = used(random).state;
    let tables = [
        &DOMINANCE,
        &CLEARANCES,
        &READ_LEVELS,
        &WRITE_LEVELS,
        &SENIORS,
        &ASSIGNED,
        &READERS,
        &PLACES,
    ];
    for _ in 0..random.between(1, 300) {
        let range = random.pick(&tables).range();
        state[range.start + random.below(range.len())] = random.byte();
    }
    state
}

/// Marks, labels, levels and sets that might be there, in no order.
fn plausible(random: &mut Random) -> Vec<u8> {
    let mut state = random.bytes(STATE_BYTES);
    let mut fill = |table: &Table, byte: &mut dyn FnMut() -> u8| {
        state[table.range()].fill_with(byte);
    };
    fill(&DOMINANCE, &mut || random.pick(&[0, 1, 1, 1, 2]));
    for labels in [&CLEARANCES, &CARD_LABELS] {
        fill(labels, &mut || random.below(36) as u8);
    }
    for levels in [&READ_LEVELS, &WRITE_LEVELS] {
        fill(levels, &mut || match random.below(8) {
            0 => 99,
            1..=3 => 0,
            _ => random.below(36) as u8,
        });
    }
    for sets in [&SENIORS, &ASSIGNED, &READERS, &WRITERS] {
        fill(sets, &mut || 1 << random.below(8) & random.byte());
    }
    for place in 1..=PLACES.entries {
        let roles = random.pick(&[0, 8, 16]);
        let entry = &mut state[PLACES.entry(place)];
        entry[0] = random.pick(&[0, 1, 1, 2, 255]);
        entry[4 + roles..].fill(0);
    }
    state
}
