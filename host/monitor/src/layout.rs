//! Where things stand in a state, by docs/LAYOUT.md; `tests/layout.rs` holds
//! this to the document's table.

use std::ops::Range;

/// A row of the document's table.
pub struct Table {
    pub from: usize,
    pub entries: usize,
    /// Of an entry.
    pub bytes: usize,
    /// The document's words, as many as name it.
    pub holds: &'static str,
}

const fn table(from: usize, entries: usize, bytes: usize, holds: &'static str) -> Table {
    Table {
        from,
        entries,
        bytes,
        holds,
    }
}

impl Table {
    /// Where in the state it stands.
    pub fn range(&self) -> Range<usize> {
        self.from..self.from + self.entries * self.bytes
    }

    /// Where an entry stands; entries are numbered from 1.
    pub fn entry(&self, number: usize) -> Range<usize> {
        let start = self.from + self.bytes * (number - 1);
        start..start + self.bytes
    }
}

pub const COUNTS: Table = table(0, 4, 2, "the counts");
pub const DOMINANCE: Table = table(16, 32, 32, "dominance");
pub const CLEARANCES: Table = table(1_040, 256, 1, "clearance of each user");
pub const CARD_LABELS: Table = table(1_296, 512, 1, "label of each card");
pub const READ_LEVELS: Table = table(1_808, 128, 1, "r-level of each role");
pub const WRITE_LEVELS: Table = table(1_936, 128, 1, "w-level of each role");
pub const SENIORS: Table = table(2_064, 128, 16, "seniors of each role");
pub const ASSIGNED: Table = table(4_112, 256, 16, "assigned roles of each user");
pub const ADMINISTERED: Table = table(8_208, 256, 16, "kept for administered roles");
pub const READERS: Table = table(12_304, 512, 16, "roles that may read each card");
pub const WRITERS: Table = table(20_496, 512, 16, "roles that may write each card");
pub const THIRD_MODE: Table = table(28_688, 512, 16, "kept for a third mode");
pub const OWN_LINES: Table = table(36_880, 3 * 512, 16, "kept for the permissions");
pub const PLACES: Table = table(61_456, 64, 20, "places");
pub const UNUSED: Table = table(62_736, 2_800, 1, "unused");

/// What is not 0 after a load.
pub const FILLED: [&Table; 10] = [
    &COUNTS,
    &DOMINANCE,
    &CLEARANCES,
    &CARD_LABELS,
    &READ_LEVELS,
    &WRITE_LEVELS,
    &SENIORS,
    &ASSIGNED,
    &READERS,
    &WRITERS,
];

/// What is 0 after a load.
pub const EMPTY: [&Table; 5] = [&ADMINISTERED, &THIRD_MODE, &OWN_LINES, &PLACES, &UNUSED];

/// All rows, as the document has them.
pub fn tables() -> Vec<&'static Table> {
    let mut tables = [&FILLED[..], &EMPTY[..]].concat();
    tables.sort_by_key(|table| table.from);
    tables
}

/// A byte of the state by its table and entry; entries are numbered from 1.
pub fn named(at: usize) -> String {
    let tables = tables();
    let Some(table) = tables.iter().find(|table| table.range().contains(&at)) else {
        return format!("byte {at}, of no table");
    };
    let inside = at - table.from;
    let (entry, byte) = (inside / table.bytes + 1, inside % table.bytes);
    format!("byte {at}: {}, entry {entry}, byte {byte}", table.holds)
}
