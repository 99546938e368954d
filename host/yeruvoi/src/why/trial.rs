//! What a load would answer if the user were assigned to a role that gives the card.

use crate::lines::{Lines, LINE_BYTES};
use crate::monitor::{Policy, Roles};
use std::collections::BTreeMap;

/// Roles by the number that the file would get with a line A for one of them; 0 is accepted.
pub type Trials = BTreeMap<u64, Vec<u64>>;

pub fn of(file: &[u8], user: u64, roles: Roles) -> Trials {
    let mut trials = Trials::new();
    for role in roles.iter() {
        let verdict = Policy::load(&assigned(file, user, role)).err();
        let number = verdict.map_or(0, |verdict| verdict.number);
        trials.entry(number).or_default().push(role);
    }
    trials
}

/// The file with one more line A, where the order of lines has it.
fn assigned(file: &[u8], user: u64, role: u64) -> Vec<u8> {
    let lines = Lines::of(file);
    let after = lines
        .with(b'A')
        .find(|line| line.fields[..2] > [user, role][..]);
    let place = after.map_or(file.len(), |line| LINE_BYTES * (line.number - 1));
    let line = format!("A{user:>5}{role:>5}{:10}\n", "");
    [&file[..place], line.as_bytes(), &file[place..]].concat()
}
