//! Role files: the largest one, edits of it that are refused, and small ones.

use crate::sizes::LARGEST;
use second_checker::check::{Counts, RoleFile, READ, WRITE};
use second_checker::generate::write;
use second_checker::line::print_line;

/// The bytes after an edit.
fn edited(file: &RoleFile, edit: impl FnOnce(&mut RoleFile)) -> Vec<u8> {
    let mut file = file.clone();
    edit(&mut file);
    write(&file)
}

/// The largest counts and 2,900 lines, accepted.
pub fn largest() -> RoleFile {
    LARGEST.file()
}

/// The largest file, but its written cards are written by role 128 alone, which is no role's junior: so
/// no two roles write one card, and nobody reads those.
pub fn without_flow() -> RoleFile {
    let mut file = largest();
    for line in file.permissions.iter_mut().filter(|line| line.2 == WRITE) {
        line.0 = 128;
    }
    file.permissions.sort_unstable();
    file.permissions.dedup();
    file
}

/// The same, but role 1 reads the last card: so do its seniors, which is all roles, and role 128, which
/// writes it, flows to all others.
pub fn flowing_by_one_card() -> RoleFile {
    let mut file = without_flow();
    file.permissions.push((1, 512, READ));
    file.permissions.sort_unstable();
    file
}

/// The counts 1 0 0 0 and no other line.
pub fn smallest() -> Vec<u8> {
    print_line(b'H', &[1, 0, 0, 0])
}

/// Puts a line in another's place.
fn replace(lines: &mut [(usize, usize)], old: (usize, usize), new: (usize, usize)) {
    *lines
        .iter_mut()
        .find(|line| **line == old)
        .expect("the file has the line") = new;
}

/// Role 128 writes a card that it read, far under its r-level, and is assigned to the last user alone.
fn bar_the_last_assignment(file: &mut RoleFile) {
    let line = file
        .permissions
        .iter_mut()
        .find(|&&mut (role, _, mode)| role == 128 && mode == READ);
    line.expect("role 128 reads").2 = WRITE;
    for line in file.assignments.iter_mut().filter(|line| line.1 == 128) {
        line.1 = 127;
    }
    *file.assignments.last_mut().expect("there are assignments") = (256, 128);
}

/// The largest file with every clearance above the w-levels of the roles that its user has.
pub fn high_clearances() -> RoleFile {
    let mut file = largest();
    for line in &mut file.clearances {
        line.1 = 30;
    }
    file
}

/// Edits of the largest file, each refused at the end of a stage of the load: what the stage does,
/// and the number. A load's time up to one of them less the time up to the one before is the stage's.
pub fn stages() -> Vec<(&'static str, u64, Vec<u8>)> {
    let file = largest();
    let last = file.assignments.len() - 1;
    vec![
        (
            "zeroing, and form of lines",
            5,
            edited(&file, |f| f.assignments.swap(last - 1, last)),
        ),
        (
            "clearances and card labels",
            6,
            edited(&file, |f| f.card_labels[510] = (510, 32)),
        ),
        (
            "closure of dominance",
            11,
            edited(&file, |f| replace(&mut f.dominance, (32, 29), (32, 32))),
        ),
        (
            "least upper bounds of pairs",
            12,
            edited(&file, |f| replace(&mut f.dominance, (30, 31), (30, 29))),
        ),
        (
            "closure of seniority",
            13,
            edited(&file, |f| replace(&mut f.seniority, (128, 127), (128, 128))),
        ),
        (
            "grants, levels, assignments",
            16,
            edited(&file, bar_the_last_assignment),
        ),
    ]
}

/// Small files and edits that are refused, with the numbers that stages do not have.
pub fn refused() -> Vec<(u64, Vec<u8>)> {
    let file = largest();
    let bytes = write(&file);
    let mut malformed = bytes.clone();
    malformed[22 * 2899 + 5] = b'x';
    let mut long = bytes.clone();
    long.extend_from_slice(&bytes[..22]);
    let no_bound = RoleFile {
        counts: Counts {
            labels: 3,
            roles: 1,
            users: 1,
            cards: 2,
        },
        dominance: vec![(3, 1), (3, 2)],
        seniority: vec![],
        clearances: vec![(1, 3)],
        card_labels: vec![(1, 1), (2, 2)],
        permissions: vec![(1, 1, WRITE), (1, 2, WRITE)],
        assignments: vec![(1, 1)],
    };
    vec![
        (1, vec![]),
        (1, bytes[..bytes.len() - 1].to_vec()),
        (1, long),
        (2, malformed),
        (3, edited(&file, |f| f.counts.labels = 33)),
        (4, edited(&file, |f| f.permissions[700].2 = 3)),
        (5, edited(&file, |f| f.permissions.swap(0, 1))),
        (6, edited(&file, |f| f.clearances[9] = (9, 32))),
        (12, edited(&file, |f| f.dominance.truncate(1))),
        (14, write(&no_bound)),
        (15, edited(&file, |f| f.clearances[0] = (1, 1))),
    ]
}
