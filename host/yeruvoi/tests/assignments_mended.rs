//! The causes of 14 to 16 in random files: what they name is mended, and the
//! verdict changes; what they name is left alone, and it stays. Their facts are
//! those of the second checker.

mod common;

use common::files::{files, lines, verdict, without};
use common::told::{Fault, Told};
use second_checker::check::{read, Level, Meaning, RoleFile};
use second_checker::generate::{bent_small, write};
use second_checker::random::Random;
use std::collections::BTreeSet;

/// What the files had.
#[derive(Debug, Default)]
struct Seen {
    /// Files with several assignments at fault.
    several: usize,
    /// Assignments with 16 and an r-level that is a label, or free.
    with_r_level: usize,
    without_r_level: usize,
}

#[test]
fn a_file_is_accepted_without_the_assignments_that_are_told() {
    let mut seen = Seen::default();
    for number in [14, 15, 16] {
        for file in files(number).chain((0..20).map(|index| faulty(number, index))) {
            let faults = Told::of(&file).faults();
            seen.several += usize::from(faults.len() > 1);
            check_faults(&file, &faults);
            for fault in faults.iter().take(12) {
                check_fault(&alone(&file, &faults, fault), fault, &mut seen);
            }
        }
    }
    assert!(seen.several > 60, "{seen:?}");
    assert!(
        seen.with_r_level > 60 && seen.without_r_level > 60,
        "{seen:?}"
    );
}

/// A small file with many assignments left to chance.
fn faulty(number: usize, index: u64) -> Vec<u8> {
    let random = &mut Random::for_file(100 + number as u64, index);
    let mut file = read(&bent_small(random, number)).expect("the form is good");
    for _ in 0..random.between(5, 30) {
        let user = random.between(1, file.counts.users);
        let role = random.between(1, file.counts.roles);
        file.assignments.push((user, role));
    }
    file.assignments.sort_unstable();
    file.assignments.dedup();
    write(&file)
}

/// The first fault is the verdict, all of them are those of the second checker,
/// and without them the file is accepted.
fn check_faults(file: &[u8], faults: &[Fault]) {
    assert_eq!(faults[0].verdict(), verdict(file));
    let told: Vec<(usize, usize)> = faults
        .iter()
        .map(|fault| (fault.line, fault.number))
        .collect();
    assert_eq!(told, faults_of(file));
    let mended = without(file, |line, _| {
        faults.iter().any(|fault| fault.line == line)
    });
    assert_eq!(verdict(&mended).0, 0);
}

/// The line and the number of every assignment at fault, by the second checker.
fn faults_of(file: &[u8]) -> Vec<(usize, usize)> {
    let role_file = read(file).expect("the form is good");
    let meaning = Meaning::of(&role_file);
    let first = lines(file).len() - role_file.assignments.len() + 1;
    let numbered = (first..).zip(&role_file.assignments);
    let judged =
        numbered.map(|(line, &(user, role))| (line, meaning.assignment_number(user, role)));
    judged.filter(|&(_, number)| number != 0).collect()
}

/// The file with one of its faults alone.
fn alone(file: &[u8], faults: &[Fault], one: &Fault) -> Vec<u8> {
    let other = |line: usize| line != one.line && faults.iter().any(|fault| fault.line == line);
    without(file, |line, _| other(line))
}

/// A file with one assignment at fault.
fn check_fault(file: &[u8], fault: &Fault, seen: &mut Seen) {
    assert_eq!(verdict(file), fault.verdict());
    let told = Told::of(file);
    let role_file = read(file).expect("the form is good");
    check_levels(&told, &role_file);
    let numbers = told.numbers();
    let others = |line: usize, bytes: &[u8]| b"SPA".contains(&bytes[0]) && !numbers.contains(&line);
    assert_eq!(verdict(&without(file, others)), fault.verdict());
    let guilty = guilty(&told, &role_file);
    let mended = verdict(&without(file, |line, _| guilty.contains(&line)));
    assert_ne!(mended, fault.verdict());
    if fault.number == 16 {
        assert_eq!(mended.0, 0);
        check_reason(file, &told, &role_file, seen);
    }
}

/// Clearance, levels, labels at odds and lines P, by the second checker.
fn check_levels(told: &Told, role_file: &RoleFile) {
    let fault = &told.faults()[0];
    let role = fault.role;
    let meaning = Meaning::of(role_file);
    let (read, write) = (meaning.read_level[role], meaning.write_level[role]);
    let r_level = (fault.number != 14).then(|| read.printed());
    let w_level = (fault.number != 15).then(|| write.printed());
    assert_eq!((fault.r_level, fault.w_level), (r_level, w_level));
    assert_eq!(fault.clearance, meaning.clearance[fault.user]);
    assert_eq!(fault.odd, at_odds(fault, &meaning));
    let counts = |&&(owner, _, mode): &&(usize, usize, usize)| {
        let level = if mode == 1 { r_level } else { w_level };
        level.is_some() && meaning.seniority.over(role, owner)
    };
    let lines = role_file.permissions.iter().filter(counts);
    let lines: BTreeSet<Vec<usize>> = lines
        .map(|&(owner, card, mode)| vec![owner, card, mode])
        .collect();
    let quoted = told.quoted_with(b'P').into_iter().map(|line| line.fields);
    assert_eq!(quoted.collect::<BTreeSet<Vec<usize>>>(), lines);
}

/// The labels that are read and that the clearance does not dominate (15), or
/// that are written and do not dominate the r-level (16).
fn at_odds(fault: &Fault, meaning: &Meaning) -> BTreeSet<usize> {
    let cards = match fault.number {
        15 => &meaning.may_read[fault.role],
        _ => &meaning.may_write[fault.role],
    };
    let over = |upper, lower| meaning.dominance.over(upper, lower);
    let odd = |label: &usize| match (fault.number, meaning.read_level[fault.role]) {
        (15, _) => !over(meaning.clearance[fault.user], *label),
        (16, Level::Label(r_level)) => !over(*label, r_level),
        _ => false,
    };
    let labels = cards.iter().map(|&card| meaning.card_label[card]);
    labels.filter(odd).collect()
}

/// The lines P of labels at odds; all that are written where it takes them all.
fn guilty(told: &Told, role_file: &RoleFile) -> Vec<usize> {
    let fault = &told.faults()[0];
    let mode = if fault.number == 15 { 1 } else { 2 };
    let label_of = |card: usize| role_file.card_labels[card - 1].1;
    let at_fault = |card| fault.odd.is_empty() || fault.odd.contains(&label_of(card));
    let permissions = told.quoted_with(b'P').into_iter();
    let guilty = permissions.filter(|line| line.fields[2] == mode && at_fault(line.fields[1]));
    guilty.map(|line| line.number).collect()
}

/// Why no label serves: the w-level does not dominate the r-level; or that is
/// free, and nothing is under clearance and w-level both. Where the role reads
/// nothing, the first reason is gone and the second alone is left.
fn check_reason(file: &[u8], told: &Told, role_file: &RoleFile, seen: &mut Seen) {
    let fault = &told.faults()[0];
    let dominance = Meaning::of(role_file).dominance;
    let (clearance, w_level) = (fault.clearance, fault.w_level.expect("a w-level"));
    let mut labels = 1..=role_file.counts.labels;
    let shared = labels.any(|y| dominance.over(clearance, y) && dominance.over(w_level, y));
    let reason = fault.reason.as_deref().expect("a reason");
    match fault.r_level.expect("an r-level") {
        0 => {
            let both = format!("both the clearance {clearance} and the w-level {w_level}");
            assert_eq!(reason, format!("no label is dominated by {both}"));
            assert!(!shared);
            seen.without_r_level += 1;
        }
        r_level => {
            let levels = format!("the w-level {w_level} does not dominate the r-level {r_level}");
            assert!(reason.starts_with(&(levels + ", which is not dominated by label ")));
            assert!(!dominance.over(w_level, r_level));
            seen.with_r_level += 1;
        }
    }
    let quoted = told.quoted_with(b'P').into_iter();
    let reads: Vec<usize> = quoted
        .filter(|line| line.fields[2] == 1)
        .map(|line| line.number)
        .collect();
    let (number, _) = verdict(&without(file, |line, _| reads.contains(&line)));
    assert_eq!(number, if shared { 0 } else { 16 });
}
