//! The causes of 11 to 13 in random files: what they name is mended, and the
//! verdict changes; what they name is left alone, and it stays.

mod common;

use common::files::{files, verdict, without};
use common::told::Told;
use second_checker::check::read;
use second_checker::generate::write;
use second_checker::order::Order;
use std::collections::BTreeSet;

#[test]
fn a_circle_that_is_told_is_one_and_any_of_its_lines_breaks_it() {
    for (number, letter) in [(11, b'D'), (13, b'S')] {
        for file in files(number) {
            check_circle(&file, number, letter);
        }
    }
}

fn check_circle(file: &[u8], number: usize, letter: u8) {
    let (_, [lowest, _]) = verdict(file);
    let told = Told::of(file);
    let circle = told.quoted_with(letter);
    assert_eq!(circle.len(), told.quoted.len());
    assert_eq!(circle[0].fields[0], lowest);
    for (line, next) in circle.iter().zip(circle.iter().cycle().skip(1)) {
        assert_eq!(line.fields[1], next.fields[0]);
    }
    let numbers = told.numbers();
    assert_eq!(
        verdict(&with_these(file, letter, &numbers)),
        (number, [lowest, 0])
    );
    for broken in 0..numbers.len() {
        let mut rest = numbers.clone();
        rest.remove(broken);
        assert_ne!(verdict(&with_these(file, letter, &rest)).0, number);
    }
}

/// The file with these lines of a letter alone.
fn with_these(file: &[u8], letter: u8, numbers: &[usize]) -> Vec<u8> {
    without(file, |line, bytes| {
        bytes[0] == letter && !numbers.contains(&line)
    })
}

#[test]
fn labels_get_a_bound_where_the_rivals_that_are_told_are_put_in_order() {
    let mut seen = BTreeSet::new();
    for file in files(12) {
        let (_, place) = verdict(&file);
        let told = Told::of(&file);
        let rivals = told.rivals();
        seen.insert(rivals.len());
        assert_eq!(rivals, rivals_of(&file, place));
        assert_eq!(
            told.text.contains("no label dominates both"),
            rivals.is_empty()
        );
        assert_ne!(verdict(&with_bound(&file, place, &rivals)), (12, place));
        let quoted = with_these(&file, b'D', &told.numbers());
        assert_eq!(rivals_of(&quoted, place), rivals);
    }
    assert!(seen.contains(&0) && seen.contains(&2), "{seen:?}");
}

/// The file with the first rival under the others, or where there is none with
/// one of the two labels under the other.
fn with_bound(file: &[u8], place: [usize; 2], rivals: &[usize]) -> Vec<u8> {
    let pairs: Vec<(usize, usize)> = match rivals.split_first() {
        None => vec![(place[1], place[0])],
        Some((least, others)) => others.iter().map(|other| (*other, *least)).collect(),
    };
    let mut role_file = read(file).expect("the form is good");
    role_file.dominance.extend(pairs);
    role_file.dominance.sort_unstable();
    write(&role_file)
}

/// The upper bounds of two labels under which no other one lies, by the second
/// checker's order.
fn rivals_of(file: &[u8], place: [usize; 2]) -> Vec<usize> {
    let role_file = read(file).expect("the form is good");
    let labels = role_file.counts.labels;
    let order = Order::closure(labels, &role_file.dominance);
    let bounds: Vec<usize> = (1..=labels)
        .filter(|&label| place.iter().all(|&below| order.over(label, below)))
        .collect();
    let over_another = |bound: usize| {
        bounds
            .iter()
            .any(|&other| other != bound && order.over(bound, other))
    };
    bounds
        .iter()
        .copied()
        .filter(|&bound| !over_another(bound))
        .collect()
}
