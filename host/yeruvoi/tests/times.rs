//! Times of the largest files, which only a quiet machine can tell. Run by
//! `cargo test --release --offline --test times -- --ignored --nocapture`.

mod common;

use common::{command, kept};
use second_checker::line::print_line;
use second_checker::random::Random;
use std::collections::BTreeSet;
use std::process::Stdio;
use std::time::{Duration, Instant};

const RUNS: usize = 20;

/// 2,900 lines: all 256 users cleared to the highest of 32 labels, so that there are 8,192
/// sessions, with assignments and permissions drawn at random.
fn largest(seed: u64) -> Vec<u8> {
    let mut random = Random::new(seed);
    let mut assignments = BTreeSet::new();
    while assignments.len() < 1000 {
        assignments.insert((1 + assignments.len() % 256, 1 + random.below(128)));
    }
    let mut permissions = BTreeSet::new();
    while permissions.len() < 2900 - 1 - 31 - 256 - 512 - 1000 {
        let card = 1 + random.below(512);
        permissions.insert((1 + random.below(128), card, 2 - card % 2));
    }
    let mut file = print_line(b'H', &[32, 128, 256, 512]);
    let mut line = |letter, numbers: &[usize]| file.extend(print_line(letter, numbers));
    (2..=32).for_each(|label| line(b'D', &[label, label - 1]));
    (1..=256).for_each(|user| line(b'U', &[user, 32]));
    (1..=512).for_each(|card| line(b'O', &[card, if card % 2 == 1 { 1 } else { 32 }]));
    permissions
        .iter()
        .for_each(|&(role, card, mode)| line(b'P', &[role, card, mode]));
    assignments
        .iter()
        .for_each(|&(user, role)| line(b'A', &[user, role]));
    assert_eq!(file.len(), 63_800);
    file
}

/// The median of whole runs of the command, its output left unread.
fn median(words: &[&str], status: i32) -> Duration {
    let mut times: Vec<Duration> = (0..RUNS)
        .map(|_| {
            let begun = Instant::now();
            let ended = command(words).stdout(Stdio::null()).status();
            let time = begun.elapsed();
            assert_eq!(ended.expect("the command runs").code(), Some(status));
            time
        })
        .collect();
    times.sort();
    println!(
        "{}: least {:?}, median {:?}",
        words[0],
        times[0],
        times[RUNS / 2]
    );
    times[RUNS / 2]
}

#[test]
#[ignore = "wants a quiet machine"]
fn at_once() {
    let old = kept("times-old.role", &largest(1));
    let new = kept("times-new.role", &largest(2));
    assert!(median(&["rights", &old], 0) < Duration::from_millis(50));
    assert!(median(&["diff", &old, &new], 1) < Duration::from_millis(100));
}
