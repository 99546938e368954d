//! "Two runs side by side", tried on random pairs of runs.

use monitor_model::Model;
use monitor_tests::call::{Call, Kind};
use monitor_tests::library::UNDER_TEST;
use monitor_tests::pairs::compare::{compare, on_library};
use monitor_tests::pairs::leaks::{caught, Leak};
use monitor_tests::pairs::tally::Tally;
use monitor_tests::pairs::tracker::{Labels, Opened, Tracker};
use monitor_tests::pairs::Pair;
use second_checker::check::read;
use second_checker::differential::show;
use second_checker::example::EXAMPLE;

const SEED: u64 = 1;
const PAIRS: u64 = 3_000;

/// Enough was granted for the test to mean anything.
fn assert_rich(tally: &Tally) {
    assert_eq!(tally.pairs, PAIRS);
    assert!(tally.calls_differ > PAIRS / 2);
    assert!(tally.stores_differ > PAIRS / 2);
    for shared in [true, false] {
        for kind in [Kind::Take, Kind::Read, Kind::Write] {
            assert!(tally.granted(shared, kind) > 2_000, "{shared} {kind:?}");
        }
    }
}

#[test]
fn the_library_shows_the_same_under_the_label() {
    let tally = on_library(PAIRS, SEED).unwrap_or_else(|problem| panic!("{problem}"));
    show(&format!("library: {UNDER_TEST}\n{}", tally.table()));
    assert_rich(&tally);
}

#[test]
fn the_model_shows_the_same_under_the_label() {
    let mut tally = Tally::default();
    for index in 0..PAIRS {
        let models = [Model::default(), Model::default()];
        compare(&Pair::new(SEED, index), models, &mut tally)
            .unwrap_or_else(|problem| panic!("pair {index}: {problem}"));
    }
    assert_rich(&tally);
}

#[test]
fn each_leaky_copy_is_caught() {
    let mut lines = String::from("leaky copies of the model, and the pair that catches each:");
    for leak in Leak::ALL {
        let (pair, seen) =
            caught(leak, PAIRS, SEED).unwrap_or_else(|| panic!("{leak:?} is never seen"));
        lines.push_str(&format!("\n{pair:>6}  {leak:?}: {seen}"));
    }
    show(&lines);
}

/// Label 2 dominates label 1, and the only user is cleared to 2.
#[test]
fn the_tracker_follows_openings_and_closings() {
    let labels = Labels::of(&read(EXAMPLE.as_bytes()).expect("the example file"));
    let mut tracker = Tracker::new(&labels);
    let openings = [
        (1, 1, 1),
        (1, 1, 2),
        (2, 1, 2),
        (65, 1, 1),
        (0, 1, 1),
        (3, 2, 1),
        (3, 0, 1),
        (3, 1, 3),
        (3, 1, 0),
    ];
    for (place, user, label) in openings {
        tracker.follow(&Call::Open { place, user, label });
    }
    assert_eq!(tracker.open_places(), [1, 2]);
    assert_eq!(tracker.at(1), Some(Opened { user: 1, label: 1 }));
    let drops = [1, 2, 3].map(|place| Call::Drop { place, role: 1 });
    let shared =
        |tracker: &Tracker, label| [0, 1, 2].map(|at| tracker.is_shared(label, &drops[at]));
    assert_eq!(shared(&tracker, 1), [true, false, false]);
    assert_eq!(shared(&tracker, 2), [true, true, false]);
    tracker.follow(&Call::Close { place: 1 });
    assert_eq!(shared(&tracker, 2), [false, true, false]);
    assert!(tracker.is_shared(1, &Call::Close { place: 1 }));
    assert_eq!(labels.bytes_under(1, 128), vec![0..64; 1]);
    assert_eq!(labels.bytes_under(2, 100), [0..64, 64..100]);
}
