//! Random lists of calls against the model.

use monitor_tests::generate::Caller;
use monitor_tests::lists::{run, told_apart, List, Tally, CALLS};
use monitor_tests::pairs::leaks::{Leak, Leaky};
use second_checker::differential::{show, Totals};
use second_checker::random::Random;

const SEED: u64 = 1;
const LISTS: u64 = 600;
/// So many lists are run on each leaky copy, and so many must tell it.
const ON_COPIES: u64 = 100;
const TELLING: usize = 5;

/// Numbers, store and state are compared after each call; each number of each
/// call must have been seen, and often what a w-level does to takings.
#[test]
fn random_lists_agree_with_the_model() {
    let mut tally = Tally::default();
    for index in 0..LISTS {
        if let Err(problem) = run(SEED, index, &mut tally, &mut |_| ()) {
            panic!("{problem}");
        }
    }
    show(&tally.table());
    assert_eq!(tally.unseen(), Vec::<String>::new(), "never seen");
    assert!(tally.low_taken > LISTS && tally.write_level_forbids > LISTS / 2);
}

/// Lists on a leaky copy of the model in the library's place.
#[test]
fn lists_tell_each_leaky_copy_from_the_model() {
    let mut lines = format!("leaky copies, and how many of {ON_COPIES} lists tell each:");
    for leak in Leak::ALL {
        let tells = |&index: &u64| told_apart(SEED, index, &mut Leaky::new(leak)).is_some();
        let telling = (0..ON_COPIES).filter(tells).count();
        lines.push_str(&format!("\n{telling:>6}  {leak:?}"));
        assert!(telling >= TELLING, "{leak:?}: {telling}");
    }
    show(&lines);
}

/// The calls of two lists in turn, each on a state of its own: a library that
/// keeps anything outside the lent state is found out.
#[test]
fn two_states_side_by_side() {
    let mut tally = Tally::default();
    for index in 0..40 {
        let random = &mut Random::for_file(SEED + 1, index);
        let caller = Caller::new(random);
        let mut lists: Vec<List> = (0..2)
            .map(|_| List::new(random, &mut |_| (), &mut tally).unwrap())
            .collect();
        for call in 0..CALLS {
            let turn = random.below(2);
            lists[turn]
                .step(random, &caller, &mut tally, &mut |_| ())
                .unwrap_or_else(|problem| panic!("index {index} call {call}: {problem}"));
        }
        for list in &lists {
            list.survey(random, &mut tally).unwrap();
        }
    }
}
