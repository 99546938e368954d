//! Role flow against the model: every pair of roles, and the circle.

use monitor_model::STATE_BYTES;
use monitor_tests::generate::{accepted_file, wild_number};
use monitor_tests::library::{self, Figure};
use monitor_tests::loaded::Loaded;
use second_checker::check::{check, Outcome};
use second_checker::generate::{sparse_flow, write};
use second_checker::random::Random;

fn compare(loaded: &Loaded, random: &mut Random) {
    let model = &loaded.model;
    let mut state = loaded.state.clone();
    let roles = loaded.policy().counts.roles;
    for from in 0..=roles as u64 + 1 {
        for to in 0..=roles as u64 + 1 {
            let expected = model.flows(STATE_BYTES, from, to);
            assert_eq!(
                library::flows(&mut state, from, to),
                expected,
                "{from} to {to}"
            );
        }
    }
    for _ in 0..20 {
        let (from, to) = (wild_number(random, roles), wild_number(random, roles));
        let expected = model.flows(STATE_BYTES, from, to);
        let answer = library::flows(&mut state, from, to);
        assert_eq!(answer, expected, "{from} to {to}");
        assert!(answer.number == 0 || answer.figure == 0);
    }
    assert_eq!(library::circle(&mut state), model.circle(STATE_BYTES));
    assert!(state == loaded.state, "a report changes nothing");
}

#[test]
fn flows_and_circle() {
    let (mut with_flow, mut with_circle, mut without_circle) = (0, 0, 0);
    let mut with_shared_circle = 0;
    for index in 0..150 {
        let random = &mut Random::for_file(13, index);
        let file = if index % 3 == 0 {
            accepted_file(random)
        } else {
            write(&sparse_flow(random))
        };
        let loaded = Loaded::new(&file);
        compare(&loaded, random);
        let policy = loaded.policy();
        with_flow += usize::from(!policy.flows.is_empty());
        with_circle += usize::from(policy.circle > 1);
        without_circle += usize::from(policy.circle == 0 && !policy.flows.is_empty());
        let Outcome::Accepted(accepted) = check(&file) else {
            panic!("file {index} is refused");
        };
        with_shared_circle += usize::from(accepted.circle != accepted.circle_by_reading);
    }
    assert!(with_flow > 50 && with_circle > 10 && without_circle > 10);
    assert!(with_shared_circle > 10);
}

/// A refusal's figure is 0, also where the role has flows.
#[test]
fn a_refusal_has_figure_0() {
    let file = write(&sparse_flow(&mut Random::new(14)));
    let mut state = Loaded::new(&file).state;
    let refused = Figure::refused(21);
    let short = &mut state[..STATE_BYTES - 1];
    assert_eq!(library::circle(short), refused);
    assert_eq!(library::flows(short, 1, 2), refused);
    assert_eq!(library::flows(short, 0, u64::MAX), refused);
    let refused = Figure::refused(25);
    for (from, to) in [(0, 1), (1, 0), (129, 1), (1, 129), (0, 0), (1 << 32, 1)] {
        assert_eq!(library::flows(&mut state, from, to), refused);
    }
}
