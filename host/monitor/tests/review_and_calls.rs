//! The review calls against the session calls, on states that a load and calls
//! left and on states that no load left: what they tell is what the calls do.

use monitor_model::review::roles_of;
use monitor_model::{CARD_BYTES, PLACES};
use monitor_tests::foreign;
use monitor_tests::generate::number;
use monitor_tests::layout::PLACES as PLACES_TABLE;
use monitor_tests::library;
use monitor_tests::questions::used;
use second_checker::check::Counts;
use second_checker::differential::show;
use second_checker::generate::LIMITS;
use second_checker::random::Random;

const STATES: u64 = 80;
const ASKED: usize = 20;

/// Every second state is one that a load and calls left.
fn state(random: &mut Random, index: u64) -> (Vec<u8>, Counts) {
    if index % 2 == 1 {
        return foreign::state(random, index / 2);
    }
    let used = used(random);
    let counts = used.policy().counts;
    (used.state, counts)
}

/// Closes place 1, whatever it holds.
fn free_first_place(state: &mut [u8]) {
    state[PLACES_TABLE.entry(1)].fill(0);
}

/// `monitor_takable` has the number of an opening and the roles that may be
/// taken after it.
#[test]
fn takable_is_what_may_be_taken() {
    let (mut taken, mut refused, mut not_open) = (0, 0, 0);
    for index in 0..STATES {
        let random = &mut Random::for_file(24, index);
        let (mut state, counts) = state(random, index);
        free_first_place(&mut state);
        for _ in 0..ASKED {
            let (user, label) = (number(random, counts.users), number(random, counts.labels));
            let set = library::takable(&mut state, user, label);
            let mut opened = state.clone();
            let number = library::open(&mut opened, 1, user, label);
            assert_eq!(set.number, number, "{index}: user {user} label {label}");
            if number != 0 {
                not_open += 1;
                continue;
            }
            let roles = roles_of(set.low, set.high);
            for role in 1..=LIMITS[1] {
                let done = library::take(&mut opened, 1, role as u64) == 0;
                assert_eq!(done, roles.contains(&role), "{index}: role {role}");
                taken += usize::from(done);
                refused += usize::from(!done);
            }
        }
    }
    show(&format!(
        "takable: {taken} roles taken, {refused} refused, {not_open} not opened"
    ));
    assert!(taken > 1_000 && refused > 1_000 && not_open > 300);
}

/// `monitor_gives` of the roles that `monitor_session_at` tells is 1 where the
/// session may read or write the card.
#[test]
fn a_session_has_what_its_roles_give() {
    let (mut given, mut refused) = ([0, 0], [0, 0]);
    let mut store = vec![0; CARD_BYTES * LIMITS[3]];
    for index in 0..STATES {
        let random = &mut Random::for_file(25, index);
        let (mut state, counts) = state(random, index);
        for _ in 0..ASKED * ASKED {
            let (place, card) = (
                1 + random.below(PLACES) as u64,
                number(random, counts.cards),
            );
            let session = library::session_at(&mut state, place);
            if session.number != 0 {
                assert_eq!(library::close(&mut state.clone(), place), session.number);
                continue;
            }
            let set = (session.low, session.high);
            for mode in [1, 2] {
                let gives = library::gives(&mut state, set, 1, card, mode);
                let number = match mode {
                    1 => library::read_number(&mut state, &mut store, place, card, 0, 0),
                    _ => library::write(&mut state, &mut store, place, card, 0, &mut []),
                };
                let expected = [(0, 0, 29), (0, 1, 0), (25, 0, 25)];
                let answer = (gives.number, gives.figure, number);
                assert!(
                    expected.contains(&answer),
                    "{index}: {place} {card} {answer:?}"
                );
                given[mode as usize - 1] += usize::from(number == 0);
                refused[mode as usize - 1] += usize::from(number == 29);
            }
        }
    }
    show(&format!(
        "gives: reads and writes granted {given:?}, refused {refused:?}"
    ));
    assert!(given.iter().chain(&refused).all(|&count| count > 500));
}
