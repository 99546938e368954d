//! The review calls: against the model on states that a load and calls left,
//! and against the layout's bytes on any state.

use monitor_model::{Model, STATE_BYTES};
use monitor_tests::bytes;
use monitor_tests::call::{Answer, Kind};
use monitor_tests::foreign;
use monitor_tests::generate::{number, Caller};
use monitor_tests::lent::Lent;
use monitor_tests::library::{self, Figure, UNDER_TEST};
use monitor_tests::outcome::Seen;
use monitor_tests::questions::{questions, used};
use monitor_tests::review::Review;
use monitor_tests::wrong::{self, Wrong};
use second_checker::check::Counts;
use second_checker::differential::show;
use second_checker::random::Random;

const STATES: u64 = 80;
const FOREIGN: u64 = 160;
/// So often at least each number and each outcome must have been seen.
const OFTEN: u64 = 100;

fn assert_seen_often(seen: &Seen, what: &str) {
    let kinds = Kind::reviews();
    let (columns, lines) = (seen.columns(kinds), seen.lines());
    show(&format!("{what} ({UNDER_TEST}):\n{columns}{lines}"));
    let mut rare = seen.rarely_told(kinds, OFTEN);
    for &kind in kinds {
        for &number in kind.numbers() {
            if seen.number(&[kind], number) < OFTEN {
                rare.push(format!("{} {number}", kind.name()));
            }
        }
    }
    assert_eq!(rare, Vec::<String>::new(), "seen less than {OFTEN} times");
}

// ---------------------------------------------------------------------------
// States that a load and calls left

/// A state lent with bytes behind it, which all calls leave as it is.
fn lent(state: &[u8], random: &mut Random) -> Lent {
    let surplus = random.pick(&[0, 0, 1, 9, 500]);
    let tail = random.bytes(surplus);
    Lent::new(&[state, &tail].concat(), random)
}

/// Calls of a kind: with every number handed in, and some that fit the file.
fn calls(random: &mut Random, kind: Kind, model: &Model) -> Vec<Review> {
    let counts = model.policy().expect("a loaded file").counts;
    let caller = Caller::new(random);
    let mut calls = questions(random, kind, counts);
    calls.extend((0..100).map(|_| caller.review(random, model, kind)));
    calls
}

/// Short and zeroed states are answered 21.
fn ask_unusable(random: &mut Random, review: Review, state: &[u8], seen: &mut Seen) {
    let refused = Answer::refused(review.kind(), 21);
    let length = random.pick(&[0, 1, 8, 32_768, STATE_BYTES - 1]);
    let mut short = Lent::new(&state[..length], random);
    let mut zeroed = vec![0; STATE_BYTES];
    for bytes in [short.bytes_mut(), &mut zeroed[..]] {
        let answer = review.on_library(bytes);
        assert_eq!(answer, refused, "{review:?} of {} bytes", bytes.len());
        seen.count(review.kind(), answer);
    }
    assert!(short.bytes() == &state[..length] && short.canaries_unchanged());
    assert!(zeroed == [0; STATE_BYTES], "{review:?}");
}

#[test]
fn answers_are_the_models() {
    let mut seen = Seen::default();
    for index in 0..STATES {
        let random = &mut Random::for_file(21, index);
        let used = used(random);
        for &kind in Kind::reviews() {
            let mut state = lent(&used.state, random);
            let before = state.bytes().to_vec();
            let calls = calls(random, kind, &used.model);
            for &review in &calls {
                let answer = review.on_library(state.bytes_mut());
                let expected = review.on_model(&used.model, STATE_BYTES);
                assert_eq!(answer, expected, "state {index}: {review:?}");
                assert_eq!(bytes::answer(review, &used.state), expected, "{review:?}");
                seen.count(kind, answer);
            }
            assert!(state.bytes() == before && state.canaries_unchanged());
            ask_unusable(random, one_among(index, &calls), &used.state, &mut seen);
        }
    }
    assert_seen_often(&seen, "review calls on used states");
}

fn one_among(index: u64, calls: &[Review]) -> Review {
    calls[index as usize % calls.len()]
}

/// The question that tells a wrong copy from the model, of the first state that
/// has one; the states are those of the test above, the calls drawn as there.
fn caught(wrong: &Wrong) -> Option<(u64, Review)> {
    (0..STATES).find_map(|index| {
        let random = &mut Random::for_file(21, index);
        let model = used(random).model;
        let calls = calls(random, wrong.kind, &model);
        let tells = |review: &&Review| {
            wrong.answer(**review, &model) != review.on_model(&model, STATE_BYTES)
        };
        calls.iter().find(tells).map(|&review| (index + 1, review))
    })
}

#[test]
fn each_wrong_copy_is_caught() {
    let mut lines = String::from("wrong review calls, and the state and call that catch each:");
    for &kind in Kind::reviews() {
        let of_kind = wrong::ALL.iter().filter(|wrong| wrong.kind == kind);
        assert!(of_kind.count() >= 2, "{kind:?}");
    }
    for wrong in wrong::ALL {
        let (kind, fault) = (wrong.kind.name(), wrong.fault);
        let (state, review) =
            caught(wrong).unwrap_or_else(|| panic!("{kind}, {fault}: is never seen"));
        lines.push_str(&format!("\n{state:>4}  {kind}, {fault}: {review:?}"));
    }
    show(&lines);
}

// ---------------------------------------------------------------------------
// States that no load left

#[test]
fn answers_by_the_bytes() {
    let mut seen = Seen::default();
    for index in 0..FOREIGN {
        let random = &mut Random::for_file(22, index);
        let (state, counts) = foreign::state(random, index);
        for &kind in Kind::reviews() {
            let mut lent = lent(&state, random);
            let before = lent.bytes().to_vec();
            let calls = questions(random, kind, counts);
            for &review in &calls {
                let answer = review.on_library(lent.bytes_mut());
                let expected = bytes::answer(review, &state);
                assert_eq!(answer, expected, "state {index}: {review:?}");
                seen.count(kind, answer);
            }
            assert!(lent.bytes() == before && lent.canaries_unchanged());
            ask_unusable(random, one_among(index, &calls), &state, &mut seen);
        }
    }
    assert_seen_often(&seen, "review calls on foreign states");
}

// ---------------------------------------------------------------------------
// What a user can

/// `monitor_can` by the other two: its number is the first that applies, and
/// its figure is 1 where what the user may take gives the card.
fn can_by_review(state: &mut [u8], [user, label, card, mode]: [u64; 4]) -> Figure {
    let set = library::takable(state, user, label);
    let gives = library::gives(state, (set.low, set.high), label, card, mode);
    match (set.number, gives.number) {
        (0, 0) => gives,
        (26, 0) => Figure::refused(26),
        (21, 21) => Figure::refused(21),
        (0 | 26, 25) | (25, 0 | 25) => Figure::refused(25),
        numbers => panic!("takable and gives: {numbers:?}"),
    }
}

/// On states of either kind, and those with a count out of its limits.
#[test]
fn can_is_what_takable_roles_give() {
    let mut seen = Seen::default();
    for index in 0..STATES + FOREIGN {
        let random = &mut Random::for_file(23, index);
        let (mut state, counts) = match index < STATES {
            true => used_state(random),
            false => foreign::state(random, index),
        };
        if random.percent(5) {
            state[2 * random.below(4) + 1] = 0xff;
        }
        let before = state.clone();
        for _ in 0..300 {
            let limits = [counts.users, counts.labels, counts.cards, 2];
            let numbers = limits.map(|limit| number(random, limit));
            let [user, label, card, mode] = numbers;
            let can = library::can(&mut state, user, label, card, mode);
            assert_eq!(
                can_by_review(&mut state, numbers),
                can,
                "{index}: {numbers:?}"
            );
            seen.count(Kind::Can, Answer::Figure(can));
        }
        assert!(state == before);
    }
    show(&format!("can: {:?} {:?}", seen.numbers, seen.told));
    assert!(seen.rarely_told(&[Kind::Can], 2_000).is_empty());
    for number in [21, 25, 26] {
        assert!(seen.number(&[Kind::Can], number) > 1_000, "{number}");
    }
}

fn used_state(random: &mut Random) -> (Vec<u8>, Counts) {
    let used = used(random);
    let counts = used.policy().counts;
    (used.state, counts)
}
