//! Short, empty and long buffers, and NULL with length 0.

use monitor_model::{Model, STATE_BYTES};
use monitor_tests::c;
use monitor_tests::call::{Answer, Call, Kind};
use monitor_tests::generate::{accepted_file, any_call, Caller, LentState};
use monitor_tests::lent::Lent;
use monitor_tests::library::{self, CountsAnswer, Figure, SessionAnswer, SetAnswer, Verdict};
use monitor_tests::loaded::Loaded;
use second_checker::example::EXAMPLE;
use second_checker::random::Random;
use std::ptr::{null, null_mut};

const SHORT: [usize; 9] = [0, 1, 8, 63, 64, 4_096, 32_768, 65_534, 65_535];

/// A state with the example loaded and user 1 at place 1, label 1, role 2.
fn example_state() -> Vec<u8> {
    let mut state = Loaded::new(EXAMPLE.as_bytes()).state;
    assert_eq!(library::open(&mut state, 1, 1, 1), 0);
    assert_eq!(library::take(&mut state, 1, 2), 0);
    state
}

/// "7: load with a state shorter than 65,536 bytes", "21: another call with
/// such a state", before all other numbers.
#[test]
fn short_states() {
    let random = &mut Random::new(1);
    let whole = example_state();
    for length in SHORT {
        for kind in Kind::ALL {
            for _ in 0..20 {
                let call = any_call(random, kind);
                let mut state = Lent::new(&whole[..length], random);
                let mut store = Lent::new(&[7; 128], random);
                let answer = call
                    .on_library(state.bytes_mut(), store.bytes_mut(), random)
                    .unwrap();
                let number = if kind == Kind::Load { 7 } else { 21 };
                let expected = Answer::refused(kind, number);
                assert_eq!(answer, expected, "{call} with {length} bytes");
                assert!(state.bytes() == &whole[..length] && state.canaries_unchanged());
                assert!(store.bytes() == [7; 128] && store.canaries_unchanged());
            }
        }
    }
}

/// A zeroed state "has 0 labels": 21, whatever its length and the call.
#[test]
fn zeroed_states() {
    let random = &mut Random::new(2);
    for length in [STATE_BYTES, STATE_BYTES + 1, 3 * STATE_BYTES] {
        let zeros = vec![0; length];
        for kind in Kind::ALL.into_iter().filter(|&kind| kind != Kind::Load) {
            for _ in 0..20 {
                let call = any_call(random, kind);
                let mut state = Lent::new(&zeros, random);
                let mut store = Lent::new(&[7; 32_768], random);
                let answer = call
                    .on_library(state.bytes_mut(), store.bytes_mut(), random)
                    .unwrap();
                let expected = Answer::refused(kind, 21);
                assert_eq!(answer, expected, "{call} with {length} zeros");
                assert!(state.bytes() == zeros && state.canaries_unchanged());
                assert!(store.bytes() == [7; 32_768] && store.canaries_unchanged());
            }
        }
    }
}

/// "31: store shorter than 64 × cards"; one that is longer is no trouble.
#[test]
fn short_and_long_stores() {
    let random = &mut Random::new(3);
    let mut state = example_state();
    for length in [0, 1, 63, 64, 127, 128, 129, 191, 192, 1_000] {
        let before = random.bytes(length);
        let mut store = Lent::new(&before, random);
        let expected = if length < 128 { 31 } else { 0 };
        // Card 1 lies whole within a store of 64 bytes; that isn't enough.
        let number = library::read_number(&mut state, store.bytes_mut(), 1, 1, 0, 64);
        assert_eq!(number, expected, "read with a store of {length} bytes");
        let number = library::write(&mut state, store.bytes_mut(), 1, 2, 3, &mut [1, 2, 3]);
        assert_eq!(number, expected, "write with a store of {length} bytes");
        let mut after = before;
        if expected == 0 {
            after[67..70].copy_from_slice(&[1, 2, 3]);
        }
        assert!(store.bytes() == after && store.canaries_unchanged());
        // Nothing to write is refused likewise.
        let number = library::write(&mut state, store.bytes_mut(), 1, 2, 64, &mut []);
        assert_eq!(number, expected);
        assert!(store.bytes() == after && store.canaries_unchanged());
    }
}

/// "every slice may be empty": NULL with length 0 wherever a buffer is lent.
#[test]
fn null_with_length_0() {
    let mut file = EXAMPLE.as_bytes().to_vec();
    let mut state = example_state();
    let before = state.clone();
    let mut store = vec![9; 128];
    let mut byte = [1];
    let (file_bytes, state_bytes) = (file.as_mut_ptr(), state.as_mut_ptr());
    let (store_bytes, one_byte) = (store.as_mut_ptr(), byte.as_mut_ptr());
    let (verdict, figure) = (Verdict::refused, Figure::refused);
    unsafe {
        let all = STATE_BYTES;
        let none = null_mut();
        // No state.
        assert_eq!(c::monitor_load(null(), 0, none, 0), verdict(7));
        assert_eq!(c::monitor_load(file_bytes, 198, none, 0), verdict(7));
        assert_eq!(c::monitor_open(none, 0, 1, 1, 1), 21);
        assert_eq!(c::monitor_close(none, 0, 1), 21);
        assert_eq!(c::monitor_take(none, 0, 1, 1), 21);
        assert_eq!(c::monitor_drop(none, 0, 1, 1), 21);
        let number = c::monitor_read_number(null(), 0, store_bytes, 128, 1, 1, 0, 1);
        assert_eq!(number, 21);
        let number = c::monitor_read_number(null(), 0, null(), 0, 1, 1, 0, 1);
        assert_eq!(number, 21);
        let number = c::monitor_write(null(), 0, store_bytes, 128, 1, 1, 0, one_byte, 1);
        assert_eq!(number, 21);
        let number = c::monitor_write(null(), 0, none, 0, 1, 1, 0, null(), 0);
        assert_eq!(number, 21);
        assert_eq!(c::monitor_flows(null(), 0, 1, 2), figure(21));
        assert_eq!(c::monitor_circle(null(), 0), figure(21));
        review_null();
        // No file: "1: length 0".
        assert_eq!(c::monitor_load(null(), 0, state_bytes, all), verdict(1));
        // No store.
        let number = c::monitor_read_number(state_bytes, all, null(), 0, 1, 1, 0, 1);
        assert_eq!(number, 31);
        let number = c::monitor_write(state_bytes, all, none, 0, 1, 2, 0, one_byte, 1);
        assert_eq!(number, 31);
        let number = c::monitor_write(state_bytes, all, none, 0, 1, 2, 0, null(), 0);
        assert_eq!(number, 31);
        // No bytes to write, up to offset 64.
        for (offset, expected) in [(0, 0), (64, 0), (65, 30), (u64::MAX, 30)] {
            let number =
                c::monitor_write(state_bytes, all, store_bytes, 128, 1, 2, offset, null(), 0);
            assert_eq!(number, expected, "offset {offset}");
        }
    }
    assert!(state == before && store == [9; 128]);
}

/// The review calls without a state: 21, and all else 0.
fn review_null() {
    let (number, none) = (21, null());
    let counts = CountsAnswer {
        number,
        ..CountsAnswer::default()
    };
    let session = SessionAnswer {
        number,
        ..SessionAnswer::default()
    };
    let set = SetAnswer {
        number,
        ..SetAnswer::default()
    };
    let figure = Figure::refused(number);
    unsafe {
        assert_eq!(c::monitor_counts_of(none, 0), counts);
        assert_eq!(c::monitor_session_at(none, 0, 1), session);
        assert_eq!(c::monitor_clearance(none, 0, 1), figure);
        assert_eq!(c::monitor_card_label(none, 0, 1), figure);
        assert_eq!(c::monitor_level(none, 0, 1, 1), figure);
        assert_eq!(c::monitor_dominates(none, 0, 1, 1), figure);
        assert_eq!(c::monitor_senior(none, 0, 1, 1), figure);
        assert_eq!(c::monitor_assigned(none, 0, 1, 1), figure);
        assert_eq!(c::monitor_takable(none, 0, 1, 1), set);
        assert_eq!(c::monitor_gives(none, 0, 1, 0, 1, 1, 1), figure);
    }
}

/// "State is 65,536 lent bytes, the first ones where more are lent": the same
/// answers and the same first bytes, and the others as they were.
#[test]
fn long_states() {
    for (index, surplus) in [1, 2, 15, 64, 4_096, STATE_BYTES, 200_000]
        .into_iter()
        .cycle()
        .take(21)
        .enumerate()
    {
        let random = &mut Random::for_file(4, index as u64);
        let tail = random.bytes(surplus);
        let mut exact = Lent::new(&random.bytes(STATE_BYTES), random);
        let long = [random.bytes(STATE_BYTES), tail.clone()].concat();
        let mut long = Lent::new(&long, random);
        let mut model = Model::default();
        let mut stores = vec![random.bytes(32_768); 3];
        let caller = Caller::new(random);
        let file = accepted_file(random);
        let mut call = Call::Load { file };
        for _ in 0..100 {
            let [store, exact_store, long_store] = &mut stores[..] else {
                unreachable!();
            };
            let expected = call.on_model(&mut model, STATE_BYTES, store);
            let on_exact = call.on_library(exact.bytes_mut(), exact_store, random);
            let on_long = call.on_library(long.bytes_mut(), long_store, random);
            assert_eq!(on_exact.unwrap(), expected, "{call}");
            assert_eq!(on_long.unwrap(), expected, "{call}, {surplus} bytes more");
            assert!(exact.bytes() == &long.bytes()[..STATE_BYTES], "{call}");
            assert!(long.bytes()[STATE_BYTES..] == tail, "{call}");
            assert!(store == exact_store && store == long_store, "{call}");
            assert!(exact.canaries_unchanged() && long.canaries_unchanged());
            call = loop {
                let (call, lending) = caller.next(random, &model, 32_768);
                if lending.state == LentState::Whole {
                    break call;
                }
            };
        }
    }
}
