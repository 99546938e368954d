//! What a load does to the state, refused or done.

use monitor_model::{Model, PLACES, STATE_BYTES};
use monitor_tests::generate::accepted_file;
use monitor_tests::lent::Lent;
use monitor_tests::library::{self, Verdict};
use monitor_tests::lists::first_difference;
use monitor_tests::loaded::Loaded;
use second_checker::check::{check, REFUSALS};
use second_checker::differential::{show, Totals};
use second_checker::example::EXAMPLE;
use second_checker::generate::{
    accepted, bent, loose, mixed, one_wrong_byte, stacked, torn, write, Size,
};
use second_checker::line::LINE_LENGTH;
use second_checker::random::Random;
use second_checker::tally::Tally;

/// A state with the example loaded and every place open.
fn busy_state() -> Vec<u8> {
    let mut state = Loaded::new(EXAMPLE.as_bytes()).state;
    for place in 1..=PLACES as u64 {
        assert_eq!(library::open(&mut state, place, 1, 1 + place % 2), 0);
        assert_eq!(library::take(&mut state, place, 2), 0);
    }
    state
}

/// Loads a file into a state of these bytes and compares with the model: the
/// verdict, and the state's bytes as far as they are settled.
fn load(file: &[u8], before: &[u8], random: &mut Random) -> Verdict {
    let expected = Model::default().load(file, before.len());
    let mut lent_file = Lent::new(file, random);
    let mut state = Lent::new(before, random);
    let verdict = library::load(lent_file.bytes_mut(), state.bytes_mut());
    let text = || String::from_utf8_lossy(&file[..file.len().min(2_200)]).into_owned();
    assert_eq!(verdict, expected, "{}", text());
    assert!(lent_file.bytes() == file && lent_file.canaries_unchanged());
    assert!(state.canaries_unchanged(), "bytes around the state");
    if verdict.number == 0 {
        // "A successful load replaces it": nothing of the old one is left.
        let mut fresh = vec![0; STATE_BYTES];
        library::load(lent_file.bytes_mut(), &mut fresh);
        assert_eq!(
            first_difference(&state.bytes()[..STATE_BYTES], &fresh),
            None,
            "a byte left over from the state before: {}",
            text()
        );
        assert!(
            state.bytes()[STATE_BYTES..] == before[STATE_BYTES..],
            "bytes past 65,536"
        );
    } else {
        // "Every refusal leaves state, store and any other lent buffer
        // unchanged".
        assert_eq!(
            first_difference(state.bytes(), before),
            None,
            "a refusal changed the state: {}",
            text()
        );
    }
    verdict
}

/// A state to load into: random bytes or one with sessions, of any length.
fn state_before(random: &mut Random, busy: &[u8]) -> Vec<u8> {
    let mut state = if random.percent(50) {
        busy.to_vec()
    } else {
        random.bytes(STATE_BYTES)
    };
    let surplus = random.pick(&[0, 0, 1, 100, STATE_BYTES]);
    state.extend(random.bytes(surplus));
    state
}

/// Files of every kind; all that a run of files must see must have been seen.
#[test]
fn files_of_every_kind() {
    let busy = busy_state();
    let mut tally = Tally::default();
    let mut number_of = |file: &[u8], random: &mut Random| {
        let before = state_before(random, &busy);
        tally.count(file, &check(file));
        load(file, &before, random).number
    };
    for index in 0..500 {
        number_of(&mixed(7, index), &mut Random::for_file(7, index));
    }
    for index in 0..25 {
        let random = &mut Random::for_file(8, index);
        for &number in &REFUSALS[1..] {
            let file = bent(random, number);
            assert_eq!(number_of(&file, random), number as u64);
        }
        for file in [
            torn(random),
            torn(random),
            stacked(random),
            write(&loose(random)),
            one_wrong_byte(random, index as usize),
            one_wrong_byte(random, 25 + index as usize),
            accepted_file(random),
            accepted_file(random),
        ] {
            number_of(&file, random);
        }
    }
    show(&format!(
        "loads ({}): {}",
        library::UNDER_TEST,
        tally.table()
    ));
    assert_eq!(tally.unseen(), Vec::<String>::new(), "never seen");
}

/// A file cut at every byte, and its first bytes after a good load.
#[test]
fn files_cut_at_every_byte() {
    let busy = busy_state();
    let random = &mut Random::new(9);
    let file = EXAMPLE.as_bytes();
    for length in 0..=file.len() {
        load(&file[..length], &busy, random);
    }
    for start in 0..=file.len() {
        load(&file[start..], &busy, random);
    }
}

/// The longest file, and one more line or byte.
#[test]
fn files_about_the_limit() {
    let busy = busy_state();
    let random = &mut Random::new(10);
    let full = write(&accepted(random, Size::Full));
    assert_eq!(full.len(), 63_800);
    assert_eq!(load(&full, &busy, random).number, 0);
    let last = full[full.len() - LINE_LENGTH..].to_vec();
    let longer = [full.clone(), last].concat();
    assert_eq!(load(&longer, &busy, random).number, 1);
    assert_eq!(load(&full[..63_799], &busy, random).number, 1);
    let one_more = [full, vec![b'\n']].concat();
    assert_eq!(load(&one_more, &busy, random).number, 1);
    assert_eq!(load(&vec![0; 1_000_000], &busy, random).number, 1);
}

/// "Load checks 7, 1, ...": 7 whatever the file, and nothing changed.
#[test]
fn short_states_come_first() {
    let busy = busy_state();
    for index in 0..50 {
        let random = &mut Random::for_file(11, index);
        let file = mixed(11, index);
        let length = random.pick(&[0, 1, 22, 32_768, 63_800, 65_534, 65_535]);
        let verdict = load(&file, &busy[..length], random);
        assert_eq!(verdict, Verdict::refused(7));
    }
}

/// "closes all sessions": each place can be opened again at once.
#[test]
fn every_place_is_closed() {
    let mut state = busy_state();
    let random = &mut Random::new(12);
    for _ in 0..20 {
        let mut file = accepted_file(random);
        assert_eq!(library::load(&mut file, &mut state).number, 0);
        for place in 1..=PLACES as u64 {
            assert_eq!(library::close(&mut state, place), 24);
        }
        let verdict = library::load(&mut EXAMPLE.as_bytes().to_vec(), &mut state);
        assert_eq!(verdict, Verdict::default());
        for place in 1..=PLACES as u64 {
            assert_eq!(library::open(&mut state, place, 1, 2), 0);
        }
    }
}
