//! What a user can, against the model and against the calls themselves.

use monitor_model::{Mode, Model, Policy, CARD_BYTES, STATE_BYTES};
use monitor_tests::c;
use monitor_tests::generate::{accepted_file, number, wild_number};
use monitor_tests::library::{self, Figure};
use monitor_tests::loaded::Loaded;
use second_checker::differential::show;
use second_checker::example::{EXAMPLE, REVIEWER};
use second_checker::random::Random;

const FILES: u64 = 60;
/// Up to so many questions, all of a file's are asked.
const ALL: usize = 20_000;
const DRAWN: usize = 500;
const WILD: usize = 200;
const TRIED: usize = 40;

/// The arguments after the state.
#[derive(Clone, Copy, Debug)]
struct Question {
    user: u64,
    label: u64,
    card: u64,
    mode: u64,
}

impl Question {
    fn to_library(self, state: &mut [u8]) -> Figure {
        library::can(state, self.user, self.label, self.card, self.mode)
    }

    fn to_model(self, model: &Model, state_length: usize) -> Figure {
        model.can(state_length, self.user, self.label, self.card, self.mode)
    }
}

/// The library's answer, which is the model's; the state stays as it is.
fn answer(loaded: &Loaded, lent: &mut [u8], question: Question) -> Figure {
    let answer = question.to_library(lent);
    let expected = question.to_model(&loaded.model, STATE_BYTES);
    assert_eq!(answer, expected, "{question:?}");
    assert!(answer.number == 0 || answer.figure == 0, "{question:?}");
    assert!(answer.figure <= 1, "{question:?}");
    assert!(lent == loaded.state, "{question:?} changes nothing");
    answer
}

/// How often each answer was seen.
#[derive(Debug, Default)]
struct Seen {
    figure_1: usize,
    figure_0: usize,
    number_25: usize,
    number_26: usize,
}

impl Seen {
    fn count(&mut self, answer: Figure) {
        match (answer.number, answer.figure) {
            (0, 1) => self.figure_1 += 1,
            (0, 0) => self.figure_0 += 1,
            (25, 0) => self.number_25 += 1,
            (26, 0) => self.number_26 += 1,
            _ => panic!("{answer:?}"),
        }
    }
}

// ---------------------------------------------------------------------------
// Questions

/// Every user, label, card and mode from 0 to one past the last.
fn all_questions(policy: &Policy) -> Vec<Question> {
    let counts = policy.counts;
    let numbers = |count: usize| 0..=count as u64 + 1;
    let mut questions = Vec::new();
    for user in numbers(counts.users) {
        for label in numbers(counts.labels) {
            for card in numbers(counts.cards) {
                questions.extend(numbers(2).map(|mode| Question {
                    user,
                    label,
                    card,
                    mode,
                }));
            }
        }
    }
    questions
}

fn size_of_all(policy: &Policy) -> usize {
    let counts = policy.counts;
    (counts.users + 2) * (counts.labels + 2) * (counts.cards + 2) * 4
}

/// A question with few numbers out of range.
fn drawn(random: &mut Random, policy: &Policy) -> Question {
    if random.percent(50) {
        if let Some(question) = hopeful(random, policy) {
            return question;
        }
    }
    let counts = policy.counts;
    Question {
        user: number(random, counts.users),
        label: number(random, counts.labels),
        card: number(random, counts.cards),
        mode: number(random, 2),
    }
}

/// About a user, a role assigned to it and a card that this role gives.
fn hopeful(random: &mut Random, policy: &Policy) -> Option<Question> {
    let nth = random.below(policy.assigned.len());
    let &(user, role) = policy.assigned.iter().nth(nth)?;
    let mode = random.pick(&[Mode::Read, Mode::Write]);
    let cards = policy.cards(role, mode);
    let &card = cards.iter().nth(random.below(cards.len()))?;
    let label = match random.below(3) {
        0 => policy.meaning.clearance[user],
        _ => 1 + random.below(policy.counts.labels),
    };
    Some(Question {
        user: user as u64,
        label: label as u64,
        card: card as u64,
        mode: mode as u64,
    })
}

/// A drawn question with one number replaced, or with all numbers wild.
fn wild(random: &mut Random, policy: &Policy) -> Question {
    let counts = policy.counts;
    let mut question = drawn(random, policy);
    let which = random.below(5);
    let replaced = |index| which == index || which == 4;
    if replaced(0) {
        question.user = far_number(random, counts.users);
    }
    if replaced(1) {
        question.label = far_number(random, counts.labels);
    }
    if replaced(2) {
        question.card = far_number(random, counts.cards);
    }
    if replaced(3) {
        question.mode = far_number(random, 2);
    }
    question
}

fn far_number(random: &mut Random, count: usize) -> u64 {
    match random.below(8) {
        0 => 0,
        1 => count as u64 + 1,
        2 => u64::MAX,
        3 => 1 << 32,
        _ => wild_number(random, count),
    }
}

/// One question with each number out of range in turn, the others good.
fn each_number_out_of_range(question: Question, policy: &Policy) -> Vec<Question> {
    let counts = policy.counts;
    let far = |count: usize| [0, count as u64 + 1, u64::MAX, 1 << 32];
    let mut questions = Vec::new();
    questions.extend(far(counts.users).map(|user| Question { user, ..question }));
    questions.extend(far(counts.labels).map(|label| Question { label, ..question }));
    questions.extend(far(counts.cards).map(|card| Question { card, ..question }));
    questions.extend(far(2).map(|mode| Question { mode, ..question }));
    questions
}

fn questions(random: &mut Random, policy: &Policy) -> Vec<Question> {
    let mut questions = if size_of_all(policy) <= ALL {
        all_questions(policy)
    } else {
        (0..DRAWN).map(|_| drawn(random, policy)).collect()
    };
    questions.extend((0..WILD).map(|_| wild(random, policy)));
    questions.extend(each_number_out_of_range(drawn(random, policy), policy));
    questions
}

// ---------------------------------------------------------------------------
// Against the model

#[test]
fn can_agrees_with_the_model() {
    let mut seen = Seen::default();
    let mut whole = 0;
    for index in 0..FILES {
        let random = &mut Random::for_file(15, index);
        let loaded = Loaded::new(&accepted_file(random));
        whole += usize::from(size_of_all(loaded.policy()) <= ALL);
        let lent = &mut loaded.state.clone();
        for question in questions(random, loaded.policy()) {
            seen.count(answer(&loaded, lent, question));
        }
    }
    show(&format!("{whole} files of {FILES} asked all: {seen:?}"));
    assert!(whole > 20 && whole < 50, "{whole}");
    assert!(seen.figure_1 > 2_000 && seen.figure_0 > 2_000, "{seen:?}");
    assert!(seen.number_25 > 2_000 && seen.number_26 > 2_000, "{seen:?}");
}

/// What user 1 can at label 1 and at label 2 of a file: read card 1, write it, read
/// card 2, write it.
fn can_at_each_label(file: &[u8]) -> [[u64; 4]; 2] {
    let mut loaded = Loaded::new(file);
    [1, 2].map(|label| {
        [(1, 1), (1, 2), (2, 1), (2, 2)].map(|(card, mode)| {
            let answer = library::can(&mut loaded.state, 1, label, card, mode);
            assert_eq!(answer.number, 0, "label {label} card {card} mode {mode}");
            answer.figure
        })
    })
}

/// The document's example, by hand: role 2 has r-level 1 and w-level 2.
#[test]
fn the_example() {
    assert_eq!(can_at_each_label(EXAMPLE.as_bytes()), [[1, 0, 0, 1]; 2]);
}

/// Role 2 writing card 1 too, by hand: its w-level is 1, so that at label 2 the
/// user has role 1 alone.
#[test]
fn a_role_for_low_sessions() {
    let can = can_at_each_label(REVIEWER.as_bytes());
    assert_eq!(can, [[1, 1, 0, 1], [1, 0, 0, 0]]);
}

// ---------------------------------------------------------------------------
// Against the calls

/// Opens place 1, takes the role and uses no bytes of the card: the state after
/// it, where all three are answered 0.
fn used_with(loaded: &Loaded, role: u64, question: Question) -> Option<Vec<u8>> {
    let mut state = loaded.state.clone();
    let mut store = vec![0; CARD_BYTES * loaded.policy().counts.cards];
    let Question {
        user,
        label,
        card,
        mode,
    } = question;
    let done = library::open(&mut state, 1, user, label) == 0
        && library::take(&mut state, 1, role) == 0
        && match mode {
            1 => library::read_number(&mut state, &mut store, 1, card, 0, 0) == 0,
            _ => library::write(&mut state, &mut store, 1, card, 0, &mut []) == 0,
        };
    done.then_some(state)
}

#[test]
fn can_agrees_with_the_calls() {
    let mut seen = Seen::default();
    for index in 0..FILES {
        let random = &mut Random::for_file(16, index);
        let loaded = Loaded::new(&accepted_file(random));
        let roles = loaded.policy().counts.roles as u64;
        for _ in 0..TRIED {
            let question = drawn(random, loaded.policy());
            let answer = question.to_library(&mut loaded.state.clone());
            if answer.number != 0 {
                continue;
            }
            let used = (1..=roles).find_map(|role| used_with(&loaded, role, question));
            assert_eq!(answer.figure == 1, used.is_some(), "{question:?}");
            // "It looks at no place".
            if let Some(mut state) = used {
                assert_eq!(question.to_library(&mut state), answer, "{question:?}");
            }
            seen.count(answer);
        }
    }
    show(&format!("tried with every role: {seen:?}"));
    assert!(seen.figure_1 > 200 && seen.figure_0 > 200, "{seen:?}");
}

// ---------------------------------------------------------------------------
// States that no load left

#[test]
fn short_and_zeroed_states() {
    let refused = Figure::refused(21);
    let mut loaded = Loaded::new(EXAMPLE.as_bytes());
    let before = loaded.state.clone();
    let mut zeroed = vec![0; STATE_BYTES];
    for numbers in [
        [1, 1, 2, 2],
        [1, 2, 2, 2],
        [0; 4],
        [u64::MAX; 4],
        [1 << 32; 4],
    ] {
        let [user, label, card, mode] = numbers;
        let question = Question {
            user,
            label,
            card,
            mode,
        };
        for length in [0, 1, 8, 32_768, STATE_BYTES - 1] {
            let short = &mut loaded.state[..length];
            assert_eq!(question.to_library(short), refused, "{question:?} {length}");
            assert_eq!(question.to_model(&loaded.model, length), refused);
        }
        assert_eq!(question.to_library(&mut zeroed), refused, "{question:?}");
        assert_eq!(question.to_model(&Model::default(), STATE_BYTES), refused);
    }
    assert!(loaded.state == before && zeroed == [0; STATE_BYTES]);
    let nothing = unsafe { c::monitor_can(std::ptr::null(), 0, 1, 1, 2, 2) };
    assert_eq!(nothing, refused);
}
