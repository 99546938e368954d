//! The review calls on the document's example, by hand: one user, cleared to 2
//! and assigned to role 2, the senior of role 1; role 1 reads card 1, role 2
//! writes card 2, and label 2 dominates label 1.

use monitor_tests::library::{self, CountsAnswer, Figure, SessionAnswer, SetAnswer};
use monitor_tests::loaded::Loaded;
use second_checker::example::EXAMPLE;

fn state() -> Vec<u8> {
    Loaded::new(EXAMPLE.as_bytes()).state
}

fn done(figure: u64) -> Figure {
    Figure { number: 0, figure }
}

#[test]
fn counts_and_labels() {
    let state = &mut state()[..];
    let counts = CountsAnswer {
        number: 0,
        labels: 2,
        roles: 2,
        users: 1,
        cards: 2,
    };
    assert_eq!(library::counts_of(state), counts);
    assert_eq!(library::clearance(state, 1), done(2));
    assert_eq!(library::clearance(state, 2), Figure::refused(25));
    for card in [1, 2] {
        assert_eq!(library::card_label(state, card), done(card));
    }
}

/// Label 2 dominates label 1 and role 2 is senior to role 1; "R 1 1 0" and "R 2
/// 1 2" are the levels.
#[test]
fn orders_and_levels() {
    let state = &mut state()[..];
    for (over, under, figure) in [(1, 1, 1), (1, 2, 0), (2, 1, 1), (2, 2, 1)] {
        assert_eq!(library::dominates(state, over, under), done(figure));
        assert_eq!(library::senior(state, over, under), done(figure));
    }
    for (role, mode, figure) in [(1, 1, 1), (1, 2, 0), (2, 1, 1), (2, 2, 2)] {
        assert_eq!(library::level(state, role, mode), done(figure));
    }
    assert_eq!(library::level(state, 1, 3), Figure::refused(25));
    assert_eq!(library::assigned(state, 1, 1), done(0));
    assert_eq!(library::assigned(state, 1, 2), done(1));
}

/// Both roles may be taken at both labels, and a session's are told as bits.
#[test]
fn takable_and_session() {
    let state = &mut state()[..];
    for label in [1, 2] {
        let set = SetAnswer {
            number: 0,
            low: 0b11,
            high: 0,
        };
        assert_eq!(library::takable(state, 1, label), set);
    }
    assert_eq!(library::open(state, 7, 1, 1), 0);
    assert_eq!(library::take(state, 7, 2), 0);
    let session = SessionAnswer {
        number: 0,
        user: 1,
        label: 1,
        low: 0b10,
        high: 0,
    };
    assert_eq!(library::session_at(state, 7), session);
    assert_eq!(library::session_at(state, 8).number, 24);
    assert_eq!(library::session_at(state, 65).number, 22);
}

/// Role 2 has what role 1 is permitted; bits past role 2 count for nothing.
#[test]
fn what_roles_give() {
    let state = &mut state()[..];
    let none = u64::MAX << 2;
    for (low, reads, writes) in [(0, 0, 0), (1, 1, 0), (2, 1, 1), (3, 1, 1), (none, 0, 0)] {
        let set = (low, u64::MAX);
        for label in [1, 2] {
            assert_eq!(library::gives(state, set, label, 1, 1), done(reads));
            assert_eq!(library::gives(state, set, label, 2, 2), done(writes));
            assert_eq!(library::gives(state, set, label, 1, 2), done(0));
            assert_eq!(library::gives(state, set, label, 2, 1), done(0));
        }
    }
}
