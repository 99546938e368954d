//! The first line of a refusal: number, place and sentence.

use crate::header::sentence;
use crate::monitor::Verdict;
use crate::names::{Kind, Names};

/// `refused with 15 at user 12, role 66: the clearance does not ...`
pub fn first_line(verdict: Verdict, names: &Names) -> String {
    let number = verdict.number;
    let place = match place(verdict, names) {
        Some(place) => format!(" at {place}"),
        None => String::new(),
    };
    format!("refused with {number}{place}: {}", sentence(number))
}

/// What the two numbers of a place count.
fn place(verdict: Verdict, names: &Names) -> Option<String> {
    let (first, second) = (verdict.first, verdict.second);
    let thing = |kind, number| names.thing(kind, number);
    match verdict.number {
        1 => None,
        2..=5 => Some(format!("line {first}")),
        6 if first == 1 => Some(thing(Kind::User, second)),
        6 => Some(thing(Kind::Card, second)),
        11 => Some(thing(Kind::Label, first)),
        12 => Some(thing(Kind::Label, first) + ", " + &thing(Kind::Label, second)),
        13 => Some(thing(Kind::Role, first)),
        14..=16 => Some(thing(Kind::User, first) + ", " + &thing(Kind::Role, second)),
        _ => Some(format!("{first}, {second}")),
    }
}
