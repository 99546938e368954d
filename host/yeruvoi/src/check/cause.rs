//! The cause behind a number, in words and as JSON.

use super::{assignments, bounds, circle, form, labelling, length, order, range};
use crate::arguments::Settings;
use crate::input::Input;
use crate::json::Json;
use crate::lines::Lines;
use crate::monitor::Verdict;
use crate::names::{Kind, Names};
use crate::page::Page;

/// What a person needs to know to mend the file.
pub trait Cause {
    fn write(&self, page: &mut Page, settings: &Settings);
    fn json(&self, names: &Names) -> Json;
}

/// A number of which nothing is known beyond its sentence.
struct Unknown;

impl Cause for Unknown {
    fn write(&self, _page: &mut Page, _settings: &Settings) {}

    fn json(&self, _names: &Names) -> Json {
        Json::Null
    }
}

/// The cause for which a file was refused with this number and place.
pub fn of(input: &Input, verdict: Verdict) -> Box<dyn Cause + '_> {
    let file = &input.bytes[..];
    let lines = Lines::of(file);
    let first = verdict.first as usize;
    match verdict.number {
        1 => Box::new(length::Length::of(input)),
        2 => boxed(form::Form::of(file, first)),
        3 => boxed(range::Ranges::of_counts(&lines)),
        4 => boxed(range::Ranges::of_line(&lines, first)),
        5 => boxed(order::Order::of(&lines, first)),
        6 => Box::new(labelling::Labellings::of(&lines)),
        11 => boxed(circle::Circle::of(&lines, Kind::Label, verdict.first)),
        12 => boxed(bounds::Bounds::of(&lines, verdict.first, verdict.second)),
        13 => boxed(circle::Circle::of(&lines, Kind::Role, verdict.first)),
        14..=16 => boxed(assignments::Assignments::of(file, verdict)),
        _ => Box::new(Unknown),
    }
}

fn boxed<'a>(cause: Option<impl Cause + 'a>) -> Box<dyn Cause + 'a> {
    match cause {
        Some(cause) => Box::new(cause),
        None => Box::new(Unknown),
    }
}
