//! Numbers 3 and 4: the fields of a line that are out of their range.

use super::cause::Cause;
use crate::arguments::Settings;
use crate::header::{CARDS, LABELS, ROLES, USERS};
use crate::json::Json;
use crate::lines::{Line, Lines};
use crate::names::Names;
use crate::page::Page;

pub struct Ranges<'a> {
    line: Line<'a>,
    faults: Vec<Fault>,
}

/// A field with a number outside its range.
struct Fault {
    /// From 1 to 4.
    field: usize,
    /// What it numbers or counts.
    what: &'static str,
    value: u64,
    lowest: u64,
    highest: u64,
    words: String,
}

impl<'a> Ranges<'a> {
    /// The counts of line 1 that are outside their limits.
    pub fn of_counts(lines: &Lines<'a>) -> Option<Ranges<'a>> {
        let limits = [
            ("labels", 1, LABELS),
            ("roles", 0, ROLES),
            ("users", 0, USERS),
            ("cards", 0, CARDS),
        ];
        Ranges::of(*lines.all().first()?, limits, count_words)
    }

    /// The fields of this line that are out of the range that line 1 gives.
    pub fn of_line(lines: &Lines<'a>, number: usize) -> Option<Ranges<'a>> {
        let line = *lines.all().get(number.checked_sub(1)?)?;
        let [labels, roles, users, cards] = lines.all()[0].fields;
        let (label, role, user, card) = (
            ("label", 1, labels),
            ("role", 1, roles),
            ("user", 1, users),
            ("card", 1, cards),
        );
        let ranges = match line.letter {
            b'D' => vec![label, label],
            b'S' => vec![role, role],
            b'U' => vec![user, label],
            b'O' => vec![card, label],
            b'P' => vec![role, card, ("mode", 1, 2)],
            b'A' => vec![user, role],
            _ => vec![],
        };
        Ranges::of(line, ranges, thing_words)
    }

    fn of(
        line: Line<'a>,
        ranges: impl IntoIterator<Item = (&'static str, u64, u64)>,
        words: fn(&'static str, u64, u64, u64) -> String,
    ) -> Option<Ranges<'a>> {
        let fields = ranges.into_iter().zip(line.fields).zip(1..);
        let faults: Vec<Fault> = fields
            .filter(|(((_, lowest, highest), value), _)| !(lowest..=highest).contains(&value))
            .map(|(((what, lowest, highest), value), field)| Fault {
                field,
                what,
                value,
                lowest,
                highest,
                words: words(what, value, lowest, highest),
            })
            .collect();
        (!faults.is_empty()).then_some(Ranges { line, faults })
    }
}

fn count_words(what: &'static str, value: u64, lowest: u64, highest: u64) -> String {
    format!("{value} {what}: a file has {lowest} to {highest}")
}

fn thing_words(what: &'static str, value: u64, lowest: u64, highest: u64) -> String {
    match (what, highest) {
        ("mode", _) => format!("mode {value}: 1 is read, 2 is write"),
        (_, 0) => format!("{what} {value}: this file has no {what}s"),
        (_, 1) => format!("{what} {value}: this file has {what} 1 alone"),
        _ => format!("{what} {value}: this file has {what}s {lowest} to {highest}"),
    }
}

impl Cause for Ranges<'_> {
    fn write(&self, page: &mut Page, _settings: &Settings) {
        page.quote(2, &self.line, "");
        for fault in &self.faults {
            page.line(format!("  field {}      {}", fault.field, fault.words));
        }
    }

    fn json(&self, _names: &Names) -> Json {
        Json::Object(vec![
            ("line", Json::line(&self.line)),
            ("fields", Json::list(&self.faults, Fault::json)),
        ])
    }
}

impl Fault {
    fn json(&self) -> Json {
        Json::Object(vec![
            ("field", Json::Number(self.field as u64)),
            ("what", Json::text(self.what)),
            ("value", Json::Number(self.value)),
            ("lowest", Json::Number(self.lowest)),
            ("highest", Json::Number(self.highest)),
        ])
    }
}
