//! Numbers 11 and 13: the lines of a circle.

use super::cause::Cause;
use crate::arguments::Settings;
use crate::json::Json;
use crate::lines::{Line, Lines};
use crate::names::{Kind, Names};
use crate::page::Page;
use crate::paths::Steps;

pub struct Circle<'a> {
    kind: Kind,
    lines: Vec<Line<'a>>,
}

impl<'a> Circle<'a> {
    /// A shortest circle of labels or roles through this one.
    pub fn of(lines: &Lines<'a>, kind: Kind, thing: u64) -> Option<Circle<'a>> {
        let letter = if kind == Kind::Label { b'D' } else { b'S' };
        let lines = Steps::of(lines, letter).from(thing).to(thing)?;
        Some(Circle { kind, lines })
    }
}

/// What a line D or S says.
pub fn says(line: &Line, kind: Kind, names: &Names) -> String {
    let verb = if kind == Kind::Label {
        "dominates"
    } else {
        "is senior to"
    };
    let [upper, lower, ..] = line.fields;
    format!(
        "{} {verb} {}",
        names.thing(kind, upper),
        names.thing(kind, lower)
    )
}

impl Cause for Circle<'_> {
    fn write(&self, page: &mut Page, settings: &Settings) {
        for line in &self.lines {
            page.quote(2, line, &says(line, self.kind, &settings.names));
        }
    }

    fn json(&self, _names: &Names) -> Json {
        Json::Object(vec![("lines", Json::list(&self.lines, Json::line))])
    }
}
