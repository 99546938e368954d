//! Number 5: the line before, and whether the line is repeated or out of order.

use super::cause::Cause;
use crate::arguments::Settings;
use crate::json::Json;
use crate::lines::{Line, Lines};
use crate::names::Names;
use crate::page::Page;

pub struct Order<'a> {
    before: Line<'a>,
    line: Line<'a>,
    /// The earlier line that says the same.
    repeats: Option<usize>,
}

impl<'a> Order<'a> {
    pub fn of(lines: &Lines<'a>, number: usize) -> Option<Order<'a>> {
        let line = *lines.all().get(number.checked_sub(1)?)?;
        let earlier = &lines.all()[..number - 1];
        let same = earlier.iter().rev().find(|other| other.text == line.text);
        Some(Order {
            before: *earlier.last()?,
            line,
            repeats: same.map(|line| line.number),
        })
    }

    fn words(&self) -> String {
        let before = self.before.number;
        match self.repeats {
            Some(same) => format!("repeats line {same}"),
            None if self.line.letter != self.before.letter => {
                format!("out of order after line {before}: the letters come as H D S U O P A")
            }
            None => format!("out of order after line {before}: the lines of a letter rise"),
        }
    }
}

impl Cause for Order<'_> {
    fn write(&self, page: &mut Page, _settings: &Settings) {
        page.quote(2, &self.before, "");
        page.quote(2, &self.line, &self.words());
    }

    fn json(&self, _names: &Names) -> Json {
        let repeats = self.repeats.map(|line| Json::Number(line as u64));
        Json::Object(vec![
            ("before", Json::line(&self.before)),
            ("line", Json::line(&self.line)),
            ("repeats", repeats.unwrap_or(Json::Null)),
        ])
    }
}
