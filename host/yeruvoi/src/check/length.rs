//! Number 1: the length, and the first line that does not end where it should.

use super::cause::Cause;
use super::form::{has_byte_order_mark, Form};
use crate::arguments::Settings;
use crate::header::FILE_BYTES;
use crate::input::Input;
use crate::json::Json;
use crate::lines::LINE_BYTES;
use crate::names::Names;
use crate::page::{grouped, shown, Page};

/// So much of a line that is too long is quoted.
const QUOTED_BYTES: usize = 60;

pub struct Length<'a> {
    length: u64,
    more: bool,
    ending: Option<Ending<'a>>,
}

/// A line that does not end after 22 bytes.
struct Ending<'a> {
    line: usize,
    /// Without the newline, where there is one.
    text: &'a [u8],
    newline: bool,
    reason: &'static str,
}

impl<'a> Length<'a> {
    pub fn of(input: &'a Input) -> Length<'a> {
        let whole = input.length == input.bytes.len() as u64;
        Length {
            length: input.length,
            more: input.more,
            ending: first_ending(&input.bytes).filter(|ending| ending.newline || whole),
        }
    }

    /// What is wrong with the length itself.
    fn problem(&self) -> String {
        let above = self.length > FILE_BYTES;
        let uneven = !self.length.is_multiple_of(LINE_BYTES as u64) && !self.more;
        match (self.length, above, uneven) {
            (0, _, _) => "the file is empty".to_string(),
            (_, true, true) => format!("above {}, and {UNEVEN}", grouped(FILE_BYTES)),
            (_, true, false) => format!("above {}", grouped(FILE_BYTES)),
            _ => UNEVEN.to_string(),
        }
    }
}

const UNEVEN: &str = "not a multiple of 22";

/// The first line that ends before or after its 22 bytes.
fn first_ending(bytes: &[u8]) -> Option<Ending<'_>> {
    let starts = (0..bytes.len()).step_by(LINE_BYTES);
    let mut lines = starts.map(|start| &bytes[start..]).zip(1..);
    let (rest, line) = lines.find(|(rest, _)| end(rest) != Some(LINE_BYTES - 1))?;
    let newline = end(rest).is_some();
    let text = &rest[..end(rest).unwrap_or(rest.len())];
    let reason = reason(line, text, newline);
    Some(Ending {
        line,
        text,
        newline,
        reason,
    })
}

/// Where the first newline stands.
fn end(rest: &[u8]) -> Option<usize> {
    rest.iter().position(|&byte| byte == b'\n')
}

fn reason(line: usize, text: &[u8], newline: bool) -> &'static str {
    if line == 1 && has_byte_order_mark(text) {
        return "a byte order mark begins the file and must go";
    }
    if text.ends_with(b"\r") && newline {
        return "a carriage return stands before the newline";
    }
    if text.get(LINE_BYTES - 1) == Some(&b'\r') {
        return "a carriage return stands where the newline must";
    }
    if text.contains(&b'\t') {
        return "tabs stand where blanks must";
    }
    match (text.len(), newline, padded_is_well_formed(line, text)) {
        (0, true, _) => "the line is empty",
        (21, false, _) => "the newline at the end of the file is missing",
        (0..=20, true, true) => "its trailing blanks are missing",
        (0..=20, false, true) => "its trailing blanks and the newline are missing",
        (0..=20, _, false) => "it is too short",
        _ => "it is too long",
    }
}

/// Whether blanks and a newline at its end would make a line of it.
fn padded_is_well_formed(number: usize, text: &[u8]) -> bool {
    let mut line = text.to_vec();
    line.resize((LINE_BYTES - 1).max(text.len()), b' ');
    line.push(b'\n');
    line.len() == LINE_BYTES && Form::of_line(&line, number).is_none()
}

impl Ending<'_> {
    fn words(&self) -> String {
        let bytes = self.text.len() + usize::from(self.newline);
        let counted = match bytes {
            1 => "1 byte".to_string(),
            _ => format!("{} bytes", grouped(bytes as u64)),
        };
        let ends = if self.newline { "ends after" } else { "has" };
        format!("line {} {ends} {counted}: {}", self.line, self.reason)
    }
}

impl Cause for Length<'_> {
    fn write(&self, page: &mut Page, _settings: &Settings) {
        let more = if self.more { "more than " } else { "" };
        let length = grouped(self.length);
        page.line(format!("  {more}{length} bytes: {}", self.problem()));
        let Some(ending) = &self.ending else {
            return;
        };
        page.line(format!("  {}", ending.words()));
        let quoted = &ending.text[..ending.text.len().min(QUOTED_BYTES)];
        let cut = if quoted.len() < ending.text.len() {
            "..."
        } else {
            ""
        };
        page.line(format!(
            "  line {:<4}    {}{cut}",
            ending.line,
            shown(quoted)
        ));
        page.line("  every line has 22 bytes: a letter, 20 columns with their blanks, a newline");
    }

    fn json(&self, _names: &Names) -> Json {
        let ending = self.ending.as_ref().map(Ending::json);
        Json::Object(vec![
            ("length", Json::Number(self.length)),
            ("more", Json::Boolean(self.more)),
            ("problem", Json::text(self.problem())),
            ("ending", ending.unwrap_or(Json::Null)),
        ])
    }
}

impl Ending<'_> {
    fn json(&self) -> Json {
        Json::Object(vec![
            ("line", Json::Number(self.line as u64)),
            ("text", Json::bytes(self.text)),
            ("newline", Json::Boolean(self.newline)),
            ("reason", Json::text(self.reason)),
        ])
    }
}
