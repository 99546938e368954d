//! Number 2: the first column of a line that is not as it must be.

use super::cause::Cause;
use crate::arguments::Settings;
use crate::json::Json;
use crate::lines::{fields_of, LETTERS, LINE_BYTES};
use crate::names::Names;
use crate::page::{shown, Page};

pub struct Form<'a> {
    line: usize,
    text: &'a [u8],
    /// From 1 to 22.
    column: usize,
    found: u8,
    wanted: String,
}

impl<'a> Form<'a> {
    /// What is wrong with a line of the file.
    pub fn of(file: &'a [u8], line: usize) -> Option<Form<'a>> {
        Form::of_line(file.chunks(LINE_BYTES).nth(line.checked_sub(1)?)?, line)
    }

    /// What is wrong with 22 bytes as the line with this number; nothing where
    /// they are well formed.
    pub fn of_line(text: &'a [u8], line: usize) -> Option<Form<'a>> {
        let (column, wanted) = letter_fault(text[0], line)
            .or_else(|| fields_fault(text))
            .or_else(|| newline_fault(text))?;
        let found = text[column - 1];
        let early = found == b'\n' && column < LINE_BYTES;
        let wanted = match (early, line == 1 && has_byte_order_mark(text)) {
            (true, _) => "the line ends too early; blanks at its end count".to_string(),
            (_, true) => "a byte order mark begins the file and must go".to_string(),
            _ => wanted,
        };
        Some(Form {
            line,
            text,
            column,
            found,
            wanted,
        })
    }
}

/// Whether a file begins with the mark that some editors put there.
pub fn has_byte_order_mark(bytes: &[u8]) -> bool {
    let marks: [&[u8]; 3] = [b"\xef\xbb\xbf", b"\xfe\xff", b"\xff\xfe"];
    marks.iter().any(|mark| bytes.starts_with(mark))
}

fn letter_fault(letter: u8, line: usize) -> Option<(usize, String)> {
    let wanted = match (LETTERS.contains(&letter), letter == b'H', line == 1) {
        (_, false, true) => "line 1 is the line H with the counts",
        (_, true, false) => "line 1 alone is a line H",
        (false, _, _) => "the letter is one of H D S U O P A",
        _ => return None,
    };
    Some((1, wanted.to_string()))
}

fn fields_fault(text: &[u8]) -> Option<(usize, String)> {
    let letter = text[0];
    (1..=4).find_map(|field| {
        let start = 5 * field - 4;
        let columns = &text[start..start + 5];
        let (index, wanted) = if field <= fields_of(letter) {
            number_fault(columns, field, char::from(letter))
        } else {
            blank_fault(columns, field, char::from(letter))
        }?;
        Some((start + index + 1, wanted))
    })
}

/// A field in use shows a number at its right end, blanks before it, no
/// leading zeros.
fn number_fault(columns: &[u8], field: usize, letter: char) -> Option<(usize, String)> {
    let digit = |index: usize| columns.get(index).is_some_and(u8::is_ascii_digit);
    let Some(start) = columns.iter().position(|&byte| byte != b' ') else {
        return Some((4, format!("field {field} of a line {letter} is a number")));
    };
    if columns[start] == b'0' && digit(start + 1) {
        return Some((start, format!("field {field} has no leading zero")));
    }
    let wrong = (start..5).find(|&index| !digit(index))?;
    let last = 5 * field + 1;
    let wanted = match columns[wrong] {
        b' ' => format!("the number of field {field} ends in column {last}"),
        _ => format!("field {field} is a number, blanks before it"),
    };
    Some((wrong, wanted))
}

fn blank_fault(columns: &[u8], field: usize, letter: char) -> Option<(usize, String)> {
    let wrong = columns.iter().position(|&byte| byte != b' ')?;
    Some((wrong, format!("field {field} of a line {letter} is blank")))
}

fn newline_fault(text: &[u8]) -> Option<(usize, String)> {
    let wanted = || (LINE_BYTES, "the newline stands here".to_string());
    (text[LINE_BYTES - 1] != b'\n').then(wanted)
}

/// A byte in words.
fn found(byte: u8) -> String {
    match byte {
        b' ' => "blank".to_string(),
        b'\n' => "newline".to_string(),
        b'\r' => "carriage return".to_string(),
        b'\t' => "tab".to_string(),
        0x21..=0x7e => format!("'{}'", char::from(byte)),
        _ => format!("byte {byte}"),
    }
}

impl Cause for Form<'_> {
    fn write(&self, page: &mut Page, _settings: &Settings) {
        page.line(format!(
            "  line {:<4}    {}",
            self.line,
            shown(&self.text[..LINE_BYTES - 1])
        ));
        page.line(format!(
            "  column {:<2}    {}: {}",
            self.column,
            found(self.found),
            self.wanted
        ));
    }

    fn json(&self, _names: &Names) -> Json {
        Json::Object(vec![
            ("line", Json::Number(self.line as u64)),
            ("text", Json::bytes(self.text)),
            ("column", Json::Number(self.column as u64)),
            ("byte", Json::Number(self.found.into())),
            ("wanted", Json::text(&self.wanted)),
        ])
    }
}
