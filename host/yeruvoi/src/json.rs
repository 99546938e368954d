//! A small writer of JSON. What it writes is printed ASCII alone; any other
//! character is escaped.

use crate::lines::{fields_of, Line};
use std::fmt::{self, Display, Formatter};
use std::rc::Rc;

pub enum Json {
    Null,
    Boolean(bool),
    Number(u64),
    Text(String),
    List(Vec<Json>),
    Object(Vec<(&'static str, Json)>),
    /// A value that is written already, and may stand at several places.
    Written(Rc<str>),
}

impl Json {
    pub fn text(text: impl Into<String>) -> Json {
        Json::Text(text.into())
    }

    /// Bytes as text, each as the character of its number.
    pub fn bytes(bytes: &[u8]) -> Json {
        Json::Text(bytes.iter().copied().map(char::from).collect())
    }

    pub fn list<T>(things: impl IntoIterator<Item = T>, one: impl FnMut(T) -> Json) -> Json {
        Json::List(things.into_iter().map(one).collect())
    }

    pub fn numbers(numbers: impl IntoIterator<Item = u64>) -> Json {
        Json::list(numbers, Json::Number)
    }

    /// A line of the file: its number, its text, its letter and the fields that
    /// the letter uses.
    pub fn line(line: &Line) -> Json {
        let fields = &line.fields[..fields_of(line.letter)];
        Json::Object(vec![
            ("number", Json::Number(line.number as u64)),
            ("text", Json::bytes(line.text)),
            ("letter", Json::bytes(&[line.letter])),
            ("fields", Json::numbers(fields.iter().copied())),
        ])
    }

    /// The value and a newline.
    pub fn into_text(self) -> String {
        format!("{self}\n")
    }
}

impl Display for Json {
    fn fmt(&self, formatter: &mut Formatter) -> fmt::Result {
        match self {
            Json::Null => formatter.write_str("null"),
            Json::Boolean(value) => value.fmt(formatter),
            Json::Number(value) => value.fmt(formatter),
            Json::Text(text) => write_text(formatter, text),
            Json::List(values) => write_list(formatter, values),
            Json::Object(members) => write_object(formatter, members),
            Json::Written(text) => formatter.write_str(text),
        }
    }
}

fn write_list(formatter: &mut Formatter, values: &[Json]) -> fmt::Result {
    formatter.write_str("[")?;
    for (index, value) in values.iter().enumerate() {
        let before = if index == 0 { "" } else { ", " };
        formatter.write_str(before)?;
        value.fmt(formatter)?;
    }
    formatter.write_str("]")
}

fn write_object(formatter: &mut Formatter, members: &[(&'static str, Json)]) -> fmt::Result {
    formatter.write_str("{")?;
    for (index, (key, value)) in members.iter().enumerate() {
        let before = if index == 0 { "" } else { ", " };
        write!(formatter, "{before}\"{key}\": {value}")?;
    }
    formatter.write_str("}")
}

fn write_text(formatter: &mut Formatter, text: &str) -> fmt::Result {
    formatter.write_str("\"")?;
    for character in text.chars() {
        match character {
            '"' => formatter.write_str("\\\"")?,
            '\\' => formatter.write_str("\\\\")?,
            ' '..='~' => write!(formatter, "{character}")?,
            _ => write_escape(formatter, character)?,
        }
    }
    formatter.write_str("\"")
}

fn write_escape(formatter: &mut Formatter, character: char) -> fmt::Result {
    for unit in character.encode_utf16(&mut [0; 2]) {
        write!(formatter, "\\u{unit:04x}")?;
    }
    Ok(())
}

#[cfg(test)]
mod tests {
    use super::*;

    #[test]
    fn what_is_not_printed_ascii_is_escaped() {
        let text = Json::text("a\"\\\n\u{1b}é\u{1f600}");
        assert_eq!(text.to_string(), r#""a\"\\\u000a\u001b\u00e9\ud83d\ude00""#);
        assert_eq!(Json::bytes(b"\xff").to_string(), r#""\u00ff""#);
    }

    #[test]
    fn lists_and_objects_are_written_out() {
        let value = Json::Object(vec![
            ("a", Json::numbers([1, 2])),
            ("b", Json::List(vec![])),
            (
                "c",
                Json::Object(vec![("d", Json::Boolean(true)), ("e", Json::Null)]),
            ),
        ]);
        assert_eq!(
            value.to_string(),
            r#"{"a": [1, 2], "b": [], "c": {"d": true, "e": null}}"#
        );
    }
}
