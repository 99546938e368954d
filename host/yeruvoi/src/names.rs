//! The legend: names to put beside numbers. A line of it is `label 1: public`;
//! `role`, `user` and `card` likewise.

use crate::json::Json;
use std::collections::BTreeMap;

/// What a number counts.
#[derive(Clone, Copy, Debug, PartialEq, Eq, Hash, PartialOrd, Ord)]
pub enum Kind {
    Label,
    Role,
    User,
    Card,
}

impl Kind {
    pub const ALL: [Kind; 4] = [Kind::Label, Kind::Role, Kind::User, Kind::Card];

    pub fn word(self) -> &'static str {
        match self {
            Kind::Label => "label",
            Kind::Role => "role",
            Kind::User => "user",
            Kind::Card => "card",
        }
    }
}

/// The names that a legend gives.
#[derive(Clone, Debug, Default)]
pub struct Names {
    names: BTreeMap<(Kind, u64), String>,
}

impl Names {
    /// No legend.
    pub fn none() -> Names {
        Names::default()
    }

    /// Reads a legend, or says which line is wrong and why.
    pub fn read(text: &[u8]) -> Result<Names, String> {
        let text = String::from_utf8_lossy(text);
        let text = text.trim_start_matches('\u{feff}');
        let mut names = Names::none();
        for (line, number) in text.lines().zip(1..) {
            let problem = |what: &str| format!("line {number}: {what}");
            let (kind, thing, name) =
                entry(line).ok_or_else(|| problem("not of the form `label 1: name`"))?;
            if names.names.insert((kind, thing), name).is_some() {
                return Err(problem(&format!(
                    "{} {thing} has a name already",
                    kind.word()
                )));
            }
        }
        Ok(names)
    }

    /// The name of a thing, where the legend has one.
    pub fn of(&self, kind: Kind, number: u64) -> Option<&str> {
        self.names.get(&(kind, number)).map(String::as_str)
    }

    /// `user 12`, or with a name `user 12 (office clerk)`.
    pub fn thing(&self, kind: Kind, number: u64) -> String {
        format!("{} {}", kind.word(), self.number(kind, number))
    }

    /// `12`, or with a name `12 (office clerk)`.
    pub fn number(&self, kind: Kind, number: u64) -> String {
        match self.of(kind, number) {
            Some(name) => format!("{number} ({name})"),
            None => number.to_string(),
        }
    }

    /// `{"number": 12, "name": "office clerk"}`; without a name the number alone
    /// stands in it.
    pub fn json(&self, kind: Kind, number: u64) -> Json {
        let mut members = vec![("number", Json::Number(number))];
        if let Some(name) = self.of(kind, number) {
            members.push(("name", Json::text(name)));
        }
        Json::Object(members)
    }
}

/// Kind, number and name of a legend's line.
fn entry(line: &str) -> Option<(Kind, u64, String)> {
    let (thing, name) = line.split_once(": ")?;
    let (word, number) = thing.split_once(' ')?;
    let kind = Kind::ALL.into_iter().find(|kind| kind.word() == word)?;
    let digits = number.bytes().all(|byte| byte.is_ascii_digit()) && !number.starts_with('0');
    let number = number.parse().ok().filter(|_| digits)?;
    let name: String = name.trim().chars().map(printed).collect();
    (!name.is_empty()).then_some((kind, number, name))
}

/// A character of a name as it is shown: `?` where it could steer a terminal.
fn printed(character: char) -> char {
    let letter = character == ' ' || character.is_ascii_graphic() || character.is_alphanumeric();
    let sign =
        matches!(character, '\u{a1}'..='\u{ac}' | '\u{ae}'..='\u{ff}' | '\u{2010}'..='\u{2027}');
    if letter || sign {
        character
    } else {
        '?'
    }
}

#[cfg(test)]
mod tests {
    use super::*;

    #[test]
    fn a_legend_names_numbers() {
        let names = Names::read(b"label 1: public\r\nuser 12: office, clerk\n").unwrap();
        assert_eq!(names.of(Kind::Label, 1), Some("public"));
        assert_eq!(names.thing(Kind::User, 12), "user 12 (office, clerk)");
        assert_eq!(names.thing(Kind::Role, 12), "role 12");
        assert_eq!(names.number(Kind::Card, 1), "1");
    }

    #[test]
    fn a_name_steers_no_terminal() {
        let legend = "card 1: a\u{1b}[2Jb\u{202e}c\u{9b}d é–Ω\n".as_bytes();
        let names = Names::read(legend).unwrap();
        assert_eq!(names.of(Kind::Card, 1), Some("a?[2Jb?c?d é–Ω"));
        let broken = Names::read(b"card 1: a\xffb").unwrap();
        assert_eq!(broken.of(Kind::Card, 1), Some("a?b"));
    }

    #[test]
    fn a_malformed_legend_is_told_by_its_line() {
        let form = |line: usize| format!("line {line}: not of the form `label 1: name`");
        for (legend, problem) in [
            ("label 1: a\nlable 2: b\n", form(2)),
            ("label 1 a\n", form(1)),
            ("label one: a\n", form(1)),
            ("label 01: a\n", form(1)),
            ("label +1: a\n", form(1)),
            ("label 1: \n", form(1)),
            ("label 1: a\n\n", form(2)),
            (
                "card 2: a\ncard 2: b\n",
                "line 2: card 2 has a name already".to_string(),
            ),
        ] {
            assert_eq!(Names::read(legend.as_bytes()).unwrap_err(), problem);
        }
    }
}
