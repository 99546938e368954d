//! What a page of `yeruvoi check --all` tells, read back from its text.

use std::collections::BTreeSet;
use yeruvoi::arguments::Settings;
use yeruvoi::check::answer;
use yeruvoi::input::Input;

/// A line of the file as a page quotes it.
#[derive(Clone, Debug)]
pub struct Quoted {
    pub number: usize,
    pub letter: u8,
    pub fields: Vec<usize>,
}

pub struct Told {
    pub text: String,
    pub quoted: Vec<Quoted>,
}

/// An assignment at fault as a page tells it.
#[derive(Debug)]
pub struct Fault {
    pub line: usize,
    pub number: usize,
    pub user: usize,
    pub role: usize,
    pub clearance: usize,
    /// The labels that the clearance (15) or the r-level (16) is at odds with.
    pub odd: BTreeSet<usize>,
    /// Why no label serves; told for 16.
    pub reason: Option<String>,
    /// 0 is free and 99 undefined; none where it is not told, or stands above.
    pub r_level: Option<usize>,
    pub w_level: Option<usize>,
}

impl Told {
    pub fn of(file: &[u8]) -> Told {
        let settings = Settings {
            all: true,
            ..Settings::default()
        };
        let answer = answer(&Input::of(file), &settings);
        assert_eq!(answer.status, 1);
        let quoted = answer.text.lines().filter_map(|line| quoted(line, file));
        Told {
            quoted: quoted.collect(),
            text: answer.text,
        }
    }

    /// The numbers of the lines that are quoted, in the page's order.
    pub fn numbers(&self) -> Vec<usize> {
        self.quoted.iter().map(|line| line.number).collect()
    }

    pub fn quoted_with(&self, letter: u8) -> Vec<Quoted> {
        let lines = self.quoted.iter().filter(|line| line.letter == letter);
        lines.cloned().collect()
    }

    /// The number in the first line.
    fn number(&self) -> usize {
        number_after(&self.text, "refused with ").expect("the number stands first")
    }

    /// The labels that the page calls rivals.
    pub fn rivals(&self) -> Vec<usize> {
        let lines = self.text.lines().skip(1);
        let told = lines.filter(|line| line.contains(" is a rival bound: "));
        told.filter_map(|line| number_after(line, "  label "))
            .collect()
    }

    /// The column that is told.
    pub fn column(&self) -> usize {
        number_after(&self.text, "\n  column ").expect("a column is told")
    }

    /// The fields that are told.
    pub fn fields(&self) -> Vec<usize> {
        let lines = self.text.lines().skip(1);
        lines
            .filter_map(|line| number_after(line, "  field "))
            .collect()
    }

    /// The users or cards that are told.
    pub fn things(&self, kind: &str) -> Vec<usize> {
        let lines = self.text.lines().skip(1);
        lines
            .filter_map(|line| number_after(line, &format!("  {kind} ")))
            .collect()
    }

    pub fn faults(&self) -> Vec<Fault> {
        let lines: Vec<&str> = self.text.lines().skip(1).collect();
        let starts = |line: &&str| line.contains(" is assigned to ");
        let blocks = lines.chunk_by(|_, next| !starts(next));
        blocks.map(|lines| self.fault(lines)).collect()
    }

    /// The lines about one assignment, its own first.
    fn fault(&self, lines: &[&str]) -> Fault {
        let note = lines[0].get(40..).expect("a note stands beside the line");
        let number = note.split(':').next().and_then(|word| word.parse().ok());
        let told = |head: &str| lines.iter().find_map(|line| line.strip_prefix(head));
        let clearance = told("  clearance    ").expect("the clearance stands there");
        let reason = told("  because      ");
        let odd = [clearance, reason.unwrap_or_default()].join(" ");
        Fault {
            line: number_after(lines[0], "line ").expect("the line has a number"),
            number: number.unwrap_or(self.number()),
            user: number_after(note, "user ").expect("the user stands there"),
            role: number_after(note, "to role ").expect("the role stands there"),
            clearance: leading_number(clearance).expect("the clearance is a number"),
            odd: odd
                .split("label ")
                .skip(1)
                .filter_map(leading_number)
                .collect(),
            reason: reason.map(str::to_string),
            r_level: told("  r-level      ").and_then(level),
            w_level: told("  w-level      ").and_then(level),
        }
    }
}

/// A level as it is told.
fn level(text: &str) -> Option<usize> {
    match text {
        _ if text.starts_with("free: ") => Some(0),
        _ if text.starts_with("undefined: ") => Some(99),
        _ => leading_number(text),
    }
}

impl Fault {
    /// The number and place that a load gives it.
    pub fn verdict(&self) -> (usize, [usize; 2]) {
        (self.number, [self.user, self.role])
    }
}

/// A line of the page that quotes one of the file, which must be that line.
fn quoted(line: &str, file: &[u8]) -> Option<Quoted> {
    let quote = line.trim_start_matches(' ');
    if quote.len() == line.len() || quote.get(..5) != Some("line ") {
        return None;
    }
    let number = leading_number(&quote[5..]).expect("a quoted line has its number");
    let bytes = &file[22 * (number - 1)..22 * number - 1];
    let text = format!("{:<21}", quote.get(13..34).unwrap_or(&quote[13..]));
    let shown = |byte: &u8| {
        if (b' '..=b'~').contains(byte) {
            char::from(*byte)
        } else {
            '?'
        }
    };
    assert_eq!(text, bytes.iter().map(shown).collect::<String>());
    let fields = (1..21)
        .step_by(5)
        .filter_map(|start| text.get(start..start + 5));
    Some(Quoted {
        number,
        letter: bytes[0],
        fields: fields
            .filter_map(|field| field.trim().parse().ok())
            .collect(),
    })
}

fn number_after(text: &str, words: &str) -> Option<usize> {
    leading_number(text.split_once(words)?.1)
}

fn leading_number(text: &str) -> Option<usize> {
    let digits = text.find(|character: char| !character.is_ascii_digit());
    text[..digits.unwrap_or(text.len())].parse().ok()
}
