//! Numbers 14 to 16: every assignment at fault, with clearance and levels. Which
//! ones are at fault the proved load says: the file is loaded again without the
//! line it refused, until it is accepted.

use super::cause::Cause;
use super::level::Level;
use crate::arguments::Settings;
use crate::json::Json;
use crate::lines::{Line, Lines};
use crate::monitor::{Mode, Policy, Verdict, FREE};
use crate::names::{Kind, Names};
use crate::page::{counted, rows, Page};

pub struct Assignments<'a> {
    faults: Vec<Fault<'a>>,
    levels: Vec<Level<'a>>,
}

/// An assignment that the load refuses.
struct Fault<'a> {
    line: Line<'a>,
    number: u64,
    clearance: u64,
    /// The mode that makes the level at fault.
    mode: Mode,
    /// The labels that make it and that do not stand to the clearance (15) or to
    /// the r-level (16) as the number wants it.
    labels: Vec<u64>,
    /// The places among the levels: of the level at fault, and for 16 of the
    /// r-level before it.
    levels: Vec<usize>,
}

impl<'a> Assignments<'a> {
    pub fn of(file: &'a [u8], verdict: Verdict) -> Option<Assignments<'a>> {
        let lines = Lines::of(file);
        let policy = Policy::load(&without(file, |line| line.letter == b'A')).ok()?;
        let mut assignments = Assignments {
            faults: Vec::new(),
            levels: Vec::new(),
        };
        for (line, number) in refused_lines(file, &lines, verdict) {
            assignments.add(&policy, &lines, line, number);
        }
        Some(assignments)
    }

    fn add(&mut self, policy: &Policy, lines: &Lines<'a>, line: Line<'a>, number: u64) {
        let [user, role, ..] = line.fields;
        let clearance = policy.clearance(user);
        let mode = match number {
            15 => Mode::Read,
            _ => Mode::Write,
        };
        let modes = match number {
            16 => Mode::BOTH.to_vec(),
            _ => vec![mode],
        };
        let places = modes
            .iter()
            .map(|&mode| self.level(policy, lines, role, mode));
        let levels: Vec<usize> = places.collect();
        let told: Vec<&Level> = levels.iter().map(|&place| &self.levels[place]).collect();
        let labels = at_odds(policy, clearance, number, &told);
        self.faults.push(Fault {
            line,
            number,
            clearance,
            mode,
            labels,
            levels,
        });
    }

    /// The place of a role's level among the levels, which have it from now on.
    fn level(&mut self, policy: &Policy, lines: &Lines<'a>, role: u64, mode: Mode) -> usize {
        let known = |level: &Level| level.role == role && level.mode == mode;
        self.levels.iter().position(known).unwrap_or_else(|| {
            self.levels.push(Level::of(policy, lines, role, mode));
            self.levels.len() - 1
        })
    }
}

/// The labels that are read and that the clearance does not dominate (15), or
/// that are written and do not dominate the r-level, where that is a label (16).
fn at_odds(policy: &Policy, clearance: u64, number: u64, levels: &[&Level]) -> Vec<u64> {
    match (number, levels) {
        (15, [read]) => read.labels_where(|label| !policy.dominates(clearance, label)),
        (16, [read, write]) if read.level != FREE => {
            write.labels_where(|label| !policy.dominates(label, read.level))
        }
        _ => Vec::new(),
    }
}

/// Each line A that a load refuses, with the number it gets.
fn refused_lines<'a>(file: &[u8], lines: &Lines<'a>, verdict: Verdict) -> Vec<(Line<'a>, u64)> {
    let mut rest = file.to_vec();
    let mut refused = Vec::new();
    let mut next = Some(verdict);
    while let Some(verdict) = next {
        let place = [verdict.first, verdict.second];
        let Some(line) = lines.with(b'A').find(|line| line.fields[..2] == place) else {
            break;
        };
        refused.push((*line, verdict.number));
        rest = without(&rest, |other| other.text == line.text);
        next = Policy::load(&rest).err();
    }
    refused
}

/// The file without some of its lines.
fn without(file: &[u8], left_out: impl Fn(&Line) -> bool) -> Vec<u8> {
    let lines = Lines::of(file);
    let kept = lines.all().iter().filter(|line| !left_out(line));
    kept.flat_map(|line| [line.text, b"\n"].concat()).collect()
}

impl Cause for Assignments<'_> {
    fn write(&self, page: &mut Page, settings: &Settings) {
        let shown = rows(self.faults.len(), settings.all);
        let mut told: Vec<usize> = Vec::new();
        for (index, fault) in self.faults[..shown].iter().enumerate() {
            if index == 1 {
                page.line(more(self.faults.len() - 1));
            }
            fault.write(page, &self.levels, &settings.names, index > 0);
            for &level in &fault.levels {
                if told.contains(&level) {
                    page.line(told_above(&self.levels[level], &settings.names));
                } else {
                    self.levels[level].write(page, settings);
                    told.push(level);
                }
            }
        }
        page.left_out(0, self.faults.len() - shown);
    }

    fn json(&self, names: &Names) -> Json {
        Json::Object(vec![
            (
                "assignments",
                Json::list(&self.faults, |fault| fault.json(names)),
            ),
            (
                "levels",
                Json::list(&self.levels, |level| level.json(names)),
            ),
        ])
    }
}

fn more(count: usize) -> String {
    let counted = counted(count as u64, "more assignment");
    let verb = if count == 1 { "is" } else { "are" };
    format!("{counted} {verb} refused, each with its number:")
}

/// Where the level's cards stand already.
fn told_above(level: &Level, names: &Names) -> String {
    let role = names.thing(Kind::Role, level.role);
    format!("  {}      of {role}, as above", level.mode.level_word())
}

impl Fault<'_> {
    fn write(&self, page: &mut Page, levels: &[Level], names: &Names, with_number: bool) {
        let [user, role, ..] = self.line.fields;
        let number = match with_number {
            true => format!("{}: ", self.number),
            false => String::new(),
        };
        let (user, role) = (names.thing(Kind::User, user), names.thing(Kind::Role, role));
        page.quote(
            2,
            &self.line,
            &format!("{number}{user} is assigned to {role}"),
        );
        let clearance = names.number(Kind::Label, self.clearance);
        let odd = match self.number {
            15 => format!(", does not dominate {}", self.odd_labels(names)),
            _ => String::new(),
        };
        page.line(format!("  clearance    {clearance}{odd}"));
        if let [read, write] = self.levels[..] {
            let reason = self.reason(levels[read].level, levels[write].level, names);
            page.line(format!("  because      {reason}"));
        }
    }

    /// Why no label that the clearance dominates lies between the levels (16):
    /// labels written do not dominate the r-level, or, where that is free, none
    /// is under both the clearance and the w-level.
    fn reason(&self, r_level: u64, w_level: u64, names: &Names) -> String {
        let label = |number| names.number(Kind::Label, number);
        let w_level = format!("the w-level {}", label(w_level));
        if self.labels.is_empty() {
            let clearance = label(self.clearance);
            return format!(
                "no label is dominated by both the clearance {clearance} and {w_level}"
            );
        }
        let (r_level, odd) = (label(r_level), self.odd_labels(names));
        format!(
            "{w_level} does not dominate the r-level {r_level}, \
             which is not dominated by {odd}, where the role writes"
        )
    }

    /// `label 1, label 2`
    fn odd_labels(&self, names: &Names) -> String {
        let labels = self.labels.iter();
        let labels: Vec<String> = labels
            .map(|&label| names.thing(Kind::Label, label))
            .collect();
        labels.join(", ")
    }

    fn json(&self, names: &Names) -> Json {
        let [user, role, ..] = self.line.fields;
        Json::Object(vec![
            ("line", Json::line(&self.line)),
            ("number", Json::Number(self.number)),
            ("user", names.json(Kind::User, user)),
            ("role", names.json(Kind::Role, role)),
            ("mode", Json::text(self.mode.word())),
            ("clearance", names.json(Kind::Label, self.clearance)),
            (
                "labels",
                Json::list(&self.labels, |&label| names.json(Kind::Label, label)),
            ),
        ])
    }
}
