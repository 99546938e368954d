//! Counts of the files of a run: by number, by lines and by what they say.

use crate::check::REFUSALS;
use crate::differential::{add_counts, Totals};
use crate::line::{has_assignments, LINE_LENGTH, MOST_LINES};
use crate::{Level, Outcome, RoleLevels};
use std::collections::BTreeMap;

/// Numbers that must be seen for a run to pass.
fn wanted() -> impl Iterator<Item = usize> {
    [0].into_iter().chain(REFUSALS)
}

/// Rough size classes by the lines begun.
const CLASSES: [(&str, usize); 8] = [
    ("empty", 0),
    ("1 line", 1),
    ("2 to 9", 9),
    ("10 to 99", 99),
    ("100 to 999", 999),
    ("1,000 to 2,899", MOST_LINES - 1),
    ("2,900", MOST_LINES),
    ("above 2,900", usize::MAX),
];

#[derive(Default)]
pub struct Tally {
    /// How often each number was seen.
    numbers: BTreeMap<usize, usize>,
    classes: [usize; CLASSES.len()],
    files: usize,
    /// Of the accepted files.
    with_assignments: usize,
    /// With a role for low sessions alone.
    with_low: usize,
    with_flow: usize,
    with_circle: usize,
    /// With another lowest role on a circle than by reading alone.
    with_shared_circle: usize,
    with_undefined: usize,
}

impl Tally {
    /// Counts a file with its outcome.
    pub fn count(&mut self, file: &[u8], outcome: &Outcome) {
        self.files += 1;
        *self.numbers.entry(outcome.number()).or_default() += 1;
        let lines = file.len().div_ceil(LINE_LENGTH);
        let class = CLASSES.iter().position(|(_, most)| lines <= *most).unwrap();
        self.classes[class] += 1;
        if let Outcome::Accepted(accepted) = outcome {
            let undefined = |levels: &RoleLevels| levels.write_level == Level::Undefined;
            self.with_assignments += usize::from(has_assignments(file));
            self.with_low += usize::from(!accepted.low.is_empty());
            self.with_flow += usize::from(!accepted.flows.is_empty());
            self.with_circle += usize::from(accepted.circle.is_some());
            self.with_shared_circle += usize::from(accepted.circle != accepted.circle_by_reading);
            self.with_undefined += usize::from(accepted.roles.iter().any(undefined));
        }
    }
}

impl Totals for Tally {
    fn add(&mut self, other: Tally) {
        self.files += other.files;
        add_counts(&mut self.numbers, other.numbers);
        for (class, files) in self.classes.iter_mut().zip(other.classes) {
            *class += files;
        }
        self.with_assignments += other.with_assignments;
        self.with_low += other.with_low;
        self.with_flow += other.with_flow;
        self.with_circle += other.with_circle;
        self.with_shared_circle += other.with_shared_circle;
        self.with_undefined += other.with_undefined;
    }

    fn unseen(&self) -> Vec<String> {
        let mut unseen: Vec<String> = wanted()
            .filter(|number| !self.numbers.contains_key(number))
            .map(|number| format!("number {number}"))
            .collect();
        if self.with_low == 0 {
            unseen.push("a role for low sessions alone".to_string());
        }
        if self.with_shared_circle == 0 {
            unseen.push("a circle that shared writing makes".to_string());
        }
        unseen
    }

    /// The counts, a row for each number and for each size.
    fn table(&self) -> String {
        let mut table = format!("{} files\nnumber    files  percent", self.files);
        for number in wanted() {
            let seen = self.numbers.get(&number).copied().unwrap_or(0);
            let percent = 100.0 * seen as f64 / self.files.max(1) as f64;
            table.push_str(&format!("\n{number:>6} {seen:>8} {percent:>8.2}"));
        }
        table.push_str("\nlines              files");
        for ((name, _), files) in CLASSES.iter().zip(self.classes) {
            table.push_str(&format!("\n{name:<15} {files:>8}"));
        }
        table.push_str(&format!(
            "\naccepted: {} with assignments, {} with a role for low sessions alone, \
             {} with role flow, {} with a circle, {} of these with another lowest role by shared writing, \
             {} with an undefined w-level",
            self.with_assignments,
            self.with_low,
            self.with_flow,
            self.with_circle,
            self.with_shared_circle,
            self.with_undefined
        ));
        table
    }
}
