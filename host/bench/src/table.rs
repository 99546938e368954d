//! The table of loads and calls: ratios first, then times in nanoseconds.

use crate::timing::Times;

pub const HEADINGS: &str = "\
median of rounds                                        least of rounds
proved/ simple/                                         proved/ simple/
  plain  proved    proved     plain        simple         plain  proved    proved     plain        simple   held answer   what";

/// A row; what it does not have stays blank.
pub struct Row<'w> {
    pub proved: Times,
    pub plain: Times,
    pub simple: Option<Times>,
    pub held: Option<u16>,
    pub answer: Option<u64>,
    pub what: &'w str,
}

/// In groups of three digits.
pub fn grouped(number: u64) -> String {
    match number {
        0..1000 => number.to_string(),
        _ => format!("{},{:03}", grouped(number / 1000), number % 1000),
    }
}

/// One decimal below 100, else whole and in groups of three digits.
pub fn figure(number: f64) -> String {
    if number < 99.95 {
        return format!("{number:.1}");
    }
    grouped(number.round() as u64)
}

fn or_blank<T>(cell: Option<T>, text: impl Fn(T) -> String) -> String {
    cell.map_or(String::new(), text)
}

/// The ratios and times by the medians, or by the least.
fn part(row: &Row, choose: fn(Times) -> f64) -> String {
    let (proved, plain) = (choose(row.proved), choose(row.plain));
    let simple = row.simple.map(choose);
    format!(
        "{:7.2} {:>7} {:>9} {:>9} {:>13}",
        proved / plain,
        or_blank(simple, |simple| figure(simple / proved)),
        figure(proved),
        figure(plain),
        or_blank(simple, figure),
    )
}

impl Row<'_> {
    pub fn print(&self) {
        println!(
            "{}       {}   {:>4} {:>6}   {}",
            part(self, |times| times.median),
            part(self, |times| times.least),
            or_blank(self.held, |held| held.to_string()),
            or_blank(self.answer, |answer| answer.to_string()),
            self.what,
        );
    }
}
