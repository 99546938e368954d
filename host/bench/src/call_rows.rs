//! The rows of session calls and reports.

use crate::cases::{Case, CASES, FLOWING, REVIEW, WITHOUT_FLOW};
use crate::files::{flowing_by_one_card, largest, without_flow};
use crate::table::Row;
use crate::timing::{Three, Times};
use crate::versions::measure;
use second_checker::check::RoleFile;

/// The ratio of proved to plain is to be at most this.
const RATIO_AIM: f64 = 1.2;

/// How many rows have medians above their aims.
#[derive(Default)]
struct Missed {
    time: usize,
    ratio: usize,
}

impl Missed {
    fn count(&mut self, case: &Case, [proved, plain, _]: Three<Times>) {
        self.time += usize::from(proved.median > case.kind.aim());
        self.ratio += usize::from(proved.median / plain.median > RATIO_AIM);
    }
}

fn print_row(case: &Case, [proved, plain, simple]: Three<Times>) {
    let row = Row {
        proved,
        plain,
        simple: Some(simple),
        held: Some(case.seats.held()),
        answer: Some(case.answer),
        what: case.what,
    };
    row.print();
}

fn report_cases(cases: &[Case], file: &RoleFile, rounds: usize, missed: &mut Missed) {
    for case in cases {
        let times = measure(case, file, rounds);
        print_row(case, times);
        missed.count(case, times);
    }
}

/// Prints the rows, and how many of them miss the aims.
pub fn report(rounds: usize) {
    println!("session calls and flow reports at the largest counts, a call");
    let mut missed = Missed::default();
    report_cases(CASES, &largest(), rounds, &mut missed);
    report_cases(WITHOUT_FLOW, &without_flow(), rounds, &mut missed);
    report_cases(FLOWING, &flowing_by_one_card(), rounds, &mut missed);
    println!(
        "aims: 20 ns for read number and write, 50 ns for other calls, ratio {RATIO_AIM}; \
         of {} calls, {} miss the time and {} the ratio",
        CASES.len() + WITHOUT_FLOW.len() + FLOWING.len(),
        missed.time,
        missed.ratio,
    );
}

/// The same for the review calls.
pub fn report_review(rounds: usize) {
    println!("review calls at the largest counts, a call");
    let mut missed = Missed::default();
    report_cases(REVIEW, &largest(), rounds, &mut missed);
    println!(
        "aims: 50 ns, ratio {RATIO_AIM}; of {} calls, {} miss the time and {} the ratio",
        REVIEW.len(),
        missed.time,
        missed.ratio,
    );
}
