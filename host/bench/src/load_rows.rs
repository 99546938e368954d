//! The rows of loads.

use crate::loads::{agree, measure, ALL, PROVED_AND_PLAIN};
use crate::plain::STATE;
use crate::table::{Row, HEADINGS};
use crate::timing::{Three, Times};
use crate::{files, proved};
use second_checker::example::TWO_MAKERS;
use second_checker::generate::write;

fn print_load(what: &str, [proved, plain, simple]: Three<Times>) {
    let row = Row {
        proved,
        plain,
        simple: Some(simple),
        held: None,
        answer: Some(0),
        what,
    };
    row.print();
}

/// Checks for accepted files that the loads agree, times them and prints the rows.
fn report_accepted(rounds: usize) {
    let (largest, smallest) = (write(&files::largest()), files::smallest());
    let high = write(&files::high_clearances());
    let names = [
        "load of 2,900 lines",
        "the same, clearances above the w-levels",
        "load of two-makers.role, 2,064 lines",
        "load of one line",
    ];
    let files: [&[u8]; 4] = [&largest, &high, TWO_MAKERS.as_bytes(), &smallest];
    files.iter().for_each(|file| agree(file, 0));
    for (what, times) in names.iter().zip(measure(ALL, &files, rounds)) {
        print_load(what, times);
    }
}

/// Checks for the files of the stages that the loads agree, times proved and plain and prints the
/// differences. A stage of the simple load is lost in the scatter of its times.
fn report_stages(rounds: usize) {
    let mut stages = files::stages();
    stages.push(("assigned roles, and copying", 0, write(&files::largest())));
    for (_, number, file) in &stages {
        agree(file, *number);
    }
    let files: Vec<&[u8]> = stages.iter().map(|(_, _, file)| file.as_slice()).collect();
    let mut before = [Times::NONE; 2];
    for ((what, ..), after) in stages.iter().zip(measure(PROVED_AND_PLAIN, &files, rounds)) {
        let row = Row {
            proved: after[0].over(before[0]),
            plain: after[1].over(before[1]),
            simple: None,
            held: None,
            answer: None,
            what,
        };
        row.print();
        before = after;
    }
}

/// Checks that the loads agree on refused files.
fn agree_on_refused() {
    for (number, file) in files::refused() {
        agree(&file, number);
    }
    let mut short = [0; STATE - 1];
    assert_eq!(proved::load(&files::smallest(), &mut short).number, 7);
}

/// Loads the 2,900 lines once by the archive, for a tool that counts instructions.
pub fn load_once() {
    let mut state = vec![0; STATE];
    let verdict = proved::load(&write(&files::largest()), &mut state);
    assert_eq!(verdict.number, 0);
}

pub fn report(rounds: usize) {
    agree_on_refused();
    println!("{rounds} rounds, times in nanoseconds");
    println!("{HEADINGS}");
    println!("loads");
    report_accepted(rounds);
    println!("stages of the 2,900 lines, as differences between files refused after each");
    report_stages(rounds);
}
