//! The random lists and the pairs of runs for long runs, with their counts.

use monitor_tests::library::UNDER_TEST;
use monitor_tests::lists::{run, Tally};
use monitor_tests::pairs::compare::on_library;
use monitor_tests::pairs::leaks::{caught, Leak};
use second_checker::differential::{compare_all, exit_code, number, program};
use std::process::ExitCode;
use std::time::Instant;

const USAGE: &str = "usage: long COUNT SEED
       long --trace SEED INDEX
       long --pairs COUNT SEED";

fn main() -> ExitCode {
    program(USAGE, start)
}

fn start(words: &[&str]) -> Option<ExitCode> {
    match *words {
        ["--trace", seed, index] => Some(trace(number(seed)?, number(index)?)),
        ["--pairs", count, seed] => Some(pairs(number(count)?, number(seed)?)),
        [count, seed] => Some(lists(number(count)?, number(seed)?)),
        _ => None,
    }
}

fn lists(count: u64, seed: u64) -> ExitCode {
    compare_all(count, seed, |seed, index, tally| {
        run(seed, index, tally, &mut |_| ())
    })
}

/// Prints the file and each call of one list.
fn trace(seed: u64, index: u64) -> ExitCode {
    let mut print = |line: &str| println!("{line}");
    let outcome = run(seed, index, &mut Tally::default(), &mut print);
    if let Err(problem) = &outcome {
        println!("FAILED: {problem}");
    }
    exit_code(outcome.is_ok())
}

/// Pairs of runs on the library, then on each leaky copy until it is caught.
fn pairs(count: u64, seed: u64) -> ExitCode {
    let begin = Instant::now();
    println!("library: {UNDER_TEST}");
    match on_library(count, seed) {
        Ok(tally) => println!("{}\nno difference", tally.table()),
        Err(problem) => {
            println!("FAILED: {problem}");
            return ExitCode::FAILURE;
        }
    }
    let mut missed = 0;
    for leak in Leak::ALL {
        match caught(leak, count, seed) {
            Some((pair, seen)) => println!("{leak:?} caught by pair {pair}: {seen}"),
            None => {
                println!("FAILED: {leak:?} never caught");
                missed += 1;
            }
        }
    }
    println!("{:.1} seconds", begin.elapsed().as_secs_f64());
    exit_code(missed == 0)
}
