//! Long runs of files: the library's load beside the second checker, and the
//! checking program on one file of so many.

use monitor_tests::files::{compare, Sample};
use monitor_tests::library::UNDER_TEST;
use second_checker::differential::{compare_all, number, program};
use std::path::Path;
use std::process::ExitCode;

const USAGE: &str = "usage: files COUNT SEED PRODUCT_BINARY EVERY";

fn main() -> ExitCode {
    program(USAGE, start)
}

fn start(words: &[&str]) -> Option<ExitCode> {
    let [count, seed, product, every] = *words else {
        return None;
    };
    let (count, seed, every) = (number(count)?, number(seed)?, number(every)?);
    let product = Path::new(product);
    let sample = Sample { product, every };
    let sampled = count.div_ceil(every);
    println!("library: {UNDER_TEST}, {sampled} files through the program");
    Some(compare_all(count, seed, |seed, index, tally| {
        compare(seed, index, &sample, tally)
    }))
}
