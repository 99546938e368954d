//! Times of the proved monitor beside plain Rust and a simple version.

mod call_rows;
mod calls;
mod cases;
mod draw;
mod files;
mod growth;
mod growth_table;
mod load_rows;
mod loads;
mod monitor;
mod plain;
mod plot;
mod proved;
mod review;
mod seats;
mod simple;
mod sizes;
mod table;
mod timing;
mod verdict;
mod versions;

use growth::{Point, Way, WAYS};
use std::env::args;

const ROUNDS: usize = 2000;

fn report_growth(rounds: usize) -> Vec<(Way, Vec<Point>)> {
    println!("growth, {rounds} rounds, least of rounds");
    println!("{}", growth_table::HEADINGS);
    let report = |way: Way| {
        let points = growth::measure(&way, rounds);
        growth_table::print(&way, &points);
        (way, points)
    };
    WAYS.map(report).into()
}

fn report(rounds: usize) {
    load_rows::report(rounds);
    call_rows::report(rounds);
    call_rows::report_review(rounds);
    println!();
    report_growth(rounds);
}

/// Writes the plot of growth.
fn report_plot(file: &str, rounds: usize) {
    let svg = plot::svg(&report_growth(rounds));
    std::fs::write(file, svg).expect("the plot is written");
}

fn main() {
    let arguments: Vec<String> = args().skip(1).collect();
    let arguments: Vec<&str> = arguments.iter().map(String::as_str).collect();
    let rounds = |text: &str| text.parse().expect("a count of rounds");
    match arguments[..] {
        [] => report(ROUNDS),
        ["--loads"] => load_rows::report(ROUNDS),
        ["--loads", text] => load_rows::report(rounds(text)),
        ["--count"] => load_rows::load_once(),
        ["--review"] => call_rows::report_review(ROUNDS),
        ["--review", text] => call_rows::report_review(rounds(text)),
        ["--plot", file] => report_plot(file, ROUNDS),
        ["--plot", file, text] => report_plot(file, rounds(text)),
        [text] => report(rounds(text)),
        _ => panic!(
            "give [ROUNDS], --loads [ROUNDS], --count, --review [ROUNDS] or --plot FILE [ROUNDS]"
        ),
    }
}
