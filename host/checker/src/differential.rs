//! What the programs that compare have in common: their arguments, the
//! comparisons of a run, and whether it passed.

use std::collections::BTreeMap;
use std::io::{self, Write};
use std::ops::AddAssign;
use std::process::ExitCode;
use std::sync::atomic::{AtomicU64, Ordering};
use std::sync::Mutex;
use std::thread;
use std::time::Instant;

/// A run ends after this many differences.
const MOST_DIFFERENCES: u64 = 5;
const WORKERS: usize = 2;

/// The counts of a run.
pub trait Totals: Default + Send {
    /// Adds what another worker counted.
    fn add(&mut self, other: Self);

    fn table(&self) -> String;

    /// What a run must see, and this one never saw.
    fn unseen(&self) -> Vec<String>;
}

/// Adds what was counted elsewhere, each to the count of the same name.
pub fn add_counts<K: Ord, N: Default + AddAssign>(
    counts: &mut BTreeMap<K, N>,
    others: BTreeMap<K, N>,
) {
    for (name, count) in others {
        *counts.entry(name).or_default() += count;
    }
}

/// Does what the arguments ask for; says how the program is used where `start`
/// makes nothing of them.
pub fn program(usage: &str, start: impl Fn(&[&str]) -> Option<ExitCode>) -> ExitCode {
    let arguments: Vec<String> = std::env::args().skip(1).collect();
    let words: Vec<&str> = arguments.iter().map(String::as_str).collect();
    start(&words).unwrap_or_else(|| {
        eprintln!("{usage}");
        ExitCode::from(2)
    })
}

/// An argument that is a number.
pub fn number(word: &str) -> Option<u64> {
    word.parse().ok()
}

/// Writes out a file of a run.
pub fn write_out(file: &[u8]) -> ExitCode {
    exit_code(io::stdout().write_all(file).is_ok())
}

pub fn exit_code(passed: bool) -> ExitCode {
    if passed {
        ExitCode::SUCCESS
    } else {
        ExitCode::FAILURE
    }
}

/// Prints past the test runner, which would keep it back.
pub fn show(lines: &str) {
    writeln!(io::stdout(), "\n{lines}").expect("standard output");
}

/// Makes the comparisons 0 to `count` - 1 of the run with this seed, prints
/// their counts and says whether the run passed. `compare` gets seed and index,
/// counts, and tells what went wrong, if anything.
pub fn compare_all<T: Totals>(
    count: u64,
    seed: u64,
    compare: impl Fn(u64, u64, &mut T) -> Result<(), String> + Sync,
) -> ExitCode {
    let begin = Instant::now();
    let run = Run {
        count,
        next: AtomicU64::new(0),
        differences: AtomicU64::new(0),
    };
    let total = Mutex::new(T::default());
    thread::scope(|scope| {
        for _ in 0..WORKERS {
            scope.spawn(|| {
                let mut totals = T::default();
                run.work(|index| compare(seed, index, &mut totals));
                total.lock().unwrap().add(totals);
            });
        }
    });
    let total = total.into_inner().unwrap();
    println!("{}", total.table());
    println!("seed {seed}, {:.1} seconds", begin.elapsed().as_secs_f64());
    pass(&total.unseen(), run.differences.into_inner())
}

/// A run that several workers share.
struct Run {
    count: u64,
    /// The index that nobody has taken yet.
    next: AtomicU64,
    differences: AtomicU64,
}

impl Run {
    /// Makes the next comparisons until none is left.
    fn work(&self, mut compare: impl FnMut(u64) -> Result<(), String>) {
        while self.differences.load(Ordering::Relaxed) < MOST_DIFFERENCES {
            let index = self.next.fetch_add(1, Ordering::Relaxed);
            if index >= self.count {
                break;
            }
            if let Err(problem) = compare(index) {
                println!("difference: {problem}");
                self.differences.fetch_add(1, Ordering::Relaxed);
            }
        }
    }
}

/// Says whether the run passed.
fn pass(unseen: &[String], differences: u64) -> ExitCode {
    if !unseen.is_empty() {
        println!("FAILED: never seen: {}", unseen.join(", "));
    }
    if differences > 0 {
        println!("FAILED: {differences} differences");
    }
    let passed = unseen.is_empty() && differences == 0;
    if passed {
        println!("no difference");
    }
    exit_code(passed)
}
