//! The answer of a load: a number and its place, 0 0 0 on acceptance.

pub use monitor_tests::library::Verdict;

/// A refusal with its place.
pub fn refused(number: u64, first: usize, second: usize) -> Verdict {
    Verdict {
        number,
        first: first as u64,
        second: second as u64,
    }
}
