//! Runs of the command that have no problem.

use crate::common::run;

/// What a run prints that ends with this status.
pub fn told(words: &[&str], input: &[u8], status: i32) -> String {
    let ran = run(words, input);
    assert_eq!((ran.status, &ran.errors[..]), (status, ""), "{words:?}");
    ran.output
}
