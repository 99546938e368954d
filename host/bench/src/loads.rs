//! Loads by the three versions.

use crate::plain::{self, STATE};
use crate::timing::{Samples, Three, Times};
use crate::verdict::Verdict;
use crate::{proved, simple};
use std::hint::black_box;
use std::time::Instant;

pub type Load = fn(&[u8], &mut [u8]) -> Verdict;

pub const ALL: Three<Load> = [proved::load, plain::load, simple_load];

pub const PROVED_AND_PLAIN: [Load; 2] = [proved::load, plain::load];

/// The simple load, which keeps its policy to itself and drops it.
fn simple_load(file: &[u8], _state: &mut [u8]) -> Verdict {
    simple::load(file).err().unwrap_or_default()
}

/// The loads give this number and the same place, and proved and plain the same bytes; a refusal
/// leaves the state alone.
pub fn agree(file: &[u8], number: u64) {
    let [proved, plain, simple] = ALL.map(|load| {
        let mut state = vec![0xa5; STATE + 64];
        (load(file, &mut state), state)
    });
    assert_eq!(proved.0.number, number, "not what the file was made for");
    assert_eq!(proved.0, plain.0, "the verdicts differ");
    assert_eq!(proved.0, simple.0, "the simple verdict differs");
    assert!(proved.1 == plain.1, "the states differ after {number}");
    let untouched = proved.1.iter().all(|&byte| byte == 0xa5);
    assert_eq!(untouched, number != 0, "the state after {number}");
}

/// Each file's times. A round has every file once with every load.
pub fn measure<const N: usize>(
    loads: [Load; N],
    files: &[&[u8]],
    rounds: usize,
) -> Vec<[Times; N]> {
    let mut state = vec![0u8; STATE];
    let mut samples = vec![Samples::none(); files.len()];
    for round in 0..rounds {
        for (file, samples) in files.iter().zip(&mut samples) {
            samples.add(round, |version| {
                let start = Instant::now();
                black_box(loads[version](black_box(file), black_box(&mut state)));
                start.elapsed().as_nanos() as f64
            });
        }
    }
    samples.into_iter().map(Samples::times).collect()
}
