//! Random files, each loaded by the library and judged by the second checker.

use crate::lent::Lent;
use crate::library::{self, Verdict};
use monitor_model::STATE_BYTES;
use second_checker::program::{first_difference, run};
use second_checker::random::Random;
use second_checker::tally::Tally;
use second_checker::{check, generate, print_outcome, Accepted, Outcome};
use std::path::Path;

/// The checking program, run on one file of so many.
pub struct Sample<'a> {
    pub product: &'a Path,
    pub every: u64,
}

/// Compares library and second checker on file `index` of the run with this
/// seed; what went wrong, if anything.
pub fn compare(seed: u64, index: u64, sample: &Sample, tally: &mut Tally) -> Result<(), String> {
    let file = generate::mixed(seed, index);
    let outcome = check(&file);
    tally.count(&file, &outcome);
    let random = &mut Random::for_file(seed, index);
    let fault = |problem: String| format!("seed {seed} file {index}: {problem}");
    load(&file, &outcome, random).map_err(fault)?;
    if index.is_multiple_of(sample.every) {
        let expected = print_outcome(&outcome);
        let printed = run(sample.product, &[], &file).map_err(fault)?.output;
        if printed != expected {
            return Err(fault(first_difference(&expected, &printed)));
        }
    }
    Ok(())
}

/// Loads the file and compares the verdict, then what the state says of it.
fn load(file: &[u8], outcome: &Outcome, random: &mut Random) -> Result<(), String> {
    let before = random.bytes(STATE_BYTES);
    let mut state = Lent::new(&before, random);
    let mut lent = Lent::new(file, random);
    let short = random.below(STATE_BYTES);
    let verdict = library::load(lent.bytes_mut(), &mut state.bytes_mut()[..short]);
    if verdict.number != 7 || state.bytes() != before {
        return Err(format!("a state of {short} bytes: {verdict:?}"));
    }
    let verdict = library::load(lent.bytes_mut(), state.bytes_mut());
    let expected = Verdict::of(outcome);
    if verdict != expected {
        return Err(format!("expected {expected:?}, got {verdict:?}"));
    }
    if lent.bytes() != file || !lent.canaries_unchanged() || !state.canaries_unchanged() {
        return Err("bytes outside the state were changed".to_string());
    }
    match outcome {
        Outcome::Refused(_) if state.bytes() != before => Err("the state was changed".to_string()),
        Outcome::Refused(_) => Ok(()),
        Outcome::Accepted(accepted) => same_flow(accepted, state.bytes_mut()),
    }
}

/// Compares role flow for every two roles, and the lowest role on a circle.
fn same_flow(accepted: &Accepted, state: &mut [u8]) -> Result<(), String> {
    let roles = accepted.roles.len();
    for from in 1..=roles {
        for to in 1..=roles {
            let figure = library::flows(state, from as u64, to as u64);
            let flows = accepted.flows.contains(&(from, to));
            if (figure.number, figure.figure) != (0, u64::from(flows)) {
                return Err(format!("flow from {from} to {to}: {figure:?}"));
            }
        }
    }
    let figure = library::circle(state);
    let circle = accepted.circle.unwrap_or(0) as u64;
    if (figure.number, figure.figure) != (0, circle) {
        return Err(format!("expected circle {circle}, got {figure:?}"));
    }
    Ok(())
}
