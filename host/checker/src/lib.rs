//! An independent second checker for role files, written from documents 01 and
//! 02 alone. It shares nothing with the product it is compared with.

pub mod check;
pub mod differential;
pub mod example;
pub mod generate;
pub mod line;
pub mod order;
pub mod program;
pub mod random;
pub mod tally;

pub use check::{check, Accepted, Level, Outcome, Refusal, RoleLevels};

use line::print_line;

/// What the checking program prints for this file.
///
/// "V (number, the two numbers of its place), R for each role (role, r-level,
/// w-level; 0 free, 99 undefined), F for each flow in rising order (from, to),
/// C (role on a circle or 0)". "After a refusal only V is printed."
pub fn report(file: &[u8]) -> Vec<u8> {
    print_outcome(&check(file))
}

/// The lines for an outcome that is already known.
pub fn print_outcome(outcome: &Outcome) -> Vec<u8> {
    let mut printed = Vec::new();
    match outcome {
        Outcome::Refused(refusal) => {
            let [first, second] = refusal.place;
            printed.extend(print_line(b'V', &[refusal.number, first, second]));
        }
        Outcome::Accepted(accepted) => {
            printed.extend(print_line(b'V', &[0, 0, 0]));
            for levels in &accepted.roles {
                let numbers = [
                    levels.role,
                    levels.read_level.printed(),
                    levels.write_level.printed(),
                ];
                printed.extend(print_line(b'R', &numbers));
            }
            for &(from, to) in &accepted.flows {
                printed.extend(print_line(b'F', &[from, to]));
            }
            printed.extend(print_line(b'C', &[accepted.circle.unwrap_or(0)]));
        }
    }
    printed
}
