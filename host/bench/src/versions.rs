//! The three versions of the monitor with the sessions of a case.

use crate::calls::{run, Arguments};
use crate::cases::Case;
use crate::monitor::{Buffers, Monitor, STORE};
use crate::plain::{self, Plain};
use crate::proved::{self, Proved};
use crate::simple::{self, Simple};
use crate::timing::{Samples, Three, Times, SIMPLE_PART};
use second_checker::check::RoleFile;
use second_checker::generate::write;
use std::hint::black_box;
use std::time::Instant;

/// Every call gets the case's answer.
fn answers_all(monitor: &mut impl Monitor, case: &Case, batch: &[Arguments]) {
    for call in batch {
        let answer = run(monitor, case.kind, &[*call]);
        assert_eq!(answer, case.answer, "{} of {call:?}", case.what);
    }
}

/// Nanoseconds a call.
fn time(monitor: &mut impl Monitor, case: &Case, batch: &[Arguments]) -> f64 {
    let calls = batch.len() * case.kind.calls();
    let start = Instant::now();
    black_box(run(monitor, black_box(case.kind), black_box(batch)));
    start.elapsed().as_nanos() as f64 / calls as f64
}

struct Versions<'b> {
    proved: Proved<'b>,
    plain: Plain<'b>,
    simple: Simple,
}

impl<'b> Versions<'b> {
    fn of(case: &Case, file: &[u8], proved: &'b mut Buffers, plain: &'b mut Buffers) -> Self {
        assert_eq!(proved::load(file, &mut proved.state).number, 0);
        assert_eq!(plain::load(file, &mut plain.state).number, 0);
        let policy = simple::load(file).unwrap_or_else(|_| panic!("the file is accepted"));
        let mut versions = Versions {
            proved: Proved(proved.lend()),
            plain: Plain::over(plain.lend()),
            simple: Simple::new(policy, vec![0; STORE]),
        };
        case.seats.take(&mut versions.proved);
        case.seats.take(&mut versions.plain);
        case.seats.take(&mut versions.simple);
        versions
    }

    /// All answer alike, and leave the same bytes.
    fn agree(&mut self, case: &Case, batch: &[Arguments]) {
        answers_all(&mut self.proved, case, batch);
        answers_all(&mut self.plain, case, batch);
        answers_all(&mut self.simple, case, batch);
        let (proved, plain, simple) = (&self.proved.0, &self.plain.0, self.simple.store());
        assert!(proved.state == plain.state, "{}: the states", case.what);
        assert!(proved.store == plain.store, "{}: the stores", case.what);
        assert!(proved.store == simple, "{}: the stores", case.what);
    }

    fn times(&mut self, case: &Case, batch: &[Arguments], rounds: usize) -> Three<Times> {
        let mut samples = Samples::none();
        let few = &batch[..batch.len().div_ceil(SIMPLE_PART)];
        for round in 0..rounds {
            samples.add(round, |version| match version {
                0 => time(&mut self.proved, case, batch),
                1 => time(&mut self.plain, case, batch),
                _ => time(&mut self.simple, case, few),
            });
        }
        samples.times()
    }
}

/// Checks for a case that the three versions agree, and times them.
pub fn measure(case: &Case, file: &RoleFile, rounds: usize) -> Three<Times> {
    let (mut proved, mut plain) = (Buffers::zeroed(), Buffers::zeroed());
    let batch = case.batch(file);
    let mut versions = Versions::of(case, &write(file), &mut proved, &mut plain);
    versions.agree(case, &batch);
    versions.times(case, &batch, rounds)
}
