//! Runs the cases on some threads.

use crate::case::{Checked, Failure};
use crate::coverage::Coverage;
use crate::operations::{self, pddl};
use reference::interface::{Interface, Pddl};
use reference::random::Random;
use std::sync::atomic::{AtomicU64, Ordering};
use std::thread;

/// Cases that a thread takes at once.
const PORTION: u64 = 64;
/// Failures that a thread keeps to be printed.
const KEPT: usize = 5;

/// What to run.
#[derive(Clone, Copy, Debug)]
pub struct Options {
    pub seed: u64,
    pub cases: u64,
    pub threads: usize,
    /// Stop soon after the first failure.
    pub stop: bool,
}

/// What came of it.
#[derive(Default)]
pub struct Summary {
    pub passed: u64,
    pub failed: u64,
    /// The first failures of each thread, by case number.
    pub failures: Vec<(u64, Failure)>,
    pub coverage: Coverage,
}

/// Runs all cases.
pub fn run(checked: &impl Interface, options: Options) -> Summary {
    run_all(options, |case, random| operations::case(case, random, checked))
}

/// Runs all cases of laws in PDDL.
pub fn run_pddl(checked: &impl Pddl, options: Options) -> Summary {
    run_all(options, |case, random| pddl::case(case, random, checked))
}

fn run_all(options: Options, run: impl Fn(u64, &mut Random) -> Checked + Sync) -> Summary {
    let next = AtomicU64::new(0);
    let mut summary = Summary::default();
    thread::scope(|scope| {
        let threads: Vec<_> = (0..options.threads.max(1))
            .map(|_| scope.spawn(|| part(options, &next, &run)))
            .collect();
        for thread in threads {
            let part = thread.join().expect("a thread ends by itself");
            summary.passed += part.passed;
            summary.failed += part.failed;
            summary.failures.extend(part.failures);
            summary.coverage.take(part.coverage);
        }
    });
    summary.failures.sort_by_key(|(case, _)| *case);
    summary
}

/// Runs portions until none is left.
fn part(options: Options, next: &AtomicU64, run: &impl Fn(u64, &mut Random) -> Checked) -> Summary {
    let mut summary = Summary::default();
    loop {
        let begin = next.fetch_add(PORTION, Ordering::Relaxed);
        if begin >= options.cases {
            return summary;
        }
        for case in begin..(begin + PORTION).min(options.cases) {
            note(case, run(case, &mut Random::new(options.seed, case)), &mut summary);
        }
        if options.stop && summary.failed > 0 {
            next.store(options.cases, Ordering::Relaxed);
        }
    }
}

/// Runs one case.
pub fn one(checked: &impl Interface, seed: u64, case: u64, summary: &mut Summary) {
    note(case, operations::case(case, &mut Random::new(seed, case), checked), summary);
}

/// Runs one case of a law in PDDL.
pub fn one_pddl(checked: &impl Pddl, seed: u64, case: u64, summary: &mut Summary) {
    note(case, pddl::case(case, &mut Random::new(seed, case), checked), summary);
}

fn note(case: u64, ran: Checked, summary: &mut Summary) {
    summary.coverage.count(&ran);
    match ran.failure {
        None => summary.passed += 1,
        Some(failure) => {
            summary.failed += 1;
            if summary.failures.len() < KEPT {
                summary.failures.push((case, failure));
            }
        }
    }
}
