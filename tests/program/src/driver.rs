//! Runs the texts on some threads.

use crate::file::judge;
use crate::reached::Reached;
use crate::texts::made;
use std::sync::atomic::{AtomicU64, Ordering};
use std::thread;

/// A verdict program: the file that it prints for a text, or what went wrong.
pub trait Program: Sync {
    fn file(&self, text: &[u8]) -> Result<Vec<u8>, String>;
}

/// What to run.
#[derive(Clone, Copy, Debug)]
pub struct Options {
    pub seed: u64,
    /// The number of the first text.
    pub first: u64,
    /// How many texts.
    pub texts: u64,
    pub threads: usize,
}

/// A text that failed, and why.
pub struct Failure {
    pub number: u64,
    pub text: Vec<u8>,
    pub what: String,
}

/// What came of it.
#[derive(Default)]
pub struct Summary {
    pub passed: u64,
    pub failures: Vec<Failure>,
    pub reached: Reached,
}

/// Runs all texts.
pub fn run(program: &impl Program, options: Options) -> Summary {
    let next = AtomicU64::new(options.first);
    let mut summary = Summary::default();
    thread::scope(|scope| {
        let threads: Vec<_> = (0..options.threads.max(1))
            .map(|_| scope.spawn(|| part(program, options, &next)))
            .collect();
        for thread in threads {
            let part = thread.join().expect("a thread ends by itself");
            summary.passed += part.passed;
            summary.failures.extend(part.failures);
            summary.reached.take(part.reached);
        }
    });
    summary.failures.sort_by_key(|failure| failure.number);
    summary
}

/// Runs one text after another until none is left.
fn part(program: &impl Program, options: Options, next: &AtomicU64) -> Summary {
    let mut summary = Summary::default();
    loop {
        let number = next.fetch_add(1, Ordering::Relaxed);
        if number >= options.first.saturating_add(options.texts) {
            return summary;
        }
        let text = made(options.seed, number);
        let judged = judge(&text);
        match program.file(&text).and_then(|printed| judged.check(&printed)) {
            Ok(()) => {
                summary.passed += 1;
                summary.reached.count(&text, &judged);
            }
            Err(what) => {
                summary.failures.push(Failure { number, text, what });
            }
        }
    }
}
