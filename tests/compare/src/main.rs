//! `compare [--pddl] [--cases N] [--seed S] [--threads T] [--case I]`
//!
//! LAWCHECK_CASES and LAWCHECK_SEED stand for `--cases` and `--seed`. `--pddl` runs the cases of
//! laws in PDDL and not the others, a sixth as many. `--case` runs one case alone. The last line is
//! 'N passed, M failed', and the exit status is 0 only where none failed, 2 where an argument is
//! wrong.
#![forbid(unsafe_code)]

use compare::coverage;
use compare::driver::{one, run, Options, Summary};
use compare::driver::{one_pddl, run_pddl};
use compare::operations::{pddl, sizes};
use compare::proved::Proved;
use std::process::ExitCode;
use std::time::Instant;
use std::{env, thread};

const USAGE: &str = "usage: compare [--pddl] [--cases N] [--seed S] [--threads T] [--case I]";

/// From this many cases on every class of answer and refusal has to be met.
const FULL: u64 = 100_000;
const FULL_PDDL: u64 = 20_000;

/// What the linked functions are.
const COMPARED: &str =
    if cfg!(feature = "mock") { "the fast twin in the library's place" } else { "the library" };

/// What is asked for.
struct Asked {
    options: Options,
    /// The cases of laws in PDDL.
    pddl: bool,
    /// The one case to run alone.
    alone: Option<u64>,
}

fn main() -> ExitCode {
    match asked(env::args().skip(1)) {
        Ok(asked) => compared(asked),
        Err(wrong) => {
            eprintln!("compare: {wrong}");
            ExitCode::from(2)
        }
    }
}

/// What the variables and arguments ask for.
fn asked(mut arguments: impl Iterator<Item = String>) -> Result<Asked, String> {
    let mut options = Options {
        seed: variable("LAWCHECK_SEED", 0)?.unwrap_or(1),
        cases: variable("LAWCHECK_CASES", 1)?.unwrap_or(215_000),
        threads: thread::available_parallelism().map_or(2, usize::from),
        stop: false,
    };
    let (mut pddl, mut alone, mut cases) = (false, None, None);
    while let Some(argument) = arguments.next() {
        let mut value = |least: u64| match arguments.next() {
            Some(text) => number(&argument, &text, least),
            None => Err(format!("{argument} needs a number\n{USAGE}")),
        };
        match argument.as_str() {
            "--pddl" => pddl = true,
            "--cases" => cases = Some(value(1)?),
            "--seed" => options.seed = value(0)?,
            "--threads" => options.threads = value(1)? as usize,
            "--case" => alone = Some(value(0)?),
            _ => return Err(format!("no such argument: {argument}\n{USAGE}")),
        }
    }
    let usual = if pddl { options.cases.div_ceil(6) } else { options.cases };
    options.cases = cases.unwrap_or(usual);
    Ok(Asked { options, pddl, alone })
}

/// The number that a variable of the environment holds, where it is set.
fn variable(name: &str, least: u64) -> Result<Option<u64>, String> {
    match env::var_os(name) {
        None => Ok(None),
        Some(text) => number(name, &text.to_string_lossy(), least).map(Some),
    }
}

/// A whole number from `least` on: digits alone.
fn number(name: &str, text: &str, least: u64) -> Result<u64, String> {
    let digits = text.bytes().all(|byte| byte.is_ascii_digit());
    match text.parse() {
        Ok(number) if digits && number >= least => Ok(number),
        _ => Err(format!(
            "{name} has to be a whole number from {least} to {}, not '{text}'",
            u64::MAX
        )),
    }
}

/// Runs what is asked for.
fn ran(asked: &Asked) -> Summary {
    let (options, mut summary) = (asked.options, Summary::default());
    match (asked.pddl, asked.alone) {
        (true, None) => run_pddl(&Proved, options),
        (true, Some(case)) => {
            one_pddl(&Proved, options.seed, case, &mut summary);
            summary
        }
        (_, None) => run(&Proved, options),
        (_, Some(case)) => {
            one(&Proved, options.seed, case, &mut summary);
            summary
        }
    }
}

fn compared(asked: Asked) -> ExitCode {
    let (options, begin) = (asked.options, Instant::now());
    let mut summary = ran(&asked);
    let seconds = begin.elapsed().as_secs_f64();
    let (classes, full) =
        if asked.pddl { (coverage::PDDL, FULL_PDDL) } else { (coverage::ASKED, FULL) };
    for (case, failure) in &summary.failures {
        println!("case {case} of seed {}: {failure}", options.seed);
    }
    for line in summary.coverage.lines(classes) {
        println!("{line}");
    }
    if asked.alone.is_none() && options.cases >= full {
        for line in summary.coverage.missing(classes) {
            println!("{line}");
            summary.failed += 1;
        }
    }
    let cases = summary.passed + summary.failed;
    if asked.alone.is_none() {
        let (among, count) = if asked.pddl {
            (pddl::sizes::among(options.cases), pddl::sizes::count())
        } else {
            (sizes::among(options.cases), sizes::count())
        };
        println!("made for a size: {among} of {count} cases");
    }
    println!("{COMPARED}, seed {}, {cases} cases in {seconds:.1} s", options.seed);
    println!("{} passed, {} failed", summary.passed, summary.failed);
    if summary.failed == 0 {
        ExitCode::SUCCESS
    } else {
        ExitCode::FAILURE
    }
}
