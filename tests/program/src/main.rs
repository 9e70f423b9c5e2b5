//! `program [--program FILE] [--seed S] [--first I] [--texts N] [--threads T] [--keep FOLDER]`
//!
//! Gives N generated texts, from number I on, to the verdict program FILE. Failing texts are kept
//! in FOLDER. The last line is 'N passed, M failed', and the exit status is 0 only where none
//! failed.
#![forbid(unsafe_code)]

use program::driver::{run, Options, Program};
use program::texts::fixed;
use std::io::Write;
use std::path::PathBuf;
use std::process::{Command, ExitCode, Stdio};
use std::time::Instant;
use std::{env, fs, thread};

/// From so many random texts on, every answer and size has to be reached.
const FULL: u64 = 1000;
/// Failing texts that are kept.
const KEPT: usize = 10;

/// The verdict program as a process.
struct Process(PathBuf);

impl Program for Process {
    fn file(&self, text: &[u8]) -> Result<Vec<u8>, String> {
        let mut child = Command::new(&self.0)
            .stdin(Stdio::piped())
            .stdout(Stdio::piped())
            .stderr(Stdio::piped())
            .spawn()
            .map_err(|error| format!("{}: {error}", self.0.display()))?;
        // It may end before it has read all of a text that is too long.
        let _ = child.stdin.take().expect("a pipe").write_all(text);
        let output = child.wait_with_output().map_err(|error| error.to_string())?;
        if !output.status.success() || !output.stderr.is_empty() {
            let said = String::from_utf8_lossy(&output.stderr);
            return Err(format!("{}, and it says '{said}'", output.status));
        }
        Ok(output.stdout)
    }
}

fn main() -> ExitCode {
    let mut options = Options {
        seed: 1,
        first: 0,
        texts: 8000,
        threads: thread::available_parallelism().map_or(2, usize::from),
    };
    let mut program = Process("target/bin/lawcheck".into());
    let mut keep = PathBuf::from("target/tests/texts");
    let arguments: Vec<String> = env::args().skip(1).collect();
    for pair in arguments.chunks(2) {
        let value = pair.get(1).map_or("", String::as_str);
        match (pair[0].as_str(), value.parse::<u64>()) {
            ("--program", _) if !value.is_empty() => program.0 = value.into(),
            ("--keep", _) if !value.is_empty() => keep = value.into(),
            ("--first", Ok(first)) => options.first = first,
            ("--texts", Ok(texts @ 1..)) => options.texts = texts,
            ("--seed", Ok(seed)) => options.seed = seed,
            ("--threads", Ok(threads @ 1..)) => options.threads = threads as usize,
            _ => {
                eprintln!("program: {} {value} is no option with a value", pair[0]);
                return ExitCode::from(2);
            }
        }
    }
    let begin = Instant::now();
    let summary = run(&program, options);
    let seconds = begin.elapsed().as_secs_f64();
    let seed = options.seed;
    for failure in summary.failures.iter().take(KEPT) {
        let file = keep.join(format!("{seed}-{}.csv", failure.number));
        println!("text {} of seed {seed}: {}", failure.number, failure.what);
        match fs::create_dir_all(&keep).and_then(|()| fs::write(&file, &failure.text)) {
            Ok(()) => println!("  {} <{}", program.0.display(), file.display()),
            Err(error) => {
                println!("  --seed {seed} --first {} --texts 1; not kept: {error}", failure.number)
            }
        }
    }
    for line in summary.reached.lines() {
        println!("{line}");
    }
    let mut failed = summary.failures.len();
    if failed == 0 && options.first == 0 && options.texts >= fixed() + FULL {
        for line in summary.reached.missing() {
            println!("{line}");
            failed += 1;
        }
    }
    println!(
        "seed {seed}, {} texts in {seconds:.1} s",
        summary.passed + summary.failures.len() as u64
    );
    println!("{} passed, {failed} failed", summary.passed);
    if failed == 0 {
        ExitCode::SUCCESS
    } else {
        ExitCode::FAILURE
    }
}
