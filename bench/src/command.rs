//! The command and the program under it, run as processes.

use std::fs::File;
use std::path::PathBuf;
use std::process::{Command, Stdio};

/// The law of a whole run.
pub const LAW: &str = "examples/l10-fits.csv";
/// The program alone, and the command.
pub const PROGRAM: &str = "target/bin/lawcheck";
pub const COMMAND: &str = "./lawcheck";

fn top() -> PathBuf {
    PathBuf::from(concat!(env!("CARGO_MANIFEST_DIR"), "/.."))
}

/// The words of the law.
pub fn law() -> Vec<u64> {
    let text = std::fs::read(top().join(LAW)).expect("the law is there");
    reference::paper::text::words(&text).expect("the law is a text")
}

/// Runs the command or the program on the law, and asks for the verdict file that stands beside it.
pub fn run(what: &str) {
    let mut command = Command::new(top().join(what));
    if what == COMMAND {
        command.arg(LAW);
    } else {
        command.stdin(File::open(top().join(LAW)).expect("the law is there"));
    }
    let run = command.current_dir(top()).stderr(Stdio::inherit()).output();
    let printed = run.unwrap_or_else(|wrong| panic!("{what}: {wrong}")).stdout;
    let expected = top().join(LAW.replace(".csv", ".verdict.csv"));
    let expected = std::fs::read(expected).expect("the verdict file is there");
    assert!(printed == expected, "{what} prints another verdict file");
}
