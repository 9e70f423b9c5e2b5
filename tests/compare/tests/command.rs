//! The command `compare`: its arguments, and the command that it prints with a failing case.

use compare::case::command;
use std::process::Command;

/// The exit status of `compare` and what it wrote to both outputs.
fn compare(arguments: &[&str], variables: &[(&str, &str)]) -> (Option<i32>, String, String) {
    let mut command = Command::new(env!("CARGO_BIN_EXE_compare"));
    command.env_remove("LAWCHECK_CASES").env_remove("LAWCHECK_SEED");
    let run =
        command.args(arguments).envs(variables.iter().copied()).output().expect("compare runs");
    let text = |bytes: Vec<u8>| String::from_utf8(bytes).expect("text");
    (run.status.code(), text(run.stdout), text(run.stderr))
}

#[test]
fn what_is_no_number_is_an_error() {
    let not = |name: &str, least: u64, text: &str| {
        format!(
            "compare: {name} has to be a whole number from {least} to 18446744073709551615, not '{text}'\n"
        )
    };
    for text in ["0", "1e6", "-1", "+1", "1.0", " 1", "", "ten", "18446744073709551616"] {
        let wrong = (Some(2), String::new(), not("LAWCHECK_CASES", 1, text));
        assert_eq!(compare(&[], &[("LAWCHECK_CASES", text)]), wrong);
        let wrong = (Some(2), String::new(), not("--cases", 1, text));
        assert_eq!(compare(&["--cases", text], &[]), wrong);
    }
    for (name, least, text) in [("--threads", 1, "0"), ("--seed", 0, "1e6"), ("--case", 0, "x")] {
        assert_eq!(compare(&[name, text], &[]), (Some(2), String::new(), not(name, least, text)));
    }
    let wrong = (Some(2), String::new(), not("LAWCHECK_SEED", 0, "main"));
    assert_eq!(compare(&["--cases", "1"], &[("LAWCHECK_SEED", "main")]), wrong);
}

#[test]
fn what_is_no_argument_is_an_error() {
    let usage = "usage: compare [--pddl] [--cases N] [--seed S] [--threads T] [--case I]\n";
    let wrong = (Some(2), String::new(), format!("compare: no such argument: --all\n{usage}"));
    assert_eq!(compare(&["--all"], &[]), wrong);
    let wrong = (Some(2), String::new(), format!("compare: --cases needs a number\n{usage}"));
    assert_eq!(compare(&["--cases"], &[]), wrong);
}

#[test]
fn what_is_asked_is_run() {
    let (status, out, err) = compare(&["--cases", "70"], &[("LAWCHECK_SEED", "0")]);
    assert_eq!((status, err.as_str()), (Some(0), ""));
    assert!(out.contains(", seed 0, 70 cases in "), "{out}");
    assert!(out.ends_with("\n70 passed, 0 failed\n"), "{out}");
    let (status, out, _) = compare(&["--case", "7"], &[("LAWCHECK_CASES", "3")]);
    assert_eq!(status, Some(0));
    assert!(out.ends_with("\n1 passed, 0 failed\n"), "{out}");
}

#[test]
fn the_shell_reads_the_text_back() {
    let text: Vec<u8> = (0..=255).chain(*b"5,2,4,1,0\r\n").collect();
    let command = command(&text).replace("./lawcheck", "cat");
    let run = Command::new("bash").args(["-c", &command]).output().expect("bash runs");
    assert_eq!(run.stdout, text);
}
