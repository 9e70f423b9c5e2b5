//! What `./lawcheck` asks of laws in PDDL, over the library:
//!
//!   lawcheck-pddl rows no LAW [WAITS]    the task's rows as text
//!   lawcheck-pddl rows yes LAW [WAITS]   the same; lines of the waits may end in LF alone
//!   lawcheck-pddl named yes|no ..        as rows, then an empty record and the law's names
//!   lawcheck-pddl member NUMBER LAW      the name of a member
//!   lawcheck-pddl write LAW WAITS        writes both from the rows on standard input
//!
//! What it gives stands on standard output. Exit status 0: as asked. 3: refused; it gives the
//! number, a blank and the message. 1: something could not be read or written; it gives the
//! message.
#![forbid(unsafe_code)]

// Brings the functions that the wrapper declares.
#[cfg(feature = "mock")]
extern crate mock as _;

use files::{read_file, read_input, replace, shown};
use lawcheck::{raw, Refusal};
use std::env;
use std::ffi::OsString;
use std::io::Write;
use std::path::Path;
use std::process::ExitCode;

/// Why there is no answer.
enum Failure {
    Refused(Refusal, String),
    Other(String),
}

fn main() -> ExitCode {
    let arguments: Vec<OsString> = env::args_os().skip(1).collect();
    let options: Vec<&str> = arguments.iter().map(|word| word.to_str().unwrap_or("")).collect();
    let files: Vec<&Path> = arguments.iter().map(Path::new).collect();
    let done = match options[..] {
        ["rows" | "named", "yes" | "no", _] | ["rows" | "named", "yes" | "no", _, _] => {
            let (named, crlf) = (options[0] == "named", options[1] == "yes");
            rows(files[2], files.get(3).copied(), crlf, named)
        }
        ["member", number, _] => member(number, files[2]),
        ["write", _, _] => write(files[1], files[2]),
        _ => Err(Failure::Other("this is a part of ./lawcheck".to_string())),
    };
    match done {
        Ok(()) => ExitCode::SUCCESS,
        Err(Failure::Refused(refusal, message)) => {
            println!("{} {message}", refusal.number());
            ExitCode::from(3)
        }
        Err(Failure::Other(message)) => {
            println!("{message}");
            ExitCode::from(1)
        }
    }
}

/// The rows of a law, each record ended by CR LF, and its names after an empty record.
fn rows(law: &Path, file: Option<&Path>, crlf: bool, named: bool) -> Result<(), Failure> {
    let text = read_file(law).map_err(Failure::Other)?;
    let mut waits = file.map_or(Ok(Vec::new()), read_file).map_err(Failure::Other)?;
    if crlf {
        waits = with_crlf(&waits);
    }
    let mut words = vec![0; raw::TEXT_WORDS];
    let records = lawcheck::pddl_read(&text, &waits, &mut words).map_err(|refusal| {
        let said = pddl::diagnose(&text, &waits).filter(|one| one.number == refusal.number());
        let meaning = || refusal.meaning().to_string();
        let files = [Some(law), file].map(|file| file.map_or(String::new(), shown));
        let message = |said: pddl::Trouble| said.message(&files[0], &files[1]);
        Failure::Refused(refusal, said.map_or_else(meaning, message))
    })?;
    let record = |row: &[u64]| row.iter().map(u64::to_string).collect::<Vec<_>>().join(",");
    let rows = words.chunks(raw::ROW_WORDS).take(records);
    let mut told: String = rows.map(|row| record(row) + "\r\n").collect();
    if named {
        told = told + "\r\n" + &pddl::named(&text).unwrap_or_default();
    }
    print(told.as_bytes())
}

/// A text with CR before each LF that has none.
fn with_crlf(text: &[u8]) -> Vec<u8> {
    let mut told = Vec::with_capacity(text.len());
    for &byte in text {
        if byte == b'\n' && told.last() != Some(&b'\r') {
            told.push(b'\r');
        }
        told.push(byte);
    }
    told
}

fn member(number: &str, law: &Path) -> Result<(), Failure> {
    let text = read_file(law).map_err(Failure::Other)?;
    let name = number.parse().ok().and_then(|number| pddl::member(&text, number));
    let name = name.ok_or_else(|| Failure::Other(format!("no member {number}")))?;
    print(name.as_bytes())
}

/// Writes a law in PDDL and its waits, each file as a whole or not at all.
fn write(law: &Path, waits: &Path) -> Result<(), Failure> {
    let text = read_input().map_err(Failure::Other)?;
    let refused = |refusal: Refusal| Failure::Refused(refusal, refusal.meaning().to_string());
    let task = lawcheck::read(&text).map_err(refused)?;
    let mut texts = [vec![0; raw::PDDL_BYTES], vec![0; raw::PDDL_BYTES]];
    let [told, waited] = &mut texts;
    let lengths = lawcheck::pddl_write(&task, told, waited).map_err(refused)?;
    told.truncate(lengths.0);
    waited.truncate(lengths.1);
    replace(&[(law, &texts[0]), (waits, &texts[1])]).map_err(Failure::Other)
}

fn print(bytes: &[u8]) -> Result<(), Failure> {
    let mut out = std::io::stdout();
    out.write_all(bytes)
        .and_then(|()| out.flush())
        .map_err(|why| Failure::Other(format!("standard output could not be written: {why}")))
}
