//! What `./lawcheck --explain` asks:
//!
//!   lawcheck-explain TITLE NAMES          the explanation as text
//!   lawcheck-explain TITLE NAMES PAGE     the same as a page, in the file PAGE
//!
//! The law's rows stand on standard input as text; NAMES is a names file, or empty. Exit status: 0
//! robust, 10 not robust, 11 unsolvable. 3: refused; it gives the number, a blank and the meaning.
//! 1: something failed; it gives the message.
#![forbid(unsafe_code)]

use explain::finding::{find, Failure, Finding, TABLES};
use explain::law::Law;
use explain::names::{clean, Names};
use explain::{page, text};
use files::{read_file, read_input, replace, shown};
use std::ffi::OsString;
use std::io::Write;
use std::path::Path;
use std::process::ExitCode;
use std::{env, thread};

/// Bytes of the stack that the library may use.
const STACK: usize = 16 << 20;

fn main() -> ExitCode {
    let told = match thread::Builder::new().stack_size(STACK).spawn(run).map(|run| run.join()) {
        Ok(Ok(told)) => told,
        _ => Err(Failure::Broken("the explanation ended early".to_string())),
    };
    match told {
        Ok(status) => ExitCode::from(status),
        Err(Failure::Refused(refusal)) => {
            println!("{} {}", refusal.number(), refusal.meaning());
            ExitCode::from(3)
        }
        Err(Failure::Broken(message)) => {
            println!("{message}");
            ExitCode::from(1)
        }
    }
}

/// The exit status.
fn run() -> Result<u8, Failure> {
    let arguments: Vec<OsString> = env::args_os().skip(1).collect();
    let (title, names, out) = match &arguments[..] {
        [title, names] => (title, names, None),
        [title, names, out] => (title, names, Some(Path::new(out))),
        _ => return Err(Failure::Broken("this is a part of ./lawcheck".to_string())),
    };
    let title = clean(title.as_encoded_bytes());
    let law = Law::new(lawcheck::read(&read_input().map_err(Failure::Broken)?)?);
    let names = if names.is_empty() { Names::none() } else { named(Path::new(names), &law) };
    let finding = find(&law, TABLES)?;
    match out {
        Some(out) => {
            let page = page::page(&law, &names, &title, &finding)?;
            replace(&[(out, page.as_bytes())]).map_err(Failure::Broken)?;
        }
        None => print(&text::text(&law, &names, &title, &finding))?,
    }
    Ok(match finding {
        Finding::Robust { .. } => 0,
        Finding::Conflict(_) => 10,
        Finding::Unsolvable(_) => 11,
    })
}

/// The names of a file; what is wrong with it is said, and numbers stand for the names it lacks.
fn named(path: &Path, law: &Law) -> Names {
    let (names, wrong) = match read_file(path) {
        Ok(text) => Names::read(&text, law),
        Err(why) => {
            eprintln!("lawcheck: {why}; numbers are shown for names");
            return Names::none();
        }
    };
    for why in wrong {
        eprintln!("lawcheck: {}, {why}", shown(path));
    }
    names
}

fn print(text: &str) -> Result<(), Failure> {
    let mut out = std::io::stdout();
    out.write_all(text.as_bytes())
        .and_then(|()| out.flush())
        .map_err(|why| Failure::Broken(format!("standard output could not be written: {why}")))
}
