//! One case: what was asked, what was expected, and what differs.

use crate::lent::Lent;
use reference::generate::{text, Cell};
use reference::interface::{mask_of, ROW};
use std::fmt;
use std::ops::Range;

/// How a case came out, for the count of what was covered.
#[derive(Clone, Copy, Debug, PartialEq, Eq, PartialOrd, Ord)]
pub enum Class {
    Answer(u64),
    Refusal(u64),
}

/// A case that was run.
pub struct Checked {
    pub operation: &'static str,
    pub class: Class,
    /// What a collision lacks; 0 where the answer is none.
    pub missing: u128,
    /// The verdict was held against brute force too.
    pub brute: bool,
    /// Runs of a robust law were played to the finish.
    pub played: bool,
    pub failure: Option<Failure>,
}

/// What goes into an operation.
pub enum Input {
    Task(Vec<u64>),
    Text(Vec<u8>),
    /// A law in PDDL and its waits.
    Pddl(Vec<u8>, Vec<u8>),
}

/// A case that failed, to be printed.
pub struct Failure {
    pub operation: &'static str,
    pub input: Input,
    pub others: Vec<(&'static str, String)>,
    pub answers: [String; 2],
    pub differences: Vec<String>,
}

/// Collects the differences of one case.
pub struct Comparison {
    operation: &'static str,
    answers: [String; 2],
    differences: Vec<String>,
    missing: u128,
    pub brute: bool,
    pub played: bool,
}

impl Comparison {
    pub fn new(operation: &'static str) -> Comparison {
        Comparison {
            operation,
            answers: [String::new(), String::new()],
            differences: Vec::new(),
            missing: 0,
            brute: false,
            played: false,
        }
    }

    /// Compares the return and `out`.
    pub fn answer(&mut self, expected: (u64, &[u64]), found: u64, out: &Lent<u64>) {
        if expected.0 != found {
            self.differ(format!("the return: expected {}, found {found}", expected.0));
        }
        self.slice("out", expected.1, out);
        if !self.differences.is_empty() {
            let show = |number, out| format!("returns {number}, out {}", list(out));
            self.answers = [show(expected.0, expected.1), show(found, out.held())];
        }
    }

    /// Notes what is expected to be missing, if anything is, from its place among an answer's
    /// numbers.
    pub fn lacks(&mut self, expected: (u64, &[u64]), place: Range<usize>) {
        match (expected.0, expected.1.get(place).map_or(0, mask_of)) {
            (0, missing) if missing != 0 => self.missing = missing,
            _ => {}
        }
    }

    /// Compares a lent slice cell by cell.
    pub fn slice<T: Cell>(&mut self, name: &str, expected: &[T], found: &Lent<T>) {
        self.guards(name, found);
        let differs = |(_, (one, other)): &(usize, (&T, &T))| one != other;
        let different = expected.iter().zip(found.held()).enumerate().find(differs);
        if let Some((place, (expected, found))) = different {
            self.differ(format!("{name}, entry {place}: expected {expected}, found {found}"));
        }
    }

    /// Looks at the cells around a lent slice whose contents are free.
    pub fn guards<T: Cell>(&mut self, name: &str, found: &Lent<T>) {
        if found.overrun() {
            self.differ(format!("{name}: written outside the slice"));
        }
    }

    /// Notes a difference.
    pub fn differ(&mut self, difference: String) {
        self.differences.push(difference);
    }

    /// Whether a difference was noted.
    pub fn differs(&self) -> bool {
        !self.differences.is_empty()
    }

    /// Notes both answers in full.
    pub fn set_answers(&mut self, expected: String, found: String) {
        self.answers = [expected, found];
    }

    /// Closes the case; `describe` gives its inputs where it failed.
    pub fn close(
        self,
        class: Class,
        describe: impl FnOnce() -> (Input, Vec<(&'static str, String)>),
    ) -> Checked {
        let failure = (!self.differences.is_empty()).then(|| {
            let (input, others) = describe();
            Failure {
                operation: self.operation,
                input,
                others,
                answers: self.answers,
                differences: self.differences,
            }
        });
        Checked {
            operation: self.operation,
            class,
            missing: self.missing,
            brute: self.brute,
            played: self.played,
            failure,
        }
    }
}

/// The class of a case by the return that is expected and the answer's number.
pub fn class(expected: u64, answer: u64) -> Class {
    if expected == 0 {
        Class::Answer(answer)
    } else {
        Class::Refusal(expected)
    }
}

/// The most cells of a slice that are printed.
const PRINTED: usize = 400;

/// A slice as text, a long one by its front and its length.
pub fn list<T: Cell>(cells: &[T]) -> String {
    let printed: Vec<String> = cells.iter().take(PRINTED).map(T::to_string).collect();
    let rest =
        if cells.len() > PRINTED { format!(" .. {} in all", cells.len()) } else { String::new() };
    format!("[{}{rest}]", printed.join(" "))
}

/// A command for the shell that gives this text to the verdict program.
pub fn command(text: &[u8]) -> String {
    let mut command = String::from("printf '");
    for &byte in text {
        match byte {
            b'0'..=b'9' | b',' => command.push(byte as char),
            b'\r' => command.push_str("\\r"),
            b'\n' => command.push_str("\\n"),
            _ => command.push_str(&format!("\\x{byte:02x}")),
        }
    }
    command + "' | ./lawcheck"
}

/// The most bytes of a text that are printed.
const SHOWN: usize = 20_000;

/// Commands that put these bytes into a file.
pub fn put_into(bytes: &[u8], file: &str) -> String {
    let mut command = String::from("printf '");
    for &byte in bytes {
        match byte {
            b'0'..=b'9' | b'a'..=b'z' | b'A'..=b'Z' | b'(' | b')' | b' ' => {
                command.push(byte as char);
            }
            b':' | b';' | b',' | b'-' | b'_' => command.push(byte as char),
            b'\r' => command.push_str("\\r"),
            b'\n' => command.push_str("\\n"),
            _ => command.push_str(&format!("\\x{byte:02x}")),
        }
    }
    command + "' >" + file
}

impl fmt::Display for Failure {
    fn fmt(&self, to: &mut fmt::Formatter) -> fmt::Result {
        writeln!(to, "{}", self.operation)?;
        match &self.input {
            Input::Task(words) => {
                if words.len() % ROW != 0 {
                    writeln!(
                        to,
                        "the task has {} words, and its last record is short:",
                        words.len()
                    )?;
                }
                let text = text::of_words(words);
                write!(to, "{text}")?;
                writeln!(to, "{}", command(text.as_bytes()))?;
            }
            Input::Text(bytes) => writeln!(to, "{}", command(bytes))?,
            Input::Pddl(text, waits) if text.len() + waits.len() > SHOWN => {
                writeln!(to, "{} bytes, waits of {} bytes", text.len(), waits.len())?;
            }
            Input::Pddl(text, waits) => {
                writeln!(to, "{}", put_into(text, "law.pddl"))?;
                writeln!(to, "{}", put_into(waits, "waits.csv"))?;
                writeln!(to, "./lawcheck --pddl law.pddl waits.csv")?;
            }
        }
        for (name, value) in &self.others {
            writeln!(to, "  {name}: {value}")?;
        }
        let [expected, found] = &self.answers;
        if !expected.is_empty() || !found.is_empty() {
            writeln!(to, "  expected: {expected}")?;
            writeln!(to, "  found: {found}")?;
        }
        for difference in &self.differences {
            writeln!(to, "  differs: {difference}")?;
        }
        Ok(())
    }
}
