//! The verdict file, and what has to stand in it.

use reference::interface::MASK;
use reference::paper::facts::Facts;
use reference::paper::run::Outcome;
use reference::paper::task::ROW;
use reference::paper::text::{self, RECORDS};
use reference::paper::verdict::{verdict, Class, Lent};
use reference::paper::Refusal;

/// The words of the program's local table.
pub const LOCAL: usize = 4096;
/// The words of its configuration table.
pub const CONFIGURATIONS: usize = 8192;

/// K: the rows of each of `members` members.
pub fn copies_room(members: usize) -> usize {
    LOCAL / (MASK * members)
}

/// C: the rows of the configuration table.
pub fn configurations_room(members: usize) -> usize {
    CONFIGURATIONS / (MASK * (members + 1))
}

/// A verdict file in parts.
#[derive(Clone, Debug, Default, PartialEq)]
pub struct File {
    pub kind: String,
    pub number: u64,
    /// The facts that a collision lacks, rising.
    pub missing: Vec<u64>,
    pub plans: Vec<Vec<u16>>,
    pub picks: Vec<u8>,
}

impl File {
    /// A file of two lines.
    pub fn short(kind: &str, number: u64) -> File {
        File { kind: kind.to_string(), number, ..File::default() }
    }

    /// The bytes of the file.
    pub fn bytes(&self) -> Vec<u8> {
        let mut lines =
            vec!["verdict,number".to_string(), format!("{},{}", self.kind, self.number)];
        lines.extend(self.missing.iter().map(|fact| format!("missing,{fact}")));
        for (member, plan) in self.plans.iter().enumerate() {
            lines.push(format!("plan,{member}"));
            lines.extend(plan.iter().map(|action| format!("action,{action}")));
        }
        lines.extend(self.picks.iter().map(|member| format!("pick,{member}")));
        (lines.join("\r\n") + "\r\n").into_bytes()
    }

    /// The file with a conflict, whose plans stand in one slice.
    pub fn with_conflict(self, slice: &[u16], ends: &[u64], picks: Vec<u8>) -> File {
        let mut plans = Vec::new();
        let mut begin = 0;
        for &end in ends {
            plans.push(slice[begin..end as usize].to_vec());
            begin = end as usize;
        }
        File { plans, picks, ..self }
    }

    /// The file with the facts that are missing.
    pub fn with_missing(self, missing: &Facts) -> File {
        File { missing: missing.numbers().collect(), ..self }
    }
}

/// What the paper says of a text.
pub struct Judged {
    /// The words of an accepted task.
    pub task: Vec<u64>,
    pub answer: Result<Class, Refusal>,
    /// The file that has to be printed.
    pub file: File,
}

/// The paper's answer to a text, with tables as long as the program's.
pub fn judge(text: &[u8]) -> Judged {
    let mut task = vec![0; RECORDS * ROW];
    match text::read(text, &mut task) {
        Err(refusal) => {
            Judged { task: Vec::new(), answer: Err(refusal), file: File::short("refused", refusal) }
        }
        Ok(records) => {
            task.truncate(records * ROW);
            let (answer, file) = with_tables(&task);
            Judged { task, answer, file }
        }
    }
}

fn with_tables(task: &[u64]) -> (Result<Class, Refusal>, File) {
    let members = task[1] as usize;
    let rows = members * copies_room(members);
    let most = configurations_room(members);
    let (mut plans, mut ends, mut picks) = (vec![0; most + rows], vec![0; members], vec![0; most]);
    let answer = verdict(
        task,
        &mut Lent {
            local: &mut [0; LOCAL],
            marks: &mut vec![0; rows],
            configurations: &mut [0; CONFIGURATIONS],
            trail: &mut vec![0; 2 * most],
            plans: &mut plans,
            ends: &mut ends,
            picks: &mut picks,
        },
    );
    let file = match &answer {
        Err(refusal) => File::short("refused", *refusal),
        Ok(Class::Unsolvable(member)) => File::short("unsolvable", *member as u64),
        Ok(Class::Robust(count)) => File::short("robust", *count as u64),
        Ok(Class::NotRobust(_, outcome, done, missing)) => {
            let (kind, number) = match *outcome {
                Outcome::Collision => ("collision", *done),
                Outcome::Deadlock => ("deadlock", *done),
                Outcome::Missed(member) => ("missed", member),
                other => unreachable!("{other:?} is no fault"),
            };
            picks.truncate(done + usize::from(*outcome == Outcome::Collision));
            let file = File::short(kind, number as u64).with_missing(missing);
            file.with_conflict(&plans, &ends, picks)
        }
    };
    (answer, file)
}

impl Judged {
    /// What a printed file differs in: the first line that is not as it has to be.
    pub fn check(&self, printed: &[u8]) -> Result<(), String> {
        let expected = self.file.bytes();
        if expected == printed {
            return Ok(());
        }
        let lines = |bytes: &[u8]| -> Vec<String> {
            let lines = bytes.split_inclusive(|&byte| byte == b'\n');
            lines.map(|line| line.escape_ascii().to_string()).collect()
        };
        let (expected, printed) = (lines(&expected), lines(printed));
        let same = expected.iter().zip(&printed).take_while(|(one, other)| one == other).count();
        let line = |lines: &[String]| lines.get(same).map_or("the end".into(), String::clone);
        let File { kind, number, .. } = &self.file;
        Err(format!(
            "expected {kind},{number}; line {}: expected {}, found {}",
            same + 1,
            line(&expected),
            line(&printed)
        ))
    }
}
