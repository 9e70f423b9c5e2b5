//! What the texts reached: each answer, each refusal, and sizes.

use crate::file::{configurations_room, copies_room, Judged};
use crate::texts::LONGEST;
use reference::fast::{copies, Task};
use reference::paper::task::ROW;
use reference::paper::verdict::Class;
use std::collections::{BTreeMap, BTreeSet};

/// Counts and sizes.
#[derive(Default)]
pub struct Reached {
    answers: BTreeMap<String, u64>,
    /// The largest of each, in laws that are accepted.
    sizes: BTreeMap<&'static str, u64>,
    /// Tables, with the number of members, that were just full or too small.
    tables: BTreeSet<(&'static str, usize)>,
}

/// What a run of full size has to reach.
const ANSWERS: [&str; 13] = [
    "robust",
    "unsolvable",
    "missed",
    "collision",
    "deadlock",
    "refused 1",
    "refused 2",
    "refused 3",
    "refused 4",
    "refused 5",
    "refused 6",
    "refused 9",
    "refused 15",
];
const SIZES: [(&str, u64); 11] = [
    ("bytes", LONGEST),
    ("records", 265),
    ("number", u64::MAX),
    ("facts", 128),
    ("members", 8),
    ("actions", 256),
    ("configurations", 2048),
    ("plan steps", 1022),
    ("picks", 1023),
    ("missing facts", 128),
    ("highest missing fact", 127),
];
const TABLES: [(&str, usize); 4] = [
    ("copies full", 1),
    ("copies over", 1),
    ("configurations full", 1),
    ("configurations over", 2),
];

impl Reached {
    /// Counts a text that passed.
    pub fn count(&mut self, text: &[u8], judged: &Judged) {
        let file = &judged.file;
        let answer = match file.kind.as_str() {
            "refused" => format!("refused {}", file.number),
            kind => kind.to_string(),
        };
        *self.answers.entry(answer).or_default() += 1;
        if judged.answer != Err(15) {
            self.size("bytes", text.len() as u64);
        }
        let Ok(task) = Task::check(&judged.task) else {
            return;
        };
        self.size("records", (judged.task.len() / ROW) as u64);
        self.size("number", judged.task.iter().copied().max().unwrap_or(0));
        self.size("facts", judged.task[0]);
        self.size("members", judged.task[1]);
        self.size("actions", judged.task[2]);
        self.size("plan steps", file.plans.iter().map(Vec::len).max().unwrap_or(0) as u64);
        self.size("picks", file.picks.len() as u64);
        self.size("missing facts", file.missing.len() as u64);
        self.size("highest missing fact", file.missing.last().copied().unwrap_or(0));
        let members = task.members();
        let room = copies_room(members);
        let found: Vec<Option<usize>> = (0..members)
            .map(|member| copies(&task, member, room).map(|table| table.rows.len()))
            .collect();
        if found.contains(&Some(room)) {
            self.tables.insert(("copies full", members));
        }
        match &judged.answer {
            Err(_) if found.contains(&None) => drop(self.tables.insert(("copies over", members))),
            Err(_) => drop(self.tables.insert(("configurations over", members))),
            Ok(Class::Robust(listed) | Class::NotRobust(listed, ..)) => {
                self.size("configurations", *listed as u64);
                if *listed == configurations_room(members) {
                    self.tables.insert(("configurations full", members));
                }
            }
            Ok(Class::Unsolvable(_)) => {}
        }
    }

    fn size(&mut self, name: &'static str, size: u64) {
        let most = self.sizes.entry(name).or_default();
        *most = size.max(*most);
    }

    /// Takes in another count.
    pub fn take(&mut self, other: Reached) {
        for (answer, count) in other.answers {
            *self.answers.entry(answer).or_default() += count;
        }
        for (name, size) in other.sizes {
            self.size(name, size);
        }
        self.tables.extend(other.tables);
    }

    /// What no text reached.
    pub fn missing(&self) -> Vec<String> {
        let answers = ANSWERS
            .iter()
            .filter(|&&answer| !self.answers.contains_key(answer))
            .map(|answer| format!("no text has the answer {answer}"));
        let sizes = SIZES
            .iter()
            .filter(|(name, size)| self.sizes.get(name).copied() < Some(*size))
            .map(|(name, size)| format!("no text has {size} for {name}"));
        let tables = TABLES.iter().flat_map(|&(table, least)| {
            (least..=8)
                .filter(move |&members| !self.tables.contains(&(table, members)))
                .map(move |members| format!("no text has {table} with members {members}"))
        });
        answers.chain(sizes).chain(tables).collect()
    }

    /// Two lines: the answers, and the largest sizes.
    pub fn lines(&self) -> [String; 2] {
        let answers: Vec<String> =
            self.answers.iter().map(|(answer, count)| format!("{answer} {count}")).collect();
        let sizes: Vec<String> =
            self.sizes.iter().map(|(name, size)| format!("{name} {size}")).collect();
        [format!("answers: {}", answers.join(", ")), format!("up to: {}", sizes.join(", "))]
    }
}
