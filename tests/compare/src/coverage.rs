//! What the cases covered: how often each operation gave each answer and each refusal, and what its
//! collisions lacked.

use crate::case::{Checked, Class};
use crate::operations::asked;
use reference::interface::mask_words;
use std::collections::BTreeMap;

/// Counts by operation and class.
#[derive(Default)]
pub struct Coverage {
    counts: BTreeMap<(&'static str, Class), u64>,
    lacked: BTreeMap<(&'static str, &'static str), u64>,
    brute: u64,
    /// Those of the verdicts beside brute force that tell a conflict.
    conflicts: u64,
    played: u64,
}

/// The classes that a comparison of full size has to meet: an operation, its answers and its
/// refusals.
type Asked = (&'static str, &'static [u64], &'static [u64]);

/// The operations that tell what a collision lacks, and each kind of mask that they have to meet.
const TELLERS: [&str; 7] = [
    "lawcheck_step",
    "lawcheck_joint_replay",
    "lawcheck_pick",
    "lawcheck_ask",
    "lawcheck_commit",
    asked::NAME,
    "lawcheck_verdict",
];
const LACKED: [&str; 6] = ["one fact", "two", "more", "the low word", "the high word", "both"];

/// The kinds of a mask that is not empty: by how many facts it has, and in which words.
fn lacked(missing: u128) -> [&'static str; 2] {
    let number = missing.count_ones().min(3) as usize - 1;
    let words = match mask_words(missing) {
        [_, 0] => 3,
        [0, _] => 4,
        _ => 5,
    };
    [LACKED[number], LACKED[words]]
}

/// Those of the cases of laws in rows.
pub const ASKED: &[Asked] = &[
    ("lawcheck_task", &[0], &[1, 2, 3, 4, 5, 6]),
    ("lawcheck_step", &[0, 1, 2], &[1, 2, 3, 4, 5, 6, 7, 14]),
    ("lawcheck_solo_replay", &[0, 1, 2], &[1, 2, 3, 4, 5, 6, 7, 8, 10, 14]),
    ("lawcheck_solo_search", &[0, 1, 2], &[1, 2, 3, 4, 5, 6, 8, 9, 14]),
    ("lawcheck_joint_replay", &[0, 1, 2, 3, 4], &[1, 2, 3, 4, 5, 6, 7, 8, 10, 11, 12, 13, 14]),
    ("lawcheck_pick", &[0, 1], &[1, 2, 3, 4, 5, 6, 7, 8, 10, 11, 12, 13, 14, 20]),
    ("lawcheck_start", &[0], &[1, 2, 3, 4, 5, 6, 14]),
    ("lawcheck_play", &[0, 1, 8, 13, 20], &[1, 2, 3, 4, 5, 6, 7, 10, 11, 12, 14]),
    ("lawcheck_ask", &[0, 1, 2], &[1, 2, 3, 4, 5, 6, 7, 8, 10, 11, 12, 13, 14]),
    ("lawcheck_commit", &[0, 1], &[1, 2, 3, 4, 5, 6, 7, 8, 10, 11, 12, 13, 14, 19, 20]),
    (asked::NAME, &[0, 1, 8, 13, 19, 20], &[]),
    ("lawcheck_verdict", &[0, 1, 2, 3, 4], &[1, 2, 3, 4, 5, 6, 9, 14]),
    ("lawcheck_read", &[0], &[1, 2, 3, 4, 5, 6, 14, 15]),
];

/// Those of the cases of laws in PDDL.
pub const PDDL: &[Asked] = &[
    ("lawcheck_pddl_read", &[0], &[2, 6, 14, 15, 16, 17, 18]),
    ("lawcheck_pddl_write", &[0], &[1, 2, 3, 4, 5, 6, 14]),
];

impl Coverage {
    /// Counts a case.
    pub fn count(&mut self, checked: &Checked) {
        *self.counts.entry((checked.operation, checked.class)).or_default() += 1;
        if checked.missing != 0 {
            for kind in lacked(checked.missing) {
                *self.lacked.entry((checked.operation, kind)).or_default() += 1;
            }
        }
        self.brute += checked.brute as u64;
        let conflict = matches!(checked.class, Class::Answer(2..=4));
        self.conflicts += (checked.brute && conflict) as u64;
        self.played += checked.played as u64;
    }

    /// Takes in another count.
    pub fn take(&mut self, other: Coverage) {
        for (key, count) in other.counts {
            *self.counts.entry(key).or_default() += count;
        }
        for (key, count) in other.lacked {
            *self.lacked.entry(key).or_default() += count;
        }
        self.brute += other.brute;
        self.conflicts += other.conflicts;
        self.played += other.played;
    }

    /// The classes that no case met, and the kinds of masks.
    pub fn missing(&self, asked: &[Asked]) -> Vec<String> {
        let mut missing = Vec::new();
        for &(operation, answers, refusals) in asked {
            let answers = answers.iter().map(|&number| Class::Answer(number));
            let refusals = refusals.iter().map(|&number| Class::Refusal(number));
            for class in answers.chain(refusals) {
                if !self.counts.contains_key(&(operation, class)) {
                    missing.push(format!("{operation}: no case met {class:?}"));
                }
            }
            for kind in LACKED.iter().filter(|_| TELLERS.contains(&operation)) {
                if !self.lacked.contains_key(&(operation, kind)) {
                    missing.push(format!("{operation}: no collision lacks {kind}"));
                }
            }
        }
        missing
    }

    /// One line for each operation.
    pub fn lines(&self, asked: &[Asked]) -> Vec<String> {
        let mut lines = Vec::new();
        for &(operation, ..) in asked {
            let mut line = format!("{operation}:");
            for ((_, class), count) in
                self.counts.iter().filter(|((name, _), _)| *name == operation)
            {
                line += &match class {
                    Class::Answer(number) => format!(" answer {number} {count},"),
                    Class::Refusal(number) => format!(" refusal {number} {count},"),
                };
            }
            for kind in LACKED {
                if let Some(count) = self.lacked.get(&(operation, kind)) {
                    line += &format!(" lacking {kind} {count},");
                }
            }
            lines.push(line.trim_end_matches(',').to_string());
        }
        if self.brute + self.played > 0 {
            lines.push(format!(
                "verdicts beside brute force: {}, {} with a conflict; beside played runs: {}",
                self.brute, self.conflicts, self.played
            ));
        }
        lines
    }
}
