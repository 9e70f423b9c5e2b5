//! One module for each group of operations: inputs, the paper's answer, the answer found, and what
//! differs.

pub mod asked;
pub mod pddl;
mod read;
pub mod run;
pub mod sizes;
pub mod solo;
pub mod step;
pub mod verdict;

use crate::case::Checked;
use reference::generate::{damage::damage, families};
use reference::interface::Interface;
use reference::random::Random;

/// Runs the case with this number: one that is made for a size, or one chosen by the random
/// numbers.
pub fn case(case: u64, random: &mut Random, checked: &impl Interface) -> Checked {
    sizes::any(case, random, checked).unwrap_or_else(|| any(random, checked))
}

/// Any operation on any input.
fn any(random: &mut Random, checked: &impl Interface) -> Checked {
    match random.below(124) {
        0..=9 => step::task(random, checked),
        10..=17 => step::step(random, checked),
        18..=27 => solo::replay(random, checked),
        28..=40 => solo::search(random, checked),
        41..=53 => run::joint_replay(random, checked),
        54..=65 => run::pick(random, checked),
        66..=67 => run::start(random, checked),
        68..=74 => run::play(random, checked),
        75..=88 => verdict::verdict(random, checked),
        89..=99 => read::read(random, checked),
        100..=107 => run::ask(random, checked),
        108..=117 => run::commit(random, checked),
        _ => asked::any(random, checked),
    }
}

/// A task: mostly small, sometimes at the limits, damaged in `damaged` of a hundred cases.
pub fn task_words(random: &mut Random, damaged: usize) -> Vec<u64> {
    let mut words = match random.below(20) {
        0 => families::at_the_limits(random),
        _ => families::small(random),
    };
    if random.chance(damaged) {
        damage(random, &mut words);
    }
    words
}

/// A member's number: mostly one that the task has.
fn member(random: &mut Random, task: &[u64]) -> u8 {
    let members = task.get(1).copied().unwrap_or(1).clamp(1, 8) as usize;
    match random.below(20) {
        0 => random.one_of(&[members as u8, 8, 255]),
        _ => random.below(members) as u8,
    }
}
