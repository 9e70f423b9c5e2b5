//! "The task" and the task check.

use super::facts::{Facts, MASK};
use super::Refusal;

/// Words in a row of a task: a number, then four masks.
pub const ROW: usize = 1 + 4 * MASK;

/// The most facts, members and actions of a task.
pub const FACTS: u64 = 128;
pub const MEMBERS: u64 = 8;
pub const ACTIONS: u64 = 256;

/// An action of a checked task.
#[derive(Clone, Debug)]
pub struct Action {
    pub member: usize,
    pub pre: Facts,
    pub wait: Facts,
    pub add: Facts,
    pub del: Facts,
}

/// A checked task.
#[derive(Clone, Debug)]
pub struct Task {
    pub facts: u64,
    pub initial: Facts,
    pub goals: Vec<Facts>,
    pub actions: Vec<Action>,
}

impl Task {
    /// The number of members, n.
    pub fn members(&self) -> usize {
        self.goals.len()
    }

    /// The actions of a member with their numbers, by rising number.
    pub fn own(&self, member: usize) -> impl Iterator<Item = (u16, &Action)> {
        self.actions
            .iter()
            .enumerate()
            .filter(move |(_, action)| action.member == member)
            .map(|(number, action)| (number as u16, action))
    }
}

/// The task check: the task, or the refusal that stands first in the written order.
pub fn check(words: &[u64]) -> Result<Task, Refusal> {
    if words.len() < ROW {
        return Err(1);
    }
    let (facts, members, actions) = (words[0], words[1], words[2]);
    let sizes = (1..=FACTS).contains(&facts) && (1..=MEMBERS).contains(&members);
    let zeros = words[3 + MASK..ROW].iter().all(|&word| word == 0);
    if !sizes || actions > ACTIONS || !zeros {
        return Err(2);
    }
    let (members, actions) = (members as usize, actions as usize);
    if words.len() != ROW * (1 + members + actions) {
        return Err(1);
    }
    let rows: Vec<&[u64]> = words.chunks(ROW).collect();
    let initial = Facts::of_words(&rows[0][3..3 + MASK]);
    let mut task = Task { facts, initial, goals: Vec::new(), actions: Vec::new() };
    if task.initial.exceeds(facts) {
        return Err(4);
    }
    for member in 0..members {
        task.goals.push(goal_row(facts, member, rows[1 + member])?);
    }
    for action in 0..actions {
        task.actions.push(action_row(facts, members, rows[1 + members + action])?);
    }
    Ok(task)
}

/// A mask of a row after its number, by its place from 0.
fn mask(row: &[u64], place: usize) -> Facts {
    let begin = 1 + MASK * place;
    Facts::of_words(&row[begin..begin + MASK])
}

fn goal_row(facts: u64, member: usize, row: &[u64]) -> Result<Facts, Refusal> {
    if row[0] != member as u64 || row[1 + MASK..].iter().any(|&word| word != 0) {
        return Err(3);
    }
    let goal = mask(row, 0);
    if goal.exceeds(facts) {
        return Err(4);
    }
    Ok(goal)
}

fn action_row(facts: u64, members: usize, row: &[u64]) -> Result<Action, Refusal> {
    if row[0] >= members as u64 {
        return Err(5);
    }
    let action = Action {
        member: row[0] as usize,
        pre: mask(row, 0),
        wait: mask(row, 1),
        add: mask(row, 2),
        del: mask(row, 3),
    };
    for mask in [&action.pre, &action.wait, &action.add, &action.del] {
        if mask.exceeds(facts) {
            return Err(4);
        }
    }
    if !action.wait.within(&action.pre) {
        return Err(6);
    }
    Ok(action)
}
