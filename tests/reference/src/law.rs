//! A law in parts, and its layout in words.

use crate::interface::{mask_words, ROW};

/// A law in parts, before it is laid out in words.
#[derive(Clone, Debug)]
pub struct Law {
    pub facts: usize,
    pub initial: u128,
    pub goals: Vec<u128>,
    /// Each action: member, pre, wait, add, del.
    pub actions: Vec<[u128; 5]>,
}

impl Law {
    /// All its facts.
    pub fn known(&self) -> u128 {
        all(self.facts)
    }

    /// The task's words.
    pub fn words(&self) -> Vec<u64> {
        let sizes = [self.facts, self.goals.len(), self.actions.len()].map(|size| size as u64);
        let mut words = row(&sizes, &[self.initial]);
        for (member, &goal) in self.goals.iter().enumerate() {
            words.extend(row(&[member as u64], &[goal]));
        }
        for [member, masks @ ..] in &self.actions {
            words.extend(row(&[*member as u64], masks));
        }
        words
    }

    /// The same law among so many facts, each of its own at the place that is given for it.
    pub fn at(&self, facts: usize, places: &[usize]) -> Law {
        let moved = |mask: u128| {
            (0..self.facts)
                .filter(|fact| mask >> fact & 1 == 1)
                .fold(0, |new, fact| new | 1 << places[fact])
        };
        let action = |&[member, pre, wait, add, del]: &[u128; 5]| {
            [member, moved(pre), moved(wait), moved(add), moved(del)]
        };
        Law {
            facts,
            initial: moved(self.initial),
            goals: self.goals.iter().map(|&goal| moved(goal)).collect(),
            actions: self.actions.iter().map(action).collect(),
        }
    }
}

/// All of the first `facts` facts.
pub fn all(facts: usize) -> u128 {
    u128::MAX >> (128 - facts)
}

/// The words of a row: numbers, then masks, then zeros.
fn row(numbers: &[u64], masks: &[u128]) -> Vec<u64> {
    let mut words = numbers.to_vec();
    words.extend(masks.iter().flat_map(|&mask| mask_words(mask)));
    words.resize(ROW, 0);
    words
}

/// The words of a task whose rows are written with one number for each mask: F, n, m, I, 0; then
/// each goal row as i, goal, 0, 0, 0; then each action row as member, pre, wait, add, del.
pub fn of_rows(rows: &[[u128; 5]]) -> Vec<u64> {
    let [facts, members, actions, initial, _] = rows[0];
    let sizes = [facts, members, actions].map(|size| size as u64);
    let mut words = row(&sizes, &[initial]);
    for [number, masks @ ..] in &rows[1..] {
        words.extend(row(&[*number as u64], masks));
    }
    words
}

/// Rows as they were before laws had 128 facts, five words each: every mask's low word alone.
pub fn old_rows(words: &[u64]) -> Vec<u64> {
    let kept = |(number, row): (usize, &[u64])| {
        let places = if number == 0 { [0, 1, 2, 3, ROW - 1] } else { [0, 1, 3, 5, 7] };
        places.map(|place| row.get(place).copied().unwrap_or(0))
    };
    words.chunks(ROW).enumerate().flat_map(kept).collect()
}
