//! Solo replay and solo search.

use super::step::random_out;
use super::verdict::rows_near;
use super::{member, task_words};
use crate::case::{class, list, Checked, Comparison, Input};
use crate::lent::Lent;
use reference::fast::{copies, Task};
use reference::generate::plans::Planner;
use reference::generate::{contents, length_near};
use reference::interface::{out_length, Interface, MASK};
use reference::paper::interface as paper;
use reference::random::Random;

/// The most rows that a table is lent for, mostly and at times.
const MOST: [usize; 2] = [600, 4096];

pub fn replay(random: &mut Random, checked: &impl Interface) -> Checked {
    let words = task_words(random, 8);
    let member = member(random, &words);
    let plan = match Planner::new(&words) {
        Some(planner) => planner.any(random, member as usize),
        None => (0..random.below(4)).map(|_| random.below(5) as u16).collect(),
    };
    replay_on(random, checked, words, member, plan)
}

/// The solo replay of this plan.
pub fn replay_on(
    random: &mut Random,
    checked: &impl Interface,
    words: Vec<u64>,
    member: u8,
    plan: Vec<u16>,
) -> Checked {
    let out = random_out(random, out_length::SOLO_REPLAY);
    let mut expected_out = out.clone();
    let expected = paper::solo_replay(&words, member, &plan, &mut expected_out);
    let mut found_out = Lent::new(&out);
    let found = checked.solo_replay(&words, member, &plan, found_out.slice());
    let mut comparison = Comparison::new("lawcheck_solo_replay");
    comparison.answer((expected, &expected_out), found, &found_out);
    let answer = expected_out.first().copied().unwrap_or(0);
    comparison.close(class(expected, answer), || {
        let others = vec![
            ("member", member.to_string()),
            ("plan", list(&plan)),
            ("out at entry", list(&out)),
        ];
        (Input::Task(words), others)
    })
}

pub fn search(random: &mut Random, checked: &impl Interface) -> Checked {
    let words = task_words(random, 8);
    let member = member(random, &words);
    let most = if random.chance(1) { MOST[1] } else { MOST[0] };
    search_on(random, checked, words, member, most)
}

/// The solo search of this member, with a table of about as many rows as it needs, at most `most`.
pub fn search_on(
    random: &mut Random,
    checked: &impl Interface,
    words: Vec<u64>,
    member: u8,
    most: usize,
) -> Checked {
    let needed = Task::check(&words)
        .ok()
        .filter(|task| (member as usize) < task.members())
        .and_then(|task| copies(&task, member as usize, most))
        .map(|copies| copies.rows.len());
    let rows = rows_near(random, needed, most);
    search_in(random, checked, words, member, rows)
}

/// The solo search of this member in a table of so many rows, at times with an odd word more.
pub fn search_in(
    random: &mut Random,
    checked: &impl Interface,
    words: Vec<u64>,
    member: u8,
    rows: usize,
) -> Checked {
    let length = MASK * rows + random.below(MASK);
    search_of_length(random, checked, words, member, length)
}

/// The solo search of this member in a table of so many words.
pub fn search_of_length(
    random: &mut Random,
    checked: &impl Interface,
    words: Vec<u64>,
    member: u8,
    length: usize,
) -> Checked {
    let marked = length_near(random, length / MASK);
    let entry = Slices {
        table: contents(random, length),
        marks: contents(random, marked),
        out: random_out(random, out_length::SOLO_SEARCH),
    };
    search_with(checked, words, member, entry)
}

/// The slices lent to solo search, as they are at entry.
pub struct Slices {
    pub table: Vec<u64>,
    pub marks: Vec<u8>,
    pub out: Vec<u64>,
}

/// The solo search of this member with these slices. The class tells an answer by its marks: 0 none
/// is 1, 1 all are, 2 some.
pub fn search_with(
    checked: &impl Interface,
    words: Vec<u64>,
    member: u8,
    entry: Slices,
) -> Checked {
    let Slices { table, marks, out } = entry;
    let (mut expected_table, mut expected_marks) = (table.clone(), marks.clone());
    let mut expected_out = out.clone();
    let expected = paper::solo_search(
        &words,
        member,
        &mut expected_table,
        &mut expected_marks,
        &mut expected_out,
    );
    let (mut found_table, mut found_marks) = (Lent::new(&table), Lent::new(&marks));
    let mut found_out = Lent::new(&out);
    let found = checked.solo_search(
        &words,
        member,
        found_table.slice(),
        found_marks.slice(),
        found_out.slice(),
    );
    let mut comparison = Comparison::new("lawcheck_solo_search");
    comparison.answer((expected, &expected_out), found, &found_out);
    comparison.slice("table", &expected_table, &found_table);
    comparison.slice("marks", &expected_marks, &found_marks);
    let answer = match expected_out[..] {
        [_, _, 0, ..] => 0,
        [rows, _, marked, ..] if rows == marked => 1,
        _ => 2,
    };
    comparison.close(class(expected, answer), || {
        let others = vec![
            ("member", member.to_string()),
            ("table length", table.len().to_string()),
            ("marks length", marks.len().to_string()),
            ("out at entry", list(&out)),
        ];
        (Input::Task(words), others)
    })
}
