//! The task check and the step.

use super::task_words;
use crate::case::{class, list, Checked, Comparison, Input};
use crate::lent::Lent;
use reference::generate::{all, contents, lacking, length_near, some};
use reference::interface::{mask_of, mask_words, missing, out_length, Interface, FACTS, MASK, ROW};
use reference::paper::interface as paper;
use reference::random::Random;

pub fn task(random: &mut Random, checked: &impl Interface) -> Checked {
    let words = task_words(random, 80);
    task_on(checked, words)
}

/// The task check of these words.
pub fn task_on(checked: &impl Interface, words: Vec<u64>) -> Checked {
    let expected = paper::task(&words);
    let found = checked.task(&words);
    let mut comparison = Comparison::new("lawcheck_task");
    comparison.answer((expected, &[]), found, &Lent::new(&[]));
    comparison.close(class(expected, 0), || (Input::Task(words), Vec::new()))
}

pub fn step(random: &mut Random, checked: &impl Interface) -> Checked {
    let words = task_words(random, 10);
    let actions = words.get(2).copied().unwrap_or(0).min(256) as usize;
    let action = match random.below(12) {
        0 => random.one_of(&[actions as u16, 256, u16::MAX]),
        _ => random.below(actions.max(1)) as u16,
    };
    let shared = shared_copy(random, &words, action);
    step_on(random, checked, words, action, shared)
}

/// A step of this action at this shared copy.
pub fn step_on(
    random: &mut Random,
    checked: &impl Interface,
    words: Vec<u64>,
    action: u16,
    shared: Vec<u64>,
) -> Checked {
    let out = random_out(random, out_length::STEP);
    let mut expected_out = out.clone();
    let expected = paper::step(&words, action, &shared, &mut expected_out);
    let mut found_out = Lent::new(&out);
    let found = checked.step(&words, action, &shared, found_out.slice());
    let mut comparison = Comparison::new("lawcheck_step");
    comparison.answer((expected, &expected_out), found, &found_out);
    comparison.lacks((expected, &expected_out), missing::STEP);
    if (expected, found) == (0, 0) {
        if let Err(difference) = lacks_as_it_has_to(&words, action, &shared, found_out.held()) {
            comparison.differ(difference);
        }
    }
    let answer = expected_out.first().copied().unwrap_or(0);
    comparison.close(class(expected, answer), || {
        let others = vec![
            ("action", action.to_string()),
            ("shared", list(&shared)),
            ("out at entry", list(&out)),
        ];
        (Input::Task(words), others)
    })
}

/// What a step was found to tell as missing, without looking at the paper: in a collision some
/// preconditions, none of which the shared copy has while it has all others; else none.
fn lacks_as_it_has_to(
    words: &[u64],
    action: u16,
    shared: &[u64],
    found: &[u64],
) -> Result<(), String> {
    let told = mask_of(&found[missing::STEP]);
    let pre = mask_of(&words[ROW * (1 + words[1] as usize + action as usize) + 1..]);
    let shared = mask_of(shared);
    let right = match found[0] {
        2 => told != 0 && told & !pre == 0 && told & shared == 0 && pre & !told & !shared == 0,
        _ => told == 0,
    };
    if right {
        Ok(())
    } else {
        Err(format!("{told:#x} is told as missing of {pre:#x} at {shared:#x}"))
    }
}

/// What an operation was found to tell as missing is what the same implementation's step tells of
/// the action at the shared copy that was met, where it collides; else none.
pub fn lacks_as_the_step(
    checked: &impl Interface,
    words: &[u64],
    met: Option<(u16, &[u64])>,
    told: &[u64],
) -> Result<(), String> {
    let Some((action, shared)) = met else {
        return match told {
            [0, 0] => Ok(()),
            _ => Err(format!("{told:?} is told as missing, and nothing collides")),
        };
    };
    let mut out = [0; out_length::STEP];
    let refusal = checked.step(words, action, shared, &mut out);
    if (refusal, out[0], &out[missing::STEP]) == (0, 2, told) {
        Ok(())
    } else {
        Err(format!("{told:?} is told as missing; its own step returns {refusal}, out {out:?}"))
    }
}

/// A shared copy: near the action's preconditions, all but some of them, anything within F, or
/// anything; mostly two words, at times exchanged.
fn shared_copy(random: &mut Random, words: &[u64], action: u16) -> Vec<u64> {
    let facts = words.first().copied().unwrap_or(1).clamp(1, FACTS as u64) as usize;
    let known = all(facts);
    let goals = words.get(1).copied().unwrap_or(1).min(8) as usize;
    let row = ROW * (1 + goals + action as usize);
    let copy = match (random.below(14), words.get(row..row + ROW)) {
        (0..=2, Some(row)) => (mask_of(&row[1..]) | some(random, facts)) & known,
        (3..=5, Some(row)) => (mask_of(&row[3..]) | some(random, facts)) & known,
        (6, _) => random.mask(),
        (7, _) => u128::MAX,
        (8, Some(row)) => mask_of(&row[1..]).rotate_left(64),
        (9, _) => known | 1 << random.below(FACTS),
        (10..=11, Some(row)) => {
            let [pre, wait] = [1, 1 + MASK].map(|mask| mask_of(&row[mask..]));
            lacking(random, facts, pre, wait) & known
        }
        _ => some(random, facts),
    };
    let mut copy = mask_words(copy).to_vec();
    if random.chance(5) {
        copy.resize(random.one_of(&[0, 1, 1, 3, 3, 4]), 0);
    }
    copy
}

/// An `out` at entry: mostly just long enough.
pub fn random_out(random: &mut Random, asked: usize) -> Vec<u64> {
    let length = match random.below(20) {
        0 => random.below(asked),
        _ => length_near(random, asked).max(asked),
    };
    contents(random, length)
}
