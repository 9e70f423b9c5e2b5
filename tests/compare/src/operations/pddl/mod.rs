//! Laws in PDDL: the reader and the writer. The writer's spelling is free, so its texts are read
//! back.

pub mod sizes;

use super::step::random_out;
use super::task_words;
use crate::case::{class, list, Checked, Comparison, Input};
use crate::lent::Lent;
use reference::generate::contents;
use reference::generate::pddl::{self as generate, Draft, Spelling};
use reference::interface::{out_length, Pddl};
use reference::paper::interface as paper;
use reference::paper::pddl::grouped;
use reference::paper::pddl::words as told;
use reference::paper::task::ROW;
use reference::paper::text::RECORDS;
use reference::random::Random;

/// The length of a slice that the writer does not refuse.
pub const ENOUGH: usize = 1_048_576;

/// Runs the case with this number: one that is made for a size, or one chosen by the random
/// numbers.
pub fn case(case: u64, random: &mut Random, checked: &impl Pddl) -> Checked {
    sizes::any(case, random, checked).unwrap_or_else(|| match random.below(100) {
        0..=84 => read(random, checked),
        _ => write(random, checked),
    })
}

// ---- the reader

/// A text in any spelling, mostly damaged in some way.
pub fn read(random: &mut Random, checked: &impl Pddl) -> Checked {
    let (text, waits) = generate::any_text(random);
    let length = word_slice(random, &text, &waits);
    read_on(random, checked, text, waits, length)
}

/// The length of a word slice near what the task needs.
fn word_slice(random: &mut Random, text: &[u8], waits: &[u8]) -> usize {
    let needed = told(text, waits).map_or(random.between(0, 40), |words| words.len());
    match random.below(20) {
        0 => 0,
        1..=3 => needed.saturating_sub(1),
        4 => random.below(needed + 1),
        5..=8 => needed + random.between(1, 9),
        9 => RECORDS * ROW,
        _ => needed,
    }
}

/// This text with these waits, and a word slice of this length.
pub fn read_on(
    random: &mut Random,
    checked: &impl Pddl,
    text: Vec<u8>,
    waits: Vec<u8>,
    length: usize,
) -> Checked {
    let words: Vec<u64> = contents(random, length);
    let out = random_out(random, out_length::PDDL_READ);
    let (mut expected_words, mut expected_out) = (words.clone(), out.clone());
    let expected = paper::pddl_read(&text, &waits, &mut expected_words, &mut expected_out);
    let (mut found_words, mut found_out) = (Lent::new(&words), Lent::new(&out));
    let found = checked.pddl_read(&text, &waits, found_words.slice(), found_out.slice());
    let mut comparison = Comparison::new("lawcheck_pddl_read");
    comparison.answer((expected, &expected_out), found, &found_out);
    comparison.slice("words", &expected_words, &found_words);
    comparison.close(class(expected, 0), || {
        let others = vec![("words length", words.len().to_string()), ("out at entry", list(&out))];
        (Input::Pddl(text, waits), others)
    })
}

/// A spelling that adds nothing.
pub const PLAIN: Spelling = Spelling { turned: 0, loose: 0, comments: 0 };

/// A law in some spelling, with its waits, and words just enough, a little more or one too few.
fn read_draft(
    random: &mut Random,
    checked: &impl Pddl,
    draft: &Draft,
    spelling: Spelling,
) -> Checked {
    let text = generate::spelled(random, &generate::pieces(draft), spelling);
    let waits = generate::waits(random, draft);
    let length = word_slice(random, &text, &waits);
    read_on(random, checked, text, waits, length)
}

// ---- the writer

pub fn write(random: &mut Random, checked: &impl Pddl) -> Checked {
    let task = task_words(random, 30);
    let lengths = match random.below(10) {
        0 => [Near::Less, Near::Just],
        1 => [Near::Just, Near::Less],
        2 => [Near::None, Near::None],
        3 | 4 => [Near::Enough, Near::Enough],
        5 | 6 => [Near::More(random.between(1, 99)), Near::Just],
        7 => [Near::Just, Near::More(random.between(1, 99))],
        _ => [Near::Just, Near::Just],
    };
    write_on(random, checked, task, lengths)
}

/// How long a slice is beside its text.
#[derive(Clone, Copy, Debug)]
pub enum Near {
    None,
    Less,
    Just,
    More(usize),
    Enough,
}

impl Near {
    fn length(self, text: usize) -> usize {
        match self {
            Near::None => 0,
            Near::Less => text.saturating_sub(1),
            Near::Just => text,
            Near::More(more) => text + more,
            Near::Enough => ENOUGH,
        }
    }
}

/// This task, in slices of these lengths. Its texts come from slices that are never refused; there
/// they are read back.
pub fn write_on(
    random: &mut Random,
    checked: &impl Pddl,
    task: Vec<u64>,
    lengths: [Near; 2],
) -> Checked {
    let mut comparison = Comparison::new("lawcheck_pddl_write");
    let refused = paper::task(&task);
    let mut texts = [Vec::new(), Vec::new()];
    if refused == 0 {
        match written(checked, &task) {
            Ok(told) => texts = told,
            Err(difference) => comparison.differ(difference),
        }
    }
    let out = random_out(random, out_length::PDDL_WRITE);
    let rooms = [lengths[0].length(texts[0].len()), lengths[1].length(texts[1].len())];
    let lent = rooms.map(|room| contents::<u8>(random, room));
    let expected = if out.len() < out_length::PDDL_WRITE {
        14
    } else if refused != 0 {
        refused
    } else if rooms[0] < texts[0].len() || rooms[1] < texts[1].len() {
        14
    } else {
        0
    };
    let (mut expected_out, mut expected_slices) = (out.clone(), lent.clone());
    if expected == 0 {
        for (place, text) in texts.iter().enumerate() {
            expected_out[place] = text.len() as u64;
            expected_slices[place].fill(0);
            expected_slices[place][..text.len()].copy_from_slice(text);
        }
    }
    let mut found_out = Lent::new(&out);
    let [mut text, mut waits] = [Lent::new(&lent[0]), Lent::new(&lent[1])];
    let found = checked.pddl_write(&task, text.slice(), waits.slice(), found_out.slice());
    comparison.answer((expected, &expected_out), found, &found_out);
    comparison.slice("text", &expected_slices[0], &text);
    comparison.slice("waits", &expected_slices[1], &waits);
    comparison.close(class(expected, 0), || {
        let others = vec![
            ("text length", rooms[0].to_string()),
            ("waits length", rooms[1].to_string()),
            ("out at entry", list(&out)),
        ];
        (Input::Task(task), others)
    })
}

/// The texts of an accepted task, which read back to it with its actions grouped, or what is wrong.
fn written(checked: &impl Pddl, task: &[u64]) -> Result<[Vec<u8>; 2], String> {
    let (mut text, mut waits, mut out) = (vec![7; ENOUGH], vec![7; ENOUGH], [7; 2]);
    let returned = checked.pddl_write(task, &mut text, &mut waits, &mut out);
    if returned != 0 {
        return Err(format!("refused with {returned} in slices of {ENOUGH} bytes"));
    }
    for (slice, length) in [&mut text, &mut waits].into_iter().zip(out) {
        if length > ENOUGH as u64 {
            return Err(format!("a length of {length}"));
        }
        if slice[length as usize..].iter().any(|&byte| byte != 0) {
            return Err("no zeros behind a text".to_string());
        }
        slice.truncate(length as usize);
    }
    match told(&text, &waits) {
        Ok(words) if words == grouped(task) => Ok([text, waits]),
        Ok(words) => Err(format!("read back it is {} rows: {words:?}", words.len() / ROW)),
        Err(refusal) => Err(format!("read back it is refused with {refusal}")),
    }
}
