//! The text reader.

use super::step::random_out;
use super::task_words;
use crate::case::{class, list, Checked, Comparison, Input};
use crate::lent::Lent;
use reference::generate::{contents, text};
use reference::interface::{out_length, Interface};
use reference::paper::interface as paper;
use reference::paper::task::ROW;
use reference::paper::text::RECORDS;
use reference::random::Random;

/// Words that the reader asks for.
pub const ASKED: usize = RECORDS * ROW;

/// Those that it asked for before laws had 128 facts.
const OLD: usize = 5 * RECORDS;

pub fn read(random: &mut Random, checked: &impl Interface) -> Checked {
    let mut bytes = text::of_words(&task_words(random, 25)).into_bytes();
    if random.chance(60) {
        text::damage(random, &mut bytes);
    }
    let asked = ASKED;
    let length = match random.below(20) {
        0 => random.one_of(&[0, 1, OLD, asked - ROW, asked - 1, asked - 1]),
        1..=3 => asked + random.between(1, 7),
        _ => asked,
    };
    read_on(random, checked, bytes, length)
}

/// This text, with a word slice of this length.
pub fn read_on(
    random: &mut Random,
    checked: &impl Interface,
    bytes: Vec<u8>,
    length: usize,
) -> Checked {
    let words: Vec<u64> = contents(random, length);
    let out = random_out(random, out_length::READ);
    let (mut expected_words, mut expected_out) = (words.clone(), out.clone());
    let expected = paper::read(&bytes, &mut expected_words, &mut expected_out);
    let (mut found_words, mut found_out) = (Lent::new(&words), Lent::new(&out));
    let found = checked.read(&bytes, found_words.slice(), found_out.slice());
    let mut comparison = Comparison::new("lawcheck_read");
    comparison.answer((expected, &expected_out), found, &found_out);
    comparison.slice("words", &expected_words, &found_words);
    comparison.close(class(expected, 0), || {
        let others = vec![("words length", words.len().to_string()), ("out at entry", list(&out))];
        (Input::Text(bytes), others)
    })
}
