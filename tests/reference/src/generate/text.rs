//! Tasks as text, and damage to texts.

use crate::interface::ROW;
use crate::random::Random;
use std::fmt::Write;

/// Words as records of nine fields, each ended by CR LF.
pub fn of_words(words: &[u64]) -> String {
    let mut text = String::new();
    for record in words.chunks(ROW) {
        for (field, word) in record.iter().enumerate() {
            let comma = if field == 0 { "" } else { "," };
            write!(text, "{comma}{word}").expect("a string takes every text");
        }
        text.push_str("\r\n");
    }
    text
}

/// Damages a text, or leaves it as it is in another allowed form.
pub fn damage(random: &mut Random, text: &mut Vec<u8>) {
    let at = |random: &mut Random, text: &[u8]| random.below(text.len() + 1);
    match random.below(17) {
        0 => {
            // The last record may lack its CR LF.
            text.truncate(text.len().saturating_sub(2));
        }
        1 => text.truncate(text.len().saturating_sub(1)),
        2 => text.extend(random.one_of(&[
            &b"\r\n"[..],
            b"\r",
            b"\n",
            b" ",
            b",",
            b"0",
            b"\0",
            b"\x1a",
        ])),
        3 => text.clear(),
        4 => {
            let place = at(random, text);
            text.truncate(place);
        }
        5 => {
            let place = at(random, text);
            let byte = random.one_of(b"0123456789,,\r\n\"- +.x\xff\0;/:");
            text.insert(place, byte);
        }
        6 if !text.is_empty() => {
            let place = random.below(text.len());
            text.remove(place);
        }
        7 if !text.is_empty() => {
            let place = random.below(text.len());
            text[place] = random.word() as u8;
        }
        8 => replace_field(random, text, b"18446744073709551615"),
        9 => replace_field(random, text, b"18446744073709551616"),
        10 => {
            let field = random.one_of(&[
                &b"00"[..],
                b"01",
                b"",
                b"-1",
                b"+1",
                b"1.0",
                b"0x1",
                b"\"1\"",
                b" 1",
                b"1 ",
                b"99999999999999999999",
                b"36893488147419103232",
                b"100000000000000000000000000000000000000000",
                b"000000000000000000000000",
            ]);
            replace_field(random, text, field);
        }
        11 => *text = lines(text).join(&b"\n"[..]),
        12 => *text = lines(text).join(&b"\r"[..]),
        13 => {
            // More records than a task can have, at the edge.
            let records = random.one_of(&[264, 265, 266, 267, 400]);
            let kept = lines(text);
            while text.ends_with(b"\r\n") {
                text.truncate(text.len() - 2);
            }
            for _ in kept.len()..records {
                text.extend(b"\r\n0,0,0,0,0,0,0,0,0");
            }
            if random.chance(50) {
                text.extend(b"\r\n");
            }
        }
        14 => text.splice(0..0, *b"facts,members,actions,0,0,0,0,0,0\r\n").for_each(drop),
        15 => {
            // Records of fewer fields: of five they were before laws had 128 facts.
            let fields = random.one_of(&[5, 5, 5, 8]);
            let short = |line: Vec<u8>| {
                let kept: Vec<&[u8]> = line.split(|&byte| byte == b',').take(fields).collect();
                kept.join(&b","[..])
            };
            let records: Vec<Vec<u8>> = lines(text).into_iter().map(short).collect();
            *text = records.join(&b"\r\n"[..]);
        }
        _ => text.splice(0..0, *b"\r\n").for_each(drop),
    }
}

/// The records without their line ends.
fn lines(text: &[u8]) -> Vec<Vec<u8>> {
    let mut lines: Vec<Vec<u8>> = text
        .split(|&byte| byte == b'\n')
        .map(|line| line.strip_suffix(b"\r").unwrap_or(line).to_vec())
        .collect();
    if lines.last().is_some_and(Vec::is_empty) {
        lines.pop();
    }
    lines
}

/// Puts something in the place of one field.
fn replace_field(random: &mut Random, text: &mut Vec<u8>, field: &[u8]) {
    let is_digit = |byte: &u8| byte.is_ascii_digit();
    let from = random.below(text.len() + 1);
    let begin = from + text[from..].iter().position(is_digit).unwrap_or(0);
    let begin = begin - text[..begin].iter().rev().take_while(|byte| is_digit(byte)).count();
    let end = begin + text[begin..].iter().take_while(|byte| is_digit(byte)).count();
    text.splice(begin..end, field.iter().copied()).for_each(drop);
}
