//! Generated texts: laws of exact size, texts at the edge, then laws at random, valid and damaged.

use crate::sizes::{self, Size};
use reference::generate::{damage, families, text};
use reference::paper::task::ROW;
use reference::paper::text::RECORDS;
use reference::random::Random;

/// The bytes of the longest text that can be read: each field of 20 digits, and what ends it.
pub const LONGEST: u64 = (RECORDS * (ROW * 21 + 1)) as u64;

/// The text with this number. The first ones are the same sizes for every seed.
pub fn made(seed: u64, number: u64) -> Vec<u8> {
    let random = &mut Random::new(seed, number);
    let (sizes, edges) = (sizes::all(), edges());
    let number = number as usize;
    if let Some(size) = sizes.get(number) {
        return text::of_words(&size.law(random).words()).into_bytes();
    }
    edges.get(number - sizes.len()).cloned().unwrap_or_else(|| any(random))
}

/// How many texts stand before the random ones.
pub fn fixed() -> u64 {
    (sizes::all().len() + edges().len()) as u64
}

/// Texts at the edge of what is read.
fn edges() -> Vec<Vec<u8>> {
    let longest = (["18446744073709551615"; ROW].join(",") + "\r\n").repeat(RECORDS);
    let zero = ["0"; ROW].join(",");
    let zeros = (zero.clone() + "\r\n").repeat(RECORDS);
    let l5 = "1,1,0,1,0,0,0,0,0\r\n0,1,0,0,0,0,0,0,0";
    let bytes = LONGEST as usize;
    [
        String::new(),
        "\r\n".into(),
        longest.clone(),
        longest[..longest.len() - 2].into(),
        longest[..longest.len() - 1].into(),
        longest.clone() + "0",
        longest.clone() + "\r\n",
        longest.replacen("15,", "16,", 1),
        longest.repeat(5),
        zeros.clone(),
        zeros.clone() + &zero,
        zeros.clone() + &zero + "\r\n",
        zeros.repeat(9),
        l5.into(),
        l5.to_string() + "\r\n",
        l5.to_string() + "\r\n\r\n",
        l5.to_string() + "\r\n\0",
        "7".repeat(bytes),
        ",".repeat(bytes),
        "\r\n".repeat(300),
        // As rows were before laws had 128 facts.
        "1,1,0,1,0\r\n0,1,0,0,0".into(),
        "1,1,0,1,0\r\n0,1,0,0,0\r\n".into(),
    ]
    .map(String::into_bytes)
    .into()
}

/// A law at random as text, in three of five cases damaged in its words or its bytes.
fn any(random: &mut Random) -> Vec<u8> {
    let mut words = match random.below(100) {
        0..=2 => families::at_the_limits(random),
        3..=12 => {
            let (members, count) = (random.between(2, 8), random.between(1, 200));
            Size::Configurations { members, count }.law(random).words()
        }
        13..=32 => families::choices(random).words(),
        _ => families::small(random),
    };
    if random.chance(25) {
        damage::damage(random, &mut words);
    }
    let mut bytes = text::of_words(&words).into_bytes();
    match random.below(10) {
        0..=4 => {}
        5 => text::damage(random, &mut bytes),
        _ => damaged(random, &mut bytes),
    }
    bytes
}

/// Damages the bytes or the lines of a text.
fn damaged(random: &mut Random, text: &mut Vec<u8>) {
    let mut lines: Vec<Vec<u8>> =
        text.split_inclusive(|&byte| byte == b'\n').map(<[u8]>::to_vec).collect();
    if lines.is_empty() {
        return;
    }
    let (at, other) = (random.below(lines.len()), random.below(lines.len()));
    let place = random.below(text.len());
    match random.below(14) {
        0 => (0..random.between(1, 8)).for_each(|_| {
            let place = random.below(text.len());
            text[place] = random.word() as u8;
        }),
        1 => text.truncate(place),
        2 => text.splice(place..place, noise(random, 20)).for_each(drop),
        3 => *text = noise(random, 2000),
        4 => *text = (0..random.below(60)).map(|_| random.one_of(b"0012589,,,,\r\n\n")).collect(),
        choice => {
            match choice {
                5 => drop(lines.remove(at)),
                6 => {
                    let kept = random.below(lines[at].len());
                    lines[at].truncate(kept);
                    lines[at].extend(b"\r\n");
                }
                7 => lines.insert(at, lines[at].clone()),
                8 => lines.swap(at, other),
                9 => lines[at].retain(|&byte| byte != b'\r'),
                10 => lines[at].retain(|&byte| byte != b'\n'),
                11 => lines.resize(random.between(265, 300), lines[at].clone()),
                12 => {
                    let zeros = vec![b'0'; random.between(1, 3)];
                    field(random, &mut lines[at], |number| [&zeros[..], number].concat());
                }
                _ => {
                    let large = random.one_of(&[
                        &b"18446744073709551615"[..],
                        b"18446744073709551616",
                        b"18446744073709551625",
                        b"20000000000000000000",
                        b"99999999999999999999",
                        b"184467440737095516150",
                        b"340282366920938463463374607431768211456",
                    ]);
                    field(random, &mut lines[at], |_| large.to_vec());
                }
            }
            *text = lines.concat();
        }
    }
}

/// Any bytes, at most so many.
fn noise(random: &mut Random, most: usize) -> Vec<u8> {
    (0..random.between(1, most)).map(|_| random.word() as u8).collect()
}

/// Puts another number in the place of one of a line's.
fn field(random: &mut Random, line: &mut Vec<u8>, new: impl Fn(&[u8]) -> Vec<u8>) {
    let end = line.strip_suffix(b"\r\n").map_or(line.len(), <[u8]>::len);
    let mut fields: Vec<Vec<u8>> =
        line[..end].split(|&byte| byte == b',').map(<[u8]>::to_vec).collect();
    let place = random.below(fields.len());
    fields[place] = new(&fields[place]);
    line.splice(..end, fields.join(&b','));
}
