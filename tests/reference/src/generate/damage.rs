//! Damage to valid tasks, one kind for each place that the task check looks at.

use crate::interface::{mask_of, mask_words, FACTS, MASK, ROW};
use crate::law::old_rows;
use crate::random::Random;

/// Damages a valid task once, sometimes twice.
pub fn damage(random: &mut Random, words: &mut Vec<u64>) {
    once(random, words);
    if random.chance(40) {
        once(random, words);
    }
}

fn once(random: &mut Random, words: &mut Vec<u64>) {
    if words.len() < ROW {
        return;
    }
    let facts = words[0].clamp(1, FACTS as u64) as usize;
    let goals = (words[1] as usize).min(words.len() / ROW - 1);
    let actions = (words.len() / ROW - 1 - goals).min(words[2] as usize);
    let goal_row = ROW * random.between(1, goals.max(1));
    let action_row = ROW * (1 + goals + random.below(actions.max(1)));
    let mask_of_action = action_row + 1 + MASK * random.below(4);
    // A bit at or above F: the next one, the last one, or one beside the edge between the words.
    let above = random.one_of(&[facts, facts, FACTS - 1, 63, 64, 65]);
    let above = if (facts..FACTS).contains(&above) { 1 << above } else { 0 };
    let any = random.below(words.len());
    let odd = random.one_of(&[1, u64::MAX, 1 << 63]);
    match random.below(22) {
        0 => words.truncate(words.len().saturating_sub(random.between(1, ROW + 1))),
        1 => words.extend(vec![0; random.one_of(&[1, ROW - 1, ROW])]),
        2 => words.truncate(random.one_of(&[0, 1, 5, ROW - 1, ROW])),
        3 => words[0] = 0,
        4 => {
            let most = FACTS as u64;
            words[0] = random.one_of(&[most + 1, most + 1, most + 2, 192, 256, u64::MAX, 1 << 63]);
        }
        5 => words[1] = random.one_of(&[0, 9, u64::MAX, 1 << 61]),
        6 => {
            let size = &mut words[random.between(1, 2)];
            *size = size.wrapping_add(random.one_of(&[1, u64::MAX]));
        }
        7 => words[2] = random.one_of(&[257, u64::MAX, 1 << 62]),
        8 => words[random.between(5, ROW - 1)] = odd,
        9 => change_mask(words, 3, |initial| initial | above),
        10 => change(words, goal_row, |member| member ^ random.one_of(&[1, 8, u64::MAX])),
        11 => change(words, goal_row + random.between(3, ROW - 1), |_| odd),
        12 => change_mask(words, goal_row + 1, |goal| goal | above),
        13 => change(words, action_row, |_| random.one_of(&[goals as u64, 8, u64::MAX])),
        14 => change_mask(words, mask_of_action, |mask| mask | above),
        15 => {
            let bit = 1 << random.below(facts);
            change_mask(words, action_row + 1, |pre| pre & !bit);
            change_mask(words, action_row + 3, |wait| wait | bit);
        }
        16 => change(words, any, |_| u64::MAX),
        17 => {
            // More than one thing wrong in a row.
            for _ in 0..3 {
                let [low, high] = mask_words(above);
                let wrong = random.one_of(&[1, 8, low, high, u64::MAX]);
                change(words, any - any % ROW + random.below(ROW), |_| wrong);
            }
        }
        18 => *words = old_rows(words),
        19 => {
            let place = random.one_of(&[3, goal_row + 1, mask_of_action]);
            change_mask(words, place, |mask| mask.rotate_left(64));
        }
        20 => {
            let mask = random.one_of(&[3, goal_row + 1, mask_of_action]);
            change_mask(words, mask, |mask| mask ^ 1 << random.below(FACTS));
        }
        _ => change(words, any, |word| word ^ 1 << random.below(64)),
    }
}

/// Changes a word, where there is one.
fn change(words: &mut [u64], place: usize, new: impl FnOnce(u64) -> u64) {
    if let Some(word) = words.get_mut(place) {
        *word = new(*word);
    }
}

/// Changes a mask, where there is one.
fn change_mask(words: &mut [u64], place: usize, new: impl FnOnce(u128) -> u128) {
    if let Some(mask) = words.get_mut(place..place + MASK) {
        mask.copy_from_slice(&mask_words(new(mask_of(mask))));
    }
}
