//! Generated inputs. Everything comes from one [`Random`], so a seed and a case number give a case
//! again.

pub mod damage;
pub mod families;
pub mod pddl;
pub mod plans;
pub mod sizes;
pub mod text;

pub use crate::law::{all, Law};
use crate::random::Random;

/// A mask of up to `most` of the first `facts` facts.
pub fn few(random: &mut Random, facts: usize, most: usize) -> u128 {
    (0..random.between(0, most)).fold(0, |mask, _| mask | 1 << random.below(facts))
}

/// Any number of the first `facts` facts; where a mask has bits in both words, at times in one of
/// them alone.
pub fn some(random: &mut Random, facts: usize) -> u128 {
    let mask = random.mask() & all(facts);
    match random.below(6) {
        0 if facts > 64 => mask & all(64),
        1 if facts > 64 => mask & !all(64),
        _ => mask,
    }
}

/// One fact of a mask, two or more, as far as it has them.
fn some_of(random: &mut Random, mask: u128) -> u128 {
    let facts: Vec<u32> = (0..u128::BITS).filter(|fact| mask >> fact & 1 == 1).collect();
    if facts.is_empty() {
        return 0;
    }
    let many = random.below(facts.len() + 1);
    let number = random.one_of(&[1, 1, 2, 2, 3, many, 4 * facts.len()]);
    (0..number).fold(0, |some, _| some | 1 << random.one_of(&facts))
}

/// A copy that lacks some of these preconditions, mostly none of those that are waited for.
pub fn lacking(random: &mut Random, facts: usize, pre: u128, wait: u128) -> u128 {
    let lost = some_of(random, pre);
    let kept = if random.chance(80) { wait } else { 0 };
    pre & !lost | kept | some(random, facts) & !pre
}

/// Any order of the items.
pub fn shuffle<T>(random: &mut Random, items: &mut [T]) {
    for last in (1..items.len()).rev() {
        items.swap(last, random.below(last + 1));
    }
}

/// An element of a lent slice.
pub trait Cell: Copy + PartialEq + std::fmt::Display {
    /// Stands around a lent slice, to show a write outside it.
    const GUARD: Self;
    const ONES: Self;
    const ZERO: Self;
    fn of_word(word: u64) -> Self;
}

macro_rules! cell {
    ($($number:ty),*) => {$(
        impl Cell for $number {
            const GUARD: Self = 0xa5a5a5a5a5a5a5a5u64 as $number;
            const ONES: Self = <$number>::MAX;
            const ZERO: Self = 0;
            fn of_word(word: u64) -> Self {
                word as $number
            }
        }
    )*};
}
cell!(u8, u16, u64);

/// What a lent slice holds at entry: zeros, all ones, or anything.
pub fn contents<T: Cell>(random: &mut Random, length: usize) -> Vec<T> {
    match random.below(5) {
        0 => vec![T::ZERO; length],
        1 => vec![T::ONES; length],
        _ => (0..length).map(|_| T::of_word(random.word())).collect(),
    }
}

/// A length near one that is asked: mostly the same, else one less, a little more, or nothing.
pub fn length_near(random: &mut Random, asked: usize) -> usize {
    match random.below(100) {
        0..=79 => asked,
        80..=83 => asked.saturating_sub(1),
        84 => random.below(asked + 1),
        85 => 0,
        _ => asked + random.between(1, 4),
    }
}
