//! Laws of exact size: tables that are just full or lack one row, and conflicts of any length.

use crate::file::{configurations_room, copies_room};
use reference::generate::families::widened;
use reference::generate::sizes::{lacking, sizes};
use reference::generate::Law;
use reference::interface::FACTS;
use reference::random::Random;
use std::collections::BTreeSet;

/// A size, and the law that has it.
#[derive(Clone, Copy, Debug, PartialEq)]
pub enum Size {
    /// So many configurations of so many members, two of whom move.
    Configurations { members: usize, count: usize },
    /// So many local copies of one member; the others have one.
    Copies { members: usize, member: usize, count: usize },
    /// A conflict of two members after 2^bits - 1 picks, or one less where the table has no room
    /// for all copies, by waiting or in a collision.
    Picks { bits: usize, waits: bool },
    /// The last member has no plan.
    Unsolvable { members: usize },
    /// A collision for want of so many facts.
    Missing { facts: usize },
    /// 265 records, with every mask full.
    Records,
}

/// One of each size: every table a row short of full, full, and a row too short.
pub fn all() -> Vec<Size> {
    let mut all = vec![Size::Records];
    for members in 2..=8 {
        let room = configurations_room(members);
        all.extend([room - 1, room, room + 1].map(|count| Size::Configurations { members, count }));
    }
    for members in 1..=8 {
        let room = copies_room(members);
        for member in BTreeSet::from([0, members - 1]) {
            all.extend([room, room + 1].map(|count| Size::Copies { members, member, count }));
        }
    }
    for bits in 1..=10 {
        all.extend([false, true].map(|waits| Size::Picks { bits, waits }));
    }
    all.extend((1..=8).map(|members| Size::Unsolvable { members }));
    all.extend(sizes(FACTS).into_iter().map(|facts| Size::Missing { facts }));
    all
}

impl Size {
    /// A law of this size. Its facts may stand anywhere, and its actions in any order.
    pub fn law(self, random: &mut Random) -> Law {
        let law = match self {
            Size::Configurations { members, count } => {
                configurations(members, count, random.chance(50))
            }
            Size::Copies { members, member, count } => copies(members, member, count),
            Size::Picks { bits, waits } => picks(bits, waits),
            Size::Unsolvable { members } => unsolvable(members),
            Size::Missing { facts } => lacking(random, facts),
            Size::Records => return records(),
        };
        let (members, actions) = (law.goals.len(), law.actions.len());
        match random.below(10) {
            0 if members > 1 => widened(random, law, FACTS, members, 256),
            1..=4 => widened(random, law, FACTS, members, actions),
            _ => law,
        }
    }
}

/// Facts that hold the digits of a number in base two, two for each: one for 0 and one for 1.
#[derive(Clone, Copy)]
struct Register {
    first: usize,
    bits: usize,
}

impl Register {
    fn holds(self, number: usize) -> u128 {
        (0..self.bits).fold(0, |mask, bit| mask | self.digit(bit, number >> bit & 1))
    }

    fn digit(self, bit: usize, digit: usize) -> u128 {
        1 << (self.first + 2 * bit + digit)
    }
}

/// The bits that a number below `limit` needs.
fn bits(limit: usize) -> usize {
    (usize::BITS - (limit - 1).leading_zeros()) as usize
}

/// Two members who walk along a and b copies, the first `count` configurations of a times b: where
/// that is more, the last step of the one and a step of the other shut each other out, in a
/// collision or by waiting.
fn configurations(members: usize, count: usize, waits: bool) -> Law {
    let a = (1..).find(|a| a * a >= count).expect("some square is as large");
    let b = count.div_ceil(a);
    let cut = a * b - count;
    let one = Register { first: 2, bits: bits(a) };
    let other = Register { first: 2 + 2 * one.bits, bits: bits(b) };
    let (mine, yours) = (1, 2);
    let mut law = Law {
        facts: other.first + 2 * other.bits,
        initial: one.holds(0) | other.holds(0) | mine | yours,
        goals: vec![0; members],
        actions: Vec::new(),
    };
    // The members that move: the first and the last.
    let walks = [(0, one, a, a - cut, yours, mine), (members - 1, other, b, b - 1, mine, yours)];
    for (member, register, length, shut, needs, takes) in walks {
        law.goals[member] = register.holds(length - 1);
        for place in 1..length {
            let (here, there) = (register.holds(place - 1), register.holds(place));
            let (needs, takes) = if cut > 0 && place == shut { (needs, takes) } else { (0, 0) };
            let wait = if waits { needs } else { 0 };
            law.actions.push([member as u128, here | needs, wait, there, (here & !there) | takes]);
        }
    }
    law
}

/// The most facts of the chains below.
const FEW: usize = 80;

/// A member who walks along chains of its own, a chain for each prime factor of the count, or of
/// the next number below it whose chains have few facts; then as many last steps as there are
/// copies left, each after all before it.
fn copies(members: usize, member: usize, count: usize) -> Law {
    let few = |number: &usize| factors(*number).iter().sum::<usize>() <= FEW;
    let whole = (1..=count).rev().find(few).expect("1 has no factors");
    let mut law = Law { facts: 1, initial: 1, goals: vec![0; members], actions: Vec::new() };
    for length in factors(whole) {
        law.initial |= 1 << law.facts;
        for place in law.facts + 1..law.facts + length {
            law.actions.push([member as u128, 1 << (place - 1), 0, 1 << place, 1 << (place - 1)]);
        }
        law.facts += length;
        law.goals[member] |= 1 << (law.facts - 1);
    }
    let mut done = law.goals[member];
    for _ in whole..count {
        let last = 1 << law.facts;
        law.actions.push([member as u128, done, 0, last, 0]);
        (law.facts, done) = (law.facts + 1, done | last);
    }
    law
}

fn factors(mut number: usize) -> Vec<usize> {
    let mut factors = Vec::new();
    while number > 1 {
        let factor =
            (2..).find(|factor| number.is_multiple_of(*factor)).expect("the number itself");
        factors.push(factor);
        number /= factor;
    }
    factors
}

/// A member who counts to 2^bits - 1, with an action for each digit; another action, for its last
/// step, takes away what the one action of the other needs. It counts from 1 where the table has
/// no room for one copy more.
fn picks(bits: usize, waits: bool) -> Law {
    let register = Register { first: 1, bits };
    let last = (1 << bits) - 1;
    let first = usize::from(last + 2 > copies_room(2));
    let mut law = Law {
        facts: 1 + 2 * bits,
        initial: 1 | register.holds(first),
        goals: vec![register.holds(last), 0],
        actions: vec![[1, 1, u128::from(waits), 0, 0]],
    };
    for bit in 0..bits {
        let below = |digit| (0..bit).fold(0, |mask, low| mask | register.digit(low, digit));
        let pre = register.digit(bit, 0) | below(1);
        law.actions.push([0, pre, 0, register.digit(bit, 1) | below(0), pre]);
    }
    let before = register.holds(last - 1);
    law.actions.push([0, before, 0, register.holds(last), before | 1]);
    law
}

/// Members who turn a fact on and off, the last of whom wants another one.
fn unsolvable(members: usize) -> Law {
    let mut law = Law { facts: 2, initial: 0, goals: vec![1; members], actions: Vec::new() };
    law.goals[members - 1] = 2;
    for member in 0..members as u128 {
        law.actions.extend([[member, 0, 0, 1, 0], [member, 1, 0, 0, 1]]);
    }
    law
}

/// The law with the longest text: F = 128, 8 members, 256 actions, and full masks.
fn records() -> Law {
    let full = u128::MAX;
    Law {
        facts: FACTS,
        initial: full,
        goals: vec![full; 8],
        actions: (0..256).map(|number| [number % 8, full, full, full, full]).collect(),
    }
}
