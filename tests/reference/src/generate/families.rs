//! Families of valid laws, small and at the limits.

use super::{all, few, shuffle, some, Law};
use crate::fast::Task;
use crate::interface::FACTS;
use crate::laws;
use crate::random::Random;

/// A small law, for which every operation is quick.
pub fn small(random: &mut Random) -> Vec<u64> {
    let law = match random.below(15) {
        0..=2 => tiny(random),
        3..=4 => any(random, 5, 3, 8),
        5..=6 => tokens(random, 3, 2),
        7 => near_the_laws(random),
        8 => chains(random, 3, 4),
        9..=10 => choices(random),
        11..=13 => needs(random),
        _ => {
            let law = tokens(random, 2, 2);
            widened(random, law, 16, 4, 16)
        }
    };
    if random.chance(60) {
        spread(random, law).words()
    } else {
        law.words()
    }
}

/// The same law among more facts, so that its own are bits of either word or of both.
pub fn spread(random: &mut Random, law: Law) -> Law {
    let places = places(random, law.facts);
    law.at(places.len(), &places)
}

/// A number of facts, at least so many, and an order of them: those of a law take the first places.
pub fn places(random: &mut Random, least: usize) -> Vec<usize> {
    let edges = [63, 64, 65, 66, FACTS - 1, FACTS, FACTS, random.between(1, FACTS)];
    let facts = random.one_of(&edges).max(least);
    let mut places: Vec<usize> = (0..facts).collect();
    match random.below(5) {
        // The last facts, the last first.
        0 => places.reverse(),
        // The same bits of both words, one after the other.
        1 => places.sort_by_key(|place| (place % 64, place / 64)),
        // Beside the edge between the words.
        2 => places.rotate_left(64usize.saturating_sub(least.div_ceil(2)).min(facts)),
        // The first fact, then the last ones.
        3 => places[1..].reverse(),
        _ => shuffle(random, &mut places),
    }
    places
}

/// A law with at most 3 facts, 3 members and 4 actions, small enough for brute force.
pub fn tiny(random: &mut Random) -> Law {
    any(random, 3, 3, 4)
}

/// A law at one limit or more.
pub fn at_the_limits(random: &mut Random) -> Vec<u64> {
    match random.below(9) {
        0 => one_fact(random).words(),
        1 => ones(random).words(),
        2 => {
            let law = tokens(random, 3, 2);
            widened(random, law, FACTS, 8, 256).words()
        }
        3 => {
            let law = any(random, 6, 4, 12);
            widened(random, law, FACTS, 8, 256).words()
        }
        4 => counters(random.between(1, 4), random.between(1, 4)).words(),
        5 => {
            let bits =
                if random.chance(10) { random.between(10, 13) } else { random.between(5, 9) };
            counters(1, bits).words()
        }
        6 => chains(random, 8, 16).words(),
        7 => without_actions(random).words(),
        _ => {
            let law = tokens(random, 8, 1);
            let facts = law.facts;
            widened(random, law, facts, 8, 256).words()
        }
    }
}

/// Any masks at all, with few bits in each.
pub fn any(random: &mut Random, facts: usize, members: usize, actions: usize) -> Law {
    let facts = random.between(1, facts);
    let members = random.between(1, members);
    let actions = random.between(0, actions);
    let rich = random.chance(60);
    let initial = if rich { some(random, facts) } else { few(random, facts, 2) };
    Law {
        facts,
        initial,
        goals: (0..members).map(|_| few(random, facts, 2)).collect(),
        actions: (0..actions)
            .map(|_| {
                let pre = few(random, facts, 2);
                let wait = if random.chance(50) { pre } else { pre & random.mask() };
                let (add, del) = (few(random, facts, 2), few(random, facts, 2));
                [random.below(members) as u128, pre, wait, add, del]
            })
            .collect(),
    }
}

/// One of the paper's laws with some bits turned over.
pub fn near_the_laws(random: &mut Random) -> Law {
    let valid = laws::valid();
    let mut law = Task::check(&valid[random.below(valid.len())]).expect("a law").law();
    let (goals, actions) = (law.goals.len(), law.actions.len());
    for _ in 0..random.between(0, 3) {
        let bit = 1 << random.below(law.facts);
        match random.below(4) {
            0 => law.initial ^= bit,
            1 => law.goals[random.below(goals)] ^= bit,
            _ if actions > 0 => {
                let action = &mut law.actions[random.below(actions)];
                action[random.between(1, 4)] ^= bit;
                action[2] &= action[1];
            }
            _ => {}
        }
    }
    law
}

/// Members who take tokens, one after another, work, and mostly give them back: locks with and
/// without waiting, in one order or in several.
pub fn tokens(random: &mut Random, members: usize, tokens: usize) -> Law {
    let members = random.between(1, members);
    let tokens = random.between(1, tokens);
    let facts = tokens + members * (tokens + 1);
    let token = |number: usize| 1u128 << number;
    let held = |member: usize, number: usize| 1u128 << (tokens + member * (tokens + 1) + number);
    let done = |member: usize| held(member, tokens);
    let mut law = Law { facts, initial: all(tokens), goals: vec![0; members], actions: Vec::new() };
    let careful = random.chance(50);
    for member in 0..members {
        let first = if careful { 0 } else { random.below(tokens) };
        let takes = random.between(1, tokens);
        let mut holds = 0;
        let mut returns = 0;
        for number in (0..takes).map(|index| (first + index) % tokens) {
            let pre = holds | token(number);
            let wait = if careful || random.chance(70) { token(number) } else { 0 };
            let add = held(member, number);
            law.actions.push([member as u128, pre, wait, add, token(number)]);
            holds |= held(member, number);
            returns |= token(number);
        }
        let given = if careful || random.chance(70) { returns } else { 0 };
        law.actions.push([member as u128, holds, 0, done(member) | given, holds]);
        law.goals[member] = match random.below(4) {
            0 => done(member),
            1 => 0,
            _ => done(member) | given,
        };
        if random.chance(10) {
            // An action that undoes what another member may want.
            let undone = few(random, facts, 2);
            law.actions.push([member as u128, done(member), 0, 0, undone]);
        }
    }
    law
}

/// Members who each go from place to place by one way or another and back, some of the steps with a
/// shared fact that others take away: laws of which many conflicts replay, and one is told.
pub fn choices(random: &mut Random) -> Law {
    let members = random.between(2, 3);
    let shared = random.between(1, 2);
    let places = random.between(1, 4);
    let place = |member: usize, number: usize| 1u128 << (shared + member * places + number);
    let facts = shared + members * places;
    let mut law = Law { facts, initial: all(shared), goals: Vec::new(), actions: Vec::new() };
    let waits = random.one_of(&[0, 60, 90, 90]);
    for member in 0..members {
        law.initial |= place(member, 0);
        let goal = if random.chance(50) { 0 } else { place(member, random.below(places)) };
        law.goals.push(goal | if random.chance(20) { few(random, shared, 1) } else { 0 });
        let mut step = |random: &mut Random, from: usize, to: usize| {
            let needs = if random.chance(50) { few(random, shared, 2) } else { 0 };
            let wait = if random.chance(waits) { needs } else { 0 };
            let takes = if random.chance(30) { few(random, shared, 2) } else { 0 };
            let gives = if random.chance(10) { few(random, shared, 2) } else { 0 };
            let [here, there] = [from, to].map(|number| place(member, number));
            law.actions.push([member as u128, here | needs, wait, there | gives, here | takes]);
        };
        for to in 1..places {
            let from = random.below(to);
            step(random, from, to);
        }
        for _ in 0..random.between(1, 4) {
            let (from, to) = (random.below(places), random.below(places));
            step(random, from, to);
        }
    }
    shuffle(random, &mut law.actions);
    law
}

/// Members who each have a step or two that need some of the facts, any number of them, and wait
/// for some of these, and a step that takes one fact away, two or many: collisions that lack as
/// many. Those that need are mostly a member's way to its goal, one of the last facts.
pub fn needs(random: &mut Random) -> Law {
    let members = random.one_of(&[2, 2, 2, 3]);
    let any = random.between(members + 1, FACTS);
    let all_facts = random.one_of(&[members + 2, 8, 16, 64, 65, FACTS, any]);
    let goals: Vec<u128> = (1..=members).map(|member| 1 << (all_facts - member)).collect();
    let facts = all_facts - members;
    let initial = if random.chance(50) { all(facts) } else { some(random, facts) };
    let mut law = Law { facts: all_facts, initial, goals, actions: Vec::new() };
    for member in 0..members {
        let (number, adds) = (member as u128, few(random, facts, 2));
        for _ in 0..random.between(1, 2) {
            let own = initial | adds;
            let need = match random.below(4) {
                0 => few(random, facts, 3) & own,
                1 => own,
                _ => some(random, facts) & own,
            };
            let wait = match random.below(6) {
                0 => need,
                1 => few(random, facts, 3) & need,
                2 => some(random, facts) & some(random, facts) & need,
                // Those of one word.
                3 => all(facts.min(64)) & need,
                4 => !all(facts.min(64)) & need,
                _ => 0,
            };
            law.actions.push([number, need, wait, law.goals[member], 0]);
        }
        let takes = match random.below(4) {
            0 => 1 << random.below(facts),
            1 => few(random, facts, 2),
            2 => all(facts),
            _ => some(random, facts),
        };
        law.actions.push([number, 0, 0, adds, takes & !adds]);
        if random.chance(15) {
            law.actions.push([number, 0, 0, some(random, facts), 0]);
        }
        if random.chance(30) {
            law.goals[member] = 0;
        }
    }
    shuffle(random, &mut law.actions);
    law
}

/// Members who each walk along facts of their own; robust, with as many configurations as a grid
/// has points.
pub fn chains(random: &mut Random, members: usize, longest: usize) -> Law {
    let lengths: Vec<usize> =
        (0..random.between(1, members)).map(|_| random.between(1, longest)).collect();
    chains_of(&lengths)
}

/// Chains of given lengths, with at most 128 points in all.
pub fn chains_of(lengths: &[usize]) -> Law {
    let mut law =
        Law { facts: lengths.iter().sum(), initial: 0, goals: Vec::new(), actions: Vec::new() };
    let mut begin = 0;
    for (member, length) in lengths.iter().enumerate() {
        law.initial |= 1 << begin;
        for point in begin + 1..begin + length {
            let (here, there) = (1 << (point - 1), 1 << point);
            law.actions.push([member as u128, here, 0, there, here]);
        }
        begin += length;
        law.goals.push(1 << (begin - 1));
    }
    law
}

/// Members who each turn over facts of their own one by one: 2^facts local copies.
pub fn counters(members: usize, facts: usize) -> Law {
    let mut law =
        Law { facts: members * facts, initial: 0, goals: Vec::new(), actions: Vec::new() };
    for member in 0..members {
        let bits = (member * facts..(member + 1) * facts).map(|fact| 1u128 << fact);
        law.goals.push(bits.clone().sum());
        for bit in bits {
            law.actions.push([member as u128, 0, 0, bit, 0]);
            law.actions.push([member as u128, bit, 0, 0, bit]);
        }
    }
    law
}

/// F = 1, with up to 8 members and 256 actions.
fn one_fact(random: &mut Random) -> Law {
    let mut law = any(random, 1, 8, 20);
    if random.chance(20) {
        law = widened(random, law, 1, 8, 256);
    }
    law
}

/// F = 64 or 128, and words of all ones wherever they may stand.
fn ones(random: &mut Random) -> Law {
    let facts = random.one_of(&[64, FACTS, FACTS]);
    let (low, edges) = (all(64), [1 << 63, 1 << 64, 1 << 127]);
    let masks = [u128::MAX, u128::MAX, low, !low, 0, 1, edges[0], edges[1], edges[2]];
    let mask = |random: &mut Random| random.one_of(&masks) & all(facts);
    let members = random.one_of(&[1, 2, 8]);
    let actions = random.one_of(&[0, 1, 4, 256]);
    let mut law = Law { facts, initial: mask(random), goals: vec![], actions: vec![] };
    for _ in 0..members {
        law.goals.push(mask(random));
    }
    for _ in 0..actions {
        let pre = mask(random);
        let wait = mask(random) & pre;
        let row = [random.below(members) as u128, pre, wait, mask(random), mask(random)];
        law.actions.push(row);
    }
    law
}

fn without_actions(random: &mut Random) -> Law {
    let facts = random.one_of(&[1, 2, 63, 64, 65, 127, FACTS]);
    let initial = some(random, facts);
    let members = random.one_of(&[1, 7, 8]);
    let reached = random.chance(70);
    let goal = |random: &mut Random| {
        let goal = some(random, facts);
        if reached {
            goal & initial
        } else {
            goal
        }
    };
    let goals = (0..members).map(|_| goal(random)).collect();
    Law { facts, initial, goals, actions: Vec::new() }
}

/// The same law among more facts, members and actions: its facts stand anywhere, the new members
/// are done at the start, and the new actions repeat others, do nothing, or need what nobody adds.
pub fn widened(random: &mut Random, law: Law, facts: usize, members: usize, actions: usize) -> Law {
    let facts = facts.max(law.facts);
    let mut places: Vec<usize> = (0..facts).collect();
    shuffle(random, &mut places);
    let unused = places[law.facts..].iter().fold(0, |mask, place| mask | 1 << place);
    let mut wide = law.at(facts, &places);
    let start = wide.initial;
    while wide.goals.len() < members {
        wide.goals.push(if random.chance(90) { 0 } else { start });
    }
    let given = wide.actions.clone();
    while wide.actions.len() < actions {
        let member = random.below(wide.goals.len()) as u128;
        let row = match random.below(10) {
            0 if !given.is_empty() => random.one_of(&given),
            1 => [member, 0, 0, 0, 0],
            _ if unused != 0 => {
                let pre = unused & random.mask();
                let add = if pre == 0 { 0 } else { some(random, facts) };
                [member, pre, pre & random.mask(), add, if pre == 0 { 0 } else { all(facts) }]
            }
            _ => [member, start, 0, start, 0],
        };
        wide.actions.push(row);
    }
    if random.chance(50) {
        shuffle(random, &mut wide.actions);
    }
    wide
}
