//! Laws, plans and texts that fill the tables.

use reference::generate::families::{chains_of, counters};
use reference::generate::{all, text, Law};
use reference::interface::FACTS;

/// One member with 2^facts local copies, and as many configurations.
pub fn counter(facts: usize) -> Law {
    counters(1, facts)
}

/// The same law with each action repeated in turn until there are `actions` of them.
pub fn repeated(law: Law, actions: usize) -> Law {
    let actions = law.actions.iter().copied().cycle().take(actions).collect();
    Law { actions, ..law }
}

/// The same law with every fact 64 higher, so that all of them are bits of high words.
pub fn high(law: Law) -> Law {
    let places: Vec<usize> = (64..64 + law.facts).collect();
    law.at(FACTS, &places)
}

/// Chains of these lengths: their product is the number of configurations.
pub fn grid(lengths: &[usize]) -> Law {
    chains_of(lengths)
}

/// A grid in which the last member's last step takes the first member's goal away: missed in the
/// end.
pub fn grid_with_fault(lengths: &[usize]) -> Law {
    let mut law = chains_of(lengths);
    let goal = law.goals[0];
    if let Some(last) = law.actions.last_mut() {
        last[4] |= goal;
    }
    law
}

/// Eight members who turn one fact each over and back, `steps` steps in all: plans, ends and picks.
pub fn long_run(steps: usize) -> (Law, Vec<u16>, Vec<u64>, Vec<u8>) {
    let law = counters(8, 1);
    let each = steps / 8;
    let (mut plans, mut ends) = (Vec::new(), Vec::new());
    for member in 0..8 {
        // Actions 2i and 2i + 1 of member i set its fact and clear it; the goal asks that it
        // stands.
        plans.extend((0..each).map(|step| (2 * member + step % 2) as u16));
        if each.is_multiple_of(2) {
            plans.push((2 * member) as u16);
        }
        ends.push(plans.len() as u64);
    }
    let rounds = plans.len() / 8;
    let picks = (0..rounds).flat_map(|_| 0..8u8).collect();
    (law, plans, ends, picks)
}

/// One member who turns a fact over and back, with a plan of about so many steps that solves.
pub fn long_plan(steps: usize) -> (Law, Vec<u16>) {
    (counters(1, 1), (0..steps + 1 - steps % 2).map(|step| (step % 2) as u16).collect())
}

/// A text with this many records, and all these facts in all masks: n = 8.
pub fn wide_text(records: usize, facts: usize) -> String {
    text::of_words(&wide(records - 9, facts))
}

/// A task of eight members with so many actions, and all these facts in all masks.
pub fn wide(actions: usize, facts: usize) -> Vec<u64> {
    let mask = all(facts);
    let law = Law {
        facts,
        initial: mask,
        goals: vec![mask; 8],
        actions: (0..actions as u128).map(|a| [a % 8, mask, mask, mask, mask]).collect(),
    };
    law.words()
}

/// Where a law in PDDL is filled up.
#[derive(Clone, Copy, PartialEq)]
pub enum Part {
    Effects,
    Initial,
    Goal,
}

/// A law in PDDL of just so many bytes: one member with 64 facts and one action. Facts are named on
/// and on in one part, with blanks up to its last parenthesis.
pub fn pddl_text(bytes: usize, part: Part) -> String {
    pddl_filled(bytes, part, |fact| format!(" (fact-number-{})", fact % 64))
}

/// The same, with comments and blanks among the effects.
pub fn pddl_comments(bytes: usize) -> String {
    let comment = "\n      ; what a person has to say of this law; in words\n";
    pddl_filled(bytes, Part::Effects, |_| comment.to_string())
}

fn pddl_filled(bytes: usize, part: Part, piece: impl Fn(usize) -> String) -> String {
    let facts: String = (0..64).map(|fact| format!(" (fact-number-{fact})")).collect();
    let with = |effects: &str, initial: &str, goal: &str| {
        format!(
            "(define (domain d)\n (:predicates{facts})\n (:action a\n  :parameters ()\n  \
             :precondition (fact-number-0)\n  :effect (and{effects})))\n\
             (define (problem p)\n (:domain d)\n (:init{initial})\n (:goal (and{goal})))"
        )
    };
    let room = bytes.saturating_sub(with("", "", "").len());
    let mut filling = String::new();
    for number in 0.. {
        let piece = piece(number);
        if filling.len() + piece.len() > room {
            break;
        }
        filling += &piece;
    }
    filling += &" ".repeat(room - filling.len());
    match part {
        Part::Effects => with(&filling, "", ""),
        Part::Initial => with("", &filling, ""),
        Part::Goal => with("", "", &filling),
    }
}
