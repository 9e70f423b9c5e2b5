//! The operations as the C interface lends them: a refusal number or 0, and the answer's numbers in
//! `out`. The verdict stands apart, with its many slices.

use super::facts::{Facts, MASK};
use super::run::{self, Outcome, Pick};
use super::solo::{self, Found, Replay};
use super::step::{self, Step};
use super::verdict::Class;
use super::{pddl, task, text};
use crate::interface::{give, no_run, out_length, Ticket, RUN, TOO_SHORT};

/// An outcome's number and member.
pub fn outcome_numbers(outcome: Outcome) -> (u64, u64) {
    match outcome {
        Outcome::Success => (0, 0),
        Outcome::Collision => (1, 0),
        Outcome::Deadlock => (2, 0),
        Outcome::Missed(member) => (3, member as u64),
        Outcome::Open => (4, 0),
    }
}

/// The numbers of a verdict: its kind, member and number, and the two words of what is missing.
pub fn verdict_numbers(class: &Class) -> [u64; out_length::VERDICT] {
    match class {
        Class::Robust(count) => [0, 0, *count as u64, 0, 0],
        Class::Unsolvable(member) => [1, *member as u64, 0, 0, 0],
        Class::NotRobust(_, outcome, done, missing) => {
            let (kind, member) = outcome_numbers(*outcome);
            let [low, high] = missing.words();
            [kind + 1, member, *done as u64, low, high]
        }
    }
}

/// The numbers of a step's answer: its kind, the two words of the new shared copy, and the two
/// words of what is missing.
fn step_numbers(answer: &Step) -> [u64; out_length::STEP] {
    let none = Facts::default();
    let (kind, new, missing) = match answer {
        Step::Go(new) => (0, new, &none),
        Step::Wait => (1, &none, &none),
        Step::Collision(missing) => (2, &none, missing),
    };
    let ([new_low, new_high], [low, high]) = (new.words(), missing.words());
    [kind, new_low, new_high, low, high]
}

/// The numbers of a pick's answer: its kind, and the two words of what is missing.
fn pick_numbers(answer: &Pick) -> [u64; out_length::PICK] {
    match answer {
        Pick::Go => [0, 0, 0],
        Pick::Collision(missing) => {
            let [low, high] = missing.words();
            [1, low, high]
        }
    }
}

pub fn task(words: &[u64]) -> u64 {
    task::check(words).err().unwrap_or(0)
}

pub fn step(words: &[u64], action: u16, shared: &[u64], out: &mut [u64]) -> u64 {
    if out.len() < out_length::STEP || shared.len() != MASK {
        return TOO_SHORT;
    }
    match step::step_by_number(words, action, shared) {
        Err(refusal) => refusal,
        Ok(answer) => give(out, &step_numbers(&answer)),
    }
}

pub fn solo_replay(words: &[u64], member: u8, plan: &[u16], out: &mut [u64]) -> u64 {
    if out.len() < out_length::SOLO_REPLAY {
        return TOO_SHORT;
    }
    match solo::replay(words, member, plan) {
        Err(refusal) => refusal,
        Ok(Replay::Solves) => give(out, &[0, 0]),
        Ok(Replay::Breaks(index)) => give(out, &[1, index as u64]),
        Ok(Replay::Short) => give(out, &[2, 0]),
    }
}

pub fn solo_search(
    words: &[u64],
    member: u8,
    table: &mut [u64],
    marks: &mut [u8],
    out: &mut [u64],
) -> u64 {
    if out.len() < out_length::SOLO_SEARCH {
        return TOO_SHORT;
    }
    match solo::search(words, member, table, marks) {
        Err(refusal) => refusal,
        Ok(Found { rows, live, marked }) => {
            give(out, &[rows as u64, if live { 1 } else { 0 }, marked as u64])
        }
    }
}

pub fn joint_replay(
    words: &[u64],
    plans: &[u16],
    ends: &[u64],
    picks: &[u8],
    out: &mut [u64],
) -> u64 {
    if out.len() < out_length::JOINT_REPLAY {
        return TOO_SHORT;
    }
    match run::joint_replay(words, plans, ends, picks) {
        Err(refusal) => refusal,
        Ok(replay) => {
            let (kind, member) = outcome_numbers(replay.outcome);
            let [shared_low, shared_high] = replay.shared.words();
            let [low, high] = replay.missing.words();
            give(out, &[kind, member, replay.done as u64, shared_low, shared_high, low, high])
        }
    }
}

pub fn pick(
    words: &[u64],
    plans: &[u16],
    ends: &[u64],
    run: &mut [u64],
    member: u8,
    out: &mut [u64],
) -> u64 {
    if out.len() < out_length::PICK || no_run(run) {
        return TOO_SHORT;
    }
    match run::pick(words, plans, ends, &mut run[..RUN], member) {
        Err(refusal) => refusal,
        Ok(answer) => give(out, &pick_numbers(&answer)),
    }
}

pub fn ask(
    words: &[u64],
    plans: &[u16],
    ends: &[u64],
    run: &[u64],
    member: u8,
    out: &mut [u64],
) -> u64 {
    if out.len() < out_length::ASK || no_run(run) {
        return TOO_SHORT;
    }
    match run::ask(words, plans, ends, &run[..RUN], member) {
        Err(refusal) => refusal,
        Ok((answer, Ticket { member, change })) => {
            let [kind, new_low, new_high, low, high] = step_numbers(&answer);
            give(out, &[kind, new_low, new_high, low, high, member as u64, change as u64])
        }
    }
}

pub fn commit(
    words: &[u64],
    plans: &[u16],
    ends: &[u64],
    run: &mut [u64],
    ticket: Ticket,
    out: &mut [u64],
) -> u64 {
    if out.len() < out_length::COMMIT || no_run(run) {
        return TOO_SHORT;
    }
    match run::commit(words, plans, ends, &mut run[..RUN], ticket) {
        Err(refusal) => refusal,
        Ok(answer) => give(out, &pick_numbers(&answer)),
    }
}

pub fn start(words: &[u64], run: &mut [u64]) -> u64 {
    if run.len() < RUN {
        return TOO_SHORT;
    }
    run::start(words, &mut run[..RUN]).err().unwrap_or(0)
}

pub fn play(
    words: &[u64],
    plans: &[u16],
    ends: &[u64],
    run: &mut [u64],
    picks: &[u8],
    answers: &mut [u64],
) -> u64 {
    if no_run(run) || answers.len() < picks.len() {
        return TOO_SHORT;
    }
    match run::play_picks(words, plans, ends, &mut run[..RUN], picks) {
        Err(refusal) => refusal,
        Ok(told) => {
            for (answer, told) in answers.iter_mut().zip(told) {
                *answer = match told {
                    Ok(answer) => pick_numbers(&answer)[0],
                    Err(refusal) => refusal,
                };
            }
            0
        }
    }
}

pub fn read(bytes: &[u8], words: &mut [u64], out: &mut [u64]) -> u64 {
    if out.len() < out_length::READ {
        return TOO_SHORT;
    }
    match text::read(bytes, words) {
        Err(refusal) => refusal,
        Ok(records) => give(out, &[records as u64]),
    }
}

pub fn pddl_read(text: &[u8], waits: &[u8], words: &mut [u64], out: &mut [u64]) -> u64 {
    if out.len() < out_length::PDDL_READ {
        return TOO_SHORT;
    }
    match pddl::read(text, waits, words) {
        Err(refusal) => refusal,
        Ok(records) => give(out, &[records as u64]),
    }
}

pub fn pddl_write(task: &[u64], text: &mut [u8], waits: &mut [u8], out: &mut [u64]) -> u64 {
    if out.len() < out_length::PDDL_WRITE {
        return TOO_SHORT;
    }
    match pddl::write(task, text, waits) {
        Err(refusal) => refusal,
        Ok(lengths) => give(out, &lengths.map(|length| length as u64)),
    }
}
