//! Joint replay, and picks on a run that is handed in.

use super::solo::{entries, play};
use super::{Action, Next, Task};
use crate::interface::{mask_of, mask_words, out_length, Ticket, CHANGE, LAST, RUN, SHARED};

/// Checked plans: each member's part of the plan slice.
pub struct Plans<'a>(pub Vec<&'a [u16]>);

impl<'a> Plans<'a> {
    /// Checks ends, entries and that each plan solves.
    pub fn check(task: &Task, plans: &'a [u16], ends: &[u64]) -> Result<Plans<'a>, u64> {
        if ends.len() != task.members()
            || ends.windows(2).any(|pair| pair[0] > pair[1])
            || ends.last() != Some(&(plans.len() as u64))
        {
            return Err(11);
        }
        let mut parts = Vec::with_capacity(ends.len());
        let mut begin = 0;
        for (member, &end) in ends.iter().enumerate() {
            let plan = &plans[begin..end as usize];
            entries(task, member as u8, plan)?;
            if !play(task, plan).is_ok_and(|state| task.reached(member, state)) {
                return Err(12);
            }
            parts.push(plan);
            begin = end as usize;
        }
        Ok(Plans(parts))
    }

    /// The member's next action, where a step is left.
    fn next<'t>(&self, task: &'t Task, places: &[usize; 8], member: usize) -> Option<&'t Action> {
        self.0[member].get(places[member]).map(|&number| &task.actions[number as usize])
    }
}

/// How a run stands.
#[derive(Clone, Copy, Debug, PartialEq, Eq)]
pub enum Outcome {
    Success,
    Collision,
    Deadlock,
    Missed(u8),
    Open,
}

/// The outcome of a run.
pub fn outcome(
    task: &Task,
    plans: &Plans,
    places: &[usize; 8],
    shared: u128,
    collided: bool,
) -> Outcome {
    if collided {
        return Outcome::Collision;
    }
    let mut left = false;
    for member in 0..task.members() {
        if let Some(action) = plans.next(task, places, member) {
            if !action.waits(shared) {
                return Outcome::Open;
            }
            left = true;
        }
    }
    if left {
        return Outcome::Deadlock;
    }
    match (0..task.members()).find(|&member| !task.reached(member, shared)) {
        Some(member) => Outcome::Missed(member as u8),
        None => Outcome::Success,
    }
}

pub fn joint_replay(
    task: &[u64],
    plans: &[u16],
    ends: &[u64],
    picks: &[u8],
) -> Result<[u64; out_length::JOINT_REPLAY], u64> {
    let task = Task::check(task)?;
    let plans = Plans::check(&task, plans, ends)?;
    let mut places = [0; 8];
    let mut shared = task.initial;
    let mut done = 0;
    let mut missing = 0;
    for &member in picks {
        let member = member as usize;
        if member >= task.members() {
            return Err(8);
        }
        match plans.next(&task, &places, member) {
            Some(action) if missing == 0 && !action.waits(shared) => {
                missing = action.missing(shared);
                if missing == 0 {
                    shared = action.apply(shared);
                    places[member] += 1;
                    done += 1;
                }
            }
            _ => return Err(13),
        }
    }
    let (kind, member) = match outcome(&task, &plans, &places, shared, missing != 0) {
        Outcome::Success => (0, 0),
        Outcome::Collision => (1, 0),
        Outcome::Deadlock => (2, 0),
        Outcome::Missed(member) => (3, member as u64),
        Outcome::Open => (4, 0),
    };
    let ([shared_low, shared_high], [low, high]) = (mask_words(shared), mask_words(missing));
    Ok([kind, member, done, shared_low, shared_high, low, high])
}

/// A run that is handed in, on checked plans.
struct Held<'a> {
    task: Task,
    plans: Plans<'a>,
    places: [usize; 8],
    shared: u128,
    change: u32,
    collided: bool,
}

impl<'a> Held<'a> {
    fn check(task: &[u64], plans: &'a [u16], ends: &[u64], run: &[u64]) -> Result<Held<'a>, u64> {
        let task = Task::check(task)?;
        let plans = Plans::check(&task, plans, ends)?;
        let shared = mask_of(&run[SHARED..]);
        if shared & !task.known != 0 {
            return Err(4);
        }
        let mut places = [0; 8];
        for (member, plan) in plans.0.iter().enumerate() {
            if run[1 + member] > plan.len() as u64 {
                return Err(11);
            }
            places[member] = run[1 + member] as usize;
        }
        let change = run[CHANGE] as u32;
        Ok(Held { task, plans, places, shared, change, collided: run[0] != 0 })
    }

    /// What a member's next step would do: 8 no member, 13 no step left or a closed run.
    fn next(&self, member: u8) -> Result<Next, u64> {
        if member as usize >= self.task.members() {
            return Err(8);
        }
        match self.plans.next(&self.task, &self.places, member as usize) {
            Some(action) if !self.collided => Ok(Next::of(action, self.shared)),
            _ => Err(13),
        }
    }

    /// A pick: 0 go, 1 collision with what is missing. With a ticket's change number that has to be
    /// the run's.
    fn pick(&mut self, member: u8, change: Option<u32>) -> Result<[u64; out_length::PICK], u64> {
        let stale = change.is_some_and(|change| change != self.change);
        match self.next(member) {
            Err(8) => Err(8),
            _ if stale => Err(19),
            Err(refusal) => Err(refusal),
            Ok(Next::Wait) => Err(13),
            Ok(_) if self.change == LAST => Err(20),
            Ok(Next::Go(shared)) => {
                self.shared = shared;
                self.places[member as usize] += 1;
                self.change += 1;
                Ok([0, 0, 0])
            }
            Ok(Next::Collision(missing)) => {
                self.collided = true;
                self.change += 1;
                let [low, high] = mask_words(missing);
                Ok([1, low, high])
            }
        }
    }

    fn write(&self, run: &mut [u64]) {
        run[0] = self.collided as u64;
        for (word, &place) in run[1..].iter_mut().zip(&self.places[..self.task.members()]) {
            *word = place as u64;
        }
        run[SHARED..CHANGE].copy_from_slice(&mask_words(self.shared));
        run[CHANGE] = self.change as u64;
    }
}

pub(super) fn pick(
    task: &[u64],
    plans: &[u16],
    ends: &[u64],
    run: &mut [u64],
    member: u8,
) -> Result<[u64; out_length::PICK], u64> {
    let mut held = Held::check(task, plans, ends, run)?;
    let answer = held.pick(member, None)?;
    held.write(run);
    Ok(answer)
}

pub(super) fn ask(
    task: &[u64],
    plans: &[u16],
    ends: &[u64],
    run: &[u64],
    member: u8,
) -> Result<[u64; out_length::ASK], u64> {
    let held = Held::check(task, plans, ends, run)?;
    let [kind, new_low, new_high, low, high] = held.next(member)?.numbers();
    Ok([kind, new_low, new_high, low, high, member as u64, held.change as u64])
}

pub(super) fn commit(
    task: &[u64],
    plans: &[u16],
    ends: &[u64],
    run: &mut [u64],
    ticket: Ticket,
) -> Result<[u64; out_length::COMMIT], u64> {
    let mut held = Held::check(task, plans, ends, run)?;
    let answer = held.pick(ticket.member, Some(ticket.change))?;
    held.write(run);
    Ok(answer)
}

pub(super) fn start(task: &[u64], run: &mut [u64]) -> Result<[u64; 0], u64> {
    let task = Task::check(task)?;
    run[..RUN].fill(0);
    run[SHARED..CHANGE].copy_from_slice(&mask_words(task.initial));
    Ok([])
}

pub(super) fn play_picks(
    task: &[u64],
    plans: &[u16],
    ends: &[u64],
    run: &mut [u64],
    picks: &[u8],
    answers: &mut [u64],
) -> Result<[u64; 0], u64> {
    let mut held = Held::check(task, plans, ends, run)?;
    for (&member, answer) in picks.iter().zip(answers) {
        *answer = held.pick(member, None).map_or_else(|refusal| refusal, |[kind, ..]| kind);
    }
    held.write(run);
    Ok([])
}
