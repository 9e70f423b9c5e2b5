//! "Runs": joint replay, and picks on a run that is handed in, which has a change number: asked for
//! and then committed (request F-4), or at once.

use super::facts::Facts;
use super::solo::{entries, play, Replay};
use super::step::{step, Step};
use super::task::{check, Task};
use super::Refusal;
use crate::interface::{Ticket, CHANGE, LAST, SHARED};

/// A run beside its plans.
#[derive(Clone, Debug, PartialEq, Eq, PartialOrd, Ord)]
pub struct Run {
    pub collided: bool,
    pub places: Vec<usize>,
    pub shared: Facts,
}

/// What a pick does.
#[derive(Clone, Debug, PartialEq, Eq)]
pub enum Pick {
    Go,
    /// What its step's answer tells as missing.
    Collision(Facts),
}

/// How a run stands.
#[derive(Clone, Copy, Debug, PartialEq, Eq, PartialOrd, Ord)]
pub enum Outcome {
    Success,
    Collision,
    Deadlock,
    /// The lowest member whose goal is not within the shared copy.
    Missed(usize),
    Open,
}

impl Run {
    /// The run at its start.
    pub fn start(task: &Task) -> Run {
        Run { collided: false, places: vec![0; task.members()], shared: task.initial.clone() }
    }

    /// What the member's next step answers, where it has a step left.
    fn next(&self, task: &Task, plans: &[Vec<u16>], member: usize) -> Option<Step> {
        let entry = plans[member].get(self.places[member])?;
        Some(step(&task.actions[*entry as usize], &self.shared))
    }

    /// Whether a member can be picked in a run that has not collided: a step is left and does not
    /// wait.
    fn possible(&self, task: &Task, plans: &[Vec<u16>], member: usize) -> bool {
        !matches!(self.next(task, plans, member), None | Some(Step::Wait))
    }

    /// A pick: 8 no such member, 13 no possible pick; otherwise the run is updated.
    pub fn pick(&mut self, task: &Task, plans: &[Vec<u16>], member: u8) -> Result<Pick, Refusal> {
        let member = member as usize;
        if member >= task.members() {
            return Err(8);
        }
        if self.collided {
            return Err(13);
        }
        match self.next(task, plans, member) {
            None | Some(Step::Wait) => Err(13),
            Some(Step::Collision(missing)) => {
                self.collided = true;
                Ok(Pick::Collision(missing))
            }
            Some(Step::Go(new)) => {
                self.shared = new;
                self.places[member] += 1;
                Ok(Pick::Go)
            }
        }
    }

    /// The outcome, first that fits.
    pub fn outcome(&self, task: &Task, plans: &[Vec<u16>]) -> Outcome {
        let members = 0..task.members();
        if self.collided {
            return Outcome::Collision;
        }
        if members.clone().any(|member| self.possible(task, plans, member)) {
            return Outcome::Open;
        }
        if members.clone().any(|member| self.places[member] < plans[member].len()) {
            return Outcome::Deadlock;
        }
        match members.clone().find(|&member| !task.goals[member].within(&self.shared)) {
            Some(member) => Outcome::Missed(member),
            None => Outcome::Success,
        }
    }
}

/// The plans of all members, or the refusal: 11 for the ends, then by member 7, 10 or 12.
pub fn plans(task: &Task, plans: &[u16], ends: &[u64]) -> Result<Vec<Vec<u16>>, Refusal> {
    if ends.len() != task.members() {
        return Err(11);
    }
    for member in 1..ends.len() {
        if ends[member] < ends[member - 1] {
            return Err(11);
        }
    }
    if ends[ends.len() - 1] != plans.len() as u64 {
        return Err(11);
    }
    let mut each = Vec::new();
    let mut begin = 0;
    for (member, &end) in ends.iter().enumerate() {
        let plan = &plans[begin..end as usize];
        entries(task, member, plan)?;
        if play(task, member, plan) != Replay::Solves {
            return Err(12);
        }
        each.push(plan.to_vec());
        begin = end as usize;
    }
    Ok(each)
}

/// The answer of joint replay.
#[derive(Clone, Debug, PartialEq, Eq)]
pub struct Replayed {
    pub outcome: Outcome,
    pub done: usize,
    pub shared: Facts,
    /// What the colliding pick told as missing; none where no pick collided.
    pub missing: Facts,
}

/// The operation joint replay.
pub fn joint_replay(
    words: &[u64],
    plan_slice: &[u16],
    ends: &[u64],
    picks: &[u8],
) -> Result<Replayed, Refusal> {
    let task = check(words)?;
    let plans = plans(&task, plan_slice, ends)?;
    let mut run = Run::start(&task);
    let mut done = 0;
    let mut missing = Facts::default();
    for &member in picks {
        match run.pick(&task, &plans, member)? {
            Pick::Go => done += 1,
            Pick::Collision(lacked) => missing = lacked,
        }
    }
    Ok(Replayed { outcome: run.outcome(&task, &plans), done, shared: run.shared, missing })
}

/// The dispatcher's run, with the count of the picks that were done on it.
#[derive(Clone, Debug, PartialEq, Eq)]
struct Counted {
    run: Run,
    change: u32,
}

impl Counted {
    /// A pick: 8 no such member, 13 no possible pick, 20 the count is at its end; otherwise the run
    /// is updated, and one more pick was done, a colliding one too.
    fn pick(&mut self, task: &Task, plans: &[Vec<u16>], member: u8) -> Result<Pick, Refusal> {
        let mut after = self.run.clone();
        let answer = after.pick(task, plans, member)?;
        if self.change == LAST {
            return Err(20);
        }
        self.run = after;
        self.change += 1;
        Ok(answer)
    }

    /// What the member's next step answers, and the ticket for it: 8 no such member, 13 no step
    /// left, or already collided.
    fn ask(&self, task: &Task, plans: &[Vec<u16>], member: u8) -> Result<(Step, Ticket), Refusal> {
        if member as usize >= task.members() {
            return Err(8);
        }
        if self.run.collided {
            return Err(13);
        }
        match self.run.next(task, plans, member as usize) {
            None => Err(13),
            Some(answer) => Ok((answer, Ticket { member, change: self.change })),
        }
    }

    /// The pick of a ticket: 8, then 19 another change number than the run's, then as any pick.
    fn commit(&mut self, task: &Task, plans: &[Vec<u16>], ticket: Ticket) -> Result<Pick, Refusal> {
        if ticket.member as usize >= task.members() {
            return Err(8);
        }
        if ticket.change != self.change {
            return Err(19);
        }
        self.pick(task, plans, ticket.member)
    }
}

/// A run of twelve words that is handed in, with its task and plans. Places of members that the
/// task does not have stay aside.
fn handed_in(
    words: &[u64],
    plan_slice: &[u16],
    ends: &[u64],
    run: &[u64],
) -> Result<(Task, Vec<Vec<u16>>, Counted), Refusal> {
    let task = check(words)?;
    let plans = plans(&task, plan_slice, ends)?;
    let shared = Facts::of_words(&run[SHARED..CHANGE]);
    if shared.exceeds(task.facts) {
        return Err(4);
    }
    let mut places = Vec::new();
    for (member, plan) in plans.iter().enumerate() {
        let place = run[1 + member];
        if place > plan.len() as u64 {
            return Err(11);
        }
        places.push(place as usize);
    }
    let change = u32::try_from(run[CHANGE]).expect("a change number of 32 bits");
    let held = Counted { run: Run { collided: run[0] != 0, places, shared }, change };
    Ok((task, plans, held))
}

/// Writes a run to its twelve words.
fn hand_back(held: &Counted, run: &mut [u64]) {
    run[0] = if held.run.collided { 1 } else { 0 };
    for (member, &place) in held.run.places.iter().enumerate() {
        run[1 + member] = place as u64;
    }
    run[SHARED..CHANGE].copy_from_slice(&held.run.shared.words());
    run[CHANGE] = held.change as u64;
}

/// The operation pick, on a run of twelve words.
pub fn pick(
    words: &[u64],
    plan_slice: &[u16],
    ends: &[u64],
    run: &mut [u64],
    member: u8,
) -> Result<Pick, Refusal> {
    let (task, plans, mut held) = handed_in(words, plan_slice, ends, run)?;
    let answer = held.pick(&task, &plans, member)?;
    hand_back(&held, run);
    Ok(answer)
}

/// The operation ask, on a run of twelve words.
pub fn ask(
    words: &[u64],
    plan_slice: &[u16],
    ends: &[u64],
    run: &[u64],
    member: u8,
) -> Result<(Step, Ticket), Refusal> {
    let (task, plans, held) = handed_in(words, plan_slice, ends, run)?;
    held.ask(&task, &plans, member)
}

/// The operation commit, on a run of twelve words.
pub fn commit(
    words: &[u64],
    plan_slice: &[u16],
    ends: &[u64],
    run: &mut [u64],
    ticket: Ticket,
) -> Result<Pick, Refusal> {
    let (task, plans, mut held) = handed_in(words, plan_slice, ends, run)?;
    let answer = held.commit(&task, &plans, ticket)?;
    hand_back(&held, run);
    Ok(answer)
}

/// The start of a run, as twelve words.
pub fn start(words: &[u64], run: &mut [u64]) -> Result<(), Refusal> {
    let task = check(words)?;
    run.fill(0);
    hand_back(&Counted { run: Run::start(&task), change: 0 }, run);
    Ok(())
}

/// Picks in turn on a run of twelve words, and what each answers; one that is refused is passed
/// over.
pub fn play_picks(
    words: &[u64],
    plan_slice: &[u16],
    ends: &[u64],
    run: &mut [u64],
    picks: &[u8],
) -> Result<Vec<Result<Pick, Refusal>>, Refusal> {
    let (task, plans, mut held) = handed_in(words, plan_slice, ends, run)?;
    let answers = picks.iter().map(|&member| held.pick(&task, &plans, member)).collect();
    hand_back(&held, run);
    Ok(answers)
}
