//! The fast twin with some answers changed: what is wrong in one of them says only where.

use crate::fast::{joint_replay, Action, Fast, Task};
use crate::interface::{mask_of, missing, out_length, Interface, Ticket, SHARED};
use std::ops::Range;

/// The operations that tell what a collision lacks (request F-6).
#[derive(Clone, Copy, Debug, PartialEq, Eq, PartialOrd, Ord)]
pub enum Teller {
    Step,
    JointReplay,
    Pick,
    Ask,
    Commit,
    Verdict,
}
use Teller::*;

impl Teller {
    pub const ALL: [Teller; 6] = [Step, JointReplay, Pick, Ask, Commit, Verdict];

    /// The kind of its answer that is a collision.
    pub fn collision(self) -> u64 {
        match self {
            Step | Ask | Verdict => 2,
            JointReplay | Pick | Commit => 1,
        }
    }

    /// Where it tells what is missing.
    pub fn missing(self) -> Range<usize> {
        match self {
            Step => missing::STEP,
            JointReplay => missing::JOINT_REPLAY,
            Pick => missing::PICK,
            Ask => missing::ASK,
            Commit => missing::COMMIT,
            Verdict => missing::VERDICT,
        }
    }

    /// How many numbers its answer has.
    pub fn numbers(self) -> usize {
        match self {
            Step => out_length::STEP,
            JointReplay => out_length::JOINT_REPLAY,
            Pick => out_length::PICK,
            Ask => out_length::ASK,
            Commit => out_length::COMMIT,
            Verdict => out_length::VERDICT,
        }
    }
}

/// What an operation met that tells what is missing.
pub struct Met {
    pub teller: Teller,
    pub task: Task,
    /// The plan of the member whose step it is, and the step's place in it: of the one that
    /// collides, else of the lowest member with a step left. Of a step alone all actions.
    pub plan: Vec<u16>,
    pub place: usize,
    /// The shared copy there.
    pub shared: u128,
    /// `out` at entry.
    pub before: Vec<u64>,
}

impl Met {
    /// The action so many places after the step's, where there is one.
    pub fn action(&self, place: usize) -> Option<&Action> {
        self.plan.get(place).and_then(|&number| self.task.actions.get(number as usize))
    }

    /// What picks lead to: those of a run that ended so, with a colliding one last.
    fn of_picks(
        teller: Teller,
        task: Task,
        (plans, ends, picks): (&[u16], &[u64], &[u8]),
        collided: bool,
        shared: u128,
    ) -> Met {
        let (members, mut places) = (task.members(), [0; 8]);
        for &member in &picks[..picks.len() - usize::from(collided)] {
            places[member as usize] += 1;
        }
        let plan = |member: usize| {
            let begin = if member == 0 { 0 } else { ends[member - 1] };
            &plans[begin as usize..ends[member] as usize]
        };
        let member = match picks.last() {
            Some(&last) if collided => last as usize,
            _ => (0..members).find(|&member| places[member] < plan(member).len()).unwrap_or(0),
        };
        let (plan, place) = (plan(member).to_vec(), places[member]);
        Met { teller, task, plan, place, shared, before: Vec::new() }
    }
}

/// What differs from the fast twin.
pub trait Other: Sync {
    fn task(&self, task: &[u64]) -> u64 {
        Fast.task(task)
    }

    /// Whether an operation takes an `out` of this length, though it has more numbers.
    fn takes(&self, _teller: Teller, _length: usize) -> bool {
        false
    }

    /// Changes what an operation tells that tells what is missing.
    fn tells(&self, _met: &Met, _out: &mut [u64]) {}

    /// Changes what solo search gives.
    fn searched(&self, _task: &Task, _member: usize, _table: &mut [u64], _out: &mut [u64]) {}

    /// Changes what the verdict gives.
    fn judged(&self, _task: &Task, _configurations: &mut [u64], _out: &mut [u64]) {}

    /// Changes the words that are read.
    fn read(&self, _words: &mut [u64]) {}
}

/// The fast twin with what differs.
pub struct Changed<'a>(pub &'a dyn Other);

impl Changed<'_> {
    /// A call of the fast twin, in more numbers than are lent where so few are taken; then changed
    /// by what it met.
    fn told(
        &self,
        teller: Teller,
        out: &mut [u64],
        call: impl FnOnce(&mut [u64]) -> u64,
        met: impl FnOnce(&[u64]) -> Option<Met>,
    ) -> u64 {
        let before = out.to_vec();
        let mut more = before.clone();
        if out.len() < teller.numbers() && self.0.takes(teller, out.len()) {
            more.resize(teller.numbers(), 0);
        }
        let refusal = call(&mut more);
        if refusal == 0 {
            if let Some(met) = met(&more) {
                self.0.tells(&Met { before, ..met }, &mut more);
            }
            out.copy_from_slice(&more[..out.len()]);
        }
        refusal
    }

    /// A call on a run: what its member's next step meets.
    fn on_run(
        &self,
        teller: Teller,
        (task, plans, ends): (&[u64], &[u16], &[u64]),
        (run, member): (&[u64], u8),
        out: &mut [u64],
        call: impl FnOnce(&mut [u64]) -> u64,
    ) -> u64 {
        let met = |_: &[u64]| {
            let begin = if member == 0 { 0 } else { ends[member as usize - 1] };
            let plan = plans[begin as usize..ends[member as usize] as usize].to_vec();
            let (place, shared) = (run[1 + member as usize] as usize, mask_of(&run[SHARED..]));
            let task = Task::check(task).ok()?;
            Some(Met { teller, task, plan, place, shared, before: Vec::new() })
        };
        self.told(teller, out, call, met)
    }
}

impl Interface for Changed<'_> {
    fn task(&self, task: &[u64]) -> u64 {
        self.0.task(task)
    }

    fn step(&self, task: &[u64], action: u16, shared: &[u64], out: &mut [u64]) -> u64 {
        let met = |_: &[u64]| {
            let (task, shared) = (Task::check(task).ok()?, mask_of(shared));
            let plan = (0..task.actions.len() as u16).collect();
            let (teller, place) = (Step, action as usize);
            Some(Met { teller, task, plan, place, shared, before: Vec::new() })
        };
        self.told(Step, out, |out| Fast.step(task, action, shared, out), met)
    }

    fn solo_replay(&self, task: &[u64], member: u8, plan: &[u16], out: &mut [u64]) -> u64 {
        Fast.solo_replay(task, member, plan, out)
    }

    fn solo_search(
        &self,
        task: &[u64],
        member: u8,
        table: &mut [u64],
        marks: &mut [u8],
        out: &mut [u64],
    ) -> u64 {
        let refusal = Fast.solo_search(task, member, table, marks, out);
        if let (0, Ok(task)) = (refusal, Task::check(task)) {
            self.0.searched(&task, member as usize, table, out);
        }
        refusal
    }

    fn joint_replay(
        &self,
        task: &[u64],
        plans: &[u16],
        ends: &[u64],
        picks: &[u8],
        out: &mut [u64],
    ) -> u64 {
        let met = |out: &[u64]| {
            let (collided, shared) = (out[0] == JointReplay.collision(), mask_of(&out[3..]));
            let task = Task::check(task).ok()?;
            Some(Met::of_picks(JointReplay, task, (plans, ends, picks), collided, shared))
        };
        self.told(JointReplay, out, |out| Fast.joint_replay(task, plans, ends, picks, out), met)
    }

    fn pick(
        &self,
        task: &[u64],
        plans: &[u16],
        ends: &[u64],
        run: &mut [u64],
        member: u8,
        out: &mut [u64],
    ) -> u64 {
        let before = run.to_vec();
        self.on_run(Pick, (task, plans, ends), (&before, member), out, |out| {
            Fast.pick(task, plans, ends, run, member, out)
        })
    }

    fn ask(
        &self,
        task: &[u64],
        plans: &[u16],
        ends: &[u64],
        run: &mut [u64],
        member: u8,
        out: &mut [u64],
    ) -> u64 {
        let before = run.to_vec();
        self.on_run(Ask, (task, plans, ends), (&before, member), out, |out| {
            Fast.ask(task, plans, ends, run, member, out)
        })
    }

    fn commit(
        &self,
        task: &[u64],
        plans: &[u16],
        ends: &[u64],
        run: &mut [u64],
        ticket: Ticket,
        out: &mut [u64],
    ) -> u64 {
        let before = run.to_vec();
        self.on_run(Commit, (task, plans, ends), (&before, ticket.member), out, |out| {
            Fast.commit(task, plans, ends, run, ticket, out)
        })
    }

    fn start(&self, task: &[u64], run: &mut [u64]) -> u64 {
        Fast.start(task, run)
    }

    fn play(
        &self,
        task: &[u64],
        plans: &[u16],
        ends: &[u64],
        run: &mut [u64],
        picks: &[u8],
        answers: &mut [u64],
    ) -> u64 {
        Fast.play(task, plans, ends, run, picks, answers)
    }

    fn verdict(
        &self,
        task: &[u64],
        local: &mut [u64],
        marks: &mut [u8],
        configurations: &mut [u64],
        trail: &mut [u64],
        plans: &mut [u16],
        ends: &mut [u64],
        picks: &mut [u8],
        out: &mut [u64],
    ) -> u64 {
        let mut more = out.to_vec();
        if out.len() < Verdict.numbers() && self.0.takes(Verdict, out.len()) {
            more.resize(Verdict.numbers(), 0);
        }
        let refusal =
            Fast.verdict(task, local, marks, configurations, trail, plans, ends, picks, &mut more);
        let (0, Ok(checked)) = (refusal, Task::check(task)) else {
            return refusal;
        };
        self.0.judged(&checked, configurations, &mut more);
        let members = checked.members();
        let (kind, done) = (more[0], more[2] as usize);
        let (teller, before) = (Verdict, out.to_vec());
        let met = if let 2..=4 = kind {
            let collided = kind == Verdict.collision();
            let ends = &ends[..members];
            let plans = &plans[..ends[members - 1] as usize];
            let picks = &picks[..done + usize::from(collided)];
            let shared = joint_replay(task, plans, ends, picks).map_or(0, |run| mask_of(&run[3..]));
            Met::of_picks(Verdict, checked, (plans, ends, picks), collided, shared)
        } else {
            let shared = checked.initial;
            Met { teller, task: checked, plan: Vec::new(), place: 0, shared, before: Vec::new() }
        };
        self.0.tells(&Met { before, ..met }, &mut more);
        out.copy_from_slice(&more[..out.len()]);
        0
    }

    fn read(&self, text: &[u8], words: &mut [u64], out: &mut [u64]) -> u64 {
        let refusal = Fast.read(text, words, out);
        if refusal == 0 {
            self.0.read(words);
        }
        refusal
    }
}
