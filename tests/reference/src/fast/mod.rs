//! The fast twin: masks, hash maps and early exits, as a Rust programmer would write it. It serves
//! the benchmarks and stands in for the proved library where that is not built.

pub mod pddl;
mod run;
mod solo;
mod text;
pub mod verdict;

pub use run::{joint_replay, outcome, Outcome, Plans};
pub use solo::{copies, Copies, DEAD};
pub use text::read_words;
pub use verdict::{count_configurations, Judged};

use crate::interface::{
    give, mask_of, mask_words, no_run, out_length, Interface, Pddl, Ticket, FACTS, MASK, ROW, RUN,
    TOO_SHORT,
};
use crate::law::Law;

/// An action of a checked task.
#[derive(Clone, Copy, Debug)]
pub struct Action {
    pub member: u8,
    pub pre: u128,
    pub wait: u128,
    pub add: u128,
    pub del: u128,
}

impl Action {
    /// The state after the action.
    pub fn apply(&self, state: u128) -> u128 {
        (state & !self.del) | self.add
    }

    /// Every precondition holds.
    pub fn applicable(&self, state: u128) -> bool {
        self.missing(state) == 0
    }

    /// The preconditions that do not hold.
    pub fn missing(&self, state: u128) -> u128 {
        self.pre & !state
    }

    /// A precondition that is waited for does not hold.
    pub fn waits(&self, shared: u128) -> bool {
        self.wait & !shared != 0
    }
}

/// A checked task.
#[derive(Clone, Debug)]
pub struct Task {
    pub known: u128,
    pub initial: u128,
    pub goals: Vec<u128>,
    pub actions: Vec<Action>,
    /// The numbers of each member's actions.
    pub own: Vec<Vec<u16>>,
}

impl Task {
    /// The task check.
    pub fn check(words: &[u64]) -> Result<Task, u64> {
        let Some((first, rows)) = words.split_first_chunk::<ROW>() else {
            return Err(1);
        };
        let [facts, members, actions, _, _, zeros @ ..] = *first;
        let sizes = (1..=FACTS as u64).contains(&facts) && (1..=8).contains(&members);
        if !sizes || actions > 256 || zeros != [0; 4] {
            return Err(2);
        }
        if rows.len() as u64 != ROW as u64 * (members + actions) {
            return Err(1);
        }
        let initial = mask_of(&first[3..]);
        let known = u128::MAX >> (FACTS as u64 - facts);
        if initial & !known != 0 {
            return Err(4);
        }
        let mut task = Task {
            known,
            initial,
            goals: Vec::with_capacity(members as usize),
            actions: Vec::with_capacity(actions as usize),
            own: vec![Vec::new(); members as usize],
        };
        for (row, words) in rows.chunks_exact(ROW).enumerate() {
            let first = words[0];
            let [pre, wait, add, del] = [1, 3, 5, 7].map(|place| mask_of(&words[place..]));
            if (row as u64) < members {
                if first != row as u64 || wait | add | del != 0 {
                    return Err(3);
                }
                if pre & !known != 0 {
                    return Err(4);
                }
                task.goals.push(pre);
            } else {
                if first >= members {
                    return Err(5);
                }
                if (pre | wait | add | del) & !known != 0 {
                    return Err(4);
                }
                if wait & !pre != 0 {
                    return Err(6);
                }
                task.own[first as usize].push(task.actions.len() as u16);
                task.actions.push(Action { member: first as u8, pre, wait, add, del });
            }
        }
        Ok(task)
    }

    /// The law in parts.
    pub fn law(&self) -> Law {
        let parts = |action: &Action| {
            let &Action { member, pre, wait, add, del } = action;
            [u128::from(member), pre, wait, add, del]
        };
        Law {
            facts: self.known.count_ones() as usize,
            initial: self.initial,
            goals: self.goals.clone(),
            actions: self.actions.iter().map(parts).collect(),
        }
    }

    /// The number of members.
    pub fn members(&self) -> usize {
        self.goals.len()
    }

    /// Whether a member's goal holds.
    pub fn reached(&self, member: usize, state: u128) -> bool {
        self.goals[member] & !state == 0
    }
}

/// The fast twin behind the C interface's operations.
pub struct Fast;

/// The fast twin by its verdict and its solo search: the other operations are the same for all.
pub trait Twin: Sync {
    fn judge(&self, task: &[u64], lent: &mut verdict::Lent) -> Result<Judged, u64>;

    fn search(
        &self,
        task: &[u64],
        member: u8,
        table: &mut [u64],
        marks: &mut [u8],
    ) -> Result<[u64; 3], u64> {
        solo::search(task, member, table, marks)
    }
}

impl Twin for Fast {
    fn judge(&self, task: &[u64], lent: &mut verdict::Lent) -> Result<Judged, u64> {
        verdict::verdict_by::<verdict::Right>(task, lent)
    }
}

fn given<const N: usize>(out: &mut [u64], answer: Result<[u64; N], u64>) -> u64 {
    match answer {
        Ok(numbers) => give(out, &numbers),
        Err(refusal) => refusal,
    }
}

impl<T: Twin> Interface for T {
    fn task(&self, task: &[u64]) -> u64 {
        Task::check(task).err().unwrap_or(0)
    }

    fn step(&self, task: &[u64], action: u16, shared: &[u64], out: &mut [u64]) -> u64 {
        if out.len() < out_length::STEP || shared.len() != MASK {
            return TOO_SHORT;
        }
        given(out, step(task, action, mask_of(shared)))
    }

    fn solo_replay(&self, task: &[u64], member: u8, plan: &[u16], out: &mut [u64]) -> u64 {
        if out.len() < out_length::SOLO_REPLAY {
            return TOO_SHORT;
        }
        given(out, solo::replay(task, member, plan))
    }

    fn solo_search(
        &self,
        task: &[u64],
        member: u8,
        table: &mut [u64],
        marks: &mut [u8],
        out: &mut [u64],
    ) -> u64 {
        if out.len() < out_length::SOLO_SEARCH {
            return TOO_SHORT;
        }
        given(out, self.search(task, member, table, marks))
    }

    fn joint_replay(
        &self,
        task: &[u64],
        plans: &[u16],
        ends: &[u64],
        picks: &[u8],
        out: &mut [u64],
    ) -> u64 {
        if out.len() < out_length::JOINT_REPLAY {
            return TOO_SHORT;
        }
        given(out, run::joint_replay(task, plans, ends, picks))
    }

    fn pick(
        &self,
        task: &[u64],
        plans: &[u16],
        ends: &[u64],
        run: &mut [u64],
        member: u8,
        out: &mut [u64],
    ) -> u64 {
        if out.len() < out_length::PICK || no_run(run) {
            return TOO_SHORT;
        }
        given(out, run::pick(task, plans, ends, run, member))
    }

    fn ask(
        &self,
        task: &[u64],
        plans: &[u16],
        ends: &[u64],
        run: &mut [u64],
        member: u8,
        out: &mut [u64],
    ) -> u64 {
        if out.len() < out_length::ASK || no_run(run) {
            return TOO_SHORT;
        }
        given(out, run::ask(task, plans, ends, run, member))
    }

    fn commit(
        &self,
        task: &[u64],
        plans: &[u16],
        ends: &[u64],
        run: &mut [u64],
        ticket: Ticket,
        out: &mut [u64],
    ) -> u64 {
        if out.len() < out_length::COMMIT || no_run(run) {
            return TOO_SHORT;
        }
        given(out, run::commit(task, plans, ends, run, ticket))
    }

    fn start(&self, task: &[u64], run: &mut [u64]) -> u64 {
        if run.len() < RUN {
            return TOO_SHORT;
        }
        given(&mut [], run::start(task, run))
    }

    fn play(
        &self,
        task: &[u64],
        plans: &[u16],
        ends: &[u64],
        run: &mut [u64],
        picks: &[u8],
        answers: &mut [u64],
    ) -> u64 {
        if no_run(run) || answers.len() < picks.len() {
            return TOO_SHORT;
        }
        given(&mut [], run::play_picks(task, plans, ends, run, picks, answers))
    }

    fn verdict(
        &self,
        task: &[u64],
        local: &mut [u64],
        marks: &mut [u8],
        configurations: &mut [u64],
        trail: &mut [u64],
        plans: &mut [u16],
        ends: &mut [u64],
        picks: &mut [u8],
        out: &mut [u64],
    ) -> u64 {
        if out.len() < out_length::VERDICT {
            return TOO_SHORT;
        }
        let mut lent = verdict::Lent { local, marks, configurations, trail, plans, ends, picks };
        given(out, self.judge(task, &mut lent))
    }

    fn read(&self, text: &[u8], words: &mut [u64], out: &mut [u64]) -> u64 {
        if out.len() < out_length::READ {
            return TOO_SHORT;
        }
        given(out, text::read(text, words))
    }
}

impl Pddl for Fast {
    fn pddl_read(&self, text: &[u8], waits: &[u8], words: &mut [u64], out: &mut [u64]) -> u64 {
        if out.len() < out_length::PDDL_READ {
            return TOO_SHORT;
        }
        given(out, pddl::read_by::<pddl::Right>(text, waits, words))
    }

    fn pddl_write(&self, task: &[u64], text: &mut [u8], waits: &mut [u8], out: &mut [u64]) -> u64 {
        if out.len() < out_length::PDDL_WRITE {
            return TOO_SHORT;
        }
        given(out, pddl::write(task, text, waits))
    }
}

fn step(task: &[u64], action: u16, shared: u128) -> Result<[u64; out_length::STEP], u64> {
    let task = Task::check(task)?;
    let action = task.actions.get(action as usize).ok_or(7u64)?;
    if shared & !task.known != 0 {
        return Err(4);
    }
    Ok(Next::of(action, shared).numbers())
}

/// What a step does at a shared copy.
enum Next {
    Go(u128),
    Wait,
    /// The preconditions that are missing.
    Collision(u128),
}

impl Next {
    fn of(action: &Action, shared: u128) -> Next {
        if action.waits(shared) {
            Next::Wait
        } else if !action.applicable(shared) {
            Next::Collision(action.missing(shared))
        } else {
            Next::Go(action.apply(shared))
        }
    }

    /// Its kind, the new shared copy and what is missing.
    fn numbers(&self) -> [u64; out_length::STEP] {
        let (kind, new, missing) = match *self {
            Next::Go(new) => (0, new, 0),
            Next::Wait => (1, 0, 0),
            Next::Collision(missing) => (2, 0, missing),
        };
        let ([new_low, new_high], [low, high]) = (mask_words(new), mask_words(missing));
        [kind, new_low, new_high, low, high]
    }
}
