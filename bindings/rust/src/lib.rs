//! A safe wrapper of the law checker's C interface, which `include/lawcheck.h` documents.
//!
//! Each function here has one of the header's functions under it: an answer is an enum or a struct,
//! a refusal is a [`Refusal`], a shared copy is a [`Mask`]. A collision tells its missing
//! preconditions as a mask, never an empty one; [`facts`] goes through a mask's facts. Tasks and
//! tables hold the header's words; [`mask`] and [`mask_words`] change between a mask and its two
//! words. [`raw`] has the same functions with the header's numbers and slices, and its constants.
#![deny(unsafe_code)]

#[allow(unsafe_code)]
mod foreign;
#[allow(unsafe_code)]
pub mod raw;

use std::error::Error;
use std::fmt;

/// Defines the refusals: the header's number and what it means, said once.
macro_rules! refusals {
    ($($case:ident = $number:ident: $meaning:literal,)*) => {
        /// Why an input was turned back, with the header's number.
        #[derive(Clone, Copy, Debug, PartialEq, Eq, Hash)]
        #[repr(u64)]
        pub enum Refusal {
            $(#[doc = $meaning] $case = raw::$number,)*
        }

        impl Refusal {
            /// All of them, in the order of their numbers.
            pub const ALL: &'static [Refusal] = &[$(Refusal::$case),*];

            /// What it means.
            pub fn meaning(self) -> &'static str {
                match self {
                    $(Refusal::$case => $meaning,)*
                }
            }
        }
    };
}

refusals! {
    Length = LENGTH: "the task's length",
    Range = RANGE: "F, n, m or the last four words of row 0",
    GoalRow = GOAL_ROW: "a goal row's member or its last six words",
    Fact = FACT: "a bit at or above F",
    Owner = OWNER: "an action's member",
    Wait = WAIT: "wait is not within pre",
    Action = ACTION: "no such action",
    Member = MEMBER: "no such member",
    Full = FULL: "more rows than the table takes",
    Others = OTHERS: "another member's action",
    Ends = ENDS: "the ends, or a place past its plan's end",
    NoSolution = NO_SOLUTION: "a plan does not solve",
    Pick = PICK: "no step left, waiting, or already collided",
    Short = SHORT: "a lent slice is too short, or a change number too large",
    Text = TEXT: "the text's form, or the waits'",
    Pddl = PDDL: "a text outside the subset of PDDL, or without a member",
    Name = NAME: "a name or number unknown, a name twice, or members that differ",
    Many = MANY: "more facts, members or actions than a task allows",
    Stale = STALE: "the ticket's change number is not the run's",
    Changes = CHANGES: "the run's change number is the last one",
}

impl Refusal {
    /// The header's number.
    pub fn number(self) -> u64 {
        self as u64
    }

    /// The refusal with this number.
    pub fn of(number: u64) -> Option<Refusal> {
        Refusal::ALL.iter().copied().find(|refusal| refusal.number() == number)
    }
}

impl fmt::Display for Refusal {
    fn fmt(&self, f: &mut fmt::Formatter<'_>) -> fmt::Result {
        write!(f, "refused, {}: {}", self.number(), self.meaning())
    }
}

impl Error for Refusal {}

/// The answer for a function's return: 0, or a refusal's number.
fn answered(returned: u64) -> Result<(), Refusal> {
    match returned {
        0 => Ok(()),
        number => Err(Refusal::of(number).expect("the library gives the header's refusals")),
    }
}

/// An answer that the header does not have.
fn unknown(number: u64) -> ! {
    unreachable!("the library gives the header's answers, not {number}")
}

/// A set of facts: bit f stands for fact f. A shared copy is one, and what a collision is missing.
pub type Mask = u128;

/// The mask of two words, low word first.
pub fn mask(words: [u64; raw::MASK_WORDS]) -> Mask {
    let [low, high] = words.map(Mask::from);
    low | high << u64::BITS
}

/// The words of a mask, low word first.
pub fn mask_words(mask: Mask) -> [u64; raw::MASK_WORDS] {
    [mask as u64, (mask >> u64::BITS) as u64]
}

/// The facts of a mask, rising.
pub fn facts(mask: Mask) -> impl Iterator<Item = u32> {
    (0..Mask::BITS).filter(move |fact| mask >> fact & 1 == 1)
}

/// The task check.
pub fn check(task: &[u64]) -> Result<(), Refusal> {
    answered(raw::task(task))
}

/// What an action answers at a shared copy.
#[derive(Clone, Copy, Debug, PartialEq, Eq)]
pub enum Step {
    /// It goes; the new shared copy.
    Go(Mask),
    Wait,
    /// The preconditions that the shared copy lacks.
    Collision {
        missing: Mask,
    },
}

impl Step {
    /// Of the kind of an answer, the new shared copy and what is missing.
    fn of(kind: u64, new: [u64; raw::MASK_WORDS], missing: [u64; raw::MASK_WORDS]) -> Step {
        match kind {
            raw::STEP_GO => Step::Go(mask(new)),
            raw::STEP_WAIT => Step::Wait,
            raw::STEP_COLLISION => Step::Collision { missing: mask(missing) },
            number => unknown(number),
        }
    }
}

/// An action at a shared copy.
pub fn step(task: &[u64], action: u16, shared: Mask) -> Result<Step, Refusal> {
    let mut out = [0; raw::STEP_OUT];
    answered(raw::step(task, action, &mask_words(shared), &mut out))?;
    let [kind, new_low, new_high, missing @ ..] = out;
    Ok(Step::of(kind, [new_low, new_high], missing))
}

/// How a member's plan ends on its local copy alone.
#[derive(Clone, Copy, Debug, PartialEq, Eq)]
pub enum SoloReplay {
    Solves,
    /// The index, from 0, of the first step that lacks a precondition.
    Breaks(u64),
    /// All steps are done, and the goal is missing.
    Short,
}

/// A member's plan on its local copy alone.
pub fn solo_replay(task: &[u64], member: u8, plan: &[u16]) -> Result<SoloReplay, Refusal> {
    let mut out = [0; raw::SOLO_REPLAY_OUT];
    answered(raw::solo_replay(task, member, plan, &mut out))?;
    Ok(match out[0] {
        raw::SOLVES => SoloReplay::Solves,
        raw::BREAKS => SoloReplay::Breaks(out[1]),
        raw::GOAL_SHORT => SoloReplay::Short,
        number => unknown(number),
    })
}

/// What solo search found.
#[derive(Clone, Copy, Debug, PartialEq, Eq)]
pub struct SoloSearch {
    /// The local copies that can be reached, in the front of the table.
    pub copies: u64,
    /// Whether I is live: the member has a plan.
    pub live: bool,
    /// The copies that are live: the rows marked 1.
    pub marked: u64,
}

/// A member's reachable local copies, in breadth order, and a mark 1 for each live one. A copy is
/// two words of the table, so a table takes half as many copies as it has words.
pub fn solo_search(
    task: &[u64],
    member: u8,
    table: &mut [u64],
    marks: &mut [u8],
) -> Result<SoloSearch, Refusal> {
    let mut out = [0; raw::SOLO_SEARCH_OUT];
    answered(raw::solo_search(task, member, table, marks, &mut out))?;
    Ok(SoloSearch { copies: out[0], live: out[1] == 1, marked: out[2] })
}

/// How a run stands.
#[derive(Clone, Copy, Debug, PartialEq, Eq)]
pub enum Outcome {
    Success,
    /// The preconditions that the colliding pick lacked.
    Collision {
        missing: Mask,
    },
    Deadlock,
    /// The lowest member whose goal does not hold.
    Missed(u8),
    /// It is not finished.
    Open,
}

/// A run after a list of picks.
#[derive(Clone, Copy, Debug, PartialEq, Eq)]
pub struct Replay {
    pub outcome: Outcome,
    /// Picks done, a colliding one not counted.
    pub picks: u64,
    pub shared: Mask,
}

/// A list of picks from the start of a run.
pub fn joint_replay(
    task: &[u64],
    plans: &[u16],
    ends: &[u64],
    picks: &[u8],
) -> Result<Replay, Refusal> {
    let mut out = [0; raw::JOINT_REPLAY_OUT];
    answered(raw::joint_replay(task, plans, ends, picks, &mut out))?;
    let [kind, member, picks, shared_low, shared_high, missing @ ..] = out;
    let outcome = match kind {
        raw::RUN_SUCCESS => Outcome::Success,
        raw::RUN_COLLISION => Outcome::Collision { missing: mask(missing) },
        raw::RUN_DEADLOCK => Outcome::Deadlock,
        raw::RUN_MISSED => Outcome::Missed(member as u8),
        raw::RUN_OPEN => Outcome::Open,
        number => unknown(number),
    };
    Ok(Replay { outcome, picks, shared: mask([shared_low, shared_high]) })
}

/// A run that the caller holds: whether it has collided, each member's place in its plan, the
/// shared copy, and the change number, which counts the picks done on it.
///
/// [`Run::pick`] does a member's next step. Where its answer has to be known before it is done,
/// [`Run::ask`] gives the answer and a [`Ticket`], and [`Run::commit`] does the step.
#[derive(Clone, Debug, PartialEq, Eq)]
pub struct Run {
    words: [u64; raw::RUN_WORDS],
}

impl Run {
    /// A run at its start: the task's initial copy, all places 0, change number 0.
    pub fn start(task: &[u64]) -> Result<Run, Refusal> {
        let mut words = [0; raw::RUN_WORDS];
        answered(raw::start(task, &mut words))?;
        Ok(Run { words })
    }

    /// A run of these words, as the header has them. A change number above
    /// [`raw::LAST_CHANGE`] is refused as too large; the other words that no run has are refused
    /// by a pick.
    pub fn of_words(words: [u64; raw::RUN_WORDS]) -> Result<Run, Refusal> {
        if words[raw::RUN_CHANGE] > u64::from(raw::LAST_CHANGE) {
            return Err(Refusal::Short);
        }
        Ok(Run { words })
    }

    pub fn words(&self) -> &[u64; raw::RUN_WORDS] {
        &self.words
    }

    pub fn collided(&self) -> bool {
        self.words[raw::RUN_COLLIDED] != 0
    }

    /// Each member's place in its plan; those of members that the task does not have come last.
    pub fn places(&self) -> &[u64] {
        &self.words[raw::RUN_PLACES..raw::RUN_SHARED]
    }

    pub fn shared(&self) -> Mask {
        mask([self.words[raw::RUN_SHARED], self.words[raw::RUN_SHARED + 1]])
    }

    /// The picks done, a colliding one too.
    pub fn change(&self) -> u32 {
        self.words[raw::RUN_CHANGE] as u32
    }

    /// Does a member's next step. Each pick looks at all plans anew; [`Run::play`] does a list of
    /// picks and looks at them once. Tickets that were asked for before are stale afterwards.
    pub fn pick(
        &mut self,
        task: &[u64],
        plans: &[u16],
        ends: &[u64],
        member: u8,
    ) -> Result<Picked, Refusal> {
        let mut out = [0; raw::PICK_OUT];
        answered(raw::pick(task, plans, ends, &mut self.words, member, &mut out))?;
        Ok(Picked::of(out))
    }

    /// What a member's next step would answer, a step that waits too, and a ticket for it. The run
    /// stays as it is.
    pub fn ask(
        &self,
        task: &[u64],
        plans: &[u16],
        ends: &[u64],
        member: u8,
    ) -> Result<Asked, Refusal> {
        let mut out = [0; raw::ASK_OUT];
        answered(raw::ask(task, plans, ends, &self.words, member, &mut out))?;
        let [kind, new_low, new_high, low, high, member, change] = out;
        let step = Step::of(kind, [new_low, new_high], [low, high]);
        Ok(Asked { step, ticket: Ticket { member: member as u8, change: change as u32 } })
    }

    /// Does the pick that a ticket is for; its answer is what [`Run::ask`] gives on this run, with
    /// what is missing. A ticket is stale once another pick or commit was done.
    pub fn commit(
        &mut self,
        task: &[u64],
        plans: &[u16],
        ends: &[u64],
        ticket: Ticket,
    ) -> Result<Picked, Refusal> {
        let mut out = [0; raw::COMMIT_OUT];
        let Ticket { member, change } = ticket;
        answered(raw::commit(task, plans, ends, &mut self.words, member, change, &mut out))?;
        Ok(Picked::of(out))
    }

    /// Does picks in turn, each where the last one left the run: what each answers, a refusal for
    /// one that was passed over. What a collision is missing is not told here; [`joint_replay`] and
    /// [`step`] tell it.
    pub fn play(
        &mut self,
        task: &[u64],
        plans: &[u16],
        ends: &[u64],
        picks: &[u8],
    ) -> Result<Vec<Result<Played, Refusal>>, Refusal> {
        let mut answers = vec![0; picks.len()];
        answered(raw::play(task, plans, ends, &mut self.words, picks, &mut answers))?;
        Ok(answers
            .into_iter()
            .map(|number| match number {
                raw::PICK_GO => Ok(Played::Go),
                raw::PICK_COLLISION => Ok(Played::Collision),
                number => Err(Refusal::of(number).unwrap_or_else(|| unknown(number))),
            })
            .collect())
    }
}

/// What a pick answers.
#[derive(Clone, Copy, Debug, PartialEq, Eq)]
pub enum Picked {
    Go,
    /// The preconditions that the shared copy lacks.
    Collision {
        missing: Mask,
    },
}

impl Picked {
    fn of([kind, missing @ ..]: [u64; raw::PICK_OUT]) -> Picked {
        match kind {
            raw::PICK_GO => Picked::Go,
            raw::PICK_COLLISION => Picked::Collision { missing: mask(missing) },
            number => unknown(number),
        }
    }
}

/// What a pick of [`Run::play`] answers.
#[derive(Clone, Copy, Debug, PartialEq, Eq)]
pub enum Played {
    Go,
    Collision,
}

/// What [`Run::ask`] answers.
#[derive(Clone, Copy, Debug, PartialEq, Eq)]
pub struct Asked {
    /// What the member's next step would do.
    pub step: Step,
    pub ticket: Ticket,
}

/// A member and a change number, for [`Run::commit`]. One that nobody asked for is as good as any
/// other where its change number is the run's.
#[derive(Clone, Copy, Debug, PartialEq, Eq, Hash)]
pub struct Ticket {
    pub member: u8,
    pub change: u32,
}

/// Whether a law is robust.
#[derive(Clone, Copy, Debug, PartialEq, Eq)]
pub enum Verdict {
    /// The configurations that can be reached.
    Robust {
        configurations: u64,
    },
    /// The lowest member that has no plan.
    Unsolvable {
        member: u8,
    },
    /// Picks done before the fault, as below, and the preconditions that the colliding pick lacks.
    Collision {
        picks: u64,
        missing: Mask,
    },
    Deadlock {
        picks: u64,
    },
    /// The member whose goal does not hold in the end.
    Missed {
        member: u8,
        picks: u64,
    },
}

/// The slices that the verdict is lent. After an answer they hold what the header says.
#[derive(Clone, Debug)]
pub struct Room {
    pub local: Vec<u64>,
    pub marks: Vec<u8>,
    pub configurations: Vec<u64>,
    pub trail: Vec<u64>,
    pub plans: Vec<u16>,
    pub ends: Vec<u64>,
    pub picks: Vec<u8>,
}

impl Room {
    /// Room for a task of so many members: so many local copies of each, and so many
    /// configurations.
    pub fn new(members: usize, copies: usize, configurations: usize) -> Room {
        Room {
            local: vec![0; raw::MASK_WORDS * members * copies],
            marks: vec![0; members * copies],
            configurations: vec![0; raw::MASK_WORDS * (members + 1) * configurations],
            trail: vec![0; 2 * configurations],
            plans: vec![0; configurations + members * copies],
            ends: vec![0; members],
            picks: vec![0; configurations],
        }
    }

    /// After a fault, the first conflict: the plans up to the last end, and the picks, a colliding
    /// one included. They are what [`joint_replay`] is lent, with the ends. The header says what
    /// first means; it is the task's, whatever the room.
    pub fn conflict(&self, verdict: Verdict) -> Option<(&[u16], &[u8])> {
        let picks = match verdict {
            Verdict::Collision { picks, .. } => picks + 1,
            Verdict::Deadlock { picks } | Verdict::Missed { picks, .. } => picks,
            Verdict::Robust { .. } | Verdict::Unsolvable { .. } => return None,
        };
        let plans = self.ends.last().copied().unwrap_or(0);
        Some((&self.plans[..plans as usize], &self.picks[..picks as usize]))
    }
}

/// Whether a law is robust: no choice of solving plans and no order of picks ends in a fault.
pub fn verdict(task: &[u64], room: &mut Room) -> Result<Verdict, Refusal> {
    let mut out = [0; raw::VERDICT_OUT];
    let Room { local, marks, configurations, trail, plans, ends, picks } = room;
    answered(raw::verdict(
        task,
        local,
        marks,
        configurations,
        trail,
        plans,
        ends,
        picks,
        &mut out,
    ))?;
    let [kind, member, number, missing @ ..] = out;
    let member = member as u8;
    Ok(match kind {
        raw::ROBUST => Verdict::Robust { configurations: number },
        raw::UNSOLVABLE => Verdict::Unsolvable { member },
        raw::COLLISION => Verdict::Collision { picks: number, missing: mask(missing) },
        raw::DEADLOCK => Verdict::Deadlock { picks: number },
        raw::MISSED => Verdict::Missed { member, picks: number },
        number => unknown(number),
    })
}

/// The task that a text tells.
pub fn read(text: &[u8]) -> Result<Vec<u64>, Refusal> {
    let mut words = vec![0; raw::TEXT_WORDS];
    let mut out = [0; raw::READ_OUT];
    answered(raw::read(text, &mut words, &mut out))?;
    words.truncate(raw::ROW_WORDS * out[0] as usize);
    Ok(words)
}

/// Reads a law in PDDL with its waits: the number of the task's records. The words then hold the
/// task and zeros behind it; [`raw::TEXT_WORDS`] of them are enough for every task.
pub fn pddl_read(text: &[u8], waits: &[u8], words: &mut [u64]) -> Result<usize, Refusal> {
    let mut out = [0; raw::PDDL_READ_OUT];
    answered(raw::pddl_read(text, waits, words, &mut out))?;
    Ok(out[0] as usize)
}

/// Writes a task as PDDL with its waits: the lengths of the two texts, which then stand at the
/// front of the slices with zeros behind them; [`raw::PDDL_BYTES`] are enough for every task. From
/// them [`pddl_read`] gives the task with its actions grouped by member, else in order.
pub fn pddl_write(
    task: &[u64],
    text: &mut [u8],
    waits: &mut [u8],
) -> Result<(usize, usize), Refusal> {
    let mut out = [0; raw::PDDL_WRITE_OUT];
    answered(raw::pddl_write(task, text, waits, &mut out))?;
    Ok((out[0] as usize, out[1] as usize))
}
