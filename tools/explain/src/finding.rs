//! What there is to tell of a law, by the library alone: each state is what `lawcheck::step` gives,
//! and what is told of a conflict is held against joint replay before anything is shown.

use crate::law::Law;
use lawcheck::raw::{FULL, MASK_WORDS};
use lawcheck::{facts, mask, Mask, Outcome, Refusal, Room, SoloReplay, Step, Verdict};
use std::collections::{BTreeMap, HashMap, HashSet};

/// Why there is nothing to tell.
#[derive(Debug)]
pub enum Failure {
    Refused(Refusal),
    /// The library's answers do not fit together, or a file could not be read or written.
    Broken(String),
}

impl From<Refusal> for Failure {
    fn from(refusal: Refusal) -> Failure {
        Failure::Refused(refusal)
    }
}

/// The verdict, explained.
pub enum Finding {
    Robust {
        configurations: u64,
        /// The actions that can ever wait, each with the facts that it can wait for.
        waits: Vec<(u16, Mask)>,
    },
    Unsolvable(Nearest),
    Conflict(Conflict),
}

/// How near a member without a plan comes to its goal.
pub struct Nearest {
    pub member: usize,
    /// The local copies that it reaches.
    pub copies: u64,
    /// The facts of its goal that none of these has.
    pub never: Mask,
    /// Steps to the first copy that lacks the fewest facts of the goal.
    pub steps: Vec<Done>,
    /// What that copy lacks.
    pub lacks: Mask,
}

/// A step that was done.
#[derive(Clone, Copy)]
pub struct Done {
    pub member: usize,
    pub action: u16,
    pub before: Mask,
    pub after: Mask,
}

impl Done {
    pub fn gained(&self) -> Mask {
        self.after & !self.before
    }

    pub fn lost(&self) -> Mask {
        self.before & !self.after
    }
}

/// The first conflict.
pub struct Conflict {
    /// The picks that go, in turn.
    pub picks: Vec<Done>,
    /// The shared copy after them.
    pub shared: Mask,
    /// Each member's steps that are left.
    pub left: Vec<Vec<u16>>,
    pub fault: Fault,
    pub waited: Waited,
}

/// A fact that is lacking, and the last step that took it away.
#[derive(Clone, Copy, Debug, PartialEq)]
pub struct Taken {
    pub fact: u32,
    /// The place of that step among the picks, from 0.
    pub pick: usize,
    /// The first step left of another member that would bring the fact back.
    pub back: Option<u16>,
}

/// What went wrong.
pub enum Fault {
    Collision {
        member: usize,
        action: u16,
        missing: Vec<Taken>,
    },
    /// The members that wait, the action of each and the facts that it waits for.
    Deadlock(Vec<(usize, u16, Vec<Taken>)>),
    /// The members whose goal does not hold, and the facts of it that do not.
    Missed(Vec<(usize, Vec<Taken>)>),
}

impl Fault {
    /// What it is called.
    pub fn kind(&self) -> &'static str {
        match self {
            Fault::Collision { .. } => "collision",
            Fault::Deadlock(_) => "deadlock",
            Fault::Missed(_) => "goal missed",
        }
    }
}

/// The law with all preconditions waited for.
pub enum Waited {
    /// It is this law.
    Same,
    Robust(u64),
    /// Not robust either.
    Fails(Verdict),
}

/// What the tables have room for, in words.
#[derive(Clone, Copy)]
pub struct Tables {
    pub local: usize,
    pub configurations: usize,
}

/// The tables of the verdict program.
pub const TABLES: Tables = Tables { local: 4096, configurations: 8192 };

/// What there is to tell of a law.
pub fn find(law: &Law, tables: Tables) -> Result<Finding, Failure> {
    let mut room = tables.room(law);
    match lawcheck::verdict(&law.words, &mut room)? {
        Verdict::Robust { configurations } => {
            let waits = can_wait(law, &room, configurations as usize)?;
            Ok(Finding::Robust { configurations, waits })
        }
        Verdict::Unsolvable { member } => {
            let nearest = nearest(law, usize::from(member), tables)?;
            nearest.check(law)?;
            Ok(Finding::Unsolvable(nearest))
        }
        verdict => {
            let conflict = conflict(law, verdict, &room, tables)?;
            conflict.check(law)?;
            conflict.check_verdict(verdict)?;
            Ok(Finding::Conflict(conflict))
        }
    }
}

impl Tables {
    fn room(self, law: &Law) -> Room {
        let copies = self.local / (MASK_WORDS * law.members);
        Room::new(law.members, copies, self.configurations / (MASK_WORDS * (law.members + 1)))
    }
}

/// The library's answers do not fit together.
fn broken<T>(what: &str) -> Result<T, Failure> {
    Err(Failure::Broken(format!("the explanation does not hold: {what}")))
}

/// The masks of words.
fn masks(words: &[u64]) -> impl Iterator<Item = Mask> + '_ {
    words.chunks_exact(MASK_WORDS).map(|words| mask([words[0], words[1]]))
}

// ---- a conflict

/// A step of a plan that has to go.
fn go(law: &Law, action: u16, before: Mask) -> Result<Done, Failure> {
    match lawcheck::step(&law.words, action, before)? {
        Step::Go(after) => Ok(Done { member: law.owner(action), action, before, after }),
        _ => broken("a step that should go does not"),
    }
}

/// The verdict's conflict, in its slices.
fn conflict(law: &Law, verdict: Verdict, room: &Room, tables: Tables) -> Result<Conflict, Failure> {
    let Some((plans, picks)) = room.conflict(verdict) else {
        return broken("there is no conflict");
    };
    let mut begin = 0;
    let mut each = Vec::new();
    for &end in &room.ends[..law.members] {
        each.push(plans[begin..end as usize].to_vec());
        begin = end as usize;
    }
    let collides = matches!(verdict, Verdict::Collision { .. });
    Conflict::of(law, each, picks, collides, waited(law, tables)?)
}

fn fault(
    law: &Law,
    done: &[Done],
    left: &[Vec<u16>],
    shared: Mask,
    colliding: Option<usize>,
) -> Result<Fault, Failure> {
    if let Some(member) = colliding {
        let Some(&action) = left[member].first() else {
            return broken("a member collides that has no step left");
        };
        let Step::Collision { missing } = lawcheck::step(&law.words, action, shared)? else {
            return broken("a step that should collide does not");
        };
        let missing = taken(law, done, left, member, missing)?;
        return Ok(Fault::Collision { member, action, missing });
    }
    let mut waiting = Vec::new();
    for (member, steps) in left.iter().enumerate() {
        let Some(&action) = steps.first() else { continue };
        if lawcheck::step(&law.words, action, shared)? != Step::Wait {
            return broken("a step that should wait does not");
        }
        let lacks = law.wait(action) & !shared;
        waiting.push((member, action, taken(law, done, left, member, lacks)?));
    }
    if !waiting.is_empty() {
        return Ok(Fault::Deadlock(waiting));
    }
    let mut missed = Vec::new();
    for member in 0..law.members {
        let lacks = law.goal(member) & !shared;
        if lacks != 0 {
            missed.push((member, taken(law, done, left, member, lacks)?));
        }
    }
    Ok(Fault::Missed(missed))
}

/// For each fact that a member lacks the last step that took it away, another member's.
fn taken(
    law: &Law,
    done: &[Done],
    left: &[Vec<u16>],
    member: usize,
    lacks: Mask,
) -> Result<Vec<Taken>, Failure> {
    let of = |fact: u32| {
        let bit = 1 << fact;
        let Some(pick) = done.iter().rposition(|step| step.lost() & bit != 0) else {
            return broken("a fact is lacking that no step took away");
        };
        let others = left.iter().enumerate().filter(|&(other, _)| other != member);
        let mut steps = others.flat_map(|(_, steps)| steps);
        let back = steps.find(|&&action| law.add(action) & bit != 0).copied();
        Ok(Taken { fact, pick, back })
    };
    facts(lacks).map(of).collect()
}

/// The verdict on the law with all preconditions waited for.
fn waited(law: &Law, tables: Tables) -> Result<Waited, Failure> {
    let more = law.all_waited();
    if more.words == law.words {
        return Ok(Waited::Same);
    }
    match lawcheck::verdict(&more.words, &mut tables.room(law)) {
        Ok(Verdict::Robust { configurations }) => Ok(Waited::Robust(configurations)),
        Ok(Verdict::Unsolvable { .. }) => broken("a member with a plan has none"),
        Ok(verdict) => Ok(Waited::Fails(verdict)),
        // Waiting adds no configuration, so the tables that were large enough still are.
        Err(refusal) if refusal.number() == FULL => broken("the tables are full"),
        Err(refusal) => Err(refusal.into()),
    }
}

impl Conflict {
    /// What happens on these plans, one for each member, and picks, the last of which may collide.
    pub fn of(
        law: &Law,
        plans: Vec<Vec<u16>>,
        picks: &[u8],
        collides: bool,
        waited: Waited,
    ) -> Result<Conflict, Failure> {
        let mut left = plans;
        let (go_picks, colliding) = match picks {
            [before @ .., last] if collides => (before, Some(usize::from(*last))),
            all => (all, None),
        };
        let mut done: Vec<Done> = Vec::new();
        let mut shared = law.initial();
        for &member in go_picks {
            let steps = &mut left[usize::from(member)];
            if steps.is_empty() {
                return broken("a member is picked that has no step left");
            }
            let step = go(law, steps.remove(0), shared)?;
            shared = step.after;
            done.push(step);
        }
        let fault = fault(law, &done, &left, shared, colliding)?;
        Ok(Conflict { picks: done, shared, left, fault, waited })
    }

    /// The members that lack facts, and these.
    pub fn lacks(&self) -> impl Iterator<Item = (usize, &[Taken])> {
        let all: Vec<(usize, &[Taken])> = match &self.fault {
            Fault::Collision { member, missing, .. } => vec![(*member, missing)],
            Fault::Deadlock(waiting) => {
                waiting.iter().map(|(member, _, lacks)| (*member, &lacks[..])).collect()
            }
            Fault::Missed(missed) => {
                missed.iter().map(|(member, lacks)| (*member, &lacks[..])).collect()
            }
        };
        all.into_iter()
    }

    /// The facts that are lacking, each once.
    pub fn lacking(&self) -> Vec<Taken> {
        let mut all: Vec<Taken> = Vec::new();
        for taken in self.lacks().flat_map(|(_, lacks)| lacks) {
            if all.iter().all(|other| other.fact != taken.fact) {
                all.push(*taken);
            }
        }
        all
    }

    /// How the run that is shown ends.
    fn outcome(&self) -> Outcome {
        match &self.fault {
            Fault::Collision { missing, .. } => {
                let missing = missing.iter().fold(0, |all, taken| all | 1 << taken.fact);
                Outcome::Collision { missing }
            }
            Fault::Deadlock(_) => Outcome::Deadlock,
            Fault::Missed(missed) => Outcome::Missed(missed.first().map_or(0, |one| one.0) as u8),
        }
    }

    /// Joint replay of what is shown ends as it says: the plans are the steps done and left of each
    /// member, the picks those of the lines.
    pub fn check(&self, law: &Law) -> Result<(), Failure> {
        let (mut plans, mut ends) = (Vec::new(), Vec::new());
        for (member, left) in self.left.iter().enumerate() {
            let done = self.picks.iter().filter(|step| step.member == member);
            plans.extend(done.map(|step| step.action));
            plans.extend(left);
            ends.push(plans.len() as u64);
        }
        let mut picks: Vec<u8> = self.picks.iter().map(|step| step.member as u8).collect();
        if let Fault::Collision { member, .. } = self.fault {
            picks.push(member as u8);
        }
        let replay = lawcheck::joint_replay(&law.words, &plans, &ends, &picks)?;
        if replay.outcome != self.outcome()
            || replay.picks != self.picks.len() as u64
            || replay.shared != self.shared
        {
            return broken("joint replay ends otherwise");
        }
        Ok(())
    }

    /// What is shown is what the verdict says.
    pub fn check_verdict(&self, verdict: Verdict) -> Result<(), Failure> {
        let count = self.picks.len() as u64;
        let agrees = match (verdict, self.outcome()) {
            (Verdict::Collision { picks, missing }, Outcome::Collision { missing: here }) => {
                picks == count && missing == here
            }
            (Verdict::Deadlock { picks }, Outcome::Deadlock) => picks == count,
            (Verdict::Missed { member, picks }, Outcome::Missed(here)) => {
                picks == count && member == here
            }
            _ => false,
        };
        if agrees {
            Ok(())
        } else {
            broken("it is not what the verdict says")
        }
    }
}

// ---- a robust law

/// The actions that can ever wait: those that a run may have next in a configuration whose shared
/// copy lacks something that they wait for.
fn can_wait(law: &Law, room: &Room, configurations: usize) -> Result<Vec<(u16, Mask)>, Failure> {
    let copies = room.marks.len() / law.members;
    let live = |member: usize| {
        let rows = MASK_WORDS * member * copies;
        let table = masks(&room.local[rows..rows + MASK_WORDS * copies]);
        let marks = &room.marks[member * copies..(member + 1) * copies];
        table.zip(marks).filter(|(_, mark)| **mark == 1).map(|(copy, _)| copy).collect()
    };
    let live: Vec<HashSet<Mask>> = (0..law.members).map(live).collect();
    let rows: Vec<Vec<Mask>> = room.configurations
        [..MASK_WORDS * (law.members + 1) * configurations]
        .chunks_exact(MASK_WORDS * (law.members + 1))
        .map(|row| masks(row).collect())
        .collect();
    let mut waits: BTreeMap<u16, Mask> = BTreeMap::new();
    for action in law.all_actions().filter(|&action| law.wait(action) != 0) {
        let owner = law.owner(action);
        // Whether it can come next at a local copy, and whether it waits at a shared one.
        let (mut next, mut held) = (HashMap::new(), HashMap::new());
        for row in &rows {
            let (local, shared) = (row[owner], row[law.members]);
            let ready = match next.get(&local) {
                Some(&ready) => ready,
                None => {
                    let step = lawcheck::step(&law.words, action, local)?;
                    let ready = matches!(step, Step::Go(after) if live[owner].contains(&after));
                    next.insert(local, ready);
                    ready
                }
            };
            if !ready {
                continue;
            }
            let waiting = match held.get(&shared) {
                Some(&waiting) => waiting,
                None => {
                    let waiting = lawcheck::step(&law.words, action, shared)? == Step::Wait;
                    held.insert(shared, waiting);
                    waiting
                }
            };
            if waiting {
                *waits.entry(action).or_default() |= law.wait(action) & !shared;
            }
        }
    }
    Ok(waits.into_iter().collect())
}

// ---- a member without a plan

fn nearest(law: &Law, member: usize, tables: Tables) -> Result<Nearest, Failure> {
    let copies = tables.local / (MASK_WORDS * law.members);
    let mut table = vec![0; MASK_WORDS * copies];
    let mut marks = vec![0; copies];
    let search = lawcheck::solo_search(&law.words, member as u8, &mut table, &mut marks)?;
    let rows: Vec<Mask> = masks(&table).take(search.copies as usize).collect();
    let goal = law.goal(member);
    let never = rows.iter().fold(goal, |never, copy| never & !copy);
    let lacking = |row: &usize| ((goal & !rows[*row]).count_ones(), *row);
    let Some(nearest) = (0..rows.len()).min_by_key(lacking) else {
        return broken("a member has no copy");
    };
    // The row that first led to each one, as the search lists them.
    let places: HashMap<Mask, usize> = rows.iter().enumerate().map(|(row, &m)| (m, row)).collect();
    let mut first: Vec<Option<Done>> = vec![None; rows.len()];
    let own: Vec<u16> = law.all_actions().filter(|&a| law.owner(a) == member).collect();
    for &before in &rows {
        for &action in &own {
            if let Step::Go(after) = lawcheck::step(&law.words, action, before)? {
                let Some(&row) = places.get(&after) else {
                    return broken("a copy is not listed");
                };
                if row > 0 && first[row].is_none() {
                    first[row] = Some(Done { member, action, before, after });
                }
            }
        }
    }
    let mut steps = Vec::new();
    let mut row = nearest;
    while row > 0 {
        let Some(step) = first[row] else {
            return broken("no step leads to a listed copy");
        };
        steps.push(step);
        row = places[&step.before];
    }
    steps.reverse();
    let lacks = goal & !rows[nearest];
    Ok(Nearest { member, copies: search.copies, never, steps, lacks })
}

impl Nearest {
    /// Solo replay of the steps that are shown does all of them and misses the goal.
    fn check(&self, law: &Law) -> Result<(), Failure> {
        let plan: Vec<u16> = self.steps.iter().map(|step| step.action).collect();
        match lawcheck::solo_replay(&law.words, self.member as u8, &plan)? {
            SoloReplay::Short if self.lacks != 0 => Ok(()),
            _ => broken("solo replay ends otherwise"),
        }
    }
}
