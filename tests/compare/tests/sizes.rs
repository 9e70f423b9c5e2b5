//! The comparison finds implementations that are wrong from a size on: the fast twin with one wrong
//! thing in each, for each quantity that an answer, an index or a loop counts, from 8, 16, 64, 256
//! and 1024 on, for change numbers also from 2^16, 2^24 and 2^31 on.

#[macro_use]
mod listed;

use compare::driver::{one, Summary};
use compare::operations::sizes;
use reference::fast::{copies, count_configurations, read_words, Copies, Fast, Task, DEAD};
use reference::interface::{
    mask_of, missing, out_length, Interface, Ticket, CHANGE, FACTS, LAST, MASK, ROW, SHARED,
};
use std::collections::BTreeMap;
use std::sync::atomic::{AtomicU64, AtomicUsize, Ordering};
use std::sync::Mutex;
use std::thread;

listed! {
    /// What is counted. The first part of a name is the operation.
    #[derive(Clone, Copy, Debug, PartialEq, Eq, PartialOrd, Ord)]
    enum Quantity {
        TaskFacts,
        TaskGoalRow,
        TaskActionRow,
        StepAction,
        StepFact,
        SoloMember,
        SoloAction,
        SoloSteps,
        SoloBreak,
        SoloBadEntry,
        SearchMember,
        SearchRows,
        SearchTable,
        SearchMarks,
        SearchMarked,
        SearchDistance,
        SearchCleared,
        SearchFull,
        JointMembers,
        JointMissedMember,
        JointPicks,
        JointSuccess,
        JointCollision,
        JointDeadlock,
        JointMissed,
        JointOpen,
        JointEntries,
        JointPlan,
        JointUnsolved,
        JointBadEntry,
        JointBadPick,
        PickMember,
        PickPlace,
        PickCollision,
        PickImpossible,
        PickPastEnd,
        PickEntries,
        PickChange,
        AskMember,
        AskFact,
        AskPlace,
        AskWait,
        AskCollision,
        AskImpossible,
        AskPastEnd,
        AskEntries,
        AskChange,
        CommitMember,
        CommitPlace,
        CommitCollision,
        CommitImpossible,
        CommitPastEnd,
        CommitEntries,
        CommitChange,
        CommitStale,
        Calls,
        StartFact,
        PlayPicks,
        PlayPlace,
        PlayCollision,
        PlayPassedOver,
        PlayChange,
        PlayLast,
        VerdictMembers,
        VerdictActions,
        VerdictUnsolvable,
        VerdictMissedMember,
        VerdictCopies,
        VerdictMarks,
        VerdictOffset,
        VerdictRows,
        VerdictRobust,
        VerdictCollision,
        VerdictDeadlock,
        VerdictMissed,
        VerdictPlan,
        VerdictEntries,
        VerdictAction,
        VerdictPick,
        VerdictMove,
        VerdictRest,
        VerdictCleared,
        VerdictPicksCleared,
        VerdictFull,
        ReadRecords,
        ReadWords,
        ReadDigits,
        ReadBytes,
        ReadBadRecord,
        ReadCleared,
        SearchFact,
        JointFact,
        PickFact,
        CommitFact,
        PlayFact,
        VerdictLocalFact,
        VerdictFact,
        StepMissing,
        StepMissingFact,
        JointMissing,
        JointMissingFact,
        PickMissing,
        PickMissingFact,
        AskMissing,
        AskMissingFact,
        CommitMissing,
        CommitMissingFact,
        VerdictMissing,
        VerdictMissingFact,
    }
}
use Quantity::*;

impl Quantity {
    /// The most that it can be, or that the cases go to where it has no limit.
    fn most(self) -> usize {
        match self {
            TaskGoalRow | SoloMember | SearchMember | JointMembers | JointMissedMember
            | PickMember | AskMember | CommitMember | VerdictMembers | VerdictUnsolvable
            | VerdictMissedMember => 8,
            ReadDigits => 20,
            TaskFacts | StepFact | StartFact | AskFact | JointFact | PickFact | CommitFact
            | PlayFact | SearchFact | VerdictLocalFact | VerdictFact | StepMissing
            | StepMissingFact | JointMissing | JointMissingFact | PickMissing | PickMissingFact
            | AskMissing | AskMissingFact | CommitMissing | CommitMissingFact | VerdictMissing
            | VerdictMissingFact => FACTS,
            TaskActionRow | StepAction | SoloAction | VerdictActions | VerdictAction => 256,
            ReadRecords | ReadBadRecord => 265,
            ReadWords => ROW * 265,
            VerdictCollision | VerdictDeadlock | VerdictPlan | VerdictEntries | VerdictPick
            | VerdictMove | VerdictRest | Calls => 1024,
            VerdictMissed => 2048,
            SearchRows | SearchTable | SearchMarks | SearchMarked | SearchDistance
            | SearchCleared | SearchFull | VerdictCopies | VerdictMarks | VerdictOffset
            | VerdictRows | VerdictRobust | VerdictCleared | VerdictPicksCleared | VerdictFull
            | ReadCleared => 4096,
            ReadBytes => 16_384,
            SoloSteps | SoloBreak | SoloBadEntry | JointPicks | JointSuccess | JointCollision
            | JointDeadlock | JointMissed | JointOpen | JointEntries | JointPlan
            | JointUnsolved | JointBadEntry | JointBadPick | PickPlace | PickCollision
            | PickImpossible | PickPastEnd | PickEntries | AskPlace | AskWait | AskCollision
            | AskImpossible | AskPastEnd | AskEntries | CommitPlace | CommitCollision
            | CommitImpossible | CommitPastEnd | CommitEntries | PlayPicks | PlayPlace
            | PlayCollision | PlayPassedOver | PlayLast => 65_536,
            PickChange | AskChange | CommitChange | CommitStale | PlayChange => CHANGES,
        }
    }
}

/// The last change number.
const CHANGES: usize = LAST as usize;

/// The sizes from which on a twin is wrong, and those for change numbers alone.
const FROM: [usize; 5] = [8, 16, 64, 256, 1024];
const FROM_CHANGES: [usize; 3] = [1 << 16, 1 << 24, 1 << 31];

type Wrong = (Quantity, usize);

/// Every twin that has to be found.
fn wrong_twins() -> Vec<Wrong> {
    let from = |&quantity: &Quantity| {
        let changes = FROM_CHANGES.into_iter().filter(move |_| quantity.most() == CHANGES);
        FROM.into_iter()
            .chain(changes)
            .filter(move |&from| from <= quantity.most())
            .map(move |from| (quantity, from))
    };
    Quantity::ALL.iter().flat_map(from).collect()
}

/// The fast twin, wrong in one quantity from a size on, or in nothing. It notes the largest size of
/// each quantity that it meets.
#[derive(Default)]
struct Twin {
    wrong: Option<Wrong>,
    met: Mutex<BTreeMap<Quantity, usize>>,
    /// Asks and commits so far.
    calls: AtomicUsize,
}

impl Twin {
    fn wrong(wrong: Wrong) -> Twin {
        Twin { wrong: Some(wrong), ..Twin::default() }
    }

    /// One more ask or commit: whether it is wrong.
    fn called(&self) -> bool {
        let calls = 1 + self.calls.fetch_add(1, Ordering::Relaxed);
        self.at(Calls, calls)
    }

    /// Takes the highest fact out of an answer's mask where that is wrong.
    fn without(&self, quantity: Quantity, mask: &mut [u64]) {
        if facts(mask) > 0 && self.at(quantity, facts(mask)) {
            lose_highest(mask);
        }
    }

    /// Takes the highest fact out of what is missing where that is wrong: by how many are missing,
    /// or by the highest of them.
    fn lacks(&self, [number, highest]: [Quantity; 2], mask: &mut [u64]) {
        let missing = mask_of(mask).count_ones() as usize;
        if missing > 0 && self.at(number, missing) {
            lose_highest(mask);
        }
        self.without(highest, mask);
    }

    /// Whether the answer is wrong at this size.
    fn at(&self, quantity: Quantity, size: usize) -> bool {
        let mut met = self.met.lock().expect("no thread fails with the lock");
        let most = met.entry(quantity).or_default();
        *most = size.max(*most);
        self.wrong.is_some_and(|(wrong, from)| wrong == quantity && size >= from)
    }
}

/// The first row that the task check refuses, where it is not row 0.
fn refused_row(task: &[u64]) -> Option<usize> {
    let until = |row: usize| {
        let members = (task[1] as usize).min(row);
        let mut words = task[..ROW * (row + 1)].to_vec();
        words[1..3].copy_from_slice(&[members as u64, (row - members) as u64]);
        words
    };
    (1..task.len() / ROW).find(|&row| Fast.task(&until(row)) != 0)
}

/// How many facts there are up to the highest in a mask.
fn facts(mask: &[u64]) -> usize {
    FACTS - mask_of(mask).leading_zeros() as usize
}

/// Takes the highest fact out of a mask.
fn lose_highest(mask: &mut [u64]) {
    let highest = facts(mask) - 1;
    mask[highest / 64] &= !(1 << (highest % 64));
}

/// The largest part between neighbouring ends.
fn longest(ends: &[u64]) -> (usize, usize) {
    let begins = std::iter::once(0).chain(ends.iter().copied());
    let lengths = ends.iter().zip(begins).map(|(end, begin)| (end.saturating_sub(begin)) as usize);
    lengths.enumerate().max_by_key(|&(_, length)| length).unwrap_or((0, 0))
}

/// The length of the first plan that a run's place is past the end of.
fn passed(plans: &[u16], ends: &[u64], run: &[u64]) -> Option<usize> {
    if !ends.is_sorted() || ends.last() != Some(&(plans.len() as u64)) {
        return None;
    }
    let begins = std::iter::once(0).chain(ends.iter().copied());
    let lengths = ends.iter().zip(begins).map(|(end, begin)| end - begin);
    let past = lengths.zip(&run[1..]).find(|(length, &place)| place > *length);
    past.map(|(length, _)| length as usize)
}

/// The action after this one that does the same.
fn again(task: &[u64], number: u16) -> Option<u16> {
    let row = |number: u16| &task[ROW * (1 + task[1] as usize + number as usize)..][..ROW];
    (number + 1..task[2] as u16).find(|&other| row(other) == row(number))
}

/// Where the moves of a conflict stand in its plans, in the order of its picks.
fn moves(ends: &[u64], picks: &[u8]) -> Vec<usize> {
    let begins = std::iter::once(0).chain(ends.iter().map(|&end| end as usize));
    let mut places: Vec<usize> = begins.collect();
    let mut next = |member: u8| {
        places[member as usize] += 1;
        places[member as usize] - 1
    };
    picks.iter().map(|&member| next(member)).collect()
}

/// A member's copies, as many as solo search listed.
fn listed_copies(task: &[u64], member: usize, rows: usize) -> Option<(Task, Copies)> {
    let task = Task::check(task).ok()?;
    let copies = copies(&task, member, rows)?;
    Some((task, copies))
}

impl Interface for Twin {
    fn task(&self, task: &[u64]) -> u64 {
        let refusal = Fast.task(task);
        match refusal {
            0 if self.at(TaskFacts, task[0] as usize) => return 2,
            3..=6 => {
                let members = task[1] as usize;
                match refused_row(task) {
                    Some(row) if row <= members && self.at(TaskGoalRow, row) => return 0,
                    Some(row) if row > members && self.at(TaskActionRow, row - members) => {
                        return 0
                    }
                    _ => {}
                }
            }
            _ => {}
        }
        refusal
    }

    fn step(&self, task: &[u64], action: u16, shared: &[u64], out: &mut [u64]) -> u64 {
        let refusal = Fast.step(task, action, shared, out);
        if refusal == 0 {
            if self.at(StepAction, action as usize + 1) {
                out[0] = (out[0] + 1) % 3;
            }
            self.without(StepFact, &mut out[1..3]);
            self.lacks([StepMissing, StepMissingFact], &mut out[missing::STEP]);
        }
        refusal
    }

    fn solo_replay(&self, task: &[u64], member: u8, plan: &[u16], out: &mut [u64]) -> u64 {
        let refusal = Fast.solo_replay(task, member, plan, out);
        if refusal == 7 || refusal == 10 {
            let good =
                |&length: &usize| Fast.solo_replay(task, member, &plan[..length], &mut [0; 2]) == 0;
            let bad = last_good(plan.len(), good);
            if self.at(SoloBadEntry, bad) {
                return Fast.solo_replay(task, member, &plan[..bad], out);
            }
        }
        if refusal == 0 {
            let highest = plan.iter().max().map_or(0, |&action| action as usize + 1);
            let wrong = match out[0] {
                1 => self.at(SoloBreak, out[1] as usize),
                _ => self.at(SoloSteps, plan.len()),
            };
            if wrong {
                match out[0] {
                    1 => out[1] -= 1,
                    kind => out[0] = 2 - kind,
                }
            }
            if self.at(SoloMember, member as usize + 1) || self.at(SoloAction, highest) {
                out[0] = (out[0] + 1) % 3;
            }
        }
        refusal
    }

    fn solo_search(
        &self,
        task: &[u64],
        member: u8,
        table: &mut [u64],
        marks: &mut [u8],
        out: &mut [u64],
    ) -> u64 {
        let last = table.last().copied().unwrap_or(0);
        let refusal = Fast.solo_search(task, member, table, marks, out);
        let rows = table.len() / MASK;
        if refusal == 9 && last != 0 && self.at(SearchFull, rows) {
            *table.last_mut().expect("not empty") = last;
        }
        if refusal == 0 {
            let count = out[0] as usize;
            if last != 0 && count < rows && self.at(SearchCleared, rows - count) {
                *table.last_mut().expect("not empty") = last;
            }
            if self.at(SearchTable, count) {
                table[MASK * count - 1] ^= 1;
            }
            self.without(SearchFact, &mut table[MASK * (count - 1)..][..MASK]);
            if self.at(SearchMarks, count) {
                marks[count - 1] ^= 1;
            }
            if let Some((_, copies)) = listed_copies(task, member as usize, count) {
                let far =
                    copies.distance.iter().enumerate().filter(|(_, &distance)| distance != DEAD);
                let (row, distance) = far.max_by_key(|(_, &distance)| distance).unwrap_or((0, &0));
                if self.at(SearchDistance, *distance as usize) {
                    marks[row] = 0;
                }
            }
            if self.at(SearchMarked, out[2] as usize) {
                out[2] -= 1;
            }
            if self.at(SearchRows, count) {
                out[0] -= 1;
            }
            if self.at(SearchMember, member as usize + 1) {
                out[1] ^= 1;
            }
        }
        refusal
    }

    fn joint_replay(
        &self,
        task: &[u64],
        plans: &[u16],
        ends: &[u64],
        picks: &[u8],
        out: &mut [u64],
    ) -> u64 {
        let refusal = Fast.joint_replay(task, plans, ends, picks, out);
        let (_, longest) = longest(ends);
        match refusal {
            0 => {
                let done = out[2] as usize;
                if self.at(JointEntries, plans.len()) {
                    return 11;
                }
                if self.at(JointPlan, longest) {
                    return 12;
                }
                if out[0] == 3 && self.at(JointMissedMember, out[1] as usize + 1) {
                    out[1] -= 1;
                }
                let kinds = [JointSuccess, JointCollision, JointDeadlock, JointMissed, JointOpen];
                if self.at(kinds[out[0] as usize], done) || self.at(JointMembers, task[1] as usize)
                {
                    out[0] = (out[0] + 1) % 5;
                }
                if self.at(JointPicks, done) {
                    out[2] -= 1;
                }
                self.without(JointFact, &mut out[3..5]);
                let missing = &mut out[missing::JOINT_REPLAY];
                self.lacks([JointMissing, JointMissingFact], missing);
            }
            7 | 10 => {
                let known = |&entry: &u16| (entry as u64) < task[2];
                let owner = |entry: u16| task[ROW * (1 + task[1] as usize + entry as usize)];
                let mut entries = plans.iter().enumerate();
                let bad = entries.position(|(place, entry)| {
                    let member = ends.iter().position(|&end| (place as u64) < end).unwrap_or(0);
                    !known(entry) || owner(*entry) != member as u64
                });
                if bad.is_some_and(|bad| self.at(JointBadEntry, bad)) {
                    return 12;
                }
            }
            12 if self.at(JointUnsolved, longest) => return 11,
            8 | 13 => {
                let good = |&length: &usize| {
                    let mut out = [0; out_length::JOINT_REPLAY];
                    Fast.joint_replay(task, plans, ends, &picks[..length], &mut out) == 0
                };
                let bad = last_good(picks.len(), good);
                if self.at(JointBadPick, bad) {
                    return Fast.joint_replay(task, plans, ends, &picks[..bad], out);
                }
            }
            _ => {}
        }
        refusal
    }

    fn pick(
        &self,
        task: &[u64],
        plans: &[u16],
        ends: &[u64],
        run: &mut [u64],
        member: u8,
        out: &mut [u64],
    ) -> u64 {
        let before = run.to_vec();
        let refusal = Fast.pick(task, plans, ends, run, member, out);
        let place = 1 + member as usize;
        match refusal {
            0 => {
                if out[0] == 0 && self.at(PickPlace, run[place] as usize) {
                    run[place] -= 1;
                }
                if out[0] == 1 && self.at(PickCollision, run[place] as usize) {
                    out[0] = 0;
                }
                if self.at(PickMember, place) || self.at(PickEntries, plans.len()) {
                    run.copy_from_slice(&before);
                }
                if self.at(PickChange, before[CHANGE] as usize) {
                    run[CHANGE] = before[CHANGE];
                }
                if out[0] == 0 {
                    self.without(PickFact, &mut run[SHARED..CHANGE]);
                }
                self.lacks([PickMissing, PickMissingFact], &mut out[missing::PICK]);
            }
            13 if self.at(PickImpossible, run[place] as usize) => return 8,
            20 if self.at(PickChange, CHANGES) => return 13,
            11 => {
                let past = passed(plans, ends, run);
                if past.is_some_and(|length| self.at(PickPastEnd, length)) {
                    return 13;
                }
            }
            _ => {}
        }
        refusal
    }

    fn ask(
        &self,
        task: &[u64],
        plans: &[u16],
        ends: &[u64],
        run: &mut [u64],
        member: u8,
        out: &mut [u64],
    ) -> u64 {
        let late = self.called();
        let refusal = Fast.ask(task, plans, ends, run, member, out);
        let place = 1 + member as usize;
        match refusal {
            0 => {
                let at = run[place] as usize;
                self.without(AskFact, &mut out[1..3]);
                let kinds = [AskPlace, AskWait, AskCollision];
                if self.at(kinds[out[0] as usize], at) || late {
                    out[0] = (out[0] + 1) % 3;
                }
                if self.at(AskMember, place) || self.at(AskEntries, plans.len()) {
                    out[5] += 1;
                }
                if self.at(AskChange, out[6] as usize) {
                    out[6] -= 1;
                }
                self.lacks([AskMissing, AskMissingFact], &mut out[missing::ASK]);
            }
            13 if self.at(AskImpossible, run[place] as usize) => return 8,
            11 => {
                let past = passed(plans, ends, run);
                if past.is_some_and(|length| self.at(AskPastEnd, length)) {
                    return 13;
                }
            }
            _ => {}
        }
        refusal
    }

    fn commit(
        &self,
        task: &[u64],
        plans: &[u16],
        ends: &[u64],
        run: &mut [u64],
        ticket: Ticket,
        out: &mut [u64],
    ) -> u64 {
        let (before, late) = (run.to_vec(), self.called());
        let refusal = Fast.commit(task, plans, ends, run, ticket, out);
        let place = 1 + ticket.member as usize;
        match refusal {
            0 => {
                if out[0] == 0 && self.at(CommitPlace, run[place] as usize) {
                    run[place] -= 1;
                }
                if out[0] == 1 && self.at(CommitCollision, run[place] as usize) {
                    out[0] = 0;
                }
                if self.at(CommitMember, place) || self.at(CommitEntries, plans.len()) {
                    run.copy_from_slice(&before);
                }
                if self.at(CommitChange, before[CHANGE] as usize) || late {
                    run[CHANGE] = before[CHANGE];
                }
                if out[0] == 0 {
                    self.without(CommitFact, &mut run[SHARED..CHANGE]);
                }
                self.lacks([CommitMissing, CommitMissingFact], &mut out[missing::COMMIT]);
            }
            13 if self.at(CommitImpossible, run[place] as usize) => return 8,
            19 => {
                let apart = run[CHANGE] ^ u64::from(ticket.change);
                if self.at(CommitStale, apart as usize) {
                    return Fast.pick(task, plans, ends, run, ticket.member, out);
                }
            }
            20 if self.at(CommitChange, CHANGES) => return 13,
            11 => {
                let past = passed(plans, ends, run);
                if past.is_some_and(|length| self.at(CommitPastEnd, length)) {
                    return 13;
                }
            }
            _ => {}
        }
        refusal
    }

    fn start(&self, task: &[u64], run: &mut [u64]) -> u64 {
        let refusal = Fast.start(task, run);
        if refusal == 0 {
            self.without(StartFact, &mut run[SHARED..CHANGE]);
        }
        refusal
    }

    fn play(
        &self,
        task: &[u64],
        plans: &[u16],
        ends: &[u64],
        run: &mut [u64],
        picks: &[u8],
        answers: &mut [u64],
    ) -> u64 {
        let change = run.get(CHANGE).copied();
        let refusal = Fast.play(task, plans, ends, run, picks, answers);
        if refusal != 0 {
            return refusal;
        }
        let told = &mut answers[..picks.len()];
        if told.contains(&0) {
            self.without(PlayFact, &mut run[SHARED..CHANGE]);
        }
        if let Some(change) = change.filter(|&change| self.at(PlayChange, change as usize)) {
            run[CHANGE] = change;
        }
        if let Some(last) = told.iter().position(|&answer| answer == 20) {
            if self.at(PlayLast, last + 1) {
                told[last] = 0;
            }
        }
        if let Some(collision) = told.iter().position(|&answer| answer == 1) {
            if self.at(PlayCollision, collision) {
                told[collision] = 0;
            }
        }
        if let Some(passed) = told.iter().rposition(|&answer| answer > 1) {
            if self.at(PlayPassedOver, passed) {
                told[passed] = 0;
            }
        }
        if self.at(PlayPicks, picks.len()) {
            *told.last_mut().expect("some picks") ^= 1;
        }
        let members = task[1] as usize;
        let moved = (0..members).filter(|&member| picks.contains(&(member as u8)));
        if let Some(member) = moved.max_by_key(|&member| run[1 + member]) {
            if self.at(PlayPlace, run[1 + member] as usize) {
                run[1 + member] -= 1;
            }
        }
        0
    }

    fn verdict(
        &self,
        task: &[u64],
        local: &mut [u64],
        marks: &mut [u8],
        configurations: &mut [u64],
        trail: &mut [u64],
        plans: &mut [u16],
        ends: &mut [u64],
        picks: &mut [u8],
        out: &mut [u64],
    ) -> u64 {
        let last = configurations.last().copied().unwrap_or(0);
        let last_pick = picks.last().copied().unwrap_or(0);
        let refusal =
            Fast.verdict(task, local, marks, configurations, trail, plans, ends, picks, out);
        if refusal == 9 && last != 0 && self.at(VerdictFull, configurations.len() / MASK) {
            *configurations.last_mut().expect("not empty") = last;
        }
        let (0, Ok(checked)) = (refusal, Task::check(task)) else {
            return refusal;
        };
        let members = checked.members();
        let rows = local.len() / (MASK * members);
        let tables: Vec<Copies> =
            (0..members).filter_map(|member| copies(&checked, member, rows)).collect();
        if self.at(VerdictMembers, members) || self.at(VerdictActions, checked.actions.len()) {
            out[2] += 1;
        }
        for (member, table) in tables.iter().enumerate() {
            let (copies, end) = (table.rows.len(), member * rows + table.rows.len());
            if self.at(VerdictCopies, copies) || self.at(VerdictOffset, end) {
                local[MASK * end - 1] ^= 1;
            }
            self.without(VerdictLocalFact, &mut local[MASK * (end - 1)..][..MASK]);
            if self.at(VerdictMarks, copies) {
                marks[end - 1] ^= 1;
            }
        }
        if out[0] == 1 {
            if self.at(VerdictUnsolvable, out[1] as usize + 1) {
                out[1] -= 1;
            }
            return 0;
        }
        let count = count_configurations(&checked, &tables, configurations.len())
            .expect("they were listed");
        let width = MASK * (members + 1);
        self.without(VerdictFact, &mut configurations[count * width - MASK..][..MASK]);
        if self.at(VerdictRows, count) {
            configurations[count * width - 1] ^= 1;
        }
        let free = configurations.len() - count * width;
        if last != 0 && free >= MASK && self.at(VerdictCleared, free / MASK) {
            *configurations.last_mut().expect("not empty") = last;
        }
        let done = out[2] as usize;
        let used = if out[0] == 0 { 0 } else { done + 1 };
        if last_pick != 0 && picks.len() > used && self.at(VerdictPicksCleared, picks.len() - used)
        {
            *picks.last_mut().expect("not empty") = last_pick;
        }
        if out[0] == 0 {
            if self.at(VerdictRobust, count) {
                out[2] -= 1;
            }
            return 0;
        }
        let (member, length) = longest(&ends[..members]);
        let entries = ends[members - 1] as usize;
        if length > 0 && self.at(VerdictPlan, length) {
            plans[ends[member] as usize - 1] ^= 1;
        }
        if entries > 0 && self.at(VerdictEntries, entries) {
            plans[entries - 1] ^= 1;
        }
        // The last move, and the last step of the longest rest of a plan, by another action.
        let moves = moves(&ends[..members], &picks[..done]);
        let other = moves.last().and_then(|&entry| Some((entry, again(task, plans[entry])?)));
        let rest = |&member: &usize| {
            let begin = if member == 0 { 0 } else { ends[member - 1] };
            let moved = picks[..done].iter().filter(|&&pick| pick as usize == member).count();
            (ends[member] - begin) as usize - moved
        };
        let member = (0..members).max_by_key(rest).expect("a member");
        let rest = rest(&member);
        let last = (rest > 0).then(|| ends[member] as usize - 1);
        let another = last.and_then(|entry| Some((entry, again(task, plans[entry])?)));
        if let Some((entry, number)) = other.filter(|_| self.at(VerdictMove, done)) {
            plans[entry] = number;
        }
        if let Some((entry, number)) = another.filter(|_| self.at(VerdictRest, rest)) {
            plans[entry] = number;
        }
        if done > 0 && self.at(VerdictPick, done) {
            picks[done - 1] ^= 1;
        }
        let highest = (0..entries).max_by_key(|&entry| plans[entry]);
        if let Some(entry) = highest.filter(|&entry| plans[entry] > 0) {
            if self.at(VerdictAction, plans[entry] as usize + 1) {
                plans[entry] -= 1;
            }
        }
        if out[0] == 4 && self.at(VerdictMissedMember, out[1] as usize + 1) {
            out[1] -= 1;
        }
        self.lacks([VerdictMissing, VerdictMissingFact], &mut out[missing::VERDICT]);
        let kinds = [VerdictCollision, VerdictDeadlock, VerdictMissed];
        if self.at(kinds[out[0] as usize - 2], done) {
            out[..3].copy_from_slice(&[0, 0, count as u64]);
        }
        0
    }

    fn read(&self, text: &[u8], words: &mut [u64], out: &mut [u64]) -> u64 {
        let last = words.last().copied().unwrap_or(0);
        let refusal = Fast.read(text, words, out);
        match refusal {
            0 => {
                let records = out[0] as usize;
                let used = ROW * records;
                if self.at(ReadBytes, text.len()) {
                    words.fill(0);
                    return 15;
                }
                let (place, digits) = (0..used)
                    .map(|place| (place, words[place].to_string().len()))
                    .max_by_key(|&(_, digits)| digits)
                    .expect("a record");
                if self.at(ReadDigits, digits) {
                    words[place] ^= 1;
                }
                if self.at(ReadWords, used) {
                    words[used - 1] ^= 1;
                }
                if last != 0 && words.len() > used && self.at(ReadCleared, words.len() - used) {
                    *words.last_mut().expect("not empty") = last;
                }
                if self.at(ReadRecords, records) {
                    out[0] -= 1;
                }
            }
            15 => {
                let ends = text.windows(2).enumerate().filter(|(_, pair)| *pair == b"\r\n");
                let good = ends.take_while(|(end, _)| read_words(&text[..*end]).is_some()).count();
                if self.at(ReadBadRecord, good + 1) {
                    return 1;
                }
            }
            _ => {}
        }
        refusal
    }
}

/// The greatest length up to `length` that is good, where every one below it is.
fn last_good(length: usize, good: impl Fn(&usize) -> bool) -> usize {
    let (mut low, mut high) = (0, length);
    while low < high {
        let middle = (low + high).div_ceil(2);
        if good(&middle) {
            low = middle;
        } else {
            high = middle - 1;
        }
    }
    low
}

const SEED: u64 = 1;
/// Cases in which a twin is tried.
const TRIED: usize = 8;

/// The cases that meet each quantity at a size from a power of two up to the next.
type Met = BTreeMap<(Quantity, u32), Vec<u64>>;

/// What each case meets, by the fast twin with nothing wrong.
fn met(cases: &[u64]) -> Met {
    let next = AtomicU64::new(0);
    let found: Mutex<Met> = Mutex::default();
    let part = || loop {
        let Some(&case) = cases.get(next.fetch_add(1, Ordering::Relaxed) as usize) else {
            return;
        };
        let (twin, mut summary) = (Twin::default(), Summary::default());
        one(&twin, SEED, case, &mut summary);
        assert_eq!(summary.failed, 0, "case {case} fails with nothing wrong");
        let met = twin.met.into_inner().expect("no thread fails with the lock");
        let mut found = found.lock().expect("no thread fails with the lock");
        for (quantity, size) in met.into_iter().filter(|&(_, size)| size > 0) {
            found.entry((quantity, size.ilog2())).or_default().push(case);
        }
    };
    thread::scope(|scope| {
        for _ in 0..2 {
            scope.spawn(part);
        }
    });
    found.into_inner().expect("no thread fails with the lock")
}

/// The twins that no case finds. One that is wrong from a size on can differ only in a case that
/// meets it.
fn unnoticed(twins: &[Wrong], met: &Met) -> Vec<Wrong> {
    let finds = |twin: &Wrong, case: u64| {
        let mut summary = Summary::default();
        one(&Twin::wrong(*twin), SEED, case, &mut summary);
        summary.failed > 0
    };
    let found = |&(quantity, from): &Wrong| {
        let reached = met.range((quantity, from.ilog2())..=(quantity, u32::MAX));
        let mut cases = reached.flat_map(|(_, cases)| cases).take(TRIED);
        cases.any(|&case| finds(&(quantity, from), case))
    };
    twins.iter().copied().filter(|twin| !found(twin)).collect()
}

/// The cases of the comparison that are made for a size.
fn made_for_a_size() -> Vec<u64> {
    (0..sizes::count()).map(sizes::case).collect()
}

#[test]
fn every_size_is_met_and_every_twin_that_is_wrong_from_a_size_on_is_found() {
    let met = met(&made_for_a_size());
    let powers = |&quantity: &Quantity| {
        // The shortest text of a task has 36 bytes and 18 words.
        let least = match quantity {
            ReadBytes => 32,
            ReadWords => 16,
            _ => FROM[0],
        };
        (least.ilog2()..=quantity.most().ilog2()).map(move |power| (quantity, power))
    };
    let unmet = Quantity::ALL.iter().flat_map(powers).filter(|size| !met.contains_key(size));
    assert_eq!(unmet.collect::<Vec<_>>(), []);
    assert_eq!(unnoticed(&wrong_twins(), &met), []);
}

/// The test above can fail: without the cases made for a size these are not found.
#[test]
fn a_twin_that_no_case_reaches_is_not_found() {
    let large = [(JointPicks, 1024), (SearchRows, 1024), (VerdictCollision, 256)];
    let made = made_for_a_size();
    let small: Vec<u64> = (0..3000).filter(|case| !made.contains(case)).collect();
    assert_eq!(unnoticed(&large, &met(&small)), large);
}
