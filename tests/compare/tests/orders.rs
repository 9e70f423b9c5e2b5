//! The comparison finds implementations that look for refusals in another order than the written
//! one: the fast twin with one pair exchanged in each.

#[macro_use]
mod listed;

use compare::driver::{run, Options};
use reference::fast::Fast;
use reference::generate::all;
use reference::interface::{
    mask_of, no_run, out_length, Interface, Ticket, CHANGE, FACTS, LAST, MASK, ROW, ROWS, RUN,
    SHARED,
};

listed! {
    /// The pair that is exchanged: the second stands before the first in the paper.
    #[derive(Clone, Copy, Debug, PartialEq)]
    enum Exchanged {
        LengthThenRange,
        InitialThenLength,
        GoalThenInitial,
        GoalBitThenGoalRow,
        ActionBitThenOwner,
        WaitThenActionBit,
        TaskThenStepOut,
        ActionThenTask,
        FactThenAction,
        EntryThenMember,
        OthersThenAction,
        TaskThenSearchOut,
        MarksThenMember,
        FullThenMarks,
        TaskThenJointOut,
        EntryThenEnds,
        EntryThenEarlierUnsolved,
        PickThenPlans,
        ImpossibleThenPickedMember,
        PlaceThenShared,
        SharedThenPlans,
        MemberThenPlace,
        ImpossibleThenMember,
        ImpossibleThenPlace,
        TaskThenPickOut,
        TaskThenChange,
        ChangesThenPlace,
        ChangesThenMember,
        ChangesThenImpossible,
        AskTaskThenOut,
        AskTaskThenChange,
        AskSharedThenPlans,
        AskPlaceThenShared,
        AskMemberThenPlace,
        AskImpossibleThenPlace,
        AskImpossibleThenMember,
        CommitTaskThenOut,
        CommitTaskThenChange,
        CommitSharedThenPlans,
        CommitPlaceThenShared,
        CommitMemberThenPlace,
        CommitStaleThenPlans,
        CommitStaleThenShared,
        CommitStaleThenPlace,
        CommitStaleThenMember,
        CommitImpossibleThenPlace,
        CommitImpossibleThenMember,
        CommitImpossibleThenStale,
        CommitChangesThenMember,
        CommitChangesThenStale,
        CommitChangesThenImpossible,
        TaskThenRun,
        TaskThenAnswers,
        TaskThenChangeOfPlay,
        PlacesThenSharedOfPlay,
        ImpossibleThenMemberOfPlay,
        ChangesThenMemberOfPlay,
        ChangesThenImpossibleOfPlay,
        TaskThenVerdictOut,
        FullThenSlices,
        UnsolvableThenFull,
        TextThenWords,
        TaskThenWords,
    }
}
use Exchanged::*;

/// The first row that the task check refuses.
fn refused_row(task: &[u64]) -> Option<&[u64]> {
    let (members, rows) = (*task.get(1)? as usize, task.chunks(ROW).skip(1));
    rows.enumerate().find_map(|(row, words)| {
        let bad = if row < members {
            words[0] != row as u64 || words[3..] != [0; 6] || exceeds(task, &words[1..])
        } else {
            words[0] >= members as u64 || any_exceeds(task, words) || waits_for_more(words)
        };
        bad.then_some(words)
    })
}

/// Whether the mask of the first two words has a bit at or above F.
fn exceeds(task: &[u64], words: &[u64]) -> bool {
    mask_of(words) & !all(task[0].clamp(1, FACTS as u64) as usize) != 0
}

/// Whether one of an action's masks has.
fn any_exceeds(task: &[u64], row: &[u64]) -> bool {
    row[1..].chunks(MASK).any(|mask| exceeds(task, mask))
}

/// Whether an action's wait is not within its pre.
fn waits_for_more(row: &[u64]) -> bool {
    mask_of(&row[3..]) & !mask_of(&row[1..]) != 0
}

impl Interface for Exchanged {
    fn task(&self, task: &[u64]) -> u64 {
        let refusal = Fast.task(task);
        let row = if (3..=6).contains(&refusal) { refused_row(task) } else { None };
        match (self, refusal, row) {
            (LengthThenRange, 2, _) => {
                let rows = task[1].saturating_add(task[2]).saturating_add(1);
                if rows.checked_mul(ROW as u64) != Some(task.len() as u64) {
                    1
                } else {
                    2
                }
            }
            (InitialThenLength, 1, _) if task.len() >= ROW && exceeds(task, &task[3..]) => 4,
            (GoalThenInitial, 4, _) if exceeds(task, &task[3..]) && task[ROW] != 0 => 3,
            (GoalBitThenGoalRow, 3, Some(row)) if exceeds(task, &row[1..]) => 4,
            (ActionBitThenOwner, 5, Some(row)) if any_exceeds(task, row) => 4,
            (WaitThenActionBit, 4, Some(row))
                if !exceeds(task, &task[3..]) && waits_for_more(row) =>
            {
                6
            }
            _ => refusal,
        }
    }

    fn step(&self, task: &[u64], action: u16, shared: &[u64], out: &mut [u64]) -> u64 {
        match (self, Fast.step(task, action, shared, out)) {
            (TaskThenStepOut, 14) if shared.len() == MASK && Fast.task(task) != 0 => {
                Fast.task(task)
            }
            (ActionThenTask, 3..=6) if Fast.task(task) != 0 && action as u64 >= task[2] => 7,
            (FactThenAction, 7) if exceeds(task, shared) => 4,
            (_, refusal) => refusal,
        }
    }

    fn solo_replay(&self, task: &[u64], member: u8, plan: &[u16], out: &mut [u64]) -> u64 {
        let unknown = |&entry: &u16| entry as u64 >= task[2];
        match (self, Fast.solo_replay(task, member, plan, out)) {
            (EntryThenMember, 8) if plan.iter().any(unknown) => 7,
            (OthersThenAction, 7) => {
                let others = |&entry: &u16| {
                    let owner = task.get(ROW * (1 + task[1] as usize + entry as usize));
                    owner.is_some_and(|&owner| owner != member as u64)
                };
                if plan.iter().any(others) {
                    10
                } else {
                    7
                }
            }
            (_, refusal) => refusal,
        }
    }

    fn solo_search(
        &self,
        task: &[u64],
        member: u8,
        table: &mut [u64],
        marks: &mut [u8],
        out: &mut [u64],
    ) -> u64 {
        let lengths = (table.len() / MASK, marks.len());
        match (self, Fast.solo_search(task, member, table, marks, out)) {
            (TaskThenSearchOut, 14) if out.len() < 3 && Fast.task(task) != 0 => Fast.task(task),
            (MarksThenMember, 8) if lengths.1 < lengths.0 => 14,
            (FullThenMarks, 14) if lengths.1 < lengths.0 => {
                let (mut room, mut live) = (vec![0; MASK * lengths.0], vec![0; lengths.0]);
                match Fast.solo_search(task, member, &mut room, &mut live, &mut [0; 3]) {
                    9 => 9,
                    _ => 14,
                }
            }
            (_, refusal) => refusal,
        }
    }

    fn joint_replay(
        &self,
        task: &[u64],
        plans: &[u16],
        ends: &[u64],
        picks: &[u8],
        out: &mut [u64],
    ) -> u64 {
        let unknown = |&entry: &u16| entry as u64 >= task[2];
        let absent = |&member: &u8| member as u64 >= task[1];
        match (self, Fast.joint_replay(task, plans, ends, picks, out)) {
            (TaskThenJointOut, 14) if Fast.task(task) != 0 => Fast.task(task),
            (EntryThenEnds, 11) if plans.iter().any(unknown) => 7,
            (EntryThenEarlierUnsolved, 12) if plans.iter().any(unknown) => 7,
            (PickThenPlans, 7 | 10..=12) if picks.iter().any(absent) => 8,
            (ImpossibleThenPickedMember, 8) => {
                let before = picks.iter().position(absent).unwrap_or(0);
                let mut earlier = [0; out_length::JOINT_REPLAY];
                Fast.joint_replay(task, plans, ends, &picks[..before], &mut earlier);
                if earlier[0] == 1 {
                    13
                } else {
                    8
                }
            }
            (_, refusal) => refusal,
        }
    }

    fn pick(
        &self,
        task: &[u64],
        plans: &[u16],
        ends: &[u64],
        run: &mut [u64],
        member: u8,
        out: &mut [u64],
    ) -> u64 {
        let refusal = Fast.pick(task, plans, ends, run, member, out);
        let whole = run.len() >= RUN && out.len() >= out_length::PICK;
        match (self, refusal, Fast.task(task)) {
            (TaskThenPickOut, 14, task @ 1..) if !no_run(run) => return task,
            (TaskThenChange, 14, task @ 1..) if whole => return task,
            _ => {}
        }
        if refusal == 0 || Fast.task(task) != 0 || no_run(run) {
            return refusal;
        }
        // What would be refused if one fault were not there.
        let without_shared = || {
            let mut run = run.to_vec();
            run[SHARED..CHANGE].fill(0);
            Fast.pick(task, plans, ends, &mut run, member, &mut [0; out_length::PICK])
        };
        let last = run[CHANGE] == u64::from(LAST);
        match (self, refusal) {
            (PlaceThenShared, 4) if without_shared() == 11 => 11,
            (SharedThenPlans, 7 | 10 | 12) if exceeds(task, &run[SHARED..]) => 4,
            (MemberThenPlace, 11) if member as u64 >= task[1] => 8,
            (ImpossibleThenMember, 8) if run[0] != 0 => 13,
            (ImpossibleThenPlace, 11) if run[0] != 0 => 13,
            (ChangesThenPlace, 11) | (ChangesThenMember, 8) | (ChangesThenImpossible, 13)
                if last =>
            {
                20
            }
            _ => refusal,
        }
    }

    fn ask(
        &self,
        task: &[u64],
        plans: &[u16],
        ends: &[u64],
        run: &mut [u64],
        member: u8,
        out: &mut [u64],
    ) -> u64 {
        let refusal = Fast.ask(task, plans, ends, run, member, out);
        match (self, refusal, Fast.task(task)) {
            (AskTaskThenOut, 14, task @ 1..) if !no_run(run) => return task,
            (AskTaskThenChange, 14, task @ 1..)
                if run.len() >= RUN && out.len() >= out_length::ASK =>
            {
                return task;
            }
            (_, 1.., 0) if !no_run(run) => {}
            _ => return refusal,
        }
        let shared_alone = |refused: u64| {
            let mut run = run.to_vec();
            run[SHARED..CHANGE].fill(0);
            Fast.ask(task, plans, ends, &mut run, member, &mut [0; out_length::ASK]) == refused
        };
        match (self, refusal) {
            (AskSharedThenPlans, 7 | 10..=12) if exceeds(task, &run[SHARED..]) => 4,
            (AskPlaceThenShared, 4) if shared_alone(11) => 11,
            (AskMemberThenPlace, 11) if member as u64 >= task[1] => 8,
            (AskImpossibleThenPlace, 11) if run[0] != 0 => 13,
            (AskImpossibleThenMember, 8) if run[0] != 0 => 13,
            _ => refusal,
        }
    }

    fn commit(
        &self,
        task: &[u64],
        plans: &[u16],
        ends: &[u64],
        run: &mut [u64],
        ticket: Ticket,
        out: &mut [u64],
    ) -> u64 {
        let refusal = Fast.commit(task, plans, ends, run, ticket, out);
        match (self, refusal, Fast.task(task)) {
            (CommitTaskThenOut, 14, task @ 1..) if !no_run(run) => return task,
            (CommitTaskThenChange, 14, task @ 1..)
                if run.len() >= RUN && out.len() >= out_length::COMMIT =>
            {
                return task;
            }
            (_, 1.., 0) if !no_run(run) => {}
            _ => return refusal,
        }
        // A plain pick of the member, with another shared copy or without one that is wrong.
        let pick = |shared: &[u64]| {
            let mut run = run.to_vec();
            run[SHARED..CHANGE].copy_from_slice(shared);
            Fast.pick(task, plans, ends, &mut run, ticket.member, &mut [0; out_length::PICK])
        };
        let (shared, now) = (&run[SHARED..CHANGE], run[CHANGE]);
        let (stale, last) = (u64::from(ticket.change) != now, now == u64::from(LAST));
        match (self, refusal) {
            (CommitSharedThenPlans, 7 | 10..=12) if exceeds(task, shared) => 4,
            (CommitPlaceThenShared, 4) if pick(&[0, 0]) == 11 => 11,
            (CommitMemberThenPlace, 11) if ticket.member as u64 >= task[1] => 8,
            (CommitStaleThenPlans, 7 | 10 | 12) if stale => 19,
            (CommitStaleThenShared, 4) if stale => 19,
            (CommitStaleThenPlace, 11) if stale => 19,
            (CommitStaleThenMember, 8) if stale => 19,
            (CommitImpossibleThenPlace, 11) if run[0] != 0 => 13,
            (CommitImpossibleThenMember, 8) if run[0] != 0 => 13,
            (CommitImpossibleThenStale, 19) if pick(shared) == 13 => 13,
            (CommitChangesThenMember, 8) if last => 20,
            (CommitChangesThenStale, 19) if pick(shared) == 20 => 20,
            (CommitChangesThenImpossible, 13) if last => 20,
            _ => refusal,
        }
    }

    fn start(&self, task: &[u64], run: &mut [u64]) -> u64 {
        match (self, Fast.start(task, run)) {
            (TaskThenRun, 14) if Fast.task(task) != 0 => Fast.task(task),
            (_, refusal) => refusal,
        }
    }

    fn play(
        &self,
        task: &[u64],
        plans: &[u16],
        ends: &[u64],
        run: &mut [u64],
        picks: &[u8],
        answers: &mut [u64],
    ) -> u64 {
        let refusal = Fast.play(task, plans, ends, run, picks, answers);
        let refused = Fast.task(task);
        match (self, refusal) {
            (TaskThenAnswers, 14) if !no_run(run) && refused != 0 => return refused,
            (TaskThenChangeOfPlay, 14)
                if run.len() >= RUN && answers.len() >= picks.len() && refused != 0 =>
            {
                return refused;
            }
            (PlacesThenSharedOfPlay, 4) if refused == 0 => {
                let mut run = run.to_vec();
                run[SHARED..CHANGE].fill(0);
                if Fast.play(task, plans, ends, &mut run, &[], &mut []) == 11 {
                    return 11;
                }
            }
            _ => {}
        }
        if refusal == 0 {
            let told = &mut answers[..picks.len()];
            let (closed, last) = (run[0] == 1, run[CHANGE] == u64::from(LAST));
            // From there on the run is closed, or at the last change number.
            let done = told.iter().rposition(|&answer| answer <= 1).map_or(0, |done| done + 1);
            for answer in &mut told[done..] {
                *answer = match (self, *answer) {
                    (ImpossibleThenMemberOfPlay, 8) if closed => 13,
                    (ChangesThenMemberOfPlay, 8) | (ChangesThenImpossibleOfPlay, 13) if last => 20,
                    (_, told) => told,
                };
            }
        }
        refusal
    }

    fn verdict(
        &self,
        task: &[u64],
        local: &mut [u64],
        marks: &mut [u8],
        configurations: &mut [u64],
        trail: &mut [u64],
        plans: &mut [u16],
        ends: &mut [u64],
        picks: &mut [u8],
        out: &mut [u64],
    ) -> u64 {
        let lengths = (local.len(), configurations.len());
        let refusal =
            Fast.verdict(task, local, marks, configurations, trail, plans, ends, picks, out);
        match (self, refusal, Fast.task(task)) {
            (TaskThenVerdictOut, 14, task @ 1..) => return task,
            (_, _, 1..) => return refusal,
            _ => {}
        }
        let members = task[1] as usize;
        let alone = |member: usize, rows: usize| {
            let (mut table, mut marks, mut out) = (vec![0; MASK * rows], vec![0; rows], [0; 3]);
            let refusal = Fast.solo_search(task, member as u8, &mut table, &mut marks, &mut out);
            (refusal, out[1])
        };
        let rows = lengths.0 / (MASK * members);
        match (self, refusal) {
            (FullThenSlices, 14) if (0..members).any(|member| alone(member, rows).0 == 9) => 9,
            (UnsolvableThenFull, 9) if (0..members).any(|member| alone(member, rows) == (0, 0)) => {
                out[..out_length::VERDICT].copy_from_slice(&[1, 0, 0, 0, 0]);
                0
            }
            _ => refusal,
        }
    }

    fn read(&self, text: &[u8], words: &mut [u64], out: &mut [u64]) -> u64 {
        let alone = || Fast.read(text, &mut [0; ROW * ROWS], &mut [0]);
        match (self, Fast.read(text, words, out)) {
            (TextThenWords, 14) if alone() == 15 => 15,
            (TaskThenWords, 14) if (1..=6).contains(&alone()) => alone(),
            (_, refusal) => refusal,
        }
    }
}

#[test]
fn every_exchanged_pair_is_found() {
    let options = Options { seed: 13, cases: 100_000, threads: 2, stop: true };
    let unnoticed: Vec<Exchanged> = Exchanged::ALL
        .iter()
        .copied()
        .filter(|exchanged| run(exchanged, options).failed == 0)
        .collect();
    assert_eq!(unnoticed, []);
}
