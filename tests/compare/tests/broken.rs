//! The comparison finds broken implementations: the fast twin with one thing wrong in each.

#[macro_use]
mod listed;

use compare::driver::{run, Options};
use reference::fast::{copies, Fast, Task, DEAD};
use reference::interface::{
    mask_of, no_run, out_length, Interface, Ticket, CHANGE, FACTS, LAST, MASK, ROW, ROWS, RUN,
    SHARED,
};
use reference::wrong;
use std::cell::Cell;

listed! {
    /// What is wrong.
    #[derive(Clone, Copy, Debug, PartialEq)]
    enum Broken {
        TaskRefusesAll,
        TaskRangeBeforeLength,
        TaskWaitUnchecked,
        TaskOneFactMore,
        TaskFactsOfOneWord,
        TaskFactsCut,
        TaskHighWordUncheckedWhereFactsAreFew,
        StepDeletesAfterAdding,
        StepCollidesWhereItWaits,
        StepLongCopyTaken,
        StepShortCopyTaken,
        OutAfterRefusal,
        OutBeyondTheAnswer,
        SoloIndexFromOne,
        SoloBreakBeforeBadEntry,
        SearchMarksUncleared,
        SearchNineUncleared,
        SearchFullTableRefused,
        SearchMarksComparedWithWords,
        SearchOddWordLeft,
        SearchOddWordLeftAfterNine,
        SearchAllLive,
        SearchTwoNumbersAsked,
        SearchTwoNumbersGiven,
        SearchMarkedOneShort,
        SearchMarkedOneMore,
        SearchMarkedRows,
        SearchMarkedEntries,
        SearchMarkedDead,
        SearchMarkedAllWhereDead,
        SearchMarkedGoals,
        SearchMarkedBySteps,
        SearchMarkedWithoutTheFirst,
        SearchMarkedWithoutTheLast,
        SearchMarkedUpToTheFirstDead,
        SearchMarkedWithWhatWasLent,
        SearchMarkedExchanged,
        SearchMarkedAsLive,
        SearchLastSweepLost,
        SearchLastSweepUncounted,
        SearchOneSweep,
        JointCountsTheCollision,
        JointAlwaysOpen,
        JointPicksAfterTheEndTaken,
        JointMissedHighest,
        PickMovesNothing,
        PickCollidedNotNoted,
        PickCollidedTakenAsOne,
        PickAbsentPlacesCleared,
        PickUncounted,
        PickCollisionUncounted,
        PickRefusedCounted,
        PickRefusedRewritten,
        PickWraps,
        PickStaysAtTheLast,
        PickLastTooEarly,
        PickCollidesAtTheLast,
        PickElevenWords,
        PickChangeCut,
        AskCounts,
        AskWaitingCounted,
        AskMoves,
        AskRefusedAtTheLast,
        AskRefusesWaiting,
        AskRefusesCollision,
        AskClosedAnswered,
        AskNoStepWaits,
        AskWaitIsCollision,
        AskCollisionIsWait,
        AskCopyBefore,
        AskCopyLost,
        AskCopyWhereNone,
        AskTicketAfterThePick,
        AskTicketOfTheStart,
        AskTicketCut,
        AskTicketOfAnother,
        AskTicketLostWhereWaiting,
        AskElevenWords,
        AskChangeCut,
        CommitStaleTaken,
        CommitOlderTaken,
        CommitNewerTaken,
        CommitLowHalfCompared,
        CommitHighHalfCompared,
        CommitLastAskedAlone,
        CommitAfterAnAskAlone,
        CommitUncounted,
        CommitCollisionUncounted,
        CommitCountsTwice,
        CommitMovesNothing,
        CommitWaitTaken,
        CommitCollisionIsTwo,
        CommitStaleCounted,
        CommitRefusedRewritten,
        CommitTicketTaken,
        CommitWraps,
        CommitStaysAtTheLast,
        CommitLastTooEarly,
        CommitElevenWords,
        CommitChangeCut,
        StartAbsentPlacesLeft,
        StartCollidedLeft,
        StartBeyondTheRun,
        StartChangeLeft,
        StartChangeRead,
        StartElevenWords,
        PlayStopsWherePassedOver,
        PlayAnswersBeyondThePicks,
        PlayCollidedLeft,
        PlayPicksAfterTheCollision,
        PlayUncounted,
        PlayCollisionUncounted,
        PlayPassedOverCounted,
        PlayWraps,
        PlayStaysAtTheLast,
        PlayLastTooEarly,
        PlayEndsAtTheLast,
        PlayRefusedAtTheLast,
        PlayImpossibleAtTheLast,
        PlayElevenWords,
        PlayChangeCut,
        VerdictRobust,
        VerdictCountOff,
        VerdictNineFirst,
        VerdictNineTrailLeft,
        VerdictUnsolvableHighest,
        VerdictConflictDirty,
        VerdictConflictNumberOff,
        VerdictTablesOfUnsolvableEmpty,
        VerdictCopiesCountedInWords,
        VerdictConfigurationsCountedInWords,
        VerdictOddLocalWordsLeft,
        VerdictOddWordsLeft,
        ReadWordsLeft,
        ReadFiveFields,
        ReadRoomOfFiveFields,
        ReadLeadingZero,
        ReadLongWordsUncleared,
        ReadLineFeedAlone,
    }
}
use Broken::*;

thread_local! {
    /// The ticket that was asked for last, for those that remember it.
    static ASKED: Cell<Option<Ticket>> = const { Cell::new(None) };
}

/// A call on other words than those of the lent run, which gets what an answer leaves, as far as it
/// goes.
fn on_words(run: &mut [u64], words: Vec<u64>, call: impl FnOnce(&mut [u64]) -> u64) -> u64 {
    let (length, mut words) = (run.len(), words);
    let refusal = call(&mut words);
    if refusal == 0 {
        run.copy_from_slice(&words[..length]);
    }
    refusal
}

/// The same task with another number of facts.
fn with_facts(task: &[u64], facts: usize) -> Vec<u64> {
    [&[facts as u64], &task[1..]].concat()
}

/// Puts back what stood in the words after the last whole row of so many copies.
fn left_over(table: &mut [u64], before: &[u64], copies: usize) {
    let used = table.len() - table.len() % (MASK * copies);
    table[used..].copy_from_slice(&before[used..]);
}

/// The text with nine fields a record for one with five: zeros between.
fn widened(text: &[u8]) -> Option<Vec<u8>> {
    let text = std::str::from_utf8(text).ok()?;
    let mut wide = String::new();
    for (number, record) in text.trim_end_matches("\r\n").split("\r\n").enumerate() {
        let fields: Vec<&str> = record.split(',').collect();
        let [first, second, third, fourth, fifth] = fields[..] else { return None };
        wide += &if number == 0 {
            format!("{first},{second},{third},{fourth},0,0,0,0,{fifth}\r\n")
        } else {
            format!("{first},{second},0,{third},0,{fourth},0,{fifth},0\r\n")
        };
    }
    Some(wide.into_bytes())
}

impl Broken {
    /// What one of these takes in place of a run that is refused: eleven words, or a change number
    /// of more than 32 bits.
    fn taken(self, [eleven, cut]: [Broken; 2], run: &[u64]) -> Option<Vec<u64>> {
        let mut words = run.to_vec();
        if self == eleven && run.len() == RUN - 1 {
            words.push(0);
        } else if self == cut && run.len() >= RUN && no_run(run) {
            words[CHANGE] &= u64::from(LAST);
        } else {
            return None;
        }
        Some(words)
    }

    /// Writes to `out` where that is wrong.
    fn refused(self, refusal: u64, out: &mut [u64]) -> u64 {
        match (self, refusal) {
            (OutAfterRefusal, 1..) if !out.is_empty() => out[0] = refusal,
            (OutBeyondTheAnswer, 0) => *out.last_mut().expect("an answer has numbers") = 0,
            _ => {}
        }
        refusal
    }

    /// Counts other picks than those that were done.
    fn miscount_played(self, run: &mut [u64], before: &[u64], told: &[u64]) {
        match self {
            PlayUncounted => run[CHANGE] = before[CHANGE],
            PlayCollisionUncounted => run[CHANGE] -= u64::from(told.contains(&1)),
            PlayPassedOverCounted => {
                run[CHANGE] = (before[CHANGE] + told.len() as u64).min(u64::from(LAST));
            }
            _ => {}
        }
    }

    /// Tells another number of marks, or loses those of a sweep. `lent` are the marks at entry,
    /// `kept` is what stood in the number's place.
    fn miscount(
        self,
        task: &[u64],
        member: u8,
        marks: &mut [u8],
        lent: &[u8],
        kept: Option<u64>,
        out: &mut [u64],
    ) {
        let (rows, marked) = (out[0], out[2]);
        let task = Task::check(task).expect("it was accepted");
        let distance = || {
            let found = copies(&task, member as usize, rows as usize);
            found.expect("so many were listed").distance
        };
        // How many rows are at most so many steps from the goal.
        let near = |most: u32| distance().into_iter().filter(|&steps| steps <= most).count() as u64;
        // One step less than the farthest rows are.
        let nearer = || {
            let farthest = distance().into_iter().filter(|&steps| steps != DEAD).max();
            farthest.unwrap_or(0).max(1) - 1
        };
        // Leaves the marks of so many sweeps alone.
        let mut sweeps = |most: u32| {
            for (mark, steps) in marks.iter_mut().zip(distance()) {
                *mark &= u8::from(steps <= most);
            }
            near(most)
        };
        out[2] = match self {
            SearchTwoNumbersGiven => kept.expect("the number has a place"),
            SearchMarkedOneShort => marked.saturating_sub(1),
            SearchMarkedOneMore => marked + 1,
            SearchMarkedRows => rows,
            SearchMarkedEntries => lent.len() as u64,
            SearchMarkedDead => rows - marked,
            SearchMarkedAllWhereDead if out[1] == 0 => rows,
            SearchMarkedGoals => near(0),
            SearchMarkedBySteps => marked - near(0),
            SearchMarkedWithoutTheFirst => marked - out[1],
            SearchMarkedWithoutTheLast => marked - u64::from(marks[rows as usize - 1]),
            SearchMarkedUpToTheFirstDead => {
                marks.iter().take_while(|&&mark| mark == 1).count() as u64
            }
            SearchMarkedWithWhatWasLent => {
                let left = lent[rows as usize..].iter().filter(|&&mark| mark != 0);
                marked + left.count() as u64
            }
            SearchMarkedAsLive => out[1],
            SearchLastSweepLost => sweeps(nearer()),
            SearchLastSweepUncounted => near(nearer()),
            SearchOneSweep => sweeps(1),
            _ => marked,
        };
        if self == SearchMarkedExchanged {
            out.swap(0, 2);
        }
    }
}

impl Interface for Broken {
    fn task(&self, task: &[u64]) -> u64 {
        match (self, Fast.task(task)) {
            (TaskRefusesAll, 0) => 2,
            (TaskRangeBeforeLength, 1) if task.len() < ROW => 2,
            (TaskWaitUnchecked, 6) => 0,
            (TaskOneFactMore, 2) if task[0] == FACTS as u64 + 1 => {
                Fast.task(&with_facts(task, FACTS))
            }
            (TaskFactsOfOneWord, 0) if task[0] > 64 => 2,
            (TaskFactsCut, 2) => Fast.task(&with_facts(task, task[0] as usize % 256)),
            (TaskHighWordUncheckedWhereFactsAreFew, 4) if task[0] <= 64 => {
                let mut words = task.to_vec();
                words[4] = 0;
                for row in words.chunks_mut(ROW).skip(1) {
                    row.iter_mut().skip(MASK).step_by(MASK).for_each(|high| *high = 0);
                }
                Fast.task(&words)
            }
            (_, refusal) => refusal,
        }
    }

    fn step(&self, task: &[u64], action: u16, shared: &[u64], out: &mut [u64]) -> u64 {
        match self {
            StepLongCopyTaken if shared.len() > MASK => {
                return Fast.step(task, action, &shared[..MASK], out);
            }
            StepShortCopyTaken if shared.len() == 1 => {
                return Fast.step(task, action, &[shared[0], 0], out);
            }
            _ => {}
        }
        let refusal = Fast.step(task, action, shared, out);
        if refusal == 0 {
            match (self, out[0]) {
                (StepDeletesAfterAdding, 0) => {
                    let row = &task[ROW * (1 + task[1] as usize + action as usize)..][..ROW];
                    out[1] &= !row[7];
                    out[2] &= !row[8];
                }
                (StepCollidesWhereItWaits, 1) => out[0] = 2,
                _ => {}
            }
        }
        self.refused(refusal, out)
    }

    fn solo_replay(&self, task: &[u64], member: u8, plan: &[u16], out: &mut [u64]) -> u64 {
        let refusal = Fast.solo_replay(task, member, plan, out);
        if *self == SoloIndexFromOne && refusal == 0 && out[0] == 1 {
            out[1] += 1;
        }
        if *self == SoloBreakBeforeBadEntry && (refusal == 7 || refusal == 10) {
            for length in 0..plan.len() {
                if Fast.solo_replay(task, member, &plan[..length], out) == 0 && out[0] == 1 {
                    return 0;
                }
            }
        }
        self.refused(refusal, out)
    }

    fn solo_search(
        &self,
        task: &[u64],
        member: u8,
        table: &mut [u64],
        marks: &mut [u8],
        out: &mut [u64],
    ) -> u64 {
        let (last, first) = (marks.last().copied(), table.first().copied());
        let (lent, kept) = (marks.to_vec(), out.get(2).copied());
        if *self == SearchTwoNumbersAsked && out.len() == 2 {
            let mut more = [0; out_length::SOLO_SEARCH];
            let refusal = Fast.solo_search(task, member, table, marks, &mut more);
            if refusal == 0 {
                out.copy_from_slice(&more[..2]);
            }
            return refusal;
        }
        let (rows, end) = (table.len() / MASK, table.last().copied());
        if *self == SearchMarksComparedWithWords && (rows..table.len()).contains(&marks.len()) {
            return match Fast.solo_search(task, member, &mut [], &mut [], &mut [0; 3]) {
                9 => 14,
                refusal => refusal,
            };
        }
        let refusal = Fast.solo_search(task, member, table, marks, out);
        if refusal == 0 {
            self.miscount(task, member, marks, &lent, kept, out);
        }
        match (self, refusal) {
            (SearchOddWordLeft, 0) | (SearchOddWordLeftAfterNine, 9) if table.len() % MASK == 1 => {
                *table.last_mut().expect("an odd word") = end.unwrap_or(0);
            }
            (SearchMarksUncleared, 0) if marks.len() > rows => {
                *marks.last_mut().expect("longer than the table") = last.unwrap_or(0);
            }
            (SearchNineUncleared, 9) if !table.is_empty() => table[0] = first.unwrap_or(0),
            (SearchFullTableRefused, 0) if out[0] == rows as u64 => {
                table.fill(0);
                marks.fill(0);
                return 9;
            }
            (SearchAllLive, 0) => marks[..out[0] as usize].fill(1),
            _ => {}
        }
        self.refused(refusal, out)
    }

    fn joint_replay(
        &self,
        task: &[u64],
        plans: &[u16],
        ends: &[u64],
        picks: &[u8],
        out: &mut [u64],
    ) -> u64 {
        let refusal = Fast.joint_replay(task, plans, ends, picks, out);
        match (self, refusal) {
            (JointCountsTheCollision, 0) if out[0] == 1 => out[2] += 1,
            (JointAlwaysOpen, 0) => out[0] = 4,
            (JointPicksAfterTheEndTaken, 13) => {
                let length = picks.len() - 1;
                return Fast.joint_replay(task, plans, ends, &picks[..length], out);
            }
            (JointMissedHighest, 0) if out[0] == 3 => {
                let shared = mask_of(&out[3..]);
                let goal = |member: usize| mask_of(&task[ROW * (1 + member) + 1..]);
                let missed = |&member: &usize| goal(member) & !shared != 0;
                out[1] = (0..task[1] as usize).rfind(missed).unwrap_or(0) as u64;
            }
            _ => {}
        }
        self.refused(refusal, out)
    }

    fn pick(
        &self,
        task: &[u64],
        plans: &[u16],
        ends: &[u64],
        run: &mut [u64],
        member: u8,
        out: &mut [u64],
    ) -> u64 {
        let before = run.to_vec();
        if *self == PickCollidedTakenAsOne && run.first().is_some_and(|&word| word > 1) {
            run[0] = 0;
        }
        if let Some(words) = self.taken([PickElevenWords, PickChangeCut], run) {
            return on_words(run, words, |run| Fast.pick(task, plans, ends, run, member, out));
        }
        let refusal = Fast.pick(task, plans, ends, run, member, out);
        match (self, refusal) {
            (PickMovesNothing, 0) if out[0] == 0 => run.copy_from_slice(&before),
            (PickCollidedNotNoted, 0) => run[0] = 0,
            (PickAbsentPlacesCleared, 0) => run[1 + task[1] as usize..SHARED].fill(0),
            (PickCollidedTakenAsOne, 1..) => run.copy_from_slice(&before),
            (PickUncounted, 0) => run[CHANGE] -= 1,
            (PickCollisionUncounted, 0) => run[CHANGE] -= out[0],
            (PickRefusedCounted, 13) => run[CHANGE] += 1,
            (PickRefusedRewritten, 13) => run[0] = run[0].min(1),
            (PickWraps | PickStaysAtTheLast, 20) => {
                run[CHANGE] = 0;
                Fast.pick(task, plans, ends, run, member, out);
                run[CHANGE] = if *self == PickWraps { 0 } else { u64::from(LAST) };
                return 0;
            }
            (PickLastTooEarly, 0) if run[CHANGE] == u64::from(LAST) => {
                run.copy_from_slice(&before);
                return 20;
            }
            (PickCollidesAtTheLast, 20) => {
                run[CHANGE] = 0;
                Fast.pick(task, plans, ends, run, member, out);
                if out[0] == 0 {
                    run.copy_from_slice(&before);
                    return 20;
                }
                run[CHANGE] = u64::from(LAST);
                return 0;
            }
            _ => {}
        }
        self.refused(refusal, out)
    }

    fn ask(
        &self,
        task: &[u64],
        plans: &[u16],
        ends: &[u64],
        run: &mut [u64],
        member: u8,
        out: &mut [u64],
    ) -> u64 {
        if let Some(mut words) = self.taken([AskElevenWords, AskChangeCut], run) {
            return Fast.ask(task, plans, ends, &mut words, member, out);
        }
        let refusal = Fast.ask(task, plans, ends, run, member, out);
        if refusal == 0 {
            ASKED.set(Some(Ticket { member, change: run[CHANGE] as u32 }));
        }
        match (self, refusal) {
            (AskCounts, 0) if run[CHANGE] < u64::from(LAST) => run[CHANGE] += 1,
            (AskWaitingCounted, 0) if out[0] == 1 => run[CHANGE] += 1,
            (AskMoves, 0) => {
                Fast.pick(task, plans, ends, run, member, &mut [0; out_length::PICK]);
            }
            (AskRefusedAtTheLast, 0) if run[CHANGE] == u64::from(LAST) => return 20,
            (AskRefusesWaiting, 0) if out[0] == 1 => return 13,
            (AskRefusesCollision, 0) if out[0] == 2 => return 13,
            (AskClosedAnswered, 13) => {
                let mut open = run.to_vec();
                open[0] = 0;
                return Fast.ask(task, plans, ends, &mut open, member, out);
            }
            (AskNoStepWaits, 13) if run[0] == 0 => {
                let change = run[CHANGE];
                let waits = [1, 0, 0, 0, 0, u64::from(member), change];
                out[..out_length::ASK].copy_from_slice(&waits);
                return 0;
            }
            (AskWaitIsCollision, 0) if out[0] == 1 => out[0] = 2,
            (AskCollisionIsWait, 0) if out[0] == 2 => out[0] = 1,
            (AskCopyBefore, 0) if out[0] == 0 => out[1..3].copy_from_slice(&run[SHARED..CHANGE]),
            (AskCopyLost, 0) => out[1..3].fill(0),
            (AskCopyWhereNone, 0) if out[0] != 0 => {
                out[1..3].copy_from_slice(&run[SHARED..CHANGE]);
            }
            (AskTicketAfterThePick, 0) => out[6] += 1,
            (AskTicketOfTheStart, 0) => out[6] = 0,
            (AskTicketCut, 0) => out[6] &= 0xffff,
            (AskTicketOfAnother, 0) => out[5] ^= 1,
            (AskTicketLostWhereWaiting, 0) if out[0] == 1 => out[5..7].fill(0),
            _ => {}
        }
        self.refused(refusal, out)
    }

    fn commit(
        &self,
        task: &[u64],
        plans: &[u16],
        ends: &[u64],
        run: &mut [u64],
        ticket: Ticket,
        out: &mut [u64],
    ) -> u64 {
        let before = run.to_vec();
        if let Some(words) = self.taken([CommitElevenWords, CommitChangeCut], run) {
            return on_words(run, words, |run| Fast.commit(task, plans, ends, run, ticket, out));
        }
        let refusal = Fast.commit(task, plans, ends, run, ticket, out);
        let last = ASKED.take();
        match (self, refusal) {
            (
                CommitStaleTaken
                | CommitOlderTaken
                | CommitNewerTaken
                | CommitLowHalfCompared
                | CommitHighHalfCompared,
                19,
            ) => {
                let now = run[CHANGE] as u32;
                let taken = match self {
                    CommitOlderTaken => ticket.change < now,
                    CommitNewerTaken => ticket.change > now,
                    CommitLowHalfCompared => (ticket.change ^ now) & 0xffff == 0,
                    CommitHighHalfCompared => (ticket.change ^ now) >> 16 == 0,
                    _ => true,
                };
                if taken {
                    return Fast.pick(task, plans, ends, run, ticket.member, out);
                }
            }
            (CommitLastAskedAlone, 0) if last.is_some_and(|last| last != ticket) => {
                run.copy_from_slice(&before);
                return 19;
            }
            (CommitAfterAnAskAlone, 0) if last != Some(ticket) => {
                run.copy_from_slice(&before);
                return 19;
            }
            (CommitUncounted, 0) => run[CHANGE] -= 1,
            (CommitCollisionUncounted, 0) => run[CHANGE] -= out[0],
            (CommitCountsTwice, 0) => run[CHANGE] += 1,
            (CommitMovesNothing, 0) => run[..CHANGE].copy_from_slice(&before[..CHANGE]),
            (CommitWaitTaken, 13) => {
                let mut asked = [0; out_length::ASK];
                let refusal = Fast.ask(task, plans, ends, run, ticket.member, &mut asked);
                if refusal == 0 {
                    out[..out_length::COMMIT].fill(0);
                    return 0;
                }
            }
            (CommitCollisionIsTwo, 0) => out[0] *= 2,
            (CommitStaleCounted, 19) => run[CHANGE] += 1,
            (CommitRefusedRewritten, 13 | 19) => run[0] = run[0].min(1),
            (CommitTicketTaken, 19) => run[CHANGE] = u64::from(ticket.change),
            (CommitWraps | CommitStaysAtTheLast, 20) => {
                run[CHANGE] = 0;
                Fast.pick(task, plans, ends, run, ticket.member, out);
                run[CHANGE] = if *self == CommitWraps { 0 } else { u64::from(LAST) };
                return 0;
            }
            (CommitLastTooEarly, 0) if run[CHANGE] == u64::from(LAST) => {
                run.copy_from_slice(&before);
                return 20;
            }
            _ => {}
        }
        self.refused(refusal, out)
    }

    fn start(&self, task: &[u64], run: &mut [u64]) -> u64 {
        let before = run.to_vec();
        if let Some(words) = self.taken([StartElevenWords, StartElevenWords], run) {
            return on_words(run, words, |run| Fast.start(task, run));
        }
        if *self == StartChangeRead && no_run(run) {
            return 14;
        }
        let refusal = Fast.start(task, run);
        match (self, refusal) {
            (StartChangeLeft, 0) => run[CHANGE] = before[CHANGE],
            (StartAbsentPlacesLeft, 0) => {
                let absent = 1 + task[1] as usize..SHARED;
                run[absent.clone()].copy_from_slice(&before[absent]);
            }
            (StartCollidedLeft, 0) => run[0] = before[0],
            (StartBeyondTheRun, 0) => run[RUN..].fill(0),
            _ => {}
        }
        refusal
    }

    fn play(
        &self,
        task: &[u64],
        plans: &[u16],
        ends: &[u64],
        run: &mut [u64],
        picks: &[u8],
        answers: &mut [u64],
    ) -> u64 {
        let (before, told) = (run.to_vec(), answers.to_vec());
        if let Some(words) = self.taken([PlayElevenWords, PlayChangeCut], run) {
            return on_words(run, words, |run| Fast.play(task, plans, ends, run, picks, answers));
        }
        if *self == PlayStopsWherePassedOver && answers.len() >= picks.len() {
            let mut told = vec![0; picks.len()];
            Fast.play(task, plans, ends, &mut run.to_vec(), picks, &mut told);
            let until = told.iter().position(|&answer| answer > 1).unwrap_or(picks.len());
            return Fast.play(task, plans, ends, run, &picks[..until], answers);
        }
        let refusal = Fast.play(task, plans, ends, run, picks, answers);
        if refusal == 0 {
            self.miscount_played(run, &before, &answers[..picks.len()]);
        }
        // Where the first pick stands that the last change number refuses.
        let last = answers.iter().take(picks.len()).position(|&answer| answer == 20);
        match (self, refusal, last) {
            (PlayWraps | PlayStaysAtTheLast, 0, Some(last)) => {
                run[CHANGE] = 0;
                Fast.play(task, plans, ends, run, &picks[last..], &mut answers[last..]);
                let wrapped = run[CHANGE] - 1;
                run[CHANGE] = if *self == PlayWraps { wrapped } else { u64::from(LAST) };
            }
            (PlayLastTooEarly, 0, _) if run[CHANGE] == u64::from(LAST) => {
                let done = answers[..picks.len()].iter().rposition(|&answer| answer <= 1);
                if let Some(done) = done {
                    run.copy_from_slice(&before);
                    Fast.play(task, plans, ends, run, &picks[..done], answers);
                    answers[done] = 20;
                }
            }
            (PlayEndsAtTheLast, 0, Some(last)) => {
                answers[last + 1..].copy_from_slice(&told[last + 1..]);
            }
            (PlayRefusedAtTheLast, 0, Some(_)) => {
                run.copy_from_slice(&before);
                answers.copy_from_slice(&told);
                return 20;
            }
            (PlayImpossibleAtTheLast, 0, Some(last)) => {
                let after = answers[last..picks.len()].iter_mut();
                after.filter(|answer| **answer == 20).for_each(|answer| *answer = 13);
            }
            _ => {}
        }
        match (self, refusal) {
            (PlayAnswersBeyondThePicks, 0) => answers[picks.len()..].fill(0),
            (PlayCollidedLeft, 0) => run[0] = before[0],
            (PlayPicksAfterTheCollision, 0) if run[0] == 1 => {
                let collision = answers[..picks.len()].iter().position(|&answer| answer == 1);
                let after = collision.map_or(picks.len(), |collision| collision + 1);
                run[0] = 0;
                Fast.play(task, plans, ends, run, &picks[after..], &mut answers[after..]);
                run[0] = 1;
            }
            _ => {}
        }
        refusal
    }

    fn verdict(
        &self,
        task: &[u64],
        local: &mut [u64],
        marks: &mut [u8],
        configurations: &mut [u64],
        trail: &mut [u64],
        plans: &mut [u16],
        ends: &mut [u64],
        picks: &mut [u8],
        out: &mut [u64],
    ) -> u64 {
        let first = trail.first().copied();
        let (ends_before, members) = ([local.to_vec(), configurations.to_vec()], task.get(1));
        let members = members.map_or(1, |&members| members.clamp(1, 8) as usize);
        if Fast.task(task) == 0 && out.len() >= out_length::VERDICT {
            let copies = local.len() / members * members;
            let most = configurations.len() / (members + 1);
            let short = match self {
                VerdictCopiesCountedInWords => marks.len() < copies,
                VerdictConfigurationsCountedInWords => picks.len() < most,
                _ => false,
            };
            if short {
                return 14;
            }
        }
        let refusal =
            Fast.verdict(task, local, marks, configurations, trail, plans, ends, picks, out);
        match (self, refusal) {
            (VerdictRobust, 0) if out[0] > 1 => {
                out[..out_length::VERDICT].copy_from_slice(&[0, 0, 1, 0, 0]);
                plans.fill(0);
                ends.fill(0);
                picks.fill(0);
            }
            (VerdictCountOff, 0) if out[0] == 0 => out[2] += 1,
            (VerdictNineFirst, 0) if configurations.len() < 4 * MASK => {
                for slice in [local, configurations, trail, ends] {
                    slice.fill(0);
                }
                marks.fill(0);
                plans.fill(0);
                picks.fill(0);
                return 9;
            }
            (VerdictNineTrailLeft, 9) if !trail.is_empty() => trail[0] = first.unwrap_or(0),
            (VerdictUnsolvableHighest, 0) if out[0] == 1 => out[1] = task[1] - 1,
            (VerdictConflictDirty, 0) if out[0] > 1 => {
                *picks.last_mut().expect("a conflict's room") = 1;
            }
            (VerdictConflictNumberOff, 0) if out[0] > 1 && out[2] > 0 => out[2] -= 1,
            (VerdictTablesOfUnsolvableEmpty, 0) if out[0] == 1 => local.fill(0),
            (VerdictOddLocalWordsLeft, 0) => left_over(local, &ends_before[0], members),
            (VerdictOddWordsLeft, 0) => {
                left_over(configurations, &ends_before[1], members + 1);
            }
            _ => {}
        }
        self.refused(refusal, out)
    }

    fn read(&self, text: &[u8], slice: &mut [u64], out: &mut [u64]) -> u64 {
        let before = slice.to_vec();
        let refusal = Fast.read(text, slice, out);
        match (self, refusal) {
            (ReadFiveFields, 15) => {
                if let Some(wide) = widened(text) {
                    return Fast.read(&wide, slice, out);
                }
            }
            (ReadRoomOfFiveFields, 14) if slice.len() >= 5 * ROWS && !out.is_empty() => {
                let mut room = [0; ROW * ROWS];
                let refusal = Fast.read(text, &mut room, out);
                if refusal == 0 {
                    let length = slice.len();
                    slice.copy_from_slice(&room[..length]);
                }
                return refusal;
            }
            (ReadWordsLeft, 15) => slice.copy_from_slice(&before),
            (ReadLeadingZero, 15) => {
                let plain =
                    String::from_utf8_lossy(text).replace(",00,", ",0,").replace(",01,", ",1,");
                return Fast.read(plain.as_bytes(), slice, out);
            }
            (ReadLongWordsUncleared, 0) => {
                slice[ROW * ROWS..].copy_from_slice(&before[ROW * ROWS..])
            }
            (ReadLineFeedAlone, 15) => {
                let plain =
                    String::from_utf8_lossy(text).replace("\r\n", "\n").replace('\n', "\r\n");
                return Fast.read(plain.as_bytes(), slice, out);
            }
            _ => {}
        }
        self.refused(refusal, out)
    }
}

const OPTIONS: Options = Options { seed: 11, cases: 100_000, threads: 2, stop: true };

#[test]
fn every_broken_implementation_is_found() {
    let unnoticed: Vec<Broken> =
        Broken::ALL.iter().copied().filter(|broken| run(broken, OPTIONS).failed == 0).collect();
    assert_eq!(unnoticed, []);
}

#[test]
fn every_other_conflict_is_found() {
    let unnoticed: Vec<&str> = wrong::ALL
        .iter()
        .filter(|wrong| run(*wrong, OPTIONS).failed == 0)
        .map(|wrong| wrong.name)
        .collect();
    assert_eq!(unnoticed, Vec::<&str>::new());
}
