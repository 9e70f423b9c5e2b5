//! Implementations that choose another conflict: the fast twin with one thing wrong in each. The
//! tables are right, and most of these conflicts replay as told. [`masks`] has those that tell
//! another mask of what is missing.

pub mod changed;
pub mod masks;

use crate::fast::verdict::{
    moved, verdict_by, Configuration, Kind, Lent, Listing, Manner, Next, Right, Shown, SHARED,
};
use crate::fast::{joint_replay, Copies, Judged, Task, Twin, DEAD};
use crate::interface::{mask_of, missing};
use std::collections::{HashMap, HashSet};

/// The fast twin with another verdict.
#[derive(Clone, Copy)]
pub struct Wrong {
    pub name: &'static str,
    verdict: fn(&[u64], &mut Lent) -> Result<Judged, u64>,
}

/// Manners, with the list of all of them and of other verdicts.
macro_rules! wrong {
    ([$($other:ident),*] $($(#[$note:meta])* $name:ident { $($wrong:item)* })*) => {
        $(
            $(#[$note])*
            struct $name;

            impl Manner for $name {
                $($wrong)*
            }
        )*

        /// Every one.
        pub const ALL: &[Wrong] = &[
            $(Wrong { name: stringify!($name), verdict: verdict_by::<$name> },)*
            $(Wrong { name: stringify!($other), verdict: $other },)*
        ];
    };
}

wrong! {
    [colliding_pick_lost, picks_exchanged, highest_missed, highest_lacks]

    /// The last row that shows a fault.
    LastRow {
        fn told(_: &Listing, shown: impl Iterator<Item = Shown>) -> Option<Shown> {
            shown.last()
        }
    }
    /// The last row of those that are as few moves from the start.
    LastAfterAsManyMoves {
        fn told(rows: &Listing, shown: impl Iterator<Item = Shown>) -> Option<Shown> {
            let depth = depths(&rows.trail);
            shown.collect::<Vec<_>>().into_iter().rev().min_by_key(|(row, _)| depth[*row])
        }
    }
    /// The first collision of all rows, then the first deadlock.
    KindBeforeRow {
        fn told(_: &Listing, shown: impl Iterator<Item = Shown>) -> Option<Shown> {
            shown.min_by_key(|(_, fault)| fault.kind as u8)
        }
    }
    /// Faults of members who can no longer reach their goals.
    DeadNext {
        const DEAD_NEXT: bool = true;

        fn complete(task: &Task, table: &Copies, member: usize, from: u128, plan: &mut Vec<u16>) {
            if table.live(from) {
                table.complete(task, member, from, plan);
            }
        }
    }
    DeadlockFirst {
        const KINDS: [Kind; 3] = [Kind::Deadlock, Kind::Collision, Kind::Missed];
    }
    MissedBeforeDeadlock {
        const KINDS: [Kind; 3] = [Kind::Collision, Kind::Missed, Kind::Deadlock];
    }
    MissedBeforeCollision {
        const KINDS: [Kind; 3] = [Kind::Missed, Kind::Collision, Kind::Deadlock];
    }
    HighestCollides {
        fn collides_rather(_: &Task, _: u16, _: u16) -> bool {
            true
        }
    }
    /// The lowest action of the lowest member that collides.
    LowestMemberCollides {
        fn collides_rather(task: &Task, found: u16, higher: u16) -> bool {
            let member = |number: u16| task.actions[number as usize].member;
            member(higher) < member(found)
        }
    }
    HighestActionWaits {
        const HIGHEST_WAITS: bool = true;
    }
    /// Everyone goes on who waits.
    EveryoneWaits {
        fn waiters(_: &Task, _: &Configuration, _: &mut Next) {}
    }
    /// Everyone goes on who waits, where a member lacks its goal.
    ReachedWaits {
        fn waiters(task: &Task, row: &Configuration, waiting: &mut Next) {
            if all_reached(task, row) {
                Right::waiters(task, row, waiting);
            }
        }
    }
    /// Two go on where all have their goals.
    TwoWait {
        fn waiters(task: &Task, row: &Configuration, waiting: &mut Next) {
            let second = (0..8).filter(|&member| waiting[member].is_some()).nth(1).unwrap_or(8);
            keep_if_all_reached(task, row, waiting, |member| member <= second);
        }
    }
    /// The highest that waits goes on where all have their goals.
    HighestMemberWaits {
        fn waiters(task: &Task, row: &Configuration, waiting: &mut Next) {
            let highest = waiting.iter().rposition(Option::is_some);
            keep_if_all_reached(task, row, waiting, |member| Some(member) == highest);
        }
    }
    /// The one with the lowest waiting action goes on where all have their goals.
    LowestActionWaits {
        fn waiters(task: &Task, row: &Configuration, waiting: &mut Next) {
            let lowest = waiting.iter().flatten().min().copied();
            let held = *waiting;
            keep_if_all_reached(task, row, waiting, |member| held[member] == lowest);
        }
    }
    /// The lowest that waits goes on, also where others lack their goals.
    LowestMemberWaits {
        fn waiters(_: &Task, _: &Configuration, waiting: &mut Next) {
            let lowest = waiting.iter().position(Option::is_some);
            keep(waiting, |member| Some(member) == lowest);
        }
    }
    /// Goals are looked for in the shared copy.
    GoalsInTheSharedCopy {
        fn waiters(task: &Task, row: &Configuration, waiting: &mut Next) {
            let mut shared = *row;
            shared[..SHARED].fill(row[SHARED]);
            Right::waiters(task, &shared, waiting);
            if waiting.iter().all(Option::is_none) {
                Right::waiters(task, row, waiting);
            }
        }
    }
    /// By the last row of a shortest walk that leads to a row.
    LastSource {
        fn retrace(task: &Task, tables: &[Copies], listing: &mut Listing) {
            retrace_if(task, tables, listing, |source, _, was, depth| {
                depth[source] == depth[was] && source > was
            });
        }
    }
    /// By the highest action between two rows.
    HighestMove {
        fn retrace(task: &Task, tables: &[Copies], listing: &mut Listing) {
            retrace_if(task, tables, listing, |source, _, was, _| source == was);
        }
    }
    /// By the last row before a row that leads to it.
    LongWalk {
        fn retrace(task: &Task, tables: &[Copies], listing: &mut Listing) {
            retrace_if(task, tables, listing, |source, row, was, _| was < source && source < row);
        }
    }
    /// A shortest completion, with the highest actions.
    HighestCompletion {
        fn complete(task: &Task, table: &Copies, member: usize, from: u128, plan: &mut Vec<u16>) {
            let mut copy = from;
            for left in (0..table.distance_of(from)).rev() {
                let closer = |&&number: &&u16| {
                    let action = &task.actions[number as usize];
                    action.applicable(copy) && table.distance_of(action.apply(copy)) == left
                };
                let &number = task.own[member].iter().rfind(closer).expect("a next step");
                plan.push(number);
                copy = task.actions[number as usize].apply(copy);
            }
        }
    }
    /// A shortest completion, with the highest action last.
    HighestLast {
        fn complete(task: &Task, table: &Copies, member: usize, from: u128, plan: &mut Vec<u16>) {
            let begin = plan.len();
            table.complete(task, member, from, plan);
            if plan.len() > begin {
                plan.pop();
                let copy = after(task, from, &plan[begin..]);
                HighestCompletion::complete(task, table, member, copy, plan);
            }
        }
    }
    /// A completion by the lowest live steps, not a shortest.
    LowestSteps {
        fn complete(task: &Task, table: &Copies, member: usize, from: u128, plan: &mut Vec<u16>) {
            lowest_steps(task, table, member, from, &mut HashSet::new(), plan);
        }
    }
    /// A step more after the goal, where there is one that keeps it.
    LongCompletion {
        fn complete(task: &Task, table: &Copies, member: usize, from: u128, plan: &mut Vec<u16>) {
            let begin = plan.len();
            table.complete(task, member, from, plan);
            let copy = after(task, from, &plan[begin..]);
            // With room for the step in the plan slice.
            if plan.len() - begin + 2 < table.rows.len() {
                plan.extend(task.own[member].iter().find(|&&number| {
                    let action = &task.actions[number as usize];
                    action.applicable(copy) && task.reached(member, action.apply(copy))
                }));
            }
        }
    }
}

/// Every member has its goal in its local copy.
fn all_reached(task: &Task, row: &Configuration) -> bool {
    (0..task.members()).all(|member| task.reached(member, row[member]))
}

fn keep(waiting: &mut Next, kept: impl Fn(usize) -> bool) {
    for member in (0..8).filter(|&member| !kept(member)) {
        waiting[member] = None;
    }
}

/// Keeps these members where all have their goals; is right where one lacks its own.
fn keep_if_all_reached(
    task: &Task,
    row: &Configuration,
    waiting: &mut Next,
    kept: impl Fn(usize) -> bool,
) {
    if all_reached(task, row) {
        keep(waiting, kept);
    } else {
        Right::waiters(task, row, waiting);
    }
}

/// The copy after some steps.
fn after(task: &Task, from: u128, steps: &[u16]) -> u128 {
    steps.iter().fold(from, |copy, &number| task.actions[number as usize].apply(copy))
}

/// The number of moves to each row.
fn depths(trail: &[(u32, u16)]) -> Vec<usize> {
    let mut depth = vec![0; trail.len()];
    for row in 1..trail.len() {
        depth[row] = depth[trail[row].0 as usize] + 1;
    }
    depth
}

/// Puts other moves in the trail. The test gets the source, the row, the row's source in the trail,
/// and the least number of moves to each row.
fn retrace_if(
    task: &Task,
    tables: &[Copies],
    listing: &mut Listing,
    rather: impl Fn(usize, usize, usize, &[usize]) -> bool,
) {
    let Listing { rows, trail } = listing;
    let depth = depths(trail);
    let index: HashMap<Configuration, usize> = rows.iter().copied().zip(0..).collect();
    for (source, row) in rows.iter().enumerate() {
        for number in 0..task.actions.len() as u16 {
            let Some(new) = moved(task, tables, row, number) else {
                continue;
            };
            let led_to = index[&new];
            if led_to != 0 && rather(source, led_to, trail[led_to].0 as usize, &depth) {
                trail[led_to] = (source as u32, number);
            }
        }
    }
}

/// Goes from copy to copy by the lowest step to one that is live and new, until the goal is there.
fn lowest_steps(
    task: &Task,
    table: &Copies,
    member: usize,
    copy: u128,
    seen: &mut HashSet<u128>,
    plan: &mut Vec<u16>,
) -> bool {
    if task.reached(member, copy) {
        return true;
    }
    seen.insert(copy);
    for &number in &task.own[member] {
        let action = &task.actions[number as usize];
        let new = action.apply(copy);
        if !action.applicable(copy) || seen.contains(&new) || table.distance_of(new) == DEAD {
            continue;
        }
        plan.push(number);
        if lowest_steps(task, table, member, new, seen, plan) {
            return true;
        }
        plan.pop();
    }
    false
}

/// The colliding pick is not told.
fn colliding_pick_lost(task: &[u64], lent: &mut Lent) -> Result<Judged, u64> {
    let answer = verdict_by::<Right>(task, lent)?;
    if let [2, _, done, ..] = answer {
        lent.picks[done as usize] = 0;
    }
    Ok(answer)
}

/// The highest member that misses its goal is told.
fn highest_missed(task: &[u64], lent: &mut Lent) -> Result<Judged, u64> {
    let answer = verdict_by::<Right>(task, lent)?;
    let [4, _, done, ..] = answer else {
        return Ok(answer);
    };
    let (plans, ends, picks) = conflict(task, lent, answer);
    let shared = mask_of(&joint_replay(task, plans, ends, picks)?[3..]);
    let goals = Task::check(task)?.goals;
    let missed = |&member: &u64| goals[member as usize] & !shared != 0;
    Ok([4, (0..task[1]).rfind(missed).unwrap_or(0), done, 0, 0])
}

/// What the highest colliding action of the row lacks is told.
fn highest_lacks(task: &[u64], lent: &mut Lent) -> Result<Judged, u64> {
    let highest = verdict_by::<HighestCollides>(task, lent)?;
    let mut answer = verdict_by::<Right>(task, lent)?;
    answer[missing::VERDICT].copy_from_slice(&highest[missing::VERDICT]);
    Ok(answer)
}

/// The plans, ends and picks of a conflict.
fn conflict<'a>(
    task: &[u64],
    lent: &'a mut Lent,
    [kind, _, done, ..]: Judged,
) -> (&'a [u16], &'a [u64], &'a mut [u8]) {
    let ends = &lent.ends[..task[1] as usize];
    let plans = &lent.plans[..ends.last().map_or(0, |&end| end as usize)];
    (plans, ends, &mut lent.picks[..done as usize + usize::from(kind == 2)])
}

/// Two neighbouring picks are exchanged where the replay ends as told all the same.
fn picks_exchanged(task: &[u64], lent: &mut Lent) -> Result<Judged, u64> {
    let answer = verdict_by::<Right>(task, lent)?;
    let [2..=4, _, done, ..] = answer else {
        return Ok(answer);
    };
    let (plans, ends, picks) = conflict(task, lent, answer);
    let told = joint_replay(task, plans, ends, picks)?;
    for place in 1..done as usize {
        picks.swap(place - 1, place);
        let same = joint_replay(task, plans, ends, picks).is_ok_and(|run| run[..3] == told[..3]);
        if same && picks[place - 1] != picks[place] {
            return Ok(answer);
        }
        picks.swap(place - 1, place);
    }
    Ok(answer)
}

impl Twin for Wrong {
    fn judge(&self, task: &[u64], lent: &mut Lent) -> Result<Judged, u64> {
        (self.verdict)(task, lent)
    }
}
