//! The header's functions and constants as they are. A slice passes as pointer and length; each
//! function gives a refusal's number, or 0 for an answer, whose numbers stand at the front of
//! `out`. Masks and copies take two words there, low word first.

use crate::foreign::*;

/// Defines the header's constants, and the list of them.
macro_rules! constants {
    ($($kind:ident: $($name:ident = $number:literal),*;)*) => {
        $($(pub const $name: $kind = $number;)*)*

        /// Each name, without LAWCHECK_, and its number.
        pub const CONSTANTS: &[(&str, u64)] = &[$($((stringify!($name), $number)),*),*];
    };
}

constants! {
    u64: LENGTH = 1, RANGE = 2, GOAL_ROW = 3, FACT = 4, OWNER = 5, WAIT = 6, ACTION = 7, MEMBER = 8,
        FULL = 9, OTHERS = 10, ENDS = 11, NO_SOLUTION = 12, PICK = 13, SHORT = 14, TEXT = 15,
        PDDL = 16, NAME = 17, MANY = 18, STALE = 19, CHANGES = 20;
    usize: FACTS = 128, MASK_WORDS = 2, ROW_WORDS = 9;
    usize: STEP_OUT = 5, SOLO_REPLAY_OUT = 2, SOLO_SEARCH_OUT = 3, JOINT_REPLAY_OUT = 7,
        PICK_OUT = 3, ASK_OUT = 7, COMMIT_OUT = 3, VERDICT_OUT = 5, READ_OUT = 1,
        PDDL_READ_OUT = 1, PDDL_WRITE_OUT = 2, RUN_WORDS = 12, TEXT_WORDS = 2385,
        PDDL_BYTES = 1048576;
    u64: STEP_GO = 0, STEP_WAIT = 1, STEP_COLLISION = 2;
    u64: SOLVES = 0, BREAKS = 1, GOAL_SHORT = 2;
    u64: RUN_SUCCESS = 0, RUN_COLLISION = 1, RUN_DEADLOCK = 2, RUN_MISSED = 3, RUN_OPEN = 4;
    u64: PICK_GO = 0, PICK_COLLISION = 1;
    u64: ASK_GO = 0, ASK_WAIT = 1, ASK_COLLISION = 2;
    u64: ROBUST = 0, UNSOLVABLE = 1, COLLISION = 2, DEADLOCK = 3, MISSED = 4;
    usize: RUN_COLLIDED = 0, RUN_PLACES = 1, RUN_SHARED = 9, RUN_CHANGE = 11;
    u32: LAST_CHANGE = 4294967295;
}

/// The task check.
pub fn task(task: &[u64]) -> u64 {
    unsafe { lawcheck_task(task.as_ptr(), task.len()) }
}

/// An action at a shared copy (two words). `out`: 0 go, 1 wait, 2 collision; the new shared copy;
/// what is missing.
pub fn step(task: &[u64], action: u16, shared: &[u64], out: &mut [u64]) -> u64 {
    unsafe {
        lawcheck_step(
            task.as_ptr(),
            task.len(),
            action,
            shared.as_ptr(),
            shared.len(),
            out.as_mut_ptr(),
            out.len(),
        )
    }
}

/// A plan on its member's local copy alone. `out`: 0 solves, 1 breaks, 2 short; the index.
pub fn solo_replay(task: &[u64], member: u8, plan: &[u16], out: &mut [u64]) -> u64 {
    unsafe {
        lawcheck_solo_replay(
            task.as_ptr(),
            task.len(),
            member,
            plan.as_ptr(),
            plan.len(),
            out.as_mut_ptr(),
            out.len(),
        )
    }
}

/// A member's reachable local copies and live marks. `out`: the count; 1 where I is live; the
/// number of marks that are 1.
pub fn solo_search(
    task: &[u64],
    member: u8,
    table: &mut [u64],
    marks: &mut [u8],
    out: &mut [u64],
) -> u64 {
    unsafe {
        lawcheck_solo_search(
            task.as_ptr(),
            task.len(),
            member,
            table.as_mut_ptr(),
            table.len(),
            marks.as_mut_ptr(),
            marks.len(),
            out.as_mut_ptr(),
            out.len(),
        )
    }
}

/// A list of picks from the start. `out`: 0 success, 1 collision, 2 deadlock, 3 missed, 4 open; the
/// member; the picks done; the shared copy; what is missing.
pub fn joint_replay(
    task: &[u64],
    plans: &[u16],
    ends: &[u64],
    picks: &[u8],
    out: &mut [u64],
) -> u64 {
    unsafe {
        lawcheck_joint_replay(
            task.as_ptr(),
            task.len(),
            plans.as_ptr(),
            plans.len(),
            ends.as_ptr(),
            ends.len(),
            picks.as_ptr(),
            picks.len(),
            out.as_mut_ptr(),
            out.len(),
        )
    }
}

/// A pick on a run of twelve words: collided, eight places, the shared copy, the change number.
/// `out`: 0 go, 1 collision; what is missing.
pub fn pick(
    task: &[u64],
    plans: &[u16],
    ends: &[u64],
    run: &mut [u64],
    member: u8,
    out: &mut [u64],
) -> u64 {
    unsafe {
        lawcheck_pick(
            task.as_ptr(),
            task.len(),
            plans.as_ptr(),
            plans.len(),
            ends.as_ptr(),
            ends.len(),
            run.as_mut_ptr(),
            run.len(),
            member,
            out.as_mut_ptr(),
            out.len(),
        )
    }
}

/// What a member's next step would answer on a run, and a ticket for it. `out`: 0 go, 1 wait, 2
/// collision; the new shared copy; what is missing; the ticket's member; its change number.
pub fn ask(
    task: &[u64],
    plans: &[u16],
    ends: &[u64],
    run: &[u64],
    member: u8,
    out: &mut [u64],
) -> u64 {
    unsafe {
        lawcheck_ask(
            task.as_ptr(),
            task.len(),
            plans.as_ptr(),
            plans.len(),
            ends.as_ptr(),
            ends.len(),
            run.as_ptr(),
            run.len(),
            member,
            out.as_mut_ptr(),
            out.len(),
        )
    }
}

/// The pick of a ticket, a member and a change number. `out`: 0 go, 1 collision; what is missing.
pub fn commit(
    task: &[u64],
    plans: &[u16],
    ends: &[u64],
    run: &mut [u64],
    member: u8,
    change: u32,
    out: &mut [u64],
) -> u64 {
    unsafe {
        lawcheck_commit(
            task.as_ptr(),
            task.len(),
            plans.as_ptr(),
            plans.len(),
            ends.as_ptr(),
            ends.len(),
            run.as_mut_ptr(),
            run.len(),
            member,
            change,
            out.as_mut_ptr(),
            out.len(),
        )
    }
}

/// The start of a run, written to its twelve words.
pub fn start(task: &[u64], run: &mut [u64]) -> u64 {
    unsafe { lawcheck_start(task.as_ptr(), task.len(), run.as_mut_ptr(), run.len()) }
}

/// Picks on a run in turn, those that are refused passed over. `answers`: 0 go, 1 collision, 8, 13
/// or 20 for each pick.
#[allow(clippy::too_many_arguments)]
pub fn play(
    task: &[u64],
    plans: &[u16],
    ends: &[u64],
    run: &mut [u64],
    picks: &[u8],
    answers: &mut [u64],
) -> u64 {
    unsafe {
        lawcheck_play(
            task.as_ptr(),
            task.len(),
            plans.as_ptr(),
            plans.len(),
            ends.as_ptr(),
            ends.len(),
            run.as_mut_ptr(),
            run.len(),
            picks.as_ptr(),
            picks.len(),
            answers.as_mut_ptr(),
            answers.len(),
        )
    }
}

/// The verdict. `out`: 0 robust, 1 unsolvable, 2 collision, 3 deadlock, 4 missed; the member; the
/// count of configurations or the picks done; what is missing.
#[allow(clippy::too_many_arguments)]
pub fn verdict(
    task: &[u64],
    local: &mut [u64],
    marks: &mut [u8],
    configurations: &mut [u64],
    trail: &mut [u64],
    plans: &mut [u16],
    ends: &mut [u64],
    picks: &mut [u8],
    out: &mut [u64],
) -> u64 {
    unsafe {
        lawcheck_verdict(
            task.as_ptr(),
            task.len(),
            local.as_mut_ptr(),
            local.len(),
            marks.as_mut_ptr(),
            marks.len(),
            configurations.as_mut_ptr(),
            configurations.len(),
            trail.as_mut_ptr(),
            trail.len(),
            plans.as_mut_ptr(),
            plans.len(),
            ends.as_mut_ptr(),
            ends.len(),
            picks.as_mut_ptr(),
            picks.len(),
            out.as_mut_ptr(),
            out.len(),
        )
    }
}

/// A text's words. `out`: the number of records.
pub fn read(text: &[u8], words: &mut [u64], out: &mut [u64]) -> u64 {
    unsafe {
        lawcheck_read(
            text.as_ptr(),
            text.len(),
            words.as_mut_ptr(),
            words.len(),
            out.as_mut_ptr(),
            out.len(),
        )
    }
}

/// The words of a law in PDDL with its waits. `out`: the number of records.
pub fn pddl_read(text: &[u8], waits: &[u8], words: &mut [u64], out: &mut [u64]) -> u64 {
    unsafe {
        lawcheck_pddl_read(
            text.as_ptr(),
            text.len(),
            waits.as_ptr(),
            waits.len(),
            words.as_mut_ptr(),
            words.len(),
            out.as_mut_ptr(),
            out.len(),
        )
    }
}

/// A task as PDDL with its waits. `out`: the lengths of the two texts.
pub fn pddl_write(task: &[u64], text: &mut [u8], waits: &mut [u8], out: &mut [u64]) -> u64 {
    unsafe {
        lawcheck_pddl_write(
            task.as_ptr(),
            task.len(),
            text.as_mut_ptr(),
            text.len(),
            waits.as_mut_ptr(),
            waits.len(),
            out.as_mut_ptr(),
            out.len(),
        )
    }
}
