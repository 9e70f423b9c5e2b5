//! The operations of the C interface as one trait: every number and slice as it is lent.

/// The refusal of a slice shorter than asked, and of a change number too large.
pub const TOO_SHORT: u64 = 14;

/// The most facts of a task, and the words of a mask: bit f is bit f mod 64 of word f / 64.
pub const FACTS: usize = 128;
pub const MASK: usize = 2;

/// Words of a row of a task: a number, then four masks.
pub const ROW: usize = 1 + 4 * MASK;

/// The most rows of a task: row 0, 8 goals, 256 actions.
pub const ROWS: usize = 265;

/// Words of a run: collided, eight places, the shared copy, the change number.
pub const RUN: usize = SHARED + MASK + 1;
pub const SHARED: usize = 9;
pub const CHANGE: usize = SHARED + MASK;

/// The words of a mask, low word first.
pub fn mask_words(mask: u128) -> [u64; MASK] {
    [mask as u64, (mask >> 64) as u64]
}

/// The mask of the first two words.
pub fn mask_of(words: &[u64]) -> u128 {
    u128::from(words[0]) | u128::from(words[1]) << 64
}

/// The last change number.
pub const LAST: u32 = 4_294_967_295;

/// A member and a change number, by which an asked pick is committed.
#[derive(Clone, Copy, Debug, PartialEq, Eq, PartialOrd, Ord, Hash)]
pub struct Ticket {
    pub member: u8,
    pub change: u32,
}

/// Whether the words of a run are too few, or hold no change number.
pub fn no_run(run: &[u64]) -> bool {
    run.len() < RUN || run[CHANGE] > u64::from(LAST)
}

/// How many numbers an answer writes to the front of `out`.
pub mod out_length {
    pub const STEP: usize = 1 + 2 * super::MASK;
    pub const SOLO_REPLAY: usize = 2;
    pub const SOLO_SEARCH: usize = 3;
    pub const JOINT_REPLAY: usize = 3 + 2 * super::MASK;
    pub const PICK: usize = 1 + super::MASK;
    pub const ASK: usize = STEP + 2;
    pub const COMMIT: usize = PICK;
    pub const VERDICT: usize = 3 + super::MASK;
    pub const READ: usize = 1;
    pub const PDDL_READ: usize = 1;
    pub const PDDL_WRITE: usize = 2;
}

/// Where the missing preconditions of a collision stand among an answer's numbers (request F-6).
pub mod missing {
    use super::{out_length, MASK};
    use std::ops::Range;

    pub const STEP: Range<usize> = 1 + MASK..out_length::STEP;
    pub const JOINT_REPLAY: Range<usize> = 3 + MASK..out_length::JOINT_REPLAY;
    pub const PICK: Range<usize> = 1..out_length::PICK;
    pub const ASK: Range<usize> = STEP;
    pub const COMMIT: Range<usize> = PICK;
    pub const VERDICT: Range<usize> = 3..out_length::VERDICT;
}

/// An implementation of the C interface. Each operation gives the refusal's number, or 0 for an
/// answer.
#[allow(clippy::too_many_arguments)]
pub trait Interface: Sync {
    fn task(&self, task: &[u64]) -> u64;

    fn step(&self, task: &[u64], action: u16, shared: &[u64], out: &mut [u64]) -> u64;

    fn solo_replay(&self, task: &[u64], member: u8, plan: &[u16], out: &mut [u64]) -> u64;

    fn solo_search(
        &self,
        task: &[u64],
        member: u8,
        table: &mut [u64],
        marks: &mut [u8],
        out: &mut [u64],
    ) -> u64;

    fn joint_replay(
        &self,
        task: &[u64],
        plans: &[u16],
        ends: &[u64],
        picks: &[u8],
        out: &mut [u64],
    ) -> u64;

    fn pick(
        &self,
        task: &[u64],
        plans: &[u16],
        ends: &[u64],
        run: &mut [u64],
        member: u8,
        out: &mut [u64],
    ) -> u64;

    /// The run is to be read; it is lent as one that a wrong implementation could write.
    fn ask(
        &self,
        task: &[u64],
        plans: &[u16],
        ends: &[u64],
        run: &mut [u64],
        member: u8,
        out: &mut [u64],
    ) -> u64;

    fn commit(
        &self,
        task: &[u64],
        plans: &[u16],
        ends: &[u64],
        run: &mut [u64],
        ticket: Ticket,
        out: &mut [u64],
    ) -> u64;

    fn start(&self, task: &[u64], run: &mut [u64]) -> u64;

    fn play(
        &self,
        task: &[u64],
        plans: &[u16],
        ends: &[u64],
        run: &mut [u64],
        picks: &[u8],
        answers: &mut [u64],
    ) -> u64;

    fn verdict(
        &self,
        task: &[u64],
        local: &mut [u64],
        marks: &mut [u8],
        configurations: &mut [u64],
        trail: &mut [u64],
        plans: &mut [u16],
        ends: &mut [u64],
        picks: &mut [u8],
        out: &mut [u64],
    ) -> u64;

    fn read(&self, text: &[u8], words: &mut [u64], out: &mut [u64]) -> u64;
}

/// The C interface's reader and writer of laws in PDDL (request F-1).
pub trait Pddl: Sync {
    fn pddl_read(&self, text: &[u8], waits: &[u8], words: &mut [u64], out: &mut [u64]) -> u64;

    fn pddl_write(&self, task: &[u64], text: &mut [u8], waits: &mut [u8], out: &mut [u64]) -> u64;
}

/// Writes an answer's numbers to the front of `out` and gives 0.
pub fn give(out: &mut [u64], numbers: &[u64]) -> u64 {
    out[..numbers.len()].copy_from_slice(numbers);
    0
}
