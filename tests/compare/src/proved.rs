//! The C interface as an implementation to check.

use reference::interface::{Interface, Pddl, Ticket};

/// The library that is linked.
pub struct Proved;

impl Interface for Proved {
    fn task(&self, task: &[u64]) -> u64 {
        lawcheck::raw::task(task)
    }

    fn step(&self, task: &[u64], action: u16, shared: &[u64], out: &mut [u64]) -> u64 {
        lawcheck::raw::step(task, action, shared, out)
    }

    fn solo_replay(&self, task: &[u64], member: u8, plan: &[u16], out: &mut [u64]) -> u64 {
        lawcheck::raw::solo_replay(task, member, plan, out)
    }

    fn solo_search(
        &self,
        task: &[u64],
        member: u8,
        table: &mut [u64],
        marks: &mut [u8],
        out: &mut [u64],
    ) -> u64 {
        lawcheck::raw::solo_search(task, member, table, marks, out)
    }

    fn joint_replay(
        &self,
        task: &[u64],
        plans: &[u16],
        ends: &[u64],
        picks: &[u8],
        out: &mut [u64],
    ) -> u64 {
        lawcheck::raw::joint_replay(task, plans, ends, picks, out)
    }

    fn pick(
        &self,
        task: &[u64],
        plans: &[u16],
        ends: &[u64],
        run: &mut [u64],
        member: u8,
        out: &mut [u64],
    ) -> u64 {
        lawcheck::raw::pick(task, plans, ends, run, member, out)
    }

    fn ask(
        &self,
        task: &[u64],
        plans: &[u16],
        ends: &[u64],
        run: &mut [u64],
        member: u8,
        out: &mut [u64],
    ) -> u64 {
        lawcheck::raw::ask(task, plans, ends, run, member, out)
    }

    fn commit(
        &self,
        task: &[u64],
        plans: &[u16],
        ends: &[u64],
        run: &mut [u64],
        ticket: Ticket,
        out: &mut [u64],
    ) -> u64 {
        let Ticket { member, change } = ticket;
        lawcheck::raw::commit(task, plans, ends, run, member, change, out)
    }

    fn start(&self, task: &[u64], run: &mut [u64]) -> u64 {
        lawcheck::raw::start(task, run)
    }

    fn play(
        &self,
        task: &[u64],
        plans: &[u16],
        ends: &[u64],
        run: &mut [u64],
        picks: &[u8],
        answers: &mut [u64],
    ) -> u64 {
        lawcheck::raw::play(task, plans, ends, run, picks, answers)
    }

    fn verdict(
        &self,
        task: &[u64],
        local: &mut [u64],
        marks: &mut [u8],
        configurations: &mut [u64],
        trail: &mut [u64],
        plans: &mut [u16],
        ends: &mut [u64],
        picks: &mut [u8],
        out: &mut [u64],
    ) -> u64 {
        lawcheck::raw::verdict(task, local, marks, configurations, trail, plans, ends, picks, out)
    }

    fn read(&self, text: &[u8], words: &mut [u64], out: &mut [u64]) -> u64 {
        lawcheck::raw::read(text, words, out)
    }
}

impl Pddl for Proved {
    fn pddl_read(&self, text: &[u8], waits: &[u8], words: &mut [u64], out: &mut [u64]) -> u64 {
        lawcheck::raw::pddl_read(text, waits, words, out)
    }

    fn pddl_write(&self, task: &[u64], text: &mut [u8], waits: &mut [u8], out: &mut [u64]) -> u64 {
        lawcheck::raw::pddl_write(task, text, waits, out)
    }
}
