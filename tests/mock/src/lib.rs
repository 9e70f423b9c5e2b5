//! The functions of `include/lawcheck.h` over the fast twin: they stand in for the proved library.
#![allow(clippy::missing_safety_doc, clippy::too_many_arguments)]

use reference::fast::Fast;
use reference::interface::{Interface, Pddl, Ticket};
use std::slice::{from_raw_parts, from_raw_parts_mut};

/// A slice that is lent to be read. An empty one may come with any pointer.
unsafe fn lent<'a, T>(pointer: *const T, length: usize) -> &'a [T] {
    if length == 0 {
        &[]
    } else {
        from_raw_parts(pointer, length)
    }
}

/// A slice that is lent to be written.
unsafe fn lent_mut<'a, T>(pointer: *mut T, length: usize) -> &'a mut [T] {
    if length == 0 {
        &mut []
    } else {
        from_raw_parts_mut(pointer, length)
    }
}

#[no_mangle]
pub unsafe extern "C" fn lawcheck_task(task: *const u64, task_len: usize) -> u64 {
    Fast.task(lent(task, task_len))
}

#[no_mangle]
pub unsafe extern "C" fn lawcheck_step(
    task: *const u64,
    task_len: usize,
    action: u16,
    shared: *const u64,
    shared_len: usize,
    out: *mut u64,
    out_len: usize,
) -> u64 {
    Fast.step(lent(task, task_len), action, lent(shared, shared_len), lent_mut(out, out_len))
}

#[no_mangle]
pub unsafe extern "C" fn lawcheck_solo_replay(
    task: *const u64,
    task_len: usize,
    member: u8,
    plan: *const u16,
    plan_len: usize,
    out: *mut u64,
    out_len: usize,
) -> u64 {
    Fast.solo_replay(lent(task, task_len), member, lent(plan, plan_len), lent_mut(out, out_len))
}

#[no_mangle]
pub unsafe extern "C" fn lawcheck_solo_search(
    task: *const u64,
    task_len: usize,
    member: u8,
    table: *mut u64,
    table_len: usize,
    marks: *mut u8,
    marks_len: usize,
    out: *mut u64,
    out_len: usize,
) -> u64 {
    Fast.solo_search(
        lent(task, task_len),
        member,
        lent_mut(table, table_len),
        lent_mut(marks, marks_len),
        lent_mut(out, out_len),
    )
}

#[no_mangle]
pub unsafe extern "C" fn lawcheck_joint_replay(
    task: *const u64,
    task_len: usize,
    plans: *const u16,
    plans_len: usize,
    ends: *const u64,
    ends_len: usize,
    picks: *const u8,
    picks_len: usize,
    out: *mut u64,
    out_len: usize,
) -> u64 {
    Fast.joint_replay(
        lent(task, task_len),
        lent(plans, plans_len),
        lent(ends, ends_len),
        lent(picks, picks_len),
        lent_mut(out, out_len),
    )
}

#[no_mangle]
pub unsafe extern "C" fn lawcheck_pick(
    task: *const u64,
    task_len: usize,
    plans: *const u16,
    plans_len: usize,
    ends: *const u64,
    ends_len: usize,
    run: *mut u64,
    run_len: usize,
    member: u8,
    out: *mut u64,
    out_len: usize,
) -> u64 {
    Fast.pick(
        lent(task, task_len),
        lent(plans, plans_len),
        lent(ends, ends_len),
        lent_mut(run, run_len),
        member,
        lent_mut(out, out_len),
    )
}

#[no_mangle]
pub unsafe extern "C" fn lawcheck_ask(
    task: *const u64,
    task_len: usize,
    plans: *const u16,
    plans_len: usize,
    ends: *const u64,
    ends_len: usize,
    run: *const u64,
    run_len: usize,
    member: u8,
    out: *mut u64,
    out_len: usize,
) -> u64 {
    Fast.ask(
        lent(task, task_len),
        lent(plans, plans_len),
        lent(ends, ends_len),
        &mut lent(run, run_len).to_vec(),
        member,
        lent_mut(out, out_len),
    )
}

#[no_mangle]
pub unsafe extern "C" fn lawcheck_commit(
    task: *const u64,
    task_len: usize,
    plans: *const u16,
    plans_len: usize,
    ends: *const u64,
    ends_len: usize,
    run: *mut u64,
    run_len: usize,
    member: u8,
    change: u32,
    out: *mut u64,
    out_len: usize,
) -> u64 {
    Fast.commit(
        lent(task, task_len),
        lent(plans, plans_len),
        lent(ends, ends_len),
        lent_mut(run, run_len),
        Ticket { member, change },
        lent_mut(out, out_len),
    )
}

#[no_mangle]
pub unsafe extern "C" fn lawcheck_verdict(
    task: *const u64,
    task_len: usize,
    local: *mut u64,
    local_len: usize,
    marks: *mut u8,
    marks_len: usize,
    configurations: *mut u64,
    configurations_len: usize,
    trail: *mut u64,
    trail_len: usize,
    plans: *mut u16,
    plans_len: usize,
    ends: *mut u64,
    ends_len: usize,
    picks: *mut u8,
    picks_len: usize,
    out: *mut u64,
    out_len: usize,
) -> u64 {
    Fast.verdict(
        lent(task, task_len),
        lent_mut(local, local_len),
        lent_mut(marks, marks_len),
        lent_mut(configurations, configurations_len),
        lent_mut(trail, trail_len),
        lent_mut(plans, plans_len),
        lent_mut(ends, ends_len),
        lent_mut(picks, picks_len),
        lent_mut(out, out_len),
    )
}

#[no_mangle]
pub unsafe extern "C" fn lawcheck_read(
    text: *const u8,
    text_len: usize,
    words: *mut u64,
    words_len: usize,
    out: *mut u64,
    out_len: usize,
) -> u64 {
    Fast.read(lent(text, text_len), lent_mut(words, words_len), lent_mut(out, out_len))
}

#[no_mangle]
pub unsafe extern "C" fn lawcheck_start(
    task: *const u64,
    task_len: usize,
    run: *mut u64,
    run_len: usize,
) -> u64 {
    Fast.start(lent(task, task_len), lent_mut(run, run_len))
}

#[no_mangle]
pub unsafe extern "C" fn lawcheck_play(
    task: *const u64,
    task_len: usize,
    plans: *const u16,
    plans_len: usize,
    ends: *const u64,
    ends_len: usize,
    run: *mut u64,
    run_len: usize,
    picks: *const u8,
    picks_len: usize,
    answers: *mut u64,
    answers_len: usize,
) -> u64 {
    Fast.play(
        lent(task, task_len),
        lent(plans, plans_len),
        lent(ends, ends_len),
        lent_mut(run, run_len),
        lent(picks, picks_len),
        lent_mut(answers, answers_len),
    )
}

#[no_mangle]
pub unsafe extern "C" fn lawcheck_pddl_read(
    text: *const u8,
    text_len: usize,
    waits: *const u8,
    waits_len: usize,
    words: *mut u64,
    words_len: usize,
    out: *mut u64,
    out_len: usize,
) -> u64 {
    Fast.pddl_read(
        lent(text, text_len),
        lent(waits, waits_len),
        lent_mut(words, words_len),
        lent_mut(out, out_len),
    )
}

#[no_mangle]
pub unsafe extern "C" fn lawcheck_pddl_write(
    task: *const u64,
    task_len: usize,
    text: *mut u8,
    text_len: usize,
    waits: *mut u8,
    waits_len: usize,
    out: *mut u64,
    out_len: usize,
) -> u64 {
    Fast.pddl_write(
        lent(task, task_len),
        lent_mut(text, text_len),
        lent_mut(waits, waits_len),
        lent_mut(out, out_len),
    )
}
