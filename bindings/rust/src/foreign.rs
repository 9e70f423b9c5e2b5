//! The functions of `include/lawcheck.h`.

extern "C" {
    pub fn lawcheck_task(task: *const u64, task_len: usize) -> u64;

    pub fn lawcheck_step(
        task: *const u64,
        task_len: usize,
        action: u16,
        shared: *const u64,
        shared_len: usize,
        out: *mut u64,
        out_len: usize,
    ) -> u64;

    pub fn lawcheck_solo_replay(
        task: *const u64,
        task_len: usize,
        member: u8,
        plan: *const u16,
        plan_len: usize,
        out: *mut u64,
        out_len: usize,
    ) -> u64;

    pub fn lawcheck_solo_search(
        task: *const u64,
        task_len: usize,
        member: u8,
        table: *mut u64,
        table_len: usize,
        marks: *mut u8,
        marks_len: usize,
        out: *mut u64,
        out_len: usize,
    ) -> u64;

    pub fn lawcheck_joint_replay(
        task: *const u64,
        task_len: usize,
        plans: *const u16,
        plans_len: usize,
        ends: *const u64,
        ends_len: usize,
        picks: *const u8,
        picks_len: usize,
        out: *mut u64,
        out_len: usize,
    ) -> u64;

    pub fn lawcheck_pick(
        task: *const u64,
        task_len: usize,
        plans: *const u16,
        plans_len: usize,
        ends: *const u64,
        ends_len: usize,
        run: *mut u64,
        run_len: usize,
        member: u8,
        out: *mut u64,
        out_len: usize,
    ) -> u64;

    pub fn lawcheck_ask(
        task: *const u64,
        task_len: usize,
        plans: *const u16,
        plans_len: usize,
        ends: *const u64,
        ends_len: usize,
        run: *const u64,
        run_len: usize,
        member: u8,
        out: *mut u64,
        out_len: usize,
    ) -> u64;

    pub fn lawcheck_commit(
        task: *const u64,
        task_len: usize,
        plans: *const u16,
        plans_len: usize,
        ends: *const u64,
        ends_len: usize,
        run: *mut u64,
        run_len: usize,
        member: u8,
        change: u32,
        out: *mut u64,
        out_len: usize,
    ) -> u64;

    pub fn lawcheck_start(task: *const u64, task_len: usize, run: *mut u64, run_len: usize) -> u64;

    pub fn lawcheck_play(
        task: *const u64,
        task_len: usize,
        plans: *const u16,
        plans_len: usize,
        ends: *const u64,
        ends_len: usize,
        run: *mut u64,
        run_len: usize,
        picks: *const u8,
        picks_len: usize,
        answers: *mut u64,
        answers_len: usize,
    ) -> u64;

    pub fn lawcheck_verdict(
        task: *const u64,
        task_len: usize,
        local: *mut u64,
        local_len: usize,
        marks: *mut u8,
        marks_len: usize,
        configurations: *mut u64,
        configurations_len: usize,
        trail: *mut u64,
        trail_len: usize,
        plans: *mut u16,
        plans_len: usize,
        ends: *mut u64,
        ends_len: usize,
        picks: *mut u8,
        picks_len: usize,
        out: *mut u64,
        out_len: usize,
    ) -> u64;

    pub fn lawcheck_read(
        text: *const u8,
        text_len: usize,
        words: *mut u64,
        words_len: usize,
        out: *mut u64,
        out_len: usize,
    ) -> u64;

    pub fn lawcheck_pddl_read(
        text: *const u8,
        text_len: usize,
        waits: *const u8,
        waits_len: usize,
        words: *mut u64,
        words_len: usize,
        out: *mut u64,
        out_len: usize,
    ) -> u64;

    pub fn lawcheck_pddl_write(
        task: *const u64,
        task_len: usize,
        text: *mut u8,
        text_len: usize,
        waits: *mut u8,
        waits_len: usize,
        out: *mut u64,
        out_len: usize,
    ) -> u64;
}
