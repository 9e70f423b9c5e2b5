//! Asks and commits on one run: answers worked out by hand from the words of request F-4, and all
//! lists of up to four calls on four laws at four change numbers.

use reference::fast::{Fast, Task};
use reference::interface::out_length::PICK;
use reference::interface::{missing, out_length, Interface, Ticket, CHANGE, LAST, RUN, SHARED};
use reference::laws::{l1, l2, l7};
use reference::paper::interface as paper;

const PLANS: [u16; 4] = [0, 1, 2, 3];
const ENDS: [u64; 2] = [2, 4];

/// A call on a run.
#[derive(Clone, Copy, Debug)]
enum Call {
    Ask(u8),
    Commit(u8, u32),
    Pick(u8),
}
use Call::*;

/// What it gives: a refusal, or the numbers of the answer.
type Given = Result<Vec<u64>, u64>;

fn given(refusal: u64, out: &[u64]) -> Given {
    if refusal == 0 {
        Ok(out.to_vec())
    } else {
        Err(refusal)
    }
}

/// A call by both implementations, which agree on what it gives and on the run it leaves.
fn call(law: &[u64], plans: &[u16], ends: &[u64], run: &mut [u64], call: Call) -> Given {
    let (mut plain, mut fast) = (run.to_vec(), run.to_vec());
    let (mut one, mut other) = ([9; out_length::ASK], [9; out_length::ASK]);
    let (refusals, length) = match call {
        Ask(member) => {
            let plain = paper::ask(law, plans, ends, &plain, member, &mut one);
            ([plain, Fast.ask(law, plans, ends, &mut fast, member, &mut other)], out_length::ASK)
        }
        Commit(member, change) => {
            let ticket = Ticket { member, change };
            let plain = paper::commit(law, plans, ends, &mut plain, ticket, &mut one);
            ([plain, Fast.commit(law, plans, ends, &mut fast, ticket, &mut other)], PICK)
        }
        Pick(member) => {
            let plain = paper::pick(law, plans, ends, &mut plain, member, &mut one);
            ([plain, Fast.pick(law, plans, ends, &mut fast, member, &mut other)], PICK)
        }
    };
    assert_eq!((refusals[0], one, &plain), (refusals[1], other, &fast), "{call:?} on {run:?}");
    if matches!(call, Ask(_)) || refusals[0] != 0 {
        assert_eq!(plain, run, "{call:?} changes the run");
    }
    run.copy_from_slice(&plain);
    given(refusals[0], &one[..length])
}

/// The law's run at its start, with a change number.
fn start(law: &[u64], change: u32) -> Vec<u64> {
    let mut run = vec![7; RUN];
    assert_eq!(paper::start(law, &mut run), 0);
    let mut other = vec![9; RUN];
    assert_eq!(Fast.start(law, &mut other), 0);
    assert_eq!((&run, run[CHANGE]), (&other, 0));
    run[CHANGE] = u64::from(change);
    run
}

/// The numbers of a pick that goes.
fn went() -> Vec<u64> {
    vec![0; PICK]
}

/// These calls in turn on the law's run at its start, each with what it gives.
fn gives(law: &[u64], change: u32, calls: &[(Call, Given)]) -> Vec<u64> {
    let mut run = start(law, change);
    for (this, expected) in calls {
        let found = call(law, &PLANS, &ENDS, &mut run, *this);
        assert_eq!(&found, expected, "{this:?}");
    }
    run
}

#[test]
fn a_step_is_told_before_it_is_done() {
    let run = gives(
        &l1(),
        0,
        &[
            (Ask(0), Ok(vec![0, 2, 0, 0, 0, 0, 0])),
            (Ask(1), Ok(vec![0, 8, 0, 0, 0, 1, 0])),
            (Ask(2), Err(8)),
            (Commit(2, 5), Err(8)),
            (Commit(1, 1), Err(19)),
            (Commit(1, 0), Ok(went())),
            (Commit(1, 0), Err(19)),
            (Commit(0, 0), Err(19)),
            (Ask(0), Ok(vec![1, 0, 0, 0, 0, 0, 1])),
            (Commit(0, 1), Err(13)),
            (Pick(1), Ok(went())),
            (Ask(1), Err(13)),
            (Commit(1, 2), Err(13)),
            (Commit(1, 1), Err(19)),
            (Ask(0), Ok(vec![0, 18, 0, 0, 0, 0, 2])),
            (Commit(0, 2), Ok(went())),
        ],
    );
    assert_eq!(run, [0, 1, 2, 0, 0, 0, 0, 0, 0, 18, 0, 3]);
}

#[test]
fn a_collision_is_told_and_counts() {
    let run = gives(
        &l2(),
        5,
        &[
            (Pick(0), Ok(went())),
            (Ask(1), Ok(vec![2, 0, 0, 1, 0, 1, 6])),
            (Commit(1, 6), Ok(vec![1, 1, 0])),
            (Ask(0), Err(13)),
            (Commit(0, 7), Err(13)),
            (Commit(0, 6), Err(19)),
            (Pick(0), Err(13)),
        ],
    );
    assert_eq!(run, [1, 1, 0, 0, 0, 0, 0, 0, 0, 2, 0, 7]);
}

/// L1 with every fact 64 higher, so that all its masks are high words.
fn high_l1() -> Vec<u64> {
    let law = Task::check(&l1()).expect("a law").law();
    law.at(128, &[64, 65, 66, 67, 68]).words()
}

#[test]
fn the_shared_copy_is_two_words() {
    let run = gives(
        &high_l1(),
        0,
        &[
            (Ask(0), Ok(vec![0, 0, 2, 0, 0, 0, 0])),
            (Commit(1, 0), Ok(went())),
            (Ask(0), Ok(vec![1, 0, 0, 0, 0, 0, 1])),
            (Pick(0), Err(13)),
            (Pick(1), Ok(went())),
            (Ask(0), Ok(vec![0, 0, 18, 0, 0, 0, 2])),
            (Commit(0, 2), Ok(went())),
        ],
    );
    assert_eq!(run, [0, 1, 2, 0, 0, 0, 0, 0, 0, 0, 18, 3]);
}

#[test]
fn the_last_change_number_takes_no_pick() {
    let run = gives(
        &l1(),
        LAST - 1,
        &[
            (Commit(0, LAST - 1), Ok(went())),
            (Ask(0), Ok(vec![0, 5, 0, 0, 0, 0, u64::from(LAST)])),
            (Ask(1), Ok(vec![1, 0, 0, 0, 0, 1, u64::from(LAST)])),
            (Commit(0, LAST), Err(20)),
            (Commit(0, 0), Err(19)),
            (Commit(1, LAST), Err(13)),
            (Commit(2, LAST), Err(8)),
            (Pick(0), Err(20)),
            (Pick(1), Err(13)),
            (Pick(2), Err(8)),
        ],
    );
    assert_eq!((run[SHARED], run[CHANGE]), (2, u64::from(LAST)));
    // What would collide there is refused too, and closes nothing.
    let run = gives(&l2(), LAST - 1, &[(Pick(0), Ok(went())), (Commit(1, LAST), Err(20))]);
    assert_eq!(run[0], 0);
}

#[test]
fn a_list_of_picks_passes_over_those_past_the_last_change_number() {
    let (law, picks) = (l1(), [0, 0, 1, 9, 0, 1]);
    for (change, expected, left) in [
        (0, [0, 0, 0, 8, 13, 0], 4),
        (LAST - 4, [0, 0, 0, 8, 13, 0], LAST),
        (LAST - 1, [0, 20, 13, 8, 20, 13], LAST),
        (LAST, [20, 20, 20, 8, 20, 20], LAST),
    ] {
        let (mut one, mut other) = (start(&law, change), start(&law, change));
        let (mut plain, mut fast) = ([77; 6], [77; 6]);
        assert_eq!(paper::play(&law, &PLANS, &ENDS, &mut one, &picks, &mut plain), 0);
        assert_eq!(Fast.play(&law, &PLANS, &ENDS, &mut other, &picks, &mut fast), 0);
        assert_eq!((plain, fast), (expected, expected));
        assert_eq!((one[CHANGE], &one), (u64::from(left), &other));
    }
}

#[test]
fn no_run_has_a_change_number_of_more_than_32_bits() {
    let law = l1();
    for above in [1 << 32, 1 << 33, 1 << 63, u64::MAX] {
        let mut run = start(&law, 0);
        run[CHANGE] = above;
        for this in [Ask(0), Commit(0, above as u32), Pick(0)] {
            assert_eq!(call(&[], &PLANS, &ENDS, &mut run, this), Err(14));
        }
        assert_eq!(paper::play(&[], &PLANS, &ENDS, &mut run, &[], &mut []), 14);
        assert_eq!(Fast.play(&[], &PLANS, &ENDS, &mut run, &[], &mut []), 14);
    }
}

/// Tries every list that begins with these calls on a run, and every longer one with so many calls
/// more. `done` are those that are not refused, asks left out, with what they gave.
fn all_lists(
    law: &[u64],
    (plans, ends): (&[u16], &[u64]),
    first: &[u64],
    run: &[u64],
    left: usize,
    done: &mut Vec<(Call, Given)>,
) -> usize {
    // Those that are done, alone, give the same and leave the same.
    let mut alone = first.to_vec();
    for (this, expected) in done.iter() {
        assert_eq!(call(law, plans, ends, &mut alone, *this), *expected, "{this:?} of {done:?}");
    }
    assert_eq!(alone, run, "after {done:?}");
    if left == 0 {
        return 1;
    }
    let began = first[CHANGE] as u32;
    let members = 0..=law[1] as u8;
    let calls = members.flat_map(|member| {
        let commits = (0..3).map(move |later| Commit(member, began.wrapping_add(later)));
        [Ask(member), Pick(member)].into_iter().chain(commits)
    });
    let mut lists = 1;
    for this in calls {
        let mut after = run.to_vec();
        let found = call(law, plans, ends, &mut after, this);
        if let (Commit(member, _), Ok(answer)) = (this, &found) {
            let asked = call(law, plans, ends, &mut run.to_vec(), Ask(member));
            let asked = asked.expect("what is committed can be asked for");
            let goes = asked[0] == 0;
            let shared = if goes { &asked[1..3] } else { &run[SHARED..CHANGE] };
            let told = [&[if goes { 0 } else { 1 }], &asked[missing::ASK]].concat();
            assert_eq!((answer, &after[SHARED..CHANGE]), (&told, shared), "{this:?} on {run:?}");
        }
        let counts = !matches!(this, Ask(_)) && found.is_ok();
        if counts {
            done.push((this, found));
        }
        lists += all_lists(law, (plans, ends), first, &after, left - 1, done);
        if counts {
            done.pop();
        }
    }
    lists
}

#[test]
fn every_short_list_leaves_what_its_commits_leave() {
    let (long, short): ((&[u16], &[u64]), (&[u16], &[u64])) = ((&PLANS, &ENDS), (&[0, 1], &[1, 2]));
    for (law, plans) in [(l1(), long), (l2(), long), (l7(), short), (high_l1(), long)] {
        for change in [0, 1, LAST - 1, LAST] {
            let run = start(&law, change);
            let lists = all_lists(&law, plans, &run, &run, 4, &mut Vec::new());
            // 15 calls: three members, one of whom is none, and for each an ask, a pick and three
            // commits.
            assert_eq!(lists, 1 + 15 + 15 * 15 + 15 * 15 * 15 + 15 * 15 * 15 * 15);
        }
    }
}
