//! What a collision lacks (request F-6): masks worked out by hand from the words, as each operation
//! tells them in both implementations, and that no other answer tells any.

use reference::fast::{Fast, Judged};
use reference::generate::all;
use reference::generate::plans::run_at_start;
use reference::interface::{
    mask_of, mask_words, missing, out_length, Interface, Ticket, CHANGE, FACTS, MASK, ROW, SHARED,
};
use reference::law::of_rows;
use reference::laws::{l1, l2, l3, l4, l7};
use reference::paper::interface as paper;
use reference::paper::interface::verdict_numbers;
use reference::paper::verdict::{verdict, Lent};

/// The mask of some facts.
fn of(facts: &[usize]) -> u128 {
    facts.iter().fold(0, |mask, fact| mask | 1 << fact)
}

/// The numbers of an answer by both implementations, which agree on them.
fn both<const N: usize>(
    plain: impl FnOnce(&mut [u64]) -> u64,
    fast: impl FnOnce(&mut [u64]) -> u64,
) -> [u64; N] {
    let (mut one, mut other) = ([9; N], [7; N]);
    assert_eq!((plain(&mut one), fast(&mut other)), (0, 0));
    assert_eq!(one, other);
    one
}

fn step(law: &[u64], action: u16, shared: u128) -> [u64; out_length::STEP] {
    let shared = &mask_words(shared);
    both(|out| paper::step(law, action, shared, out), |out| Fast.step(law, action, shared, out))
}

/// A member's pick on a run, after an ask and beside its commit: all three tell the same.
fn pick(law: &[u64], plans: &[u16], ends: &[u64], run: &mut [u64], member: u8) -> [u64; 3] {
    let (mut one, mut other, mut third) = (run.to_vec(), run.to_vec(), run.to_vec());
    let asked: [u64; out_length::ASK] = both(
        |out| paper::ask(law, plans, ends, run, member, out),
        |out| Fast.ask(law, plans, ends, &mut run.to_vec(), member, out),
    );
    let ticket = Ticket { member, change: run[CHANGE] as u32 };
    let committed: [u64; out_length::COMMIT] = both(
        |out| paper::commit(law, plans, ends, &mut one, ticket, out),
        |out| Fast.commit(law, plans, ends, &mut other, ticket, out),
    );
    let picked: [u64; out_length::PICK] = both(
        |out| paper::pick(law, plans, ends, &mut third, member, out),
        |out| Fast.pick(law, plans, ends, run, member, out),
    );
    assert_eq!((&one, &other, &third), (&run.to_vec(), &run.to_vec(), &run.to_vec()));
    assert_eq!(asked[5..], [u64::from(member), u64::from(ticket.change)]);
    assert_eq!(committed, picked);
    assert_eq!((asked[0], &asked[missing::ASK]), (2 * picked[0], &picked[missing::PICK]));
    picked
}

fn replay(law: &[u64], plans: &[u16], ends: &[u64], picks: &[u8]) -> [u64; 7] {
    both(
        |out| paper::joint_replay(law, plans, ends, picks, out),
        |out| Fast.joint_replay(law, plans, ends, picks, out),
    )
}

/// The verdict's numbers.
fn judged(law: &[u64]) -> Judged {
    let slices = || (vec![0; 512], vec![0; 256], vec![0; 512], vec![0; 512], vec![0; 512]);
    let (mut local, mut marks, mut configurations, mut trail, mut plans) = slices();
    let class = verdict(
        law,
        &mut Lent {
            local: &mut local,
            marks: &mut marks,
            configurations: &mut configurations,
            trail: &mut trail,
            plans: &mut plans,
            ends: &mut [0; 8],
            picks: &mut [0; 256],
        },
    );
    let (mut local, mut marks, mut configurations, mut trail, mut plans) = slices();
    let mut out = [9; out_length::VERDICT];
    let refusal = Fast.verdict(
        law,
        &mut local,
        &mut marks,
        &mut configurations,
        &mut trail,
        &mut plans,
        &mut [0; 8],
        &mut [0; 256],
        &mut out,
    );
    assert_eq!((refusal, verdict_numbers(&class.expect("a verdict"))), (0, out));
    out
}

/// The last of these picks collides for want of these facts, as every operation tells it.
fn lacks(law: &[u64], plans: &[u16], ends: &[u64], picks: &[u8], facts: &[usize]) {
    let (words, done) = (mask_words(of(facts)), picks.len() - 1);
    let told = replay(law, plans, ends, picks);
    assert_eq!((&told[..3], &told[missing::JOINT_REPLAY]), (&[1, 0, done as u64][..], &words[..]));
    let mut run = run_at_start(mask_of(&law[3..]), 0);
    for &member in &picks[..done] {
        assert_eq!(pick(law, plans, ends, &mut run, member), [0, 0, 0]);
    }
    let (member, shared) = (picks[done], mask_of(&run[SHARED..]));
    assert_eq!(mask_of(&told[3..]), shared, "the shared copy that was met");
    let begin = if member == 0 { 0 } else { ends[member as usize - 1] };
    let action = plans[(begin + run[1 + member as usize]) as usize];
    assert_eq!(pick(law, plans, ends, &mut run, member), [1, words[0], words[1]]);
    assert_eq!(step(law, action, shared), [2, 0, 0, words[0], words[1]]);
}

/// Two members without goals: the step of the first takes facts away, the second's needs these.
fn taken(facts: usize, initial: u128, takes: u128, needs: u128, waits: u128) -> Vec<u64> {
    of_rows(&[
        [facts as u128, 2, 2, initial, 0],
        [0, 0, 0, 0, 0],
        [1, 0, 0, 0, 0],
        [0, 0, 0, 0, takes],
        [1, needs, waits, 0, 0],
    ])
}

#[test]
fn l2_lacks_its_token() {
    lacks(&l2(), &[0, 1, 2, 3], &[2, 4], &[0, 1], &[0]);
    lacks(&l2(), &[0, 1, 2, 3], &[2, 4], &[1, 0], &[0]);
    assert_eq!(judged(&l2()), [2, 0, 1, 1, 0]);
}

/// One fact, some, those of one word, of both, the edges, and all 128; others of pre hold.
#[test]
fn every_fact_that_is_missing_is_told_and_no_other() {
    let all_facts: Vec<usize> = (0..FACTS).collect();
    for lacking in [
        &[0][..],
        &[63],
        &[64],
        &[127],
        &[0, 1, 2],
        &[64, 100],
        &[3, 63, 64, 127],
        &[0, 64],
        &[1, 2, 65, 66, 126],
        &all_facts[..64],
        &all_facts[64..],
        &all_facts[1..],
        &all_facts[..127],
        &all_facts,
    ] {
        let missing = of(lacking);
        for holds in [0, u128::MAX, of(&[5, 70]), all(64), !all(64)] {
            // It takes some away that nobody needs, and waits for some that hold.
            let takes = missing | if holds & 1 == 0 { 1 } else { 0 };
            let needs = missing | holds & !takes;
            for waits in [0, holds & !takes] {
                let law = taken(FACTS, u128::MAX, takes, needs, waits);
                lacks(&law, &[0, 1], &[1, 2], &[0, 1], lacking);
                let [low, high] = mask_words(missing);
                assert_eq!(judged(&law), [2, 0, 1, low, high]);
            }
        }
    }
}

/// What is waited for is there in a collision; where it is not, nothing is told to be missing.
#[test]
fn a_step_that_waits_tells_nothing() {
    let (needs, waits) = (of(&[5, 6, 70]), of(&[5]));
    let law = taken(71, needs, of(&[6, 70]), needs, waits);
    lacks(&law, &[0, 1], &[1, 2], &[0, 1], &[6, 70]);
    assert_eq!(step(&law, 1, of(&[6])), [1, 0, 0, 0, 0]);
    assert_eq!(step(&law, 1, 0), [1, 0, 0, 0, 0]);
    assert_eq!(step(&law, 1, needs), [0, (1 << 5) + (1 << 6), 1 << 6, 0, 0]);
    // Without fact 5 it is a deadlock.
    let law = taken(71, needs, of(&[5, 6, 70]), needs, waits);
    assert_eq!(judged(&law), [3, 0, 1, 0, 0]);
    assert_eq!(replay(&law, &[0, 1], &[1, 2], &[0]), [2, 0, 1, 0, 0, 0, 0]);
}

/// Facts that held at the start, that a member's own step added, and that never held.
#[test]
fn what_is_missing_is_missing_where_the_step_is_met() {
    // Member 0 takes facts 0 and 1 away and puts fact 1 back, then takes fact 2; member 1 adds fact
    // 2 and needs all three.
    let law = of_rows(&[
        [4, 2, 5, 3, 0],
        [0, 0, 0, 0, 0],
        [1, 0, 0, 0, 0],
        [0, 0, 0, 0, 3],
        [0, 0, 0, 2, 0],
        [0, 0, 0, 0, 4],
        [1, 0, 0, 4, 0],
        [1, 7, 0, 0, 0],
    ]);
    let (plans, ends) = ([0, 1, 2, 3, 4], [3, 5]);
    lacks(&law, &plans, &ends, &[1, 0, 1], &[0, 1]);
    lacks(&law, &plans, &ends, &[0, 0, 1, 1], &[0]);
    lacks(&law, &plans, &ends, &[1, 0, 0, 0, 1], &[0, 2]);
    // Fact 3 never holds; it is missing at any copy handed in.
    let mut never = law.clone();
    never[ROW * 7 + 1] |= 8;
    assert_eq!(step(&never, 4, 7), [2, 0, 0, 8, 0]);
    assert_eq!(step(&never, 4, 6), [2, 0, 0, 9, 0]);
    assert_eq!(step(&never, 4, 0), [2, 0, 0, 15, 0]);
}

/// After member 0's step actions 1 and 3 of member 2 collide, and action 2 of member 1, each for
/// want of other facts.
#[test]
fn the_verdict_tells_what_the_lowest_colliding_action_lacks() {
    let law = of_rows(&[
        [68, 3, 4, of(&[0, 1, 66, 67]), 0],
        [0, 0, 0, 0, 0],
        [1, 0, 0, 0, 0],
        [2, 0, 0, 0, 0],
        [0, 0, 0, 0, of(&[0, 1, 66])],
        [2, of(&[1, 66, 67]), of(&[67]), 0, 0],
        [1, of(&[0]), 0, 0, 0],
        [2, of(&[66]), 0, 0, 0],
    ]);
    assert_eq!(judged(&law), [2, 0, 1, 2, 4]);
    let (plans, ends) = ([0, 2, 1], [1, 2, 3]);
    lacks(&law, &plans, &ends, &[0, 2], &[1, 66]);
    lacks(&law, &plans, &ends, &[0, 1], &[0]);
    lacks(&law, &[0, 2, 3], &ends, &[0, 2], &[66]);
}

#[test]
fn other_answers_tell_nothing() {
    let (plans, ends) = ([0, 1, 2, 3], [2, 4]);
    for (law, plans, ends, picks, kind) in [
        (l1(), &plans[..], &ends[..], &[0, 0, 1, 1][..], 0),
        (l3(), &[0, 1, 0, 2, 3], &[3, 5], &[0, 0, 0], 2),
        (l7(), &[0, 1], &[1, 2], &[0, 1], 3),
        (l1(), &plans, &ends, &[0], 4),
        (l2(), &plans, &ends, &[0], 4),
    ] {
        let told = replay(&law, plans, ends, picks);
        assert_eq!((told[0], &told[missing::JOINT_REPLAY]), (kind, &[0; MASK][..]));
    }
    for (law, kind) in [(l1(), 0), (l4(), 1), (l3(), 3), (l7(), 4)] {
        let told = judged(&law);
        assert_eq!((told[0], &told[missing::VERDICT]), (kind, &[0; MASK][..]));
    }
    assert_eq!(step(&l1(), 0, 1), [0, 2, 0, 0, 0]);
    assert_eq!(step(&l1(), 0, 2), [1, 0, 0, 0, 0]);
    let mut run = run_at_start(1, 0);
    assert_eq!(pick(&l1(), &plans, &ends, &mut run, 0), [0, 0, 0]);
    let waiting: [u64; out_length::ASK] = both(
        |out| paper::ask(&l1(), &plans, &ends, &run, 1, out),
        |out| Fast.ask(&l1(), &plans, &ends, &mut run.clone(), 1, out),
    );
    assert_eq!(waiting, [1, 0, 0, 0, 0, 1, 1]);
}

/// An `out` that is one number shorter is refused before anything else, and stays as it was.
#[test]
fn a_shorter_out_is_refused() {
    let run = run_at_start(1, 0);
    let ticket = Ticket { member: 0, change: 0 };
    let short =
        |asked: usize, plain: &dyn Fn(&mut [u64]) -> u64, fast: &dyn Fn(&mut [u64]) -> u64| {
            for length in 0..asked {
                let (mut one, mut other) = (vec![9; length], vec![9; length]);
                assert_eq!((plain(&mut one), fast(&mut other)), (14, 14), "{length} of {asked}");
                assert!(one.iter().chain(&other).all(|&word| word == 9));
            }
        };
    short(5, &|out| paper::step(&[], 0, &[1, 0], out), &|out| Fast.step(&[], 0, &[1, 0], out));
    short(7, &|out| paper::joint_replay(&[], &[], &[], &[], out), &|out| {
        Fast.joint_replay(&[], &[], &[], &[], out)
    });
    short(3, &|out| paper::pick(&[], &[], &[], &mut run.clone(), 0, out), &|out| {
        Fast.pick(&[], &[], &[], &mut run.clone(), 0, out)
    });
    short(7, &|out| paper::ask(&[], &[], &[], &run, 0, out), &|out| {
        Fast.ask(&[], &[], &[], &mut run.clone(), 0, out)
    });
    short(3, &|out| paper::commit(&[], &[], &[], &mut run.clone(), ticket, out), &|out| {
        Fast.commit(&[], &[], &[], &mut run.clone(), ticket, out)
    });
    let verdict = |out: &mut [u64]| {
        Fast.verdict(&[], &mut [], &mut [], &mut [], &mut [], &mut [], &mut [], &mut [], out)
    };
    short(5, &verdict, &verdict);
}
