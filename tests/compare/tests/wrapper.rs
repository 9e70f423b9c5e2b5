//! The Rust wrapper: its constants are the header's, and each answer and refusal comes out as its
//! own case.

use compare as _;
use lawcheck::{
    check, facts, joint_replay, mask, mask_words, raw, read, solo_replay, solo_search, step,
    verdict, Asked, Mask, Outcome, Picked, Played, Refusal, Replay, Room, Run, SoloReplay,
    SoloSearch, Step, Ticket, Verdict,
};
use reference::generate::text::of_words;
use reference::law::of_rows;
use reference::laws;

#[test]
fn the_constants_are_the_headers() {
    let header = include_str!("../../../include/lawcheck.h");
    let defined = |part: &'static str| {
        let (name, number) = part.strip_prefix("#define LAWCHECK_")?.split_once(" UINT32_C(")?;
        Some((name, number.trim_end_matches(')')))
    };
    let mut told: Vec<(String, u64)> = header
        .split(['{', ',', '\n'])
        .filter_map(|part| {
            let constant = part.trim().trim_end_matches("};").strip_prefix("LAWCHECK_");
            constant.and_then(|constant| constant.split_once(" = ")).or_else(|| defined(part))
        })
        .map(|(name, rest)| {
            (name.to_string(), rest.split(' ').next().unwrap().parse().expect(name))
        })
        .collect();
    let mut ours: Vec<(String, u64)> =
        raw::CONSTANTS.iter().map(|&(name, number)| (name.to_string(), number)).collect();
    told.sort();
    ours.sort();
    assert!(told.len() > 40, "the header's constants are found: {told:?}");
    assert_eq!(told, ours);
}

#[test]
fn a_refusal_is_its_number() {
    for number in 1..=20 {
        let refusal = Refusal::of(number).expect("1 to 20 are refusals");
        assert_eq!(refusal.number(), number);
        assert!(refusal.to_string().starts_with(&format!("refused, {number}: ")), "{refusal}");
    }
    assert_eq!((Refusal::of(0), Refusal::of(21)), (None, None));
    assert_eq!(Refusal::ALL.len(), 20);
}

/// Each refusal from a call that meets it.
#[test]
fn refusals_come_out_as_their_cases() {
    let l1 = laws::l1();
    let changed = |at: usize, word: u64| {
        let mut words = laws::l1();
        words[at] = word;
        check(&words).unwrap_err()
    };
    assert_eq!(check(&l1[..62]), Err(Refusal::Length));
    assert_eq!(changed(0, 129), Refusal::Range);
    assert_eq!(changed(8, 1), Refusal::Range);
    assert_eq!(changed(9, 1), Refusal::GoalRow);
    assert_eq!(changed(17, 1), Refusal::GoalRow);
    assert_eq!(changed(3, 32), Refusal::Fact);
    assert_eq!(changed(4, 1), Refusal::Fact);
    assert_eq!(changed(27, 2), Refusal::Owner);
    assert_eq!(changed(30, 2), Refusal::Wait);
    assert_eq!(step(&l1, 4, 1), Err(Refusal::Action));
    assert_eq!(solo_replay(&l1, 2, &[]), Err(Refusal::Member));
    assert_eq!(solo_replay(&l1, 0, &[2]), Err(Refusal::Others));
    assert_eq!(solo_search(&l1, 0, &mut [0; 7], &mut [0; 3]), Err(Refusal::Full));
    assert_eq!(solo_search(&l1, 0, &mut [0; 8], &mut [0; 3]), Err(Refusal::Short));
    assert_eq!(joint_replay(&l1, &[0, 1, 2, 3], &[2], &[]), Err(Refusal::Ends));
    assert_eq!(joint_replay(&l1, &[0, 2, 3], &[1, 3], &[]), Err(Refusal::NoSolution));
    assert_eq!(joint_replay(&l1, &[0, 1, 2, 3], &[2, 4], &[0, 1]), Err(Refusal::Pick));
    assert_eq!(read(b"5,2,4,1,0,0,0,0,0\n"), Err(Refusal::Text));
}

#[test]
fn a_text_is_read() {
    assert_eq!(read(of_words(&laws::l1()).as_bytes()), Ok(laws::l1()));
    assert_eq!(check(&laws::l1()), Ok(()));
}

#[test]
fn steps_and_plans() {
    let l1 = laws::l1();
    assert_eq!(step(&l1, 0, 1), Ok(Step::Go(2)));
    assert_eq!(step(&l1, 0, 2), Ok(Step::Wait));
    assert_eq!(step(&l1, 1, 1), Ok(Step::Collision { missing: 2 }));
    assert_eq!(solo_replay(&l1, 0, &[0, 1]), Ok(SoloReplay::Solves));
    assert_eq!(solo_replay(&l1, 0, &[0, 0, 1]), Ok(SoloReplay::Breaks(1)));
    assert_eq!(solo_replay(&l1, 0, &[0]), Ok(SoloReplay::Short));
    let (mut table, mut marks) = ([9; 11], [9; 5]);
    // A copy for each two words, and an odd word.
    let copies = |table: &[u64; 11]| {
        let pairs: Vec<[u64; 2]> = table.chunks_exact(2).map(|pair| [pair[0], pair[1]]).collect();
        assert_eq!(table[10], 0, "the odd word");
        pairs.into_iter().map(mask).collect::<Vec<Mask>>()
    };
    assert_eq!(
        solo_search(&l1, 0, &mut table, &mut marks),
        Ok(SoloSearch { copies: 4, live: true, marked: 4 })
    );
    assert_eq!((copies(&table), marks), (vec![1, 2, 5, 6, 0], [1, 1, 1, 1, 0]));
    let none = SoloSearch { copies: 4, live: false, marked: 0 };
    assert_eq!(solo_search(&laws::l4(), 1, &mut table, &mut marks), Ok(none));
    assert_eq!((copies(&table), marks), (vec![1, 8, 17, 24, 0], [0; 5]));
    let one = SoloSearch { copies: 2, live: true, marked: 1 };
    assert_eq!(solo_search(&laws::l8(), 0, &mut table, &mut marks), Ok(one));
    assert_eq!((copies(&table), marks), (vec![1, 2, 0, 0, 0], [1, 0, 0, 0, 0]));
    let mut out = [9; raw::SOLO_SEARCH_OUT - 1];
    assert_eq!(raw::solo_search(&[], 0, &mut table, &mut marks, &mut out), raw::SHORT);
    assert_eq!(out, [9; 2]);
}

/// A law of 128 facts: member 0 takes facts 63 and 64 away and adds fact 127, member 1 needs facts
/// 0, 63 and 64 and waits for the first.
#[test]
fn facts_of_the_high_word() {
    let [first, low, high, last] = [0, 63, 64, 127].map(|fact| 1 << fact);
    let law = of_rows(&[
        [128, 2, 2, first | low | high, 0],
        [0, last, 0, 0, 0],
        [1, 0, 0, 0, 0],
        [0, high, 0, last, low | high],
        [1, first | low | high, first, 0, 0],
    ]);
    let missing = low | high;
    assert_eq!(mask_words(first | last), [1, 1 << 63]);
    assert_eq!(mask([1, 1 << 63]), first | last);
    assert_eq!(step(&law, 0, first | high), Ok(Step::Go(first | last)));
    assert_eq!(step(&law, 1, first | last), Ok(Step::Collision { missing }));
    assert_eq!(step(&law, 1, first | high), Ok(Step::Collision { missing: low }));
    assert_eq!(step(&law, 1, last), Ok(Step::Wait));
    assert_eq!(step(&law, 1, Mask::MAX), Ok(Step::Go(Mask::MAX)));
    let (plans, ends) = ([0, 1], [1, 2]);
    let mut run = Run::start(&law).unwrap();
    assert_eq!(run.shared(), first | low | high);
    let ticket = Ticket { member: 0, change: 0 };
    let asked = Asked { step: Step::Go(first | last), ticket };
    assert_eq!(run.ask(&law, &plans, &ends, 0), Ok(asked));
    assert_eq!(run.commit(&law, &plans, &ends, ticket), Ok(Picked::Go));
    assert_eq!((run.shared(), run.change()), (first | last, 1));
    let ticket = Ticket { member: 1, change: 1 };
    let asked = Asked { step: Step::Collision { missing }, ticket };
    assert_eq!(run.ask(&law, &plans, &ends, 1), Ok(asked));
    let collision = Ok(Picked::Collision { missing });
    assert_eq!(run.clone().commit(&law, &plans, &ends, ticket), collision);
    assert_eq!(run.pick(&law, &plans, &ends, 1), collision);
    let replay = joint_replay(&law, &plans, &ends, &[0, 1]);
    let told = Replay { outcome: Outcome::Collision { missing }, picks: 1, shared: first | last };
    assert_eq!(replay, Ok(told));
    let mut room = Room::new(2, 2, 4);
    assert_eq!(verdict(&law, &mut room), Ok(Verdict::Collision { picks: 1, missing }));
    assert_eq!(facts(missing).collect::<Vec<_>>(), [63, 64]);
    assert_eq!(mask([room.local[2], room.local[3]]), first | last);
}

#[test]
fn the_facts_of_a_mask_rise() {
    assert_eq!(facts(0).count(), 0);
    assert_eq!(facts(1 | 1 << 5 | 1 << 64 | 1 << 127).collect::<Vec<_>>(), [0, 5, 64, 127]);
    assert!(facts(Mask::MAX).eq(0..128));
}

#[test]
fn a_run_is_picked_to_its_end() {
    let (l1, plans, ends) = (laws::l1(), [0, 1, 2, 3], [2, 4]);
    let mut run = Run::start(&l1).unwrap();
    assert_eq!((run.shared(), run.collided(), run.places()), (1, false, &[0; 8][..]));
    assert_eq!(run.change(), 0);
    assert_eq!(run.pick(&l1, &plans, &ends, 1), Ok(Picked::Go));
    assert_eq!((run.shared(), run.places()[1], run.change()), (8, 1, 1));
    assert_eq!(run.pick(&l1, &plans, &ends, 0), Err(Refusal::Pick));
    assert_eq!(run.change(), 1);
    for member in [1, 0, 0] {
        assert_eq!(run.pick(&l1, &plans, &ends, member), Ok(Picked::Go));
    }
    let replay = joint_replay(&l1, &plans, &ends, &[1, 1, 0, 0]);
    assert_eq!(replay, Ok(Replay { outcome: Outcome::Success, picks: 4, shared: run.shared() }));

    let l2 = laws::l2();
    let mut run = Run::start(&l2).unwrap();
    assert_eq!(run.pick(&l2, &plans, &ends, 0), Ok(Picked::Go));
    assert_eq!(run.pick(&l2, &plans, &ends, 1), Ok(Picked::Collision { missing: 1 }));
    assert!(run.collided());
    assert_eq!(run.change(), 2);
    assert_eq!(Run::of_words(*run.words()), Ok(run));
    assert_eq!(Run::start(&l1[..4]), Err(Refusal::Length));
}

/// A run of the law at its start, with this change number.
fn run_at(law: &[u64], change: u64) -> Result<Run, Refusal> {
    let mut words = *Run::start(law).unwrap().words();
    words[raw::RUN_CHANGE] = change;
    Run::of_words(words)
}

#[test]
fn a_pick_is_asked_for_and_committed() {
    let (l1, plans, ends) = (laws::l1(), [0, 1, 2, 3], [2, 4]);
    let mut run = Run::start(&l1).unwrap();
    let start = run.clone();
    let first = Ticket { member: 1, change: 0 };
    let go = Asked { step: Step::Go(8), ticket: first };
    assert_eq!(run.ask(&l1, &plans, &ends, 1), Ok(go));
    let other = run.ask(&l1, &plans, &ends, 0).unwrap().ticket;
    assert_eq!((other, &run), (Ticket { member: 0, change: 0 }, &start));
    assert_eq!(run.commit(&l1, &plans, &ends, first), Ok(Picked::Go));
    assert_eq!((run.shared(), run.places()[1], run.change()), (8, 1, 1));
    // Each ticket of the time before is stale now, the one that was used too.
    let before = run.clone();
    assert_eq!(run.commit(&l1, &plans, &ends, first), Err(Refusal::Stale));
    assert_eq!(run.commit(&l1, &plans, &ends, other), Err(Refusal::Stale));
    // A step that waits has a ticket, which commits nothing.
    let wait = Asked { step: Step::Wait, ticket: Ticket { member: 0, change: 1 } };
    assert_eq!(run.ask(&l1, &plans, &ends, 0), Ok(wait));
    assert_eq!(run.commit(&l1, &plans, &ends, wait.ticket), Err(Refusal::Pick));
    assert_eq!(run.ask(&l1, &plans, &ends, 2), Err(Refusal::Member));
    let nobody = Ticket { member: 2, change: 9 };
    assert_eq!(run.commit(&l1, &plans, &ends, nobody), Err(Refusal::Member));
    assert_eq!(run, before);
    // One that nobody asked for.
    let made = Ticket { member: 1, change: 1 };
    assert_eq!(run.commit(&l1, &plans, &ends, made), Ok(Picked::Go));
    assert_eq!(run.ask(&l1, &plans, &ends, 1), Err(Refusal::Pick));
    // A plain pick makes a ticket stale.
    let ticket = run.ask(&l1, &plans, &ends, 0).unwrap().ticket;
    assert_eq!(run.pick(&l1, &plans, &ends, 0), Ok(Picked::Go));
    assert_eq!(run.commit(&l1, &plans, &ends, ticket), Err(Refusal::Stale));

    let l2 = laws::l2();
    let mut run = Run::start(&l2).unwrap();
    assert_eq!(run.pick(&l2, &plans, &ends, 0), Ok(Picked::Go));
    let asked = run.ask(&l2, &plans, &ends, 1).unwrap();
    let ticket = Ticket { member: 1, change: 1 };
    assert_eq!(asked, Asked { step: Step::Collision { missing: 1 }, ticket });
    let collision = Ok(Picked::Collision { missing: 1 });
    assert_eq!(run.commit(&l2, &plans, &ends, ticket), collision);
    assert_eq!((run.collided(), run.change()), (true, 2));
    assert_eq!(run.ask(&l2, &plans, &ends, 0), Err(Refusal::Pick));
}

#[test]
fn the_last_change_number() {
    let (l1, plans, ends) = (laws::l1(), [0, 1, 2, 3], [2, 4]);
    let (go, last) = (Ok(Picked::Go), raw::LAST_CHANGE);
    let mut run = run_at(&l1, u64::from(last) - 1).unwrap();
    assert_eq!(run.pick(&l1, &plans, &ends, 0), go);
    assert_eq!(run.change(), last);
    let full = run.clone();
    let asked = run.ask(&l1, &plans, &ends, 0).unwrap();
    assert_eq!(asked, Asked { step: Step::Go(5), ticket: Ticket { member: 0, change: last } });
    assert_eq!(run.commit(&l1, &plans, &ends, asked.ticket), Err(Refusal::Changes));
    assert_eq!(run.pick(&l1, &plans, &ends, 0), Err(Refusal::Changes));
    assert_eq!(run.pick(&l1, &plans, &ends, 1), Err(Refusal::Pick));
    assert_eq!(run, full);
    let mut run = run_at(&l1, u64::from(last) - 1).unwrap();
    let (changes, pick) = (Err(Refusal::Changes), Err(Refusal::Pick));
    let answers = run.play(&l1, &plans, &ends, &[1, 1, 0, 9, 1]).unwrap();
    assert_eq!(answers, [Ok(Played::Go), changes, pick, Err(Refusal::Member), changes]);
    assert_eq!((run.change(), run.shared()), (last, 8));
    for above in [u64::from(last) + 1, u64::MAX] {
        assert_eq!(run_at(&l1, above), Err(Refusal::Short));
        let mut words = *full.words();
        words[raw::RUN_CHANGE] = above;
        let (before, mut out) = (words, [9; raw::ASK_OUT]);
        let ask = raw::ask(&[], &plans, &ends, &words, 0, &mut out);
        let pick = raw::pick(&[], &plans, &ends, &mut words, 0, &mut out);
        let commit = raw::commit(&[], &plans, &ends, &mut words, 0, 0, &mut out);
        let play = raw::play(&[], &plans, &ends, &mut words, &[], &mut []);
        assert_eq!([ask, pick, commit, play], [raw::SHORT; 4]);
        assert_eq!((words, out), (before, [9; raw::ASK_OUT]));
        assert_eq!(raw::start(&l1, &mut words), 0);
        assert_eq!(words, *Run::start(&l1).unwrap().words());
    }
}

#[test]
fn picks_are_played() {
    let (l2, plans, ends) = (laws::l2(), [0, 1, 2, 3], [2, 4]);
    let mut run = Run::start(&l2).unwrap();
    let answers = run.play(&l2, &plans, &ends, &[0, 9, 1, 0]).unwrap();
    let (go, collision) = (Ok(Played::Go), Ok(Played::Collision));
    assert_eq!(answers, [go, Err(Refusal::Member), collision, Err(Refusal::Pick)]);
    assert_eq!((run.collided(), run.change()), (true, 2));
    let before = run.clone();
    assert_eq!(run.play(&l2, &plans, &[2], &[0]), Err(Refusal::Ends));
    assert_eq!(run, before);
    let l1 = laws::l1();
    let mut run = Run::start(&l1).unwrap();
    let answers = run.play(&l1, &plans, &ends, &[0, 1, 0, 1, 1]).unwrap();
    assert_eq!(answers, [go, Err(Refusal::Pick), go, go, go]);
    assert_eq!((run.shared(), &run.places()[..2]), (21, &[2, 2][..]));
}

/// Each outcome of a replay, and each verdict; a conflict replays to its verdict.
#[test]
fn verdicts_and_outcomes() {
    let outcome = |law: &[u64], plans: &[u16], ends: &[u64], picks: &[u8]| {
        joint_replay(law, plans, ends, picks).map(|replay| replay.outcome)
    };
    assert_eq!(outcome(&laws::l1(), &[0, 1, 2, 3], &[2, 4], &[]), Ok(Outcome::Open));
    for (law, expected) in [
        (laws::l1(), Verdict::Robust { configurations: 12 }),
        (laws::l2(), Verdict::Collision { picks: 1, missing: 1 }),
        (laws::l3(), Verdict::Deadlock { picks: 3 }),
        (laws::l4(), Verdict::Unsolvable { member: 1 }),
        (laws::l7(), Verdict::Missed { member: 0, picks: 2 }),
    ] {
        let mut room = Room::new(law[1] as usize, 8, 16);
        let found = verdict(&law, &mut room).unwrap();
        assert_eq!(found, expected);
        let replayed = room.conflict(found).map(|(plans, picks)| {
            outcome(&law, plans, &room.ends, picks).expect("a conflict is not refused")
        });
        let told = match found {
            Verdict::Robust { .. } | Verdict::Unsolvable { .. } => None,
            Verdict::Collision { missing, .. } => Some(Outcome::Collision { missing }),
            Verdict::Deadlock { .. } => Some(Outcome::Deadlock),
            Verdict::Missed { member, .. } => Some(Outcome::Missed(member)),
        };
        assert_eq!(replayed, told);
    }
    assert_eq!(verdict(&laws::l1(), &mut Room::new(2, 4, 11)), Err(Refusal::Full));
}

#[test]
fn a_law_in_pddl_is_read_and_written() {
    use lawcheck::{pddl_read, pddl_write};
    let l1 = laws::l1();
    let (mut text, mut waits) = (vec![7; raw::PDDL_BYTES], vec![7; raw::PDDL_BYTES]);
    let (length, count) = pddl_write(&l1, &mut text, &mut waits).unwrap();
    assert!(text[length..].iter().chain(&waits[count..]).all(|&byte| byte == 0));
    let (text, waits) = (&text[..length], &waits[..count]);
    let read = |text: &[u8], waits: &[u8]| {
        let mut words = vec![7; raw::TEXT_WORDS];
        let records = pddl_read(text, waits, &mut words)?;
        assert!(words[raw::ROW_WORDS * records..].iter().all(|&word| word == 0));
        words.truncate(raw::ROW_WORDS * records);
        Ok(words)
    };
    assert_eq!(read(text, waits), Ok(l1.clone()));
    assert_eq!(read(text, b""), Ok(laws::l2()));
    assert_eq!(read(text, b"x"), Err(Refusal::Text));
    assert_eq!(read(b"", waits), Err(Refusal::Pddl));
    assert_eq!(read(text, b"4,0"), Err(Refusal::Name));
    assert_eq!(read(&text.repeat(9), b""), Err(Refusal::Many));
    assert_eq!(read(text, b"0,4"), Err(Refusal::Wait));
    let (mut words, mut out) = ([7; 62], [7]);
    assert_eq!(raw::pddl_read(text, waits, &mut words, &mut out), raw::SHORT);
    assert_eq!(raw::pddl_read(text, b"x", &mut words, &mut []), raw::SHORT);
    assert_eq!((words, out), ([7; 62], [7]));
    assert_eq!(pddl_write(&l1[..62], &mut [], &mut []), Err(Refusal::Length));
    assert_eq!(pddl_write(&l1, &mut [], &mut []), Err(Refusal::Short));
}
