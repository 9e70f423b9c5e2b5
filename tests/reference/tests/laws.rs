//! L1 to L12 of the paper, the programs that pass at first sight, and laws that tell the parts of
//! request F-2 from each other. Conflicts were worked out by hand from the words.

use reference::fast::{Fast, Judged, Task};
use reference::interface::{out_length, Interface};
use reference::law::{of_rows, old_rows};
use reference::laws::*;
use reference::paper::conflict::Conflict;
use reference::paper::facts::Facts;
use reference::paper::interface::verdict_numbers;
use reference::paper::run::{joint_replay, Outcome};
use reference::paper::task::check;
use reference::paper::verdict::{verdict, Class, Lent};
use reference::{brute, paper};

/// Lent slices with something in them, and room for `rows` copies and `most` configurations.
struct Slices {
    local: Vec<u64>,
    marks: Vec<u8>,
    configurations: Vec<u64>,
    trail: Vec<u64>,
    plans: Vec<u16>,
    ends: Vec<u64>,
    picks: Vec<u8>,
}

impl Slices {
    fn of_words(local: usize, configurations: usize) -> Slices {
        Slices {
            local: vec![7; local],
            marks: vec![7; local / 2],
            configurations: vec![7; configurations],
            trail: vec![7; configurations],
            plans: vec![7; (configurations + local) / 2],
            ends: vec![7; 8],
            picks: vec![7; configurations / 2],
        }
    }

    fn lent(&mut self) -> Lent<'_> {
        Lent {
            local: &mut self.local,
            marks: &mut self.marks,
            configurations: &mut self.configurations,
            trail: &mut self.trail,
            plans: &mut self.plans,
            ends: &mut self.ends,
            picks: &mut self.picks,
        }
    }

    fn fast(&mut self, task: &[u64]) -> Result<Judged, u64> {
        let mut out = [9; out_length::VERDICT];
        let refusal = Fast.verdict(
            task,
            &mut self.local,
            &mut self.marks,
            &mut self.configurations,
            &mut self.trail,
            &mut self.plans,
            &mut self.ends,
            &mut self.picks,
            &mut out,
        );
        if refusal == 0 {
            Ok(out)
        } else {
            Err(refusal)
        }
    }
}

fn class(task: &[u64]) -> Result<Class, u64> {
    verdict(task, &mut Slices::of_words(4096, 8192).lent())
}

fn fast(task: &[u64]) -> Result<Judged, u64> {
    Slices::of_words(4096, 8192).fast(task)
}

/// Both implementations give this conflict: numbers, a plan for each member, and picks. It replays
/// to its numbers, and zeros come after it.
fn gives(task: &[u64], numbers: Judged, plans: &[&[u16]], picks: &[u8]) {
    let mut plain = Slices::of_words(128, 256);
    let class = verdict(task, &mut plain.lent()).expect("a verdict");
    assert_eq!(verdict_numbers(&class), numbers);
    let mut fast = Slices::of_words(128, 256);
    assert_eq!(fast.fast(task), Ok(numbers));

    let list = plans.concat();
    let ends: Vec<u64> =
        (1..=plans.len()).map(|member| plans[..member].concat().len() as u64).collect();
    for slices in [&plain, &fast] {
        assert_eq!(slices.plans[..list.len()], list);
        assert_eq!(slices.ends[..ends.len()], ends);
        assert_eq!(slices.picks[..picks.len()], *picks);
        assert!(slices.plans[list.len()..].iter().all(|&entry| entry == 0));
        assert!(slices.ends[ends.len()..].iter().all(|&end| end == 0));
        assert!(slices.picks[picks.len()..].iter().all(|&pick| pick == 0));
    }
    let replay = joint_replay(task, &list, &ends, picks).expect("a replay");
    let (kind, member) = paper::interface::outcome_numbers(replay.outcome);
    let [low, high] = replay.missing.words();
    assert_eq!([kind + 1, member, replay.done as u64, low, high], numbers);
}

fn replays(task: &[u64], plans: &[u16], ends: &[u64], picks: &[u8]) -> (Outcome, usize, [u64; 2]) {
    let replay = joint_replay(task, plans, ends, picks).unwrap();
    (replay.outcome, replay.done, replay.shared.words())
}

/// L1 word for word.
#[test]
fn l1_has_rows_of_nine_words() {
    let rows = [
        [5, 2, 4, 1, 0, 0, 0, 0, 0],
        [0, 5, 0, 0, 0, 0, 0, 0, 0],
        [1, 17, 0, 0, 0, 0, 0, 0, 0],
        [0, 1, 0, 1, 0, 2, 0, 1, 0],
        [0, 2, 0, 0, 0, 5, 0, 2, 0],
        [1, 1, 0, 1, 0, 8, 0, 1, 0],
        [1, 8, 0, 0, 0, 17, 0, 8, 0],
    ];
    assert_eq!(l1(), rows.concat());
}

/// The rows of the time before, as words and as text.
#[test]
fn rows_of_five_words_are_refused() {
    for law in valid() {
        let old = old_rows(&law);
        assert_eq!(old.len() / 5, law.len() / 9);
        let refusal = paper::interface::task(&old);
        assert!([1, 2].contains(&refusal), "{refusal} of {old:?}");
        assert_eq!(Fast.task(&old), refusal);
        let records: Vec<String> = old
            .chunks(5)
            .map(|row| row.iter().map(u64::to_string).collect::<Vec<_>>().join(","))
            .collect();
        let text = records.join("\r\n");
        let (mut slow, mut quick) = (vec![7; 2385], vec![7; 2385]);
        assert_eq!(paper::text::read(text.as_bytes(), &mut slow), Err(15));
        assert_eq!(Fast.read(text.as_bytes(), &mut quick, &mut [0]), 15);
        assert!(slow.iter().chain(&quick).all(|&word| word == 0));
    }
}

/// Each number of facts up to 128, and none above; each zero of row 0 and of a goal row.
#[test]
fn the_task_check_has_nine_words_a_row() {
    let both = |words: &[u64]| {
        let refusal = paper::interface::task(words);
        assert_eq!(Fast.task(words), refusal, "{words:?}");
        refusal
    };
    let changed = |place: usize, word: u64| {
        let mut words = l1();
        words[place] = word;
        both(&words)
    };
    for facts in 0..=300 {
        let expected = match facts {
            5..=128 => 0,
            // Facts 3 and 4 are above F.
            1..=4 => 4,
            _ => 2,
        };
        assert_eq!(changed(0, facts), expected, "{facts} facts");
    }
    for place in 5..9 {
        assert_eq!(changed(place, 1), 2, "word {place} of row 0");
        assert_eq!(changed(place, 1 << 63), 2, "word {place} of row 0");
    }
    for place in 12..18 {
        assert_eq!(changed(place, 1), 3, "word {} of a goal row", place - 9);
    }
    // A high word where F is 5, and one where F is 70.
    for place in [4, 11, 29, 31, 33, 35] {
        assert_eq!(changed(place, 1), 4, "a high word at {place}");
    }
    let mut words = l1();
    words[0] = 70;
    words[33] = 63;
    assert_eq!(both(&words), 0);
    words[33] = 64;
    assert_eq!(both(&words), 4);
    // Wait within pre, in the high word too.
    words[33] = 0;
    words[31] = 1;
    assert_eq!(both(&words), 6);
    words[29] = 1;
    assert_eq!(both(&words), 0);
    for length in [0, 1, 5, 8, 9, 62, 64, 72] {
        let mut words = l1();
        words.resize(length, 0);
        assert_eq!(both(&words), 1, "{length} words");
    }
}

/// L1 with its facts at any places of 128 gets the same verdict.
#[test]
fn the_verdict_does_not_depend_on_the_places_of_facts() {
    let law = Task::check(&l1()).expect("a law").law();
    for places in
        [[64, 65, 66, 67, 68], [0, 64, 1, 65, 2], [63, 64, 62, 127, 0], [127, 1, 65, 2, 66]]
    {
        let words = law.at(128, &places).words();
        assert_eq!(class(&words), Ok(Class::Robust(12)));
        assert_eq!(fast(&words), Ok([0, 0, 12, 0, 0]));
        for (local, configurations, answer) in
            [(16, 72, Ok(12)), (16, 71, Err(9)), (15, 72, Err(9))]
        {
            let mut slices = Slices::of_words(local, configurations);
            assert_eq!(verdict(&words, &mut slices.lent()), answer.map(Class::Robust));
        }
    }
}

#[test]
fn l1_is_robust() {
    assert_eq!(class(&l1()), Ok(Class::Robust(12)));
    assert_eq!(fast(&l1()), Ok([0, 0, 12, 0, 0]));
}

#[test]
fn l2_collides() {
    gives(&l2(), [2, 0, 1, 1, 0], &[&[0, 1], &[2, 3]], &[0, 1]);
}

#[test]
fn l3_deadlocks() {
    gives(&l3(), [3, 0, 3, 0, 0], &[&[0, 1, 0], &[2, 3]], &[0, 0, 0]);
}

#[test]
fn l4_is_unsolvable() {
    assert_eq!(class(&l4()), Ok(Class::Unsolvable(1)));
    assert_eq!(fast(&l4()), Ok([1, 1, 0, 0, 0]));
}

#[test]
fn l5_and_l6_have_no_action() {
    assert_eq!(class(&l5()), Ok(Class::Robust(1)));
    assert_eq!(fast(&l5()), Ok([0, 0, 1, 0, 0]));
    assert_eq!(class(&l6()), Ok(Class::Unsolvable(0)));
    assert_eq!(fast(&l6()), Ok([1, 0, 0, 0, 0]));
}

#[test]
fn l7_misses_in_one_order() {
    gives(&l7(), [4, 0, 2, 0, 0], &[&[0], &[1]], &[0, 1]);
    assert_eq!(replays(&l7(), &[0, 1], &[1, 2], &[0, 1]), (Outcome::Missed(0), 2, [2, 0]));
    assert_eq!(replays(&l7(), &[0, 1], &[1, 2], &[1, 0]), (Outcome::Success, 2, [3, 0]));
    assert_eq!(class(&l7()), Ok(Class::NotRobust(5, Outcome::Missed(0), 2, Facts::default())));
}

#[test]
fn l8_is_robust() {
    assert_eq!(class(&l8()), Ok(Class::Robust(1)));
    assert_eq!(fast(&l8()), Ok([0, 0, 1, 0, 0]));
}

#[test]
fn l9_and_l10_are_the_edges_of_l1() {
    let edges = [(16, 72, Ok(12)), (16, 71, Err(9)), (15, 72, Err(9)), (15, 71, Err(9))];
    for (local, configurations, answer) in edges {
        let mut slices = Slices::of_words(local, configurations);
        assert_eq!(verdict(&l1(), &mut slices.lent()), answer.map(Class::Robust));
        if answer.is_err() {
            assert!(slices.local.iter().all(|&word| word == 0));
            assert!(slices.trail.iter().all(|&word| word == 0));
        }
        let mut slices = Slices::of_words(local, configurations);
        assert_eq!(slices.fast(&l1()), answer.map(|count| [0, 0, count as u64, 0, 0]));
    }
}

#[test]
fn l11_and_l12_are_refused() {
    for member in 0..2 {
        assert_eq!(paper::interface::task(&l11(member)), 4);
        assert_eq!(Fast.task(&l11(member)), 4);
    }
    assert_eq!(paper::interface::task(&l12()), 6);
    assert_eq!(Fast.task(&l12()), 6);
}

#[test]
fn the_laws_as_text() {
    for law in valid() {
        let text = reference::generate::text::of_words(&law);
        assert_eq!(paper::text::words(text.as_bytes()), Some(law.clone()));
        let mut words = vec![7; 2385];
        assert_eq!(paper::text::read(text.as_bytes(), &mut words), Ok(law.len() / 9));
        assert_eq!(words[..law.len()], law);
    }
}

#[test]
fn conflicts_of_the_laws_are_as_asked() {
    let faults =
        [(l2(), Outcome::Collision), (l3(), Outcome::Deadlock), (l7(), Outcome::Missed(0))];
    for (law, outcome) in faults {
        let Ok(Class::NotRobust(listed, told, ..)) = class(&law) else { panic!("a fault") };
        assert_eq!(told, outcome);
        let mut slices = Slices::of_words(128, 256);
        let [_, _, done, low, high] = slices.fast(&law).unwrap();
        let conflict = Conflict {
            outcome,
            done,
            missing: [low, high],
            plans: &slices.plans,
            ends: &slices.ends,
            picks: &slices.picks,
        };
        assert_eq!(conflict.check(&law, 2, listed), Ok(()));
        assert!(conflict.check(&law, 2, 0).is_err());
        assert!(Conflict { done: done + 1, ..conflict }.check(&law, 2, listed).is_err());
        assert!(Conflict { outcome: Outcome::Open, ..conflict }.check(&law, 2, listed).is_err());
        let other = [low, high ^ 1];
        assert!(Conflict { missing: other, ..conflict }.check(&law, 2, listed).is_err());
    }
}

/// Member 0's step takes facts 0 and 1 away. Then one action of member 1 waits for fact 0, which
/// would be a deadlock, and a higher one collides for want of fact 1.
#[test]
fn a_collision_comes_before_a_deadlock() {
    let law = [
        [4, 2, 3, 3, 0],
        [0, 4, 0, 0, 0],
        [1, 8, 0, 0, 0],
        [1, 1, 1, 8, 0],
        [1, 2, 0, 8, 0],
        [0, 0, 0, 4, 3],
    ];
    gives(&of_rows(&law), [2, 0, 1, 2, 0], &[&[2], &[1]], &[0, 1]);
    // Without the colliding action it is the deadlock.
    let mut law = law.to_vec();
    law.remove(4);
    law[0][2] = 2;
    gives(&of_rows(&law), [3, 0, 1, 0, 0], &[&[1], &[0]], &[0]);
}

/// After member 0's step actions 1 and 3 of member 2 collide, and action 2 of member 1.
#[test]
fn the_lowest_colliding_action_is_told_of_all_members() {
    let law = [
        [4, 3, 4, 1, 0],
        [0, 2, 0, 0, 0],
        [1, 4, 0, 0, 0],
        [2, 8, 0, 0, 0],
        [0, 0, 0, 2, 1],
        [2, 1, 0, 8, 0],
        [1, 1, 0, 4, 0],
        [2, 1, 0, 8, 0],
    ];
    gives(&of_rows(&law), [2, 0, 1, 1, 0], &[&[0], &[2], &[1]], &[0, 2]);
}

/// After member 0's step members 1 and 2 can wait for fact 0. Member 1 has its goal and ends;
/// member 2 lacks its own and has two waiting actions.
#[test]
fn a_member_with_its_goal_ends_where_another_lacks_its_own() {
    let law = [
        [3, 3, 4, 1, 0],
        [0, 2, 0, 0, 0],
        [1, 0, 0, 0, 0],
        [2, 4, 0, 0, 0],
        [1, 1, 1, 0, 0],
        [2, 1, 1, 4, 0],
        [0, 0, 0, 2, 1],
        [2, 1, 1, 4, 0],
    ];
    gives(&of_rows(&law), [3, 0, 1, 0, 0], &[&[2], &[], &[1]], &[0]);
}

/// After member 0's step all have their goals, and members 1 and 2 can wait for fact 0. The lower
/// member goes on, not the one with the lower action, and makes good what its action takes away.
#[test]
fn one_member_goes_on_where_all_have_their_goals() {
    let mut law = [
        [3, 3, 4, 5, 0],
        [0, 2, 0, 0, 0],
        [1, 4, 0, 0, 0],
        [2, 0, 0, 0, 0],
        [2, 1, 1, 0, 0],
        [1, 1, 1, 0, 4],
        [1, 0, 0, 4, 0],
        [0, 0, 0, 2, 1],
    ];
    gives(&of_rows(&law), [3, 0, 1, 0, 0], &[&[3], &[1, 2], &[]], &[0]);
    // Member 2 misses its goal there too, and deadlock comes first.
    law[3][1] = 1;
    gives(&of_rows(&law), [3, 0, 1, 0, 0], &[&[3], &[1, 2], &[]], &[0]);
    // Without the waiting actions it is missed, after the same pick.
    law[4][2] = 0;
    law[4][1] = 0;
    law[5][2] = 0;
    law[5][1] = 0;
    gives(&of_rows(&law), [4, 2, 1, 0, 0], &[&[3], &[], &[]], &[0]);
}

/// Two orders of two steps lead to one row, which action 0 of member 1 and then action 1 of member
/// 0 list first.
#[test]
fn the_moves_that_first_listed_a_row_are_told() {
    let law = [
        [3, 3, 2, 1, 0],
        [0, 2, 0, 0, 0],
        [1, 4, 0, 0, 0],
        [2, 1, 0, 0, 0],
        [1, 0, 0, 4, 1],
        [0, 0, 0, 2, 0],
    ];
    gives(&of_rows(&law), [4, 2, 2, 0, 0], &[&[1], &[0], &[]], &[1, 0]);
    assert_eq!(replays(&of_rows(&law), &[1, 0], &[1, 2, 2], &[0, 1]).0, Outcome::Missed(2));
}

/// Member 1 collides by action 8. From there actions 3 6, 3 7 and 4 5 are shortest, and 1 2 5 is
/// lower and longer.
#[test]
fn the_lowest_shortest_completion_is_told() {
    let law = [
        [8, 2, 9, 5, 0],
        [0, 2, 0, 0, 0],
        [1, 8, 0, 0, 0],
        [0, 0, 0, 2, 1],
        [1, 128, 0, 64, 128],
        [1, 64, 0, 16, 64],
        [1, 128, 0, 32, 128],
        [1, 128, 0, 16, 128],
        [1, 16, 0, 8, 16],
        [1, 32, 0, 8, 32],
        [1, 32, 0, 8, 32],
        [1, 5, 0, 128, 4],
    ];
    gives(&of_rows(&law), [2, 0, 1, 1, 0], &[&[0], &[8, 3, 6]], &[0, 1]);
}

#[test]
fn brute_force_on_the_laws() {
    let found = |law: &[u64]| brute::outcomes(&check(law).unwrap(), 3);
    let none = Facts::default();
    let outcome = |outcome: Outcome, done: usize| ((outcome, none.clone()), done);
    let token = Facts::of_numbers([0].into_iter());
    let success = outcome(Outcome::Success, 4);
    assert_eq!(found(&l1()), Some([success.clone()].into()));
    let collision = ((Outcome::Collision, token), 1);
    assert_eq!(found(&l2()), Some([success.clone(), collision].into()));
    assert_eq!(found(&l3()), Some([success, outcome(Outcome::Deadlock, 3)].into()));
    assert_eq!(found(&l4()), None);
    assert_eq!(found(&l5()), Some([outcome(Outcome::Success, 0)].into()));
    assert_eq!(found(&l6()), None);
    let missed = [outcome(Outcome::Success, 2), outcome(Outcome::Missed(0), 2)];
    assert_eq!(found(&l7()), Some(missed.into()));
    assert_eq!(found(&l8()), Some([outcome(Outcome::Success, 0)].into()));
    let fewest = |law: &[u64]| brute::fewest(&found(law).unwrap());
    assert_eq!([l1(), l2(), l3(), l7()].map(|law| fewest(&law)), [None, Some(1), Some(3), Some(2)]);
}
