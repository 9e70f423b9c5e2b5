//! The laws of exact size have the sizes that they are made for.

use program::file::{copies_room, judge};
use program::sizes::{all, Size};
use reference::fast::{copies, count_configurations, Copies, Task};
use reference::generate::text::of_words;
use reference::laws::l2;
use reference::random::Random;

/// More rows than any of these laws has.
const ROOM: usize = 10_000;

fn tables(task: &Task) -> Vec<Copies> {
    (0..task.members()).map(|member| copies(task, member, ROOM).expect("few enough")).collect()
}

#[test]
fn each_law_has_its_size() {
    for (case, size) in all().into_iter().enumerate() {
        let words = size.law(&mut Random::new(3, case as u64)).words();
        let task = Task::check(&words).expect("a law");
        match size {
            Size::Configurations { members, count } => {
                assert_eq!(task.members(), members);
                assert_eq!(
                    count_configurations(&task, &tables(&task), ROOM),
                    Some(count),
                    "{size:?}"
                );
            }
            Size::Copies { members, member, count } => {
                assert_eq!(task.members(), members);
                assert_eq!(tables(&task)[member].rows.len(), count, "{size:?}");
            }
            Size::Picks { bits, .. } => {
                let most = tables(&task)[0].rows.len();
                assert_eq!(most, ((1 << bits) + 1).min(copies_room(2)), "{size:?}");
            }
            Size::Unsolvable { members } => {
                let live: Vec<bool> =
                    tables(&task).iter().map(|table| table.live(task.initial)).collect();
                assert_eq!(live.iter().position(|live| !live), Some(members - 1), "{size:?}");
            }
            Size::Missing { facts } => {
                let judged = judge(of_words(&words).as_bytes());
                assert_eq!(judged.file.missing.len(), facts, "{size:?}");
            }
            Size::Records => assert_eq!(words.len(), 9 * 265),
        }
    }
}

/// The file of a law, line by line, and that a file with anything else in it differs.
#[test]
fn a_conflict_is_expected_line_by_line() {
    let text = of_words(&l2());
    let lines = [
        "verdict,number",
        "collision,1",
        "missing,0",
        "plan,0",
        "action,0",
        "action,1",
        "plan,1",
        "action,2",
        "action,3",
        "pick,0",
        "pick,1",
    ];
    let file = lines.join("\r\n") + "\r\n";
    let judged = judge(text.as_bytes());
    assert_eq!(judged.check(file.as_bytes()), Ok(()));
    for (line, other) in [
        ("collision,1", "collision,01"),
        ("collision,1", "collision,0"),
        ("collision,1", "deadlock,1"),
        ("missing,0\r\n", ""),
        ("missing,0", "missing,1"),
        ("missing,0", "missing,0\r\nmissing,0"),
        ("missing,0\r\nplan,0\r\n", "plan,0\r\nmissing,0\r\n"),
        ("plan,0", "plan,1"),
        ("action,1", "action,0"),
        ("action,3\r\n", ""),
        ("pick,0", "pick,0\r\npick,0"),
        ("pick,1\r\n", "pick,1\n"),
        ("pick,1\r\n", "pick,1"),
        ("pick,1\r\n", ""),
    ] {
        let differs = judged.check(file.replacen(line, other, 1).as_bytes());
        assert!(differs.is_err(), "{line:?} as {other:?}");
    }
}
