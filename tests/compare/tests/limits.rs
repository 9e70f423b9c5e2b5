//! The generated tasks meet every limit of a task, each with both of its ends.

use compare::operations::task_words;
use reference::paper::task::{check, ROW};
use reference::random::Random;

const TASKS: u64 = 20_000;
const LEAST: usize = 20;

#[test]
fn accepted_tasks_stand_at_every_limit() {
    let accepted: Vec<Vec<u64>> = (0..TASKS)
        .map(|case| task_words(&mut Random::new(3, case), 0))
        .filter(|words| check(words).is_ok())
        .collect();
    let met = |test: &dyn Fn(&[u64]) -> bool| accepted.iter().filter(|words| test(words)).count();
    let limits: Vec<(&str, usize)> = vec![
        ("one fact", met(&|words| words[0] == 1)),
        ("63 facts", met(&|words| words[0] == 63)),
        ("64 facts", met(&|words| words[0] == 64)),
        ("65 facts", met(&|words| words[0] == 65)),
        ("127 facts", met(&|words| words[0] == 127)),
        ("128 facts", met(&|words| words[0] == 128)),
        ("one member", met(&|words| words[1] == 1)),
        ("eight members", met(&|words| words[1] == 8)),
        ("no action", met(&|words| words[2] == 0)),
        ("256 actions", met(&|words| words[2] == 256)),
        ("a word of all ones", met(&|words| words[ROW..].contains(&u64::MAX))),
        ("an empty mask", met(&|words| words[3..5] == [0, 0])),
        ("facts of the low word alone", met(&|words| words[3] != 0 && words[4] == 0)),
        ("facts of the high word alone", met(&|words| words[3] == 0 && words[4] != 0)),
        ("facts of both words", met(&|words| words[3] != 0 && words[4] != 0)),
    ];
    let rare: Vec<_> = limits.iter().filter(|(_, count)| *count < LEAST).collect();
    assert!(rare.is_empty(), "met by fewer than {LEAST} of {TASKS}: {rare:?}");
}
