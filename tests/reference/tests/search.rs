//! Solo search's numbers: the count of rows, whether I is live, and the rows marked 1 (request
//! F-3). Those of the paper's laws were worked out by hand; laws made for a size have theirs by how
//! they are made.

use reference::fast::{copies, Fast, Task, DEAD};
use reference::generate::sizes::{
    forest, odometer, odometer_past, then, tree, winder, zigzag, Back, Tree, Wants,
};
use reference::generate::Law;
use reference::interface::{out_length, Interface, MASK};
use reference::law::of_rows;
use reference::laws::*;
use reference::paper;

/// Both implementations give these numbers and marks, in a table that is just long enough and in
/// one with a row and an odd word more.
fn gives(task: &[u64], member: u8, numbers: [u64; 3], live: &[u8]) {
    for free in 0..2 {
        let rows = live.len() + free;
        let marks = [live, &[0][..free]].concat();
        let words = MASK * rows + free;
        let (mut table, mut plain) = (vec![7; words], vec![7; rows]);
        let mut out = [9; out_length::SOLO_SEARCH];
        let refusal = paper::interface::solo_search(task, member, &mut table, &mut plain, &mut out);
        assert_eq!((refusal, out, &plain), (0, numbers, &marks));
        let (mut fast_table, mut fast_marks) = (vec![8; words], vec![8; rows]);
        let mut out = [9; out_length::SOLO_SEARCH];
        let refusal = Fast.solo_search(task, member, &mut fast_table, &mut fast_marks, &mut out);
        assert_eq!((refusal, out, &fast_marks), (0, numbers, &marks));
        assert_eq!(table, fast_table);
        assert!(table[MASK * live.len()..].iter().all(|&word| word == 0), "zeros after the rows");
    }
}

#[test]
fn numbers_of_the_papers_laws() {
    for law in [l1(), l2(), l3()] {
        gives(&law, 0, [4, 1, 4], &[1; 4]);
        gives(&law, 1, [4, 1, 4], &[1; 4]);
    }
    gives(&l4(), 0, [4, 1, 4], &[1; 4]);
    gives(&l4(), 1, [4, 0, 0], &[0; 4]);
    gives(&l5(), 0, [1, 1, 1], &[1]);
    gives(&l6(), 0, [1, 0, 0], &[0]);
    gives(&l7(), 0, [2, 1, 2], &[1; 2]);
    gives(&l7(), 1, [2, 1, 2], &[1; 2]);
    gives(&l8(), 0, [2, 1, 1], &[1, 0]);
    gives(&l8(), 1, [1, 1, 1], &[1]);
}

/// Rows differ in their high words alone, or in their low words alone; a table with an odd word
/// holds half as many rows as it has words, and marks are asked for by rows.
#[test]
fn rows_are_two_words() {
    let [low, high] = [0, 64].map(|fact| 1 << fact);
    let law =
        of_rows(&[[65, 1, 2, 0, 0], [0, high, 0, 0, 0], [0, 0, 0, high, 0], [0, 0, 0, low, 0]]);
    gives(&law, 0, [4, 1, 4], &[1; 4]);
    for (length, marked, refusal) in [(8, 4, 0), (9, 4, 0), (8, 3, 14), (7, 3, 9), (7, 2, 14)] {
        let (mut table, mut marks, mut out) = (vec![7; length], vec![7; marked], [9; 3]);
        let told = paper::interface::solo_search(&law, 0, &mut table, &mut marks, &mut out);
        assert_eq!(told, refusal, "{length} words, {marked} marks");
        let rows = [0, 0, 0, 1, 1, 0, 1, 1, 0];
        match refusal {
            0 => assert_eq!(table, rows[..length]),
            9 => assert_eq!((table.clone(), marks.clone()), (vec![0; length], vec![0; marked])),
            _ => assert_eq!((table.clone(), marks.clone()), (vec![7; length], vec![7; marked])),
        }
        let (mut quick, mut live, mut out) = (vec![7; length], vec![7; marked], [9; 3]);
        assert_eq!(Fast.solo_search(&law, 0, &mut quick, &mut live, &mut out), refusal);
        assert_eq!((quick, live), (table, marks));
    }
}

/// Rows 1 and 3 have the goal, row 0 comes to it, and rows 2, 4 and 5 do not.
#[test]
fn live_rows_stand_between_dead_ones() {
    let law = of_rows(&[
        [6, 1, 5, 1, 0],
        [0, 2, 0, 0, 0],
        [0, 1, 0, 2, 1],
        [0, 1, 0, 4, 1],
        [0, 2, 0, 8, 0],
        [0, 4, 0, 16, 4],
        [0, 8, 0, 32, 10],
    ]);
    gives(&law, 0, [6, 1, 3], &[1, 1, 0, 1, 0, 0]);
}

/// A refusal leaves `out`, and one of two numbers is too short before anything else.
#[test]
fn refusals_leave_the_numbers() {
    for (task, rows, length, refusal) in
        [(l1(), 3, 3, 9), (l1(), 4, 2, 14), (Vec::new(), 4, 2, 14), (Vec::new(), 4, 3, 1)]
    {
        let (mut table, mut marks) = (vec![7; MASK * rows], vec![7; rows]);
        let mut out = vec![9; length];
        let told = paper::interface::solo_search(&task, 0, &mut table, &mut marks, &mut out);
        assert_eq!((told, &out), (refusal, &vec![9; length]));
        assert_eq!(Fast.solo_search(&task, 0, &mut table, &mut marks, &mut out), refusal);
        assert_eq!(out, vec![9; length]);
    }
}

/// The steps from each row of a member's list to its goal; none where it is dead.
fn distances(law: &Law, member: usize) -> Vec<Option<usize>> {
    let task = Task::check(&law.words()).expect("a law");
    let found = copies(&task, member, usize::MAX).expect("any number of rows");
    found.distance.iter().map(|&steps| (steps != DEAD).then_some(steps as usize)).collect()
}

fn live(law: &Law, member: usize) -> usize {
    distances(law, member).iter().flatten().count()
}

#[test]
fn rows_become_live_in_the_order_that_is_told() {
    for rows in [1, 2, 3, 4, 5, 6, 7, 8, 9, 15, 31, 32, 33, 100, 1000] {
        let steps: Vec<usize> = (0..rows).collect();
        let told = |steps: Vec<usize>| steps.into_iter().map(Some).collect::<Vec<_>>();
        assert_eq!(distances(&winder(rows), 0), told(steps.clone()));
        assert_eq!(distances(&odometer(rows), 0), told(steps.into_iter().rev().collect()));
        let pairs = (0..rows).flat_map(|pair| [2 * pair + 1, 2 * pair]);
        assert_eq!(distances(&zigzag(rows), 0), told(pairs.collect()));
        assert_eq!(live(&odometer_past(rows, rows / 2), 0), rows / 2 + 1);
    }
}

#[test]
fn trees_have_just_so_many_rows() {
    for rows in (1..70).chain([1023, 1024, 1025, 2730, 2731, 16_400]) {
        let deep = (rows as f64 + 1.0).log2().ceil() as usize;
        for back in [Back::Never, Back::FromEnds, Back::Anywhere] {
            let law = tree(rows, Wants::Row(rows - 1), back);
            let steps = distances(&law, 0);
            assert_eq!((steps.len(), steps[rows - 1], steps[0]), (rows, Some(0), Some(deep - 1)));
            match back {
                Back::Never => assert_eq!(live(&law, 0), deep),
                Back::FromEnds => assert!((deep..=rows).contains(&live(&law, 0))),
                Back::Anywhere => assert_eq!(live(&law, 0), rows),
            }
        }
        assert_eq!(live(&tree(rows, Wants::Never, Back::Anywhere), 0), 0);
        assert_eq!(live(&tree(rows, Wants::First, Back::Never), 0), 1);
    }
}

#[test]
fn members_of_a_forest_have_their_own_rows() {
    let trees = [(9, Wants::Row(8)), (40, Wants::First), (1, Wants::First), (40, Wants::Never)]
        .map(|(rows, wants)| Tree { rows, wants, back: Back::Never });
    let law = forest(&trees);
    let counts = [0, 1, 2, 3].map(|member| (distances(&law, member).len(), live(&law, member)));
    assert_eq!(counts, [(9, 4), (40, 1), (1, 1), (40, 0)]);
}

#[test]
fn one_law_leads_on_to_another() {
    let law = then(tree(20, Wants::First, Back::Never), zigzag(9));
    let steps = distances(&law, 0);
    assert_eq!((steps.len(), live(&law, 0)), (38, 5 + 18));
    assert_eq!(steps[20..24], [1, 0, 3, 2].map(Some));
}
