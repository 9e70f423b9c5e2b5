//! Texts of laws that no example has: steps toward a goal that is not reached, over more than one
//! line, and a step that changes nothing in the shared copy.

use explain::finding::{find, TABLES};
use explain::law::Law;
use explain::names::Names;
use explain::text::text;
use reference::law::of_rows;

fn told(rows: &[[u128; 5]], names: &str) -> String {
    let law = Law::new(of_rows(rows));
    let (names, wrong) = Names::read(names.as_bytes(), &law);
    assert!(wrong.is_empty(), "{wrong:?}");
    text(&law, &names, "", &find(&law, TABLES).expect("a finding"))
}

#[test]
fn steps_toward_a_goal() {
    let rows = [
        [5, 2, 2, 1, 0],
        [0, 1, 0, 0, 0],
        [1, 0b11100, 0, 0, 0],
        [1, 1, 0, 0b10, 0b1],
        [1, 0b10, 0, 0b1100, 0b10],
    ];
    let names = "fact,2,the coupons of this week are counted\n\
                 fact,3,the coupons of last week are counted\nmember,1,retailer\n";
    let expected = "Unsolvable: retailer has no plan
2 members, 5 facts, 2 actions

The goal of retailer is \"the coupons of this week are counted\", \"the coupons of last week are
  counted\" and \"fact 4\". Alone it can reach 3 local copies, and none has all of it.
None of these has \"fact 4\".
The nearest it comes is after 2 steps: 2 of 3 facts of the goal, without \"fact 4\".

step   what it does, and what its own copy gains (+) and loses (-)
   1   retailer: action 0  + fact 1  - fact 0
   2   retailer: action 1  + the coupons of this week are counted
                           + the coupons of last week are counted  - fact 1

Checked: solo replay of these steps of retailer ends short of the goal.
";
    assert_eq!(told(&rows, names), expected);
}

#[test]
fn no_change_of_the_shared_copy() {
    let rows = [
        [3, 2, 3, 0b10, 0],
        [0, 0b101, 0, 0, 0],
        [1, 0b11, 0, 0, 0],
        [0, 0, 0, 0b1, 0],
        [1, 0, 0, 0b1, 0],
        [0, 0b1, 0, 0b100, 0b10],
    ];
    let told = told(&rows, "");
    assert!(told.contains("\n   1  * |  member 0: action 0  + fact 0\n"), "{told}");
    assert!(told.contains("\n   2  | *  member 1: action 1  no change\n"), "{told}");
    assert!(told.contains("\n   3  * .  member 0: action 2  + fact 2  - fact 1\n"), "{told}");
}
