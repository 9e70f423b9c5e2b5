//! The page on a long run, for the browser's test: `long MEMBERS STEPS`, so many steps of each
//! member in turn, then one that takes a fact away and one that needs it. It is a run of a real law
//! and its joint replay is checked, but it is no first conflict: that of this law is short.

// Brings the functions that the wrapper declares.
#[cfg(feature = "mock")]
extern crate mock as _;

use explain::finding::{Conflict, Finding, Waited};
use explain::law::Law;
use explain::names::Names;
use explain::page::page;
use reference::generate::sizes::Turns;

fn main() {
    let mut numbers = std::env::args().skip(1).map(|word| word.parse().expect("a number"));
    let (members, steps): (usize, usize) =
        (numbers.next().expect("members"), numbers.next().expect("steps"));
    let turns = Turns::new(members);
    let law = Law::new(turns.law.words());
    let mut plans: Vec<Vec<u16>> = (0..members).map(|member| turns.plan(member, steps)).collect();
    let mut picks: Vec<u8> = (0..members * steps).map(|pick| (pick % members) as u8).collect();
    plans[members - 1].push(turns.takes(members - 1));
    plans[0].push(turns.needs(0));
    picks.extend([members as u8 - 1, 0]);
    let conflict = Conflict::of(&law, plans, &picks, true, Waited::Robust(1)).expect("a conflict");
    conflict.check(&law).expect("it replays");
    let names: String =
        (0..members).map(|member| format!("member,{member},retailer {member}\n")).collect();
    let (names, wrong) = Names::read(names.as_bytes(), &law);
    assert!(wrong.is_empty(), "{wrong:?}");
    print!("{}", page(&law, &names, "a long run", &Finding::Conflict(conflict)).expect("a page"));
}
