//! The generated runs and tickets stand at every edge of request F-4, by name: change numbers,
//! tickets of another time, lengths of the run, each with what is answered there. `missing.rs` has
//! the lengths of `out`.

use compare::operations::run::{handed_in, Handed};
use reference::generate::plans::ticket;
use reference::interface::{out_length, CHANGE, LAST, RUN};
use reference::paper::interface as paper;
use reference::random::Random;
use std::collections::BTreeSet;

/// About as many as a comparison has commits.
const CASES: u64 = 15_000;

/// The change numbers that have a name.
fn number(change: u32) -> &'static str {
    match change {
        0 => "0",
        1 => "1",
        4_294_967_294 => "4,294,967,294",
        LAST => "4,294,967,295",
        _ => "another",
    }
}
const NUMBERS: [u32; 5] = [0, 1, LAST - 1, LAST, 77];

/// What a ticket's change number is beside the run's.
fn time(ticket: u32, run: u32) -> &'static str {
    match ticket {
        now if now == run => "the run's",
        before if Some(before) == run.checked_sub(1) => "one lower",
        after if Some(after) == run.checked_add(1) => "one higher",
        0 => "0",
        LAST => "the last",
        other if (other ^ run).is_power_of_two() => "one bit away",
        _ => "any other",
    }
}

#[test]
fn runs_and_tickets_stand_at_every_edge() {
    let mut met: BTreeSet<String> = BTreeSet::new();
    let mut meets = |what: String| drop(met.insert(what));
    for case in 0..CASES {
        let random = &mut Random::new(5, case);
        let Handed { words, bundle, run, member } = handed_in(random);
        let ticket = ticket(random, &run, member);
        meets(format!("a run of {} words", run.len()));
        if run.len() < RUN {
            continue;
        }
        let (plans, ends) = (&bundle.plans, &bundle.ends);
        let mut told = [9; out_length::ASK];
        let [mut picked, mut done] = [[9; out_length::PICK]; 2];
        let ask = paper::ask(&words, plans, ends, &run, member, &mut told);
        let pick = paper::pick(&words, plans, ends, &mut run.clone(), member, &mut picked);
        let commit = paper::commit(&words, plans, ends, &mut run.clone(), ticket, &mut done);
        let Ok(now) = u32::try_from(run[CHANGE]) else {
            let cut = run[CHANGE] as u32 == ticket.change;
            let word = match run[CHANGE] {
                4_294_967_296 => "4,294,967,296",
                u64::MAX => "2^64 - 1",
                _ => "another",
            };
            meets(format!("a change number above: {word}"));
            meets(format!("above, the ticket has its low half: {cut}"));
            assert_eq!([ask, pick, commit], [14; 3]);
            continue;
        };
        let (at, when) = (number(now), time(ticket.change, now));
        meets(format!("at {at}, an ask gives {ask} {}", told[0]));
        meets(format!("at {at}, a pick gives {pick} {}", picked[0]));
        meets(format!("a ticket of {when} gives {commit}"));
        meets(format!("at {at}, a ticket of {when}"));
        if commit == 19 {
            let otherwise = if pick == 0 { "goes or collides" } else { "is refused" };
            meets(format!("a stale ticket whose pick {otherwise} at {at}"));
        }
    }

    let mut asked: Vec<String> = Vec::new();
    asked.extend([0, 1, 10, 11, 12, 15].map(|length| format!("a run of {length} words")));
    asked.extend(
        ["4,294,967,296", "2^64 - 1", "another"]
            .map(|word| format!("a change number above: {word}")),
    );
    asked.extend([false, true].map(|cut| format!("above, the ticket has its low half: {cut}")));
    for at in NUMBERS.map(number) {
        let ask = ["0 0", "0 1", "0 2", "8 9", "11 9", "13 9"];
        asked.extend(ask.map(|gives| format!("at {at}, an ask gives {gives}")));
        let pick: &[&str] = if at == number(LAST) {
            &["8 9", "11 9", "13 9", "20 9"]
        } else {
            &["0 0", "0 1", "8 9", "11 9", "13 9"]
        };
        asked.extend(pick.iter().map(|gives| format!("at {at}, a pick gives {gives}")));
        let stale = ["goes or collides", "is refused"];
        asked.extend(
            stale
                .iter()
                .filter(|otherwise| at != number(LAST) || **otherwise == "is refused")
                .map(|otherwise| format!("a stale ticket whose pick {otherwise} at {at}")),
        );
    }
    for when in ["one lower", "one higher", "0", "the last", "one bit away", "any other"] {
        let gives = [4, 7, 8, 10, 11, 12, 19];
        asked.extend(gives.map(|gives| format!("a ticket of {when} gives {gives}")));
    }
    asked.extend([0, 8, 13, 20].map(|gives| format!("a ticket of the run's gives {gives}")));
    for (at, when) in [(0, "one higher"), (0, "the last"), (1, "one lower"), (1, "one higher")] {
        asked.push(format!("at {}, a ticket of {when}", number(at)));
    }
    for (at, when) in [(LAST - 1, "one higher"), (LAST, "one lower"), (LAST, "0"), (LAST - 1, "0")]
    {
        asked.push(format!("at {}, a ticket of {when}", number(at)));
    }
    let unmet: Vec<String> = asked.into_iter().filter(|what| !met.contains(what)).collect();
    assert!(unmet.is_empty(), "met by none of {CASES}: {unmet:#?}");
}
