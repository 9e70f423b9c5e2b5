//! What collisions lack (request F-6): the comparison finds implementations that tell another mask,
//! and its cases stand at every edge of these answers, by name.

use compare::driver::{one, run, Options, Summary};
use compare::operations::sizes;
use reference::interface::{mask_of, mask_words, FACTS};
use reference::wrong::changed::{Changed, Met, Other, Teller};
use reference::wrong::masks::{self, Instead, Mask};
use std::collections::BTreeSet;
use std::sync::Mutex;

const OPTIONS: Options = Options { seed: 19, cases: 100_000, threads: 2, stop: true };

#[test]
fn every_other_mask_is_found() {
    let all = masks::all();
    assert_eq!(all.len(), 120);
    let unnoticed: Vec<Mask> =
        all.into_iter().filter(|mask| run(&mask.twin(), OPTIONS).failed == 0).collect();
    assert_eq!(unnoticed, []);
}

/// Each check that looks at one implementation alone notes a mask without its lowest fact.
#[test]
fn the_checks_of_one_implementation_find_another_mask() {
    for (teller, noted) in [
        (Teller::Step, "is told as missing of"),
        (Teller::JointReplay, "its own step returns"),
        (Teller::Pick, "its own step returns"),
        (Teller::Ask, "its own step returns"),
        (Teller::Commit, "its own step returns"),
        (Teller::Commit, "a commit answers"),
        (Teller::Verdict, "its own replay of the conflict"),
        (Teller::Verdict, "brute force does not find"),
    ] {
        let mask = Mask { teller, instead: Instead::WithoutTheLowest };
        let notes = |case: u64| {
            let mut summary = Summary::default();
            one(&mask.twin(), OPTIONS.seed, case, &mut summary);
            let mut failures = summary.failures.iter();
            failures.any(|(_, failure)| failure.differences.iter().any(|text| text.contains(noted)))
        };
        assert!((0..OPTIONS.cases).any(notes), "{teller:?}: {noted}");
    }
}

/// The fast twin, which notes what its collisions lack and how long `out` is.
#[derive(Default)]
struct Noting(Mutex<BTreeSet<String>>);

impl Noting {
    fn note(&self, teller: Teller, what: &str) {
        let mut met = self.0.lock().expect("no thread fails with the lock");
        met.insert(format!("{teller:?}: {what}"));
    }
}

impl Other for Noting {
    fn takes(&self, teller: Teller, length: usize) -> bool {
        self.note(teller, &format!("out of {length}"));
        false
    }

    fn tells(&self, met: &Met, out: &mut [u64]) {
        let teller = met.teller;
        self.note(teller, &format!("out of {}", out.len()));
        let missing = mask_of(&out[teller.missing()]);
        if out[0] != teller.collision() {
            assert_eq!(missing, 0);
            return self.note(teller, &format!("answer {}", out[0]));
        }
        let action = met.action(met.place).expect("the colliding one");
        let initial = met.task.initial;
        let words = match mask_words(missing) {
            [_, 0] => "of the low word",
            [0, _] => "of the high word",
            _ => "of both words",
        };
        let held = match (missing & initial != 0, missing & !initial != 0) {
            (true, true) => "that held at the start and that did not",
            (true, false) => "that held at the start",
            _ => "that did not hold at the start",
        };
        let facts = (0..FACTS).filter(|fact| missing >> fact & 1 == 1);
        for fact in facts.filter(|fact| [0, 63, 64, 127].contains(fact)) {
            self.note(teller, &format!("fact {fact}"));
        }
        self.note(teller, &format!("facts {words}"));
        self.note(teller, &format!("facts {held}"));
        self.note(teller, &format!("{} facts", missing.count_ones()));
        let of_pre = if missing == action.pre { "all" } else { "some" };
        self.note(teller, &format!("{of_pre} preconditions"));
        let waits = if action.wait == 0 { "does not wait" } else { "has what it waits for" };
        self.note(teller, &format!("an action that {waits}"));
    }
}

/// By the first cases and all others that are made for a size.
#[test]
fn collisions_stand_at_every_edge() {
    let noting = Noting::default();
    run(&Changed(&noting), Options { stop: false, ..OPTIONS });
    for place in sizes::among(OPTIONS.cases)..sizes::count() {
        let case = sizes::case(place);
        one(&Changed(&noting), OPTIONS.seed, case, &mut Summary::default());
    }
    let met = noting.0.into_inner().expect("no thread fails with the lock");
    let mut unmet = Vec::new();
    for teller in Teller::ALL {
        let mut asked: Vec<String> =
            (0..=teller.numbers() + 2).map(|length| format!("out of {length}")).collect();
        let kinds: &[u64] = match teller {
            Teller::Step | Teller::Ask => &[0, 1],
            Teller::JointReplay => &[0, 2, 3, 4],
            Teller::Pick | Teller::Commit => &[0],
            Teller::Verdict => &[0, 1, 3, 4],
        };
        asked.extend(kinds.iter().map(|kind| format!("answer {kind}")));
        asked.extend(["low word", "high word"].map(|word| format!("facts of the {word}")));
        asked.extend([0, 63, 64, 127].map(|fact| format!("fact {fact}")));
        let numbers = [1, 2, 3, 4, 5, 7, 8, 9, 63, 64, 65, 127, 128];
        asked.extend(numbers.map(|number| format!("{number} facts")));
        let others = [
            "facts of both words",
            "facts that held at the start",
            "facts that did not hold at the start",
            "facts that held at the start and that did not",
            "all preconditions",
            "some preconditions",
            "an action that does not wait",
            "an action that has what it waits for",
        ];
        asked.extend(others.map(String::from));
        let asked = asked.into_iter().map(|what| format!("{teller:?}: {what}"));
        unmet.extend(asked.filter(|what| !met.contains(what)));
    }
    assert_eq!(unmet, Vec::<String>::new());
}
