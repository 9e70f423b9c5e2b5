//! Cases made for a size: facts, members, actions, `and`s, names, atoms, comments, bytes, records
//! and digits of waits, words; each at every power of two up to its limit, one less and one more.

use super::{read_draft, read_on, write_on, Near, ENOUGH, PLAIN};
use crate::case::Checked;
use reference::generate::pddl::{self as generate, Condition, Draft, Member, Spelling};
use reference::generate::sizes::{last_action, last_fact, last_unsolvable, sizes};
use reference::generate::Law;
use reference::interface::{Pddl, FACTS, ROW};
use reference::random::Random;
use std::sync::OnceLock;

/// One case in so many is made for a size.
const EVERY: u64 = 16;

/// What a case is made for.
#[derive(Clone, Copy, Debug, PartialEq, Eq, PartialOrd, Ord)]
pub enum Made {
    ReadFacts,
    ReadMembers,
    ReadActions,
    ReadOwnActions,
    ReadDepth,
    ReadEffectDepth,
    ReadName,
    ReadActionName,
    ReadAtoms,
    ReadInitial,
    ReadParts,
    ReadBlanks,
    ReadComment,
    ReadCommentLast,
    ReadBytes,
    ReadBadByte,
    ReadUnknownAt,
    ReadWaits,
    ReadWaitAction,
    ReadWaitFact,
    ReadWaitDigits,
    ReadBadWait,
    ReadSlack,
    WriteFacts,
    WriteMembers,
    WriteActions,
    WriteSlack,
    WriteEnough,
}
use Made::*;

/// Everything that a case is made for, with the largest size: past the limit where there is one.
pub const MADE: [(Made, usize); 28] = [
    (ReadFacts, 257),
    (ReadMembers, 33),
    (ReadActions, 1025),
    (ReadOwnActions, 1025),
    (ReadDepth, 20),
    (ReadEffectDepth, 20),
    (ReadName, 16_385),
    (ReadActionName, 16_385),
    (ReadAtoms, 4097),
    (ReadInitial, 4097),
    (ReadParts, 4097),
    (ReadBlanks, 65_537),
    (ReadComment, 65_537),
    (ReadCommentLast, 65_537),
    (ReadBytes, ENOUGH + 1),
    (ReadBadByte, 65_537),
    (ReadUnknownAt, 257),
    (ReadWaits, 65_537),
    (ReadWaitAction, 257),
    (ReadWaitFact, 129),
    (ReadWaitDigits, 21),
    (ReadBadWait, 4097),
    (ReadSlack, 4097),
    (WriteFacts, FACTS),
    (WriteMembers, 8),
    (WriteActions, 256),
    (WriteSlack, 4097),
    (WriteEnough, 256),
];

/// Every case that is made for a size, in turn.
pub fn list() -> &'static [(Made, usize)] {
    static LIST: OnceLock<Vec<(Made, usize)>> = OnceLock::new();
    LIST.get_or_init(|| {
        let each = |&(made, most): &(Made, usize)| {
            let mut all = if most <= 33 { (1..=most).collect() } else { sizes(most) };
            if made == ReadName {
                all.push(10_000);
            }
            if made == ReadBytes {
                all.retain(|&size| size > 256);
            }
            if !all.contains(&most) {
                all.push(most);
            }
            all.into_iter().map(move |size| (made, size))
        };
        MADE.iter().flat_map(each).collect()
    })
}

/// How many there are.
pub fn count() -> u64 {
    list().len() as u64
}

/// The number of the case that is the first made for the size at a place of the list.
pub fn case(place: u64) -> u64 {
    EVERY * place
}

/// How many of them are among the first cases.
pub fn among(cases: u64) -> u64 {
    cases.div_ceil(EVERY).min(count())
}

/// The case with this number, where it is made for a size.
pub fn any(case: u64, random: &mut Random, checked: &impl Pddl) -> Option<Checked> {
    if !case.is_multiple_of(EVERY) {
        return None;
    }
    let (made, size) = list()[(case / EVERY % count()) as usize];
    Some(made.check(size, random, checked))
}

impl Made {
    fn check(self, size: usize, random: &mut Random, checked: &impl Pddl) -> Checked {
        let spelling = Spelling { turned: 10, loose: 5, comments: 10 };
        match self {
            ReadFacts => {
                let draft = generate::sized(random, size, 2, 2);
                read_draft(random, checked, &draft, spelling)
            }
            ReadMembers => {
                let draft = generate::sized(random, 3, size, size);
                read_draft(random, checked, &draft, spelling)
            }
            ReadActions => {
                let mut draft = generate::sized(random, 2, 3, size);
                draft.waits = vec![vec![(size - 1).to_string(), "0".to_string()]];
                read_draft(random, checked, &draft, spelling)
            }
            ReadOwnActions => {
                let mut draft = small();
                draft.members.push(generate::sized(random, 2, 1, size).members.remove(0));
                draft.members[1].predicates = draft.members[0].predicates.clone();
                draft.members[1].initial = draft.members[0].initial.clone();
                unnamed(&mut draft.members[1]);
                read_draft(random, checked, &draft, spelling)
            }
            ReadDepth => {
                let mut draft = small();
                draft.members[0].goal = deep(random, size);
                read_draft(random, checked, &draft, spelling)
            }
            ReadEffectDepth => {
                let mut draft = with_action();
                draft.members[0].actions[0].effect = deep(random, size);
                read_draft(random, checked, &draft, spelling)
            }
            ReadName => {
                let name = fresh(random, size);
                let mut draft = small();
                draft.members[0].predicates.push(name.clone());
                draft.members[0].goal = Condition::Atom(name);
                read_draft(random, checked, &draft, spelling)
            }
            ReadActionName => {
                let mut draft = with_action();
                let mut another = draft.members[0].actions[0].clone();
                let name = fresh(random, size);
                draft.members[0].actions[0].name = name.clone();
                // The same name, or one that differs in its last letter.
                let other = if random.chance(50) { "" } else { "z" };
                another.name = name[..size - other.len().min(size - 1)].to_string() + other;
                draft.members[0].actions.push(another);
                read_draft(random, checked, &draft, spelling)
            }
            ReadAtoms => {
                let mut draft = with_action();
                let mut atoms: Vec<Condition> =
                    (1..size).map(|_| Condition::Atom("f".into())).collect();
                atoms.push(Condition::Atom("g".into()));
                draft.members[0].actions[0].effect = Condition::And(atoms);
                read_draft(random, checked, &draft, spelling)
            }
            ReadInitial => {
                let mut draft = small();
                draft.members[0].initial = vec!["f".into(); size];
                draft.members[0].initial.push("g".into());
                read_draft(random, checked, &draft, spelling)
            }
            ReadParts => {
                // As many `and`s beside each other, then the last atom.
                let mut draft = small();
                let mut parts = vec![Condition::And(Vec::new()); size];
                parts.push(Condition::Atom("g".into()));
                draft.members[0].goal = Condition::And(parts);
                read_draft(random, checked, &draft, spelling)
            }
            ReadBlanks | ReadComment => {
                let mut text = plain(random, &small());
                let at = text.iter().rposition(|&byte| byte == b'(').expect("a goal");
                let mut more: Vec<u8> = (0..size).map(|_| random.one_of(b" \t\r\n")).collect();
                if self == ReadComment {
                    let any = |_| random.one_of(b"();\r\x00\xffaZ \t");
                    more = (0..size).map(any).collect();
                    more[0] = b';';
                    more.push(b'\n');
                }
                text.splice(at..at, more).for_each(drop);
                read_on(random, checked, text, Vec::new(), 2 * ROW + 2)
            }
            ReadCommentLast => {
                let mut text = plain(random, &small());
                text.push(b';');
                text.extend((1..size).map(|_| random.one_of(b"();\r\x00\xffaZ")));
                read_on(random, checked, text, Vec::new(), 2 * ROW)
            }
            ReadBytes => {
                let text = of_bytes(random, size);
                read_on(random, checked, text, b"0,0\r\n".to_vec(), 3 * ROW)
            }
            ReadBadByte => {
                let mut text = vec![b' '; size];
                text[size - 1] = random.one_of(b"x)(.\x00\xff0");
                text.extend(plain(random, &small()));
                read_on(random, checked, text, Vec::new(), 2 * ROW)
            }
            ReadUnknownAt => {
                // The last atom of the last action is unknown.
                let mut draft = generate::sized(random, 3, 2, size);
                let last = draft.members.iter_mut().rev().find(|one| !one.actions.is_empty());
                let action = last.and_then(|one| one.actions.last_mut()).expect("an action");
                action.effect = Condition::Not("nobody-has-this".into());
                read_draft(random, checked, &draft, spelling)
            }
            ReadWaits => {
                let mut draft = with_action();
                draft.members[0].actions[0].pre = both();
                draft.waits = vec![vec!["0".into(), "0".into()]; size - 1];
                draft.waits.push(vec!["0".into(), "1".into()]);
                read_draft(random, checked, &draft, spelling)
            }
            ReadWaitAction | ReadWaitFact => {
                let (facts, actions) = if self == ReadWaitFact { (FACTS, 2) } else { (2, 256) };
                let mut draft = generate::sized(random, facts, 2, actions);
                let needed = draft.members[0].predicates.clone();
                for action in draft.members.iter_mut().flat_map(|one| &mut one.actions) {
                    action.pre =
                        Condition::And(needed.iter().cloned().map(Condition::Atom).collect());
                }
                let number = (size - 1).to_string();
                draft.waits = vec![if self == ReadWaitFact {
                    vec!["1".into(), number]
                } else {
                    vec![number, "1".into()]
                }];
                read_draft(random, checked, &draft, spelling)
            }
            ReadWaitDigits => {
                let mut draft = with_action();
                let digits: String = (0..size)
                    .map(|place| random.one_of(if place == 0 { b"1289" } else { b"0189" }) as char)
                    .collect();
                let mut wait = vec!["0".to_string(), "0".to_string()];
                wait[random.below(2)] = digits;
                draft.waits = vec![wait];
                read_draft(random, checked, &draft, spelling)
            }
            ReadBadWait => {
                let mut waits = b"0,0\r\n".repeat(size - 1);
                let wrong =
                    random.one_of(&[&b"0"[..], b"0,", b"0,0,0", b"0,00", b"\r\n", b"0,0\n"]);
                waits.extend(wrong);
                let text = plain(random, &with_action());
                read_on(random, checked, text, waits, 3 * ROW)
            }
            ReadSlack => {
                let text = plain(random, &with_action());
                read_on(random, checked, text, Vec::new(), 3 * ROW + size)
            }
            WriteFacts => {
                let words = last_fact(random, size).words();
                write_on(random, checked, words, [Near::Just; 2])
            }
            WriteMembers => {
                let words = last_unsolvable(size).words();
                write_on(random, checked, words, [Near::Just; 2])
            }
            WriteActions => {
                let words = last_action(size).words();
                write_on(random, checked, words, [Near::Just; 2])
            }
            WriteSlack => {
                let words = last_action(3).words();
                write_on(random, checked, words, [Near::More(size), Near::More(size)])
            }
            WriteEnough => write_on(random, checked, longest(size), [Near::Enough; 2]),
        }
    }
}

fn member(domain: &str) -> Member {
    Member {
        domain: domain.into(),
        predicates: vec!["f".into(), "g".into()],
        actions: Vec::new(),
        problem: "p".into(),
        of: domain.into(),
        initial: vec!["f".into()],
        goal: Condition::Atom("g".into()),
    }
}

/// One member with two facts and no action.
fn small() -> Draft {
    Draft { members: vec![member("d")], waits: Vec::new() }
}

/// One member with two facts and an action that needs the first.
fn with_action() -> Draft {
    let mut draft = small();
    draft.members[0].actions.push(generate::Action {
        name: "a".into(),
        pre: Condition::Atom("f".into()),
        effect: Condition::Atom("g".into()),
    });
    draft
}

/// Both facts.
fn both() -> Condition {
    Condition::And(["f", "g"].map(|name| Condition::Atom(name.into())).to_vec())
}

/// A member's conditions over facts that it has.
fn unnamed(member: &mut Member) {
    member.goal = Condition::Atom("g".into());
    for action in &mut member.actions {
        action.pre = Condition::Atom("f".into());
        action.effect = Condition::Not("f".into());
    }
}

/// So many `and`s, with an atom within them or nothing.
fn deep(random: &mut Random, depth: usize) -> Condition {
    if random.chance(50) {
        generate::nested(Condition::Atom("f".into()), depth)
    } else {
        generate::nested(Condition::And(Vec::new()), depth - 1)
    }
}

/// A name of this length that is neither `f` nor `g`, nor one of the words that are none.
fn fresh(random: &mut Random, length: usize) -> String {
    loop {
        let name = generate::name_of_length(random, length);
        let taken = ["f", "g", "and", "not"];
        if !taken.iter().any(|other| name.eq_ignore_ascii_case(other)) {
            return name;
        }
    }
}

fn plain(random: &mut Random, draft: &Draft) -> Vec<u8> {
    let mut text = generate::spelled(random, &generate::pieces(draft), PLAIN);
    if text.contains(&b';') {
        text.push(b'\n');
    }
    text
}

/// A law of just so many bytes, more than 256 of them: repeated atoms, then blanks up to the last
/// parenthesis.
fn of_bytes(random: &mut Random, bytes: usize) -> Vec<u8> {
    let mut draft = with_action();
    let text = plain(random, &draft);
    let atoms = (bytes.saturating_sub(text.len() + 16)) / 3;
    let effects = (0..atoms).map(|_| Condition::Atom(random.one_of(&["f", "g"]).into())).collect();
    draft.members[0].actions[0].effect = Condition::And(effects);
    let mut text = generate::spelled(random, &generate::pieces(&draft), PLAIN);
    let end = text.iter().rposition(|&byte| byte == b')').expect("a parenthesis");
    text.truncate(end);
    while text.len() + 1 < bytes {
        text.push(b' ');
    }
    text.push(b')');
    text
}

/// A task whose texts are as long as so many actions can make them.
fn longest(actions: usize) -> Vec<u64> {
    let full = u128::MAX;
    let law = Law {
        facts: FACTS,
        initial: full,
        goals: vec![full; 8],
        actions: (0..actions as u128).map(|action| [action % 8, full, full, full, full]).collect(),
    };
    law.words()
}
