//! Laws in PDDL with any spelling, and damage to them: to what they mean, by piece and by byte.

use super::{families, shuffle, text, Law};
use crate::fast::Task;
use crate::interface::FACTS;
use crate::random::Random;

/// A condition or an effect.
#[derive(Clone, Debug)]
pub enum Condition {
    Atom(String),
    Not(String),
    And(Vec<Condition>),
}

#[derive(Clone, Debug)]
pub struct Action {
    pub name: String,
    pub pre: Condition,
    pub effect: Condition,
}

/// A domain and its problem.
#[derive(Clone, Debug)]
pub struct Member {
    pub domain: String,
    pub predicates: Vec<String>,
    pub actions: Vec<Action>,
    pub problem: String,
    pub of: String,
    pub initial: Vec<String>,
    pub goal: Condition,
}

/// A law before it is spelled: members, and waits as fields.
#[derive(Clone, Debug)]
pub struct Draft {
    pub members: Vec<Member>,
    pub waits: Vec<Vec<String>>,
}

/// A piece of a text: a parenthesis or a word.
pub type Piece = Vec<u8>;

// ---- a law in names

/// What a name may be; words of the grammar are names too, but for `and` and `not`.
const NAMES: [&str; 16] = [
    "define",
    "domain",
    "problem",
    "a",
    "Z",
    "and-then",
    "nota",
    "an",
    "no",
    "x0",
    "x-",
    "x_",
    "x--",
    "parameters",
    "effect",
    "andor",
];

/// A name of this length: a letter, then anything that a name has.
pub fn name_of_length(random: &mut Random, length: usize) -> String {
    let letters = b"abcdefghijklmnopqrstuvwxyzABCDEFGHIJKLMNOPQRSTUVWXYZ";
    let others = b"abcxyzABCXYZ0189-_";
    let mut name = String::from(random.one_of(letters) as char);
    while name.len() < length {
        name.push(random.one_of(others) as char);
    }
    name
}

/// Any name.
fn any_name(random: &mut Random) -> String {
    match random.below(10) {
        0..=3 => NAMES[random.below(NAMES.len())].to_string(),
        4..=5 => {
            let length = random.between(1, 2);
            name_of_length(random, length)
        }
        _ => {
            let length = random.between(3, 12);
            name_of_length(random, length)
        }
    }
}

fn is_name(name: &str) -> bool {
    !name.eq_ignore_ascii_case("and") && !name.eq_ignore_ascii_case("not")
}

/// So many names, no two the same but for letter case.
pub fn names(random: &mut Random, count: usize) -> Vec<String> {
    let plain = random.chance(40);
    let mut used = std::collections::HashSet::new();
    let mut names: Vec<String> = Vec::with_capacity(count);
    while names.len() < count {
        let name = if plain { format!("f{}", names.len()) } else { any_name(random) };
        if is_name(&name) && used.insert(name.to_ascii_lowercase()) {
            names.push(name);
        } else if !plain && random.chance(20) {
            // Short names run out.
            let name = format!("n{}", names.len());
            if used.insert(name.clone()) {
                names.push(name);
            }
        }
    }
    names
}

/// Atoms in any order, some repeated, within `and`s up to so deep.
fn condition(random: &mut Random, mut atoms: Vec<Condition>, depth: usize) -> Condition {
    if random.chance(10) {
        let again = atoms.get(random.below(atoms.len().max(1))).cloned();
        atoms.extend(again);
    }
    if random.chance(50) {
        shuffle(random, &mut atoms);
    }
    if atoms.len() == 1 && random.chance(50) {
        return atoms.remove(0);
    }
    if depth <= 1 {
        return Condition::And(atoms);
    }
    let mut parts = Vec::new();
    while !atoms.is_empty() {
        if random.chance(70) {
            parts.push(atoms.remove(0));
        } else {
            let inner = atoms.drain(..random.between(1, atoms.len())).collect();
            let depth = random.between(1, depth - 1);
            parts.push(condition(random, inner, depth));
        }
        if random.chance(5) {
            parts.push(Condition::And(Vec::new()));
        }
    }
    Condition::And(parts)
}

/// A condition within so many `and`s more.
pub fn nested(condition: Condition, depth: usize) -> Condition {
    (0..depth).fold(condition, |inner, _| Condition::And(vec![inner]))
}

fn atoms(names: &[String], mask: u128, negated: bool) -> Vec<Condition> {
    let name = |(_, name): (usize, &String)| {
        if negated {
            Condition::Not(name.clone())
        } else {
            Condition::Atom(name.clone())
        }
    };
    names.iter().enumerate().filter(|(fact, _)| mask >> fact & 1 == 1).map(name).collect()
}

/// A law in PDDL for an accepted task's words, with any names and any shape of conditions.
pub fn of_words(random: &mut Random, words: &[u64]) -> Draft {
    let Law { facts, initial: start, goals, actions } =
        Task::check(words).expect("an accepted task").law();
    let count = goals.len();
    let predicates = names(random, facts);
    let deepest = random.one_of(&[1, 1, 2, 4, 16]);
    let mut draft = Draft { members: Vec::new(), waits: Vec::new() };
    let titles = names(random, count);
    let shared = random.chance(20);
    let mut number = 0;
    for member in 0..count {
        let own: Vec<&[u128; 5]> =
            actions.iter().filter(|action| action[0] == member as u128).collect();
        let called = names(random, own.len());
        let mut written = Vec::new();
        for (&&[_, pre, wait, add, del], name) in own.iter().zip(called) {
            for fact in (0..FACTS).filter(|fact| wait >> fact & 1 == 1) {
                draft.waits.push(vec![number.to_string(), fact.to_string()]);
            }
            number += 1;
            let pre = condition(random, atoms(&predicates, pre, false), deepest);
            let mut effects = atoms(&predicates, add, false);
            effects.extend(atoms(&predicates, del, true));
            let effect = condition(random, effects, deepest);
            written.push(Action { name, pre, effect });
        }
        let mut initial: Vec<String> = atoms(&predicates, start, false)
            .into_iter()
            .map(|atom| match atom {
                Condition::Atom(name) => name,
                _ => unreachable!("an atom"),
            })
            .collect();
        if random.chance(30) {
            shuffle(random, &mut initial);
            initial.extend(initial.first().cloned());
        }
        let domain = titles[if shared { 0 } else { member }].clone();
        draft.members.push(Member {
            of: domain.clone(),
            domain,
            predicates: predicates.clone(),
            actions: written,
            problem: any_word_name(random),
            initial,
            goal: condition(random, atoms(&predicates, goals[member], false), deepest),
        });
    }
    match random.below(4) {
        0 => shuffle(random, &mut draft.waits),
        1 => draft.waits.extend(draft.waits.first().cloned()),
        _ => {}
    }
    draft
}

fn any_word_name(random: &mut Random) -> String {
    loop {
        let name = any_name(random);
        if is_name(&name) {
            return name;
        }
    }
}

// ---- damage to what a law means

/// A predicate that the text does not have.
const NOBODY: &str = "nobody-has-this";

/// Damages a law once, sometimes twice: names and numbers that are unknown, given twice or differ.
pub fn damage_meaning(random: &mut Random, draft: &mut Draft) {
    once(random, draft);
    if random.chance(30) {
        once(random, draft);
    }
}

fn once(random: &mut Random, draft: &mut Draft) {
    let at = random.below(draft.members.len());
    let first = draft.members[0].clone();
    let count: usize = draft.members.iter().map(|member| member.actions.len()).sum();
    let facts = first.predicates.len();
    let several = draft.members.len() > 1;
    let member = &mut draft.members[at];
    let own = member.predicates.len();
    let some = random.below(own.max(1));
    match random.below(25) {
        0 => member.initial.push(NOBODY.into()),
        1 => {
            member.goal = Condition::And(vec![member.goal.clone(), Condition::Atom(NOBODY.into())])
        }
        2 => change_action(random, member, |action| {
            action.pre = Condition::And(vec![action.pre.clone(), Condition::Atom(NOBODY.into())]);
        }),
        3 => change_action(random, member, |action| {
            let atom = Condition::Not(NOBODY.into());
            action.effect = Condition::And(vec![atom, action.effect.clone()]);
        }),
        4 => member.of = any_word_name(random),
        5 => member.domain = any_word_name(random),
        6 if own > 0 => {
            let again = member.predicates[some].clone();
            let everywhere = random.chance(60);
            for member in draft.members.iter_mut().filter(|_| everywhere) {
                member.predicates.push(again.to_ascii_uppercase());
            }
            if !everywhere {
                draft.members[at].predicates.push(again);
            }
        }
        7 => drop(member.actions.pop()),
        8 if member.actions.len() > 1 => {
            let name = member.actions[0].name.to_ascii_uppercase();
            member.actions.last_mut().expect("two or more").name = name;
        }
        9 if several => {
            // The same action in another member is no fault.
            let name = first.actions.first().map_or(any_word_name(random), |one| one.name.clone());
            if let Some(action) = member.actions.first_mut() {
                action.name = name;
            }
        }
        10 => member.predicates.push(any_word_name(random)),
        11 => drop(member.predicates.pop()),
        12 if own > 1 => member.predicates.swap(0, some),
        13 if own > 0 => member.predicates[some] = any_word_name(random),
        14 => drop(member.initial.pop()),
        15 if own > 0 => member.initial.push(member.predicates[some].clone()),
        16 => shuffle(random, &mut member.initial),
        17 => draft.waits.push(vec![count.to_string(), random.below(facts.max(1)).to_string()]),
        18 => draft.waits.push(vec![random.below(count.max(1)).to_string(), facts.to_string()]),
        19 => {
            let wait = [random.below(count.max(1)), random.below(facts.max(1))];
            draft.waits.push(wait.map(|number| number.to_string()).to_vec());
        }
        20 => {
            let big =
                random.one_of(&["64", "128", "256", "257", "18446744073709551615", "4294967296"]);
            draft.waits.insert(0, vec![big.to_string(), big.to_string()]);
        }
        21 => {
            // No facts at all: where atoms are left they are unknown.
            let nothing = || Condition::And(Vec::new());
            let whole = random.chance(70);
            for member in &mut draft.members {
                member.predicates.clear();
                if whole {
                    member.initial.clear();
                    member.goal = nothing();
                    for action in &mut member.actions {
                        (action.pre, action.effect) = (nothing(), nothing());
                    }
                }
            }
            if whole {
                draft.waits.clear();
            }
        }
        22 => {
            let both = Condition::Not(member.predicates.get(some).cloned().unwrap_or("f".into()));
            change_action(random, member, |action| {
                action.effect = Condition::And(vec![both, action.effect.clone()]);
            });
        }
        23 => {
            // `not` stands in effects alone.
            let not = Condition::Not(member.predicates.get(some).cloned().unwrap_or("f".into()));
            if random.chance(50) {
                member.goal = Condition::And(vec![member.goal.clone(), not]);
            } else {
                change_action(random, member, |action| action.pre = not);
            }
        }
        _ => member.problem = any_word_name(random),
    }
}

fn change_action(random: &mut Random, member: &mut Member, change: impl FnOnce(&mut Action)) {
    let count = member.actions.len();
    if let Some(action) = member.actions.get_mut(random.below(count.max(1))) {
        change(action);
    }
}

// ---- both sides of every limit

/// A law with so many facts, members and actions (the actions dealt out to the members), perhaps
/// past a limit. The last fact and the last action are used where there are any.
pub fn sized(random: &mut Random, facts: usize, members: usize, actions: usize) -> Draft {
    let predicates = names(random, facts);
    let last = |random: &mut Random| match (random.below(3), predicates.last()) {
        (0, Some(name)) => Condition::Atom(name.clone()),
        (1, Some(name)) => Condition::And(vec![Condition::Atom(name.clone())]),
        _ => Condition::And(Vec::new()),
    };
    let initial: Vec<String> = predicates.iter().filter(|_| random.chance(30)).cloned().collect();
    let mut draft = Draft { members: Vec::new(), waits: Vec::new() };
    for member in 0..members {
        let own = (actions + members - 1 - member) / members;
        let pre = last(random);
        let goal = last(random);
        let called = names(random, own);
        let effect = predicates.last().map_or(Condition::And(Vec::new()), |name| {
            Condition::And(vec![Condition::Not(name.clone()), Condition::Atom(name.clone())])
        });
        let action = |name| Action { name, pre: pre.clone(), effect: effect.clone() };
        draft.members.push(Member {
            domain: format!("d{member}"),
            predicates: predicates.clone(),
            actions: called.into_iter().map(action).collect(),
            problem: "p".into(),
            of: format!("D{member}"),
            initial: initial.clone(),
            goal,
        });
    }
    draft
}

// ---- spelling

/// The pieces of a law, all words in small letters but for the names.
pub fn pieces(draft: &Draft) -> Vec<Piece> {
    let mut pieces = Pieces(Vec::new());
    for member in &draft.members {
        pieces.put("( define ( domain").put(&member.domain).put(") ( :predicates");
        pieces.atoms(&member.predicates);
        pieces.put(")");
        for action in &member.actions {
            pieces.put("( :action").put(&action.name).put(":parameters ( ) :precondition");
            pieces.condition(&action.pre);
            pieces.put(":effect");
            pieces.condition(&action.effect);
            pieces.put(")");
        }
        pieces.put(") ( define ( problem").put(&member.problem);
        pieces.put(") ( :domain").put(&member.of).put(") ( :init");
        pieces.atoms(&member.initial);
        pieces.put(") ( :goal");
        pieces.condition(&member.goal);
        pieces.put(") )");
    }
    pieces.0
}

struct Pieces(Vec<Piece>);

impl Pieces {
    fn put(&mut self, words: &str) -> &mut Pieces {
        self.0.extend(words.split(' ').map(|word| word.as_bytes().to_vec()));
        self
    }

    fn atoms(&mut self, names: &[String]) {
        for name in names {
            self.put("(").put(name).put(")");
        }
    }

    fn condition(&mut self, condition: &Condition) {
        match condition {
            Condition::Atom(name) => self.put("(").put(name).put(")"),
            Condition::Not(name) => self.put("( not (").put(name).put(") )"),
            Condition::And(parts) => {
                self.put("( and");
                for part in parts {
                    self.condition(part);
                }
                self.put(")")
            }
        };
    }
}

/// How a text is spelled.
#[derive(Clone, Copy, Debug)]
pub struct Spelling {
    /// Of a hundred letters so many are written in the other case.
    pub turned: usize,
    /// Of a hundred places between pieces so many have more than they need.
    pub loose: usize,
    /// Of a hundred such places so many have a comment.
    pub comments: usize,
}

/// Any spelling: mostly plain ones, so that long texts are quick.
pub fn any_spelling(random: &mut Random) -> Spelling {
    Spelling {
        turned: random.one_of(&[0, 0, 10, 50, 100]),
        loose: random.one_of(&[0, 5, 30, 100]),
        comments: random.one_of(&[0, 10, 60]),
    }
}

fn is_parenthesis(piece: &[u8]) -> bool {
    piece == b"(" || piece == b")"
}

/// The bytes of a text: the pieces with what parts them.
pub fn spelled(random: &mut Random, pieces: &[Piece], spelling: Spelling) -> Vec<u8> {
    let mut text = Vec::new();
    let mut word = false;
    for piece in pieces {
        let begin = text.len();
        if random.chance(spelling.loose) {
            part(random, &mut text, spelling);
        }
        if word && !is_parenthesis(piece) && text.len() == begin {
            text.push(random.one_of(b" \t\r\n"));
        }
        word = !is_parenthesis(piece);
        for &byte in piece {
            text.push(if random.chance(spelling.turned) { turned(byte) } else { byte });
        }
    }
    if random.chance(spelling.loose) {
        part(random, &mut text, spelling);
    }
    if random.chance(10) {
        // A comment may be last without its line's end.
        text.extend(b"; ");
        text.extend(comment(random));
    }
    text
}

fn turned(byte: u8) -> u8 {
    if byte.is_ascii_alphabetic() {
        byte ^ 0x20
    } else {
        byte
    }
}

/// Blanks and comments.
fn part(random: &mut Random, text: &mut Vec<u8>, spelling: Spelling) {
    for _ in 0..random.between(1, 3) {
        if random.chance(spelling.comments) {
            text.push(b';');
            text.extend(comment(random));
            text.push(b'\n');
        } else {
            text.push(random.one_of(b"  \t\r\n"));
        }
    }
}

/// What stands in a comment: any bytes but LF.
fn comment(random: &mut Random) -> Vec<u8> {
    let length = random.one_of(&[0, 1, 3, 8]);
    (0..length)
        .map(|_| match random.below(4) {
            0 => random.one_of(b"();\r\t aZ0-_:\x00\xff\""),
            _ => random.word() as u8,
        })
        .map(|byte| if byte == b'\n' { b'\r' } else { byte })
        .collect()
}

// ---- damage to the form

/// Words that a piece may be exchanged for.
const WORDS: [&str; 40] = [
    "(",
    ")",
    "( )",
    "and",
    "AND",
    "not",
    "Not",
    "define",
    "domain",
    "problem",
    ":domain",
    ":predicates",
    ":action",
    ":parameters",
    ":precondition",
    ":effect",
    ":init",
    ":goal",
    ":requirements",
    ":types",
    ":objects",
    ":constants",
    "or",
    "forall",
    "=",
    "?x",
    "f0",
    "a",
    "0",
    "0a",
    "-a",
    "_a",
    "a:",
    ":",
    ":a",
    "a:b",
    "a.b",
    "\u{e9}",
    "( and )",
    "( not ( f0 ) )",
];

/// Damages a text by pieces: one is lost, doubled, exchanged, or put somewhere else.
pub fn damage_pieces(random: &mut Random, pieces: &mut Vec<Piece>) {
    for _ in 0..random.one_of(&[1, 1, 1, 2, 3]) {
        let count = pieces.len();
        if count == 0 {
            return;
        }
        let at = random.below(count);
        match random.below(10) {
            0 | 1 => drop(pieces.remove(at)),
            2 => pieces.insert(at, pieces[at].clone()),
            3 => pieces.swap(at, random.below(count)),
            4 if at > 0 => pieces.swap(at - 1, at),
            5 => {
                let moved = pieces.remove(at);
                pieces.insert(random.below(count), moved);
            }
            6 => pieces.truncate(at),
            7 => drop(pieces.drain(..at)),
            8 => {
                let (low, high) = (at, (at + random.between(1, 12)).min(count));
                let taken: Vec<Piece> = pieces[low..high].to_vec();
                if random.chance(50) {
                    drop(pieces.drain(low..high));
                } else {
                    pieces.splice(low..low, taken).for_each(drop);
                }
            }
            _ => {
                let words = WORDS[random.below(WORDS.len())];
                let words = words.split(' ').map(|word| word.as_bytes().to_vec());
                let end = if random.chance(60) { at + 1 } else { at };
                pieces.splice(at..end, words).for_each(drop);
            }
        }
    }
}

/// What is no name.
const NO_NAMES: [&str; 14] =
    ["and", "AND", "aNd", "not", "Not", "0", "0a", "9-", "-a", "_a", "a:b", ":a", "a:", "a.b"];

/// Gives a thing a name that is none, wherever it stands, so that nothing else is wrong.
pub fn misname(random: &mut Random, pieces: &mut [Piece]) {
    let word = |piece: &&Piece| piece[0].is_ascii_alphabetic();
    let words: Vec<Piece> = pieces.iter().filter(word).cloned().collect();
    let grammar = ["define", "domain", "problem", "and", "not"];
    let Some(old) = words.get(random.below(words.len().max(1))) else { return };
    if grammar.iter().any(|other| old.eq_ignore_ascii_case(other.as_bytes())) {
        return;
    }
    let new = NO_NAMES[random.below(NO_NAMES.len())].as_bytes();
    for piece in pieces.iter_mut().filter(|piece| piece.eq_ignore_ascii_case(old)) {
        *piece = new.to_vec();
    }
}

/// The place of a word from some place on, else the first one.
fn place(random: &mut Random, pieces: &[Piece], word: &str) -> Option<usize> {
    let is = |piece: &Piece| piece.eq_ignore_ascii_case(word.as_bytes());
    let from = random.below(pieces.len().max(1));
    let later = pieces[from..].iter().position(is).map(|at| from + at);
    later.or_else(|| pieces.iter().position(is))
}

/// The end of the condition that begins at a place, past its last parenthesis.
fn end_of(pieces: &[Piece], begin: usize) -> usize {
    let mut depth = 0;
    for (at, piece) in pieces.iter().enumerate().skip(begin) {
        match &piece[..] {
            b"(" => depth += 1,
            b")" => depth -= 1,
            _ => {}
        }
        if depth <= 0 {
            return at + 1;
        }
    }
    pieces.len()
}

/// Damages a text in a way that a reader of more than the subset would take.
pub fn near_miss(random: &mut Random, pieces: &mut Vec<Piece>) {
    let words = |words: &str| -> Vec<Piece> {
        words.split(' ').map(|word| word.as_bytes().to_vec()).collect()
    };
    let put = |pieces: &mut Vec<Piece>, at: usize, more: &str| {
        pieces.splice(at..at, words(more)).for_each(drop);
    };
    match random.below(12) {
        0 | 1 => misname(random, pieces),
        2 => {
            // A colon parts no words.
            let at = place(random, pieces, ":parameters").unwrap_or(0);
            if at > 0 {
                let joined = [&pieces[at - 1][..], &pieces[at]].concat();
                pieces.splice(at - 1..=at, [joined]).for_each(drop);
            }
        }
        3 => {
            // The effect before the precondition.
            if let Some(begin) = place(random, pieces, ":precondition") {
                let middle = end_of(pieces, begin + 1);
                let end = end_of(pieces, (middle + 1).min(pieces.len()));
                let both = [&pieces[middle..end], &pieces[begin..middle]].concat();
                pieces.splice(begin..end, both).for_each(drop);
            }
        }
        4 => {
            let section = random.one_of(&["( :requirements :strips )", "( :types )", "( )"]);
            if let Some(at) = place(random, pieces, ":predicates") {
                put(pieces, at - 1, section);
            }
        }
        5 => {
            let section = random.one_of(&["( :objects )", "( :metric )", "( )"]);
            if let Some(at) = place(random, pieces, ":init") {
                put(pieces, at - 1, section);
            }
        }
        6 => {
            if let Some(at) = place(random, pieces, ":parameters") {
                put(pieces, at + 2, "?x");
            }
        }
        7 => {
            // `()` as a condition.
            let word = random.one_of(&[":precondition", ":effect", ":goal"]);
            if let Some(at) = place(random, pieces, word) {
                let end = end_of(pieces, at + 1);
                pieces.splice(at + 1..end, words("( )")).for_each(drop);
            }
        }
        8 => {
            // A part is missing.
            let word = random.one_of(&[":precondition", ":effect"]);
            if let Some(at) = place(random, pieces, word) {
                let end = end_of(pieces, at + 1);
                drop(pieces.drain(at..end));
            }
        }
        9 => {
            let more = random.one_of(&[")", "(", "x", "( )", "( define )", ":end"]);
            pieces.extend(words(more));
        }
        10 => {
            // A domain without a problem, or a problem before its domain.
            let second = end_of(pieces, 0);
            let third = end_of(pieces, second);
            if random.chance(50) {
                drop(pieces.drain(second..third));
            } else {
                let turned = [&pieces[second..third], &pieces[..second]].concat();
                pieces.splice(..third, turned).for_each(drop);
            }
        }
        _ => {
            // A predicate with a parameter, an atom of two words.
            let closing = pieces.iter().skip(random.below(pieces.len().max(1)));
            let at = closing.clone().position(|piece| piece == b")");
            let from = pieces.len() - closing.len();
            if let Some(at) = at {
                put(pieces, from + at, random.one_of(&["?x", "x", "- object"]));
            }
        }
    }
}

/// Damages a text by bytes: one is lost, doubled or exchanged.
pub fn damage_bytes(random: &mut Random, text: &mut Vec<u8>) {
    for _ in 0..random.one_of(&[1, 1, 1, 2, 4]) {
        let count = text.len();
        let at = random.below(count + 1);
        let byte = match random.below(3) {
            0 => random.word() as u8,
            _ => random.one_of(b"()();;:-_aAzZ09 \t\r\n\x0b\x0c\x00\xa0\xff.,?=\"'/*"),
        };
        match random.below(6) {
            0 if at < count => drop(text.remove(at)),
            1 | 2 if at < count => text[at] = byte,
            3 => text.truncate(at),
            4 if at < count => text.insert(at, text[at]),
            _ => text.insert(at, byte),
        }
    }
}

// ---- the waits

/// The records of the waits.
pub fn waits(random: &mut Random, draft: &Draft) -> Vec<u8> {
    let records: Vec<String> = draft.waits.iter().map(|fields| fields.join(",")).collect();
    let mut text = records.join("\r\n").into_bytes();
    if !text.is_empty() && random.chance(80) {
        text.extend(b"\r\n");
    }
    text
}

// ---- any text

/// A law and its waits in any spelling, mostly damaged in some way.
pub fn any_text(random: &mut Random) -> (Vec<u8>, Vec<u8>) {
    let mut draft = match random.below(25) {
        0 => at_the_limits(random),
        1 => {
            let task = families::at_the_limits(random);
            of_words(random, &task)
        }
        _ => {
            let task = families::small(random);
            of_words(random, &task)
        }
    };
    if random.chance(25) {
        damage_meaning(random, &mut draft);
    }
    if random.chance(8) {
        let depth = random.one_of(&[14, 15, 16, 17]);
        deepened(random, &mut draft, depth);
    }
    if random.chance(2) {
        renamed(random, &mut draft);
    }
    let waits = any_waits(random, &draft);
    let mut pieces = pieces(&draft);
    match random.below(20) {
        0..=3 => damage_pieces(random, &mut pieces),
        4 | 5 => near_miss(random, &mut pieces),
        // No member.
        6 if random.chance(5) => pieces.clear(),
        _ => {}
    }
    let spelling = any_spelling(random);
    let mut text = spelled(random, &pieces, spelling);
    if random.chance(20) {
        damage_bytes(random, &mut text);
    }
    (text, waits)
}

/// Both sides of every limit.
fn at_the_limits(random: &mut Random) -> Draft {
    let facts = random.one_of(&[0, 1, 63, 64, 65, 127, 128, 129, 130, 258]);
    let members = random.one_of(&[1, 1, 2, 7, 8, 9, 10, 17]);
    let actions = random.one_of(&[0, 1, 255, 256, 257, 258, 520]);
    // One at its edge, the others mostly small, so that each refusal is met alone too.
    match random.below(4) {
        0 => sized(random, facts, 1, 2),
        1 => sized(random, 2, members, 2),
        2 => sized(random, 2, 2, actions),
        _ => sized(random, facts, members, actions),
    }
}

/// Puts `and`s around a condition of the law, so that so many are around what stands in it.
fn deepened(random: &mut Random, draft: &mut Draft, depth: usize) {
    let at = random.below(draft.members.len());
    let member = &mut draft.members[at];
    let action = random.below(member.actions.len().max(1));
    let within = |condition: &mut Condition| {
        let inner = std::mem::replace(condition, Condition::And(Vec::new()));
        *condition = nested(inner, depth);
    };
    match (random.below(4), member.actions.get_mut(action)) {
        (0, Some(action)) => within(&mut action.pre),
        (1, Some(action)) => within(&mut action.effect),
        (2, Some(action)) => {
            // `not` is not counted.
            let name = member.predicates.first().cloned().unwrap_or("f".into());
            action.effect = nested(Condition::Not(name), depth);
        }
        _ => within(&mut member.goal),
    }
}

/// Gives a fact a name of 10,000 letters, or of one.
fn renamed(random: &mut Random, draft: &mut Draft) {
    let length = random.one_of(&[1, 255, 256, 10_000]);
    let name = loop {
        let name = name_of_length(random, length);
        let same = |other: &String| other.eq_ignore_ascii_case(&name);
        if !draft.members[0].predicates.iter().any(same) {
            break name;
        }
    };
    let Some(old) = draft.members[0].predicates.first().cloned() else { return };
    let put = |other: &mut String| {
        if *other == old {
            *other = name.clone();
        }
    };
    fn each(condition: &mut Condition, put: &impl Fn(&mut String)) {
        match condition {
            Condition::Atom(name) | Condition::Not(name) => put(name),
            Condition::And(parts) => parts.iter_mut().for_each(|part| each(part, put)),
        }
    }
    for member in &mut draft.members {
        member.predicates.iter_mut().chain(&mut member.initial).for_each(put);
        each(&mut member.goal, &put);
        for action in &mut member.actions {
            each(&mut action.pre, &put);
            each(&mut action.effect, &put);
        }
    }
}

/// The waits, mostly whole.
fn any_waits(random: &mut Random, draft: &Draft) -> Vec<u8> {
    let mut waits = waits(random, draft);
    match random.below(20) {
        0 | 1 => text::damage(random, &mut waits),
        2 if !waits.is_empty() => {
            let at = random.below(waits.len());
            waits[at] = random.word() as u8;
        }
        3 => {
            let more = random.one_of(&[
                &b"0,0"[..],
                b"0",
                b"0,0,0",
                b"00,0",
                b"0,0\n",
                b"0,18446744073709551615",
                b"0,18446744073709551616",
                b"18446744073709551616,0",
                b"340282366920938463463374607431768211456,0",
                b"9,99999999999999999999",
            ]);
            if !waits.is_empty() && !waits.ends_with(b"\r\n") {
                waits.extend(b"\r\n");
            }
            waits.extend(more);
        }
        _ => {}
    }
    waits
}
