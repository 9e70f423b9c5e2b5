//! Laws in PDDL: one pass over the bytes, names in hash maps, and the writer.

use super::Task;
use crate::interface::{FACTS, ROW, ROWS};
use crate::law;
use std::collections::{HashMap, HashSet};
use std::io::Write;

/// How the reader reads. Each default is right; the tests make readers with one wrong thing.
pub trait Manner {
    const FOLDS_NAMES: bool = true;
    const FOLDS_WORDS: bool = true;
    const DEEPEST: usize = 16;
    const COUNTS_EMPTY: bool = true;
    const COUNTS_NOT: bool = false;
    const NOT_IN_CONDITIONS: bool = false;
    const COMMENT_ENDS_AT_CR: bool = false;
    const COMMENT_NEEDS_END: bool = false;
    const COMMENT_IS_CHECKED: bool = false;
    const TAB_IS_BLANK: bool = true;
    const COLON_PARTS: bool = false;
    const NAME_FROM_DIGIT: bool = false;
    const NAME_OF_LENGTH: usize = usize::MAX;
    const NAME_AND: bool = false;
    const ANY_END: bool = false;
    const EMPTY_LAW: bool = false;
    const PARTS_IN_ANY_ORDER: bool = false;
    const NAMES_AT_ONCE: bool = false;
    const DOMAIN_IS_NAMED: bool = true;
    const PREDICATES_ONCE: bool = true;
    const ACTIONS_ONCE: bool = true;
    const ACTIONS_ONCE_IN_ALL: bool = false;
    const PREDICATES_IN_ORDER: bool = true;
    const INITIAL_AS_SETS: bool = true;
    const INITIAL_LOOKED_AT: bool = true;
    const REPEATED_COUNTS_ONCE: bool = true;
    const ADDED_STAYS_DELETED: bool = true;
    const ACTIONS_COUNT_ON: bool = true;
    const WAITS_FIRST: bool = true;
    const WAITS_KNOWN_BY_LIMITS: bool = false;
    const WAITS_WRAP: bool = false;
    const WAITS_LEADING_ZERO: bool = false;
    const WAITS_LF: bool = false;
    const LIMITS_FIRST: bool = false;
    const FACTS: usize = FACTS;
    const MEMBERS: usize = 8;
    const ACTIONS: usize = 256;
    const WAITS_CHECKED: bool = true;
    const ROOM_FIRST: bool = false;
    const ROOM_OF_THE_TEXT: bool = false;
    const CLEARS_BEYOND: bool = true;
    const CLEARS_REFUSED: bool = true;
    const CLEARS_SHORT: bool = false;

    /// The bit that stands for a fact.
    fn bit(fact: usize) -> u128 {
        1 << fact
    }
}

/// The reader as it has to be.
pub struct Right;

impl Manner for Right {}

const TEXT: u64 = 15;
const FORM: u64 = 16;
const UNKNOWN: u64 = 17;
const MANY: u64 = 18;

enum Token<'a> {
    Open,
    Close,
    Word(&'a [u8]),
}

/// The text, and the next byte to read.
struct Scan<'a> {
    text: &'a [u8],
    at: usize,
}

impl<'a> Scan<'a> {
    /// The next token; none at the end.
    fn token<M: Manner>(&mut self) -> Result<Option<Token<'a>>, u64> {
        while let Some(&byte) = self.text.get(self.at) {
            let begin = self.at;
            self.at += 1;
            match byte {
                b' ' | b'\r' | b'\n' => {}
                b'\t' if M::TAB_IS_BLANK => {}
                b';' => {
                    let ends = |&byte: &u8| byte == b'\n' || M::COMMENT_ENDS_AT_CR && byte == b'\r';
                    let rest = &self.text[self.at..];
                    let length = rest.iter().position(ends);
                    if length.is_none() && M::COMMENT_NEEDS_END {
                        return Err(FORM);
                    }
                    let length = length.unwrap_or(rest.len());
                    if M::COMMENT_IS_CHECKED && !rest[..length].is_ascii() {
                        return Err(FORM);
                    }
                    self.at += length;
                }
                b'(' => return Ok(Some(Token::Open)),
                b')' => return Ok(Some(Token::Close)),
                _ => {
                    let ends = |byte: u8| match byte {
                        b' ' | b'\t' | b'\r' | b'\n' | b';' | b'(' | b')' => true,
                        b':' => M::COLON_PARTS,
                        _ => false,
                    };
                    while self.text.get(self.at).is_some_and(|&byte| !ends(byte)) {
                        self.at += 1;
                    }
                    return Ok(Some(Token::Word(&self.text[begin..self.at])));
                }
            }
        }
        Ok(None)
    }
}

/// An action's masks.
struct Masks {
    member: u64,
    pre: u128,
    add: u128,
    del: u128,
}

/// What has been read.
#[derive(Default)]
struct Law {
    /// The first domain's predicates, by name and in order.
    numbers: HashMap<Vec<u8>, usize>,
    predicates: Vec<Vec<u8>>,
    /// The first problem's facts.
    initial: Vec<bool>,
    initial_list: Vec<usize>,
    goals: Vec<u128>,
    actions: Vec<Masks>,
    all_actions: HashSet<Vec<u8>>,
    /// A name is unknown, given twice, or differs between members.
    unknown: bool,
}

/// The bit of a fact; none where no task has so many.
fn bit<M: Manner>(fact: usize) -> u128 {
    if fact < FACTS {
        M::bit(fact)
    } else {
        0
    }
}

/// Puts the fact of an atom into a mask.
fn put<M: Manner>(mask: &mut u128, fact: usize) {
    let bit = bit::<M>(fact);
    if !M::REPEATED_COUNTS_ONCE && *mask & bit != 0 {
        *mask &= !bit;
    } else {
        *mask |= bit;
    }
}

struct Reader<'a, M> {
    scan: Scan<'a>,
    ahead: Option<Token<'a>>,
    law: Law,
    buffer: Vec<u8>,
    manner: std::marker::PhantomData<M>,
}

impl<'a, M: Manner> Reader<'a, M> {
    fn new(text: &'a [u8]) -> Result<Self, u64> {
        let mut scan = Scan { text, at: 0 };
        let ahead = scan.token::<M>()?;
        let (law, manner) = (Law::default(), std::marker::PhantomData);
        Ok(Reader { scan, ahead, law, buffer: Vec::new(), manner })
    }

    fn step(&mut self) -> Result<Option<Token<'a>>, u64> {
        let next = self.scan.token::<M>()?;
        Ok(std::mem::replace(&mut self.ahead, next))
    }

    fn at_open(&self) -> bool {
        matches!(self.ahead, Some(Token::Open))
    }

    fn open(&mut self) -> Result<(), u64> {
        match self.step()? {
            Some(Token::Open) => Ok(()),
            _ => Err(FORM),
        }
    }

    fn close(&mut self) -> Result<(), u64> {
        match self.step()? {
            Some(Token::Close) => Ok(()),
            _ => Err(FORM),
        }
    }

    fn any_word(&mut self) -> Result<&'a [u8], u64> {
        match self.step()? {
            Some(Token::Word(word)) => Ok(word),
            _ => Err(FORM),
        }
    }

    fn is(word: &[u8], asked: &str) -> bool {
        if M::FOLDS_WORDS {
            word.eq_ignore_ascii_case(asked.as_bytes())
        } else {
            word == asked.as_bytes()
        }
    }

    fn word(&mut self, asked: &str) -> Result<(), u64> {
        if Self::is(self.any_word()?, asked) {
            Ok(())
        } else {
            Err(FORM)
        }
    }

    fn name_of(word: &'a [u8]) -> Result<&'a [u8], u64> {
        let first = word[0].is_ascii_alphabetic() || M::NAME_FROM_DIGIT && word[0].is_ascii_digit();
        let plain = |&byte: &u8| byte.is_ascii_alphanumeric() || byte == b'-' || byte == b'_';
        let other = word.eq_ignore_ascii_case(b"and") || word.eq_ignore_ascii_case(b"not");
        let other = other && !M::NAME_AND;
        if first && !other && word.len() <= M::NAME_OF_LENGTH && word.iter().all(plain) {
            Ok(word)
        } else {
            Err(FORM)
        }
    }

    fn name(&mut self) -> Result<&'a [u8], u64> {
        Self::name_of(self.any_word()?)
    }

    fn folded(name: &[u8]) -> Vec<u8> {
        if M::FOLDS_NAMES {
            name.to_ascii_lowercase()
        } else {
            name.to_vec()
        }
    }

    fn same(one: &[u8], other: &[u8]) -> bool {
        if M::FOLDS_NAMES {
            one.eq_ignore_ascii_case(other)
        } else {
            one == other
        }
    }

    fn misnamed(&mut self) -> Result<(), u64> {
        self.law.unknown = true;
        if M::NAMES_AT_ONCE {
            Err(UNKNOWN)
        } else {
            Ok(())
        }
    }

    /// The number of a predicate.
    fn fact(&mut self, name: &[u8]) -> Result<Option<usize>, u64> {
        self.buffer.clear();
        self.buffer.extend(name);
        if M::FOLDS_NAMES {
            self.buffer.make_ascii_lowercase();
        }
        let found = self.law.numbers.get(&self.buffer).copied();
        if found.is_none() {
            self.misnamed()?;
        }
        Ok(found)
    }

    fn titled(&mut self, asked: &str) -> Result<&'a [u8], u64> {
        self.open()?;
        self.word(asked)?;
        let name = self.name()?;
        self.close()?;
        Ok(name)
    }

    fn predicates(&mut self, first: bool) -> Result<(), u64> {
        self.open()?;
        self.word(":predicates")?;
        let mut count = 0;
        while self.at_open() {
            self.open()?;
            let name = self.name()?;
            self.close()?;
            if first {
                let name = Self::folded(name);
                let again = self.law.numbers.insert(name.clone(), count).is_some();
                if again && M::PREDICATES_ONCE {
                    self.misnamed()?;
                }
                self.law.predicates.push(name);
            } else if M::PREDICATES_IN_ORDER {
                let same = self.law.predicates.get(count);
                if !same.is_some_and(|same| Self::same(same, name)) {
                    self.misnamed()?;
                }
            } else {
                self.fact(name)?;
            }
            count += 1;
        }
        self.close()?;
        if count != self.law.predicates.len() {
            self.misnamed()?;
        }
        Ok(())
    }

    /// The masks of what a condition or an effect adds and deletes.
    fn condition(
        &mut self,
        depth: usize,
        effect: bool,
        masks: &mut (u128, u128),
    ) -> Result<(), u64> {
        self.open()?;
        let word = self.any_word()?;
        if word.eq_ignore_ascii_case(b"and") && Self::is(word, "and") {
            let empty = matches!(self.ahead, Some(Token::Close));
            if depth >= M::DEEPEST && (M::COUNTS_EMPTY || !empty) {
                return Err(FORM);
            }
            while self.at_open() {
                self.condition(depth + 1, effect, masks)?;
            }
        } else if Self::is(word, "not") && (effect || M::NOT_IN_CONDITIONS) {
            if M::COUNTS_NOT && depth >= M::DEEPEST {
                return Err(FORM);
            }
            self.open()?;
            let name = self.name()?;
            self.close()?;
            if let Some(fact) = self.fact(name)? {
                put::<M>(&mut masks.1, fact);
            }
        } else {
            let name = Self::name_of(word)?;
            if let Some(fact) = self.fact(name)? {
                put::<M>(&mut masks.0, fact);
            }
        }
        self.close()
    }

    fn action(&mut self, names: &mut HashSet<Vec<u8>>, member: u64) -> Result<(), u64> {
        self.open()?;
        self.word(":action")?;
        let name = Self::folded(self.name()?);
        let again = M::ACTIONS_ONCE_IN_ALL && !self.law.all_actions.insert(name.clone());
        if !names.insert(name) && M::ACTIONS_ONCE || again {
            self.misnamed()?;
        }
        self.word(":parameters")?;
        self.open()?;
        self.close()?;
        let (mut pre, mut effect) = ((0, 0), (0, 0));
        let word = self.any_word()?;
        let turned = M::PARTS_IN_ANY_ORDER && Self::is(word, ":effect");
        if !turned && !Self::is(word, ":precondition") {
            return Err(FORM);
        }
        if turned {
            self.condition(0, true, &mut effect)?;
            self.word(":precondition")?;
            self.condition(0, false, &mut pre)?;
        } else {
            self.condition(0, false, &mut pre)?;
            self.word(":effect")?;
            self.condition(0, true, &mut effect)?;
        }
        self.close()?;
        let (mut add, del) = effect;
        if !M::ADDED_STAYS_DELETED {
            add &= !del;
        }
        self.law.actions.push(Masks { member, pre: pre.0, add, del });
        Ok(())
    }

    fn initial(&mut self, first: bool) -> Result<(), u64> {
        self.open()?;
        self.word(":init")?;
        let mut found = vec![false; self.law.predicates.len()];
        let mut list = Vec::new();
        while self.at_open() {
            self.open()?;
            let name = self.name()?;
            self.close()?;
            if let Some(fact) = self.fact(name)? {
                found[fact] = true;
                list.push(fact);
            }
        }
        self.close()?;
        if first {
            self.law.initial = found;
            self.law.initial_list = list;
        } else if M::INITIAL_LOOKED_AT {
            let same = if M::INITIAL_AS_SETS {
                self.law.initial == found
            } else {
                self.law.initial_list == list
            };
            if !same {
                self.misnamed()?;
            }
        }
        Ok(())
    }

    fn member(&mut self) -> Result<(), u64> {
        let member = self.law.goals.len() as u64;
        self.open()?;
        self.word("define")?;
        let domain = self.titled("domain")?;
        self.predicates(member == 0)?;
        let mut names = HashSet::new();
        while self.at_open() {
            self.action(&mut names, member)?;
        }
        self.close()?;
        self.open()?;
        self.word("define")?;
        self.titled("problem")?;
        let of = self.titled(":domain")?;
        if M::DOMAIN_IS_NAMED && !Self::same(of, domain) {
            self.misnamed()?;
        }
        self.initial(member == 0)?;
        self.open()?;
        self.word(":goal")?;
        let mut goal = (0, 0);
        self.condition(0, false, &mut goal)?;
        self.close()?;
        self.close()?;
        self.law.goals.push(goal.0);
        Ok(())
    }

    fn law(mut self) -> Result<Law, u64> {
        if M::EMPTY_LAW && self.ahead.is_none() {
            return Ok(self.law);
        }
        self.member()?;
        while self.ahead.is_some() && (!M::ANY_END || self.at_open()) {
            self.member()?;
        }
        Ok(self.law)
    }
}

/// The waits, pairs of action and fact.
fn pairs<M: Manner>(waits: &[u8]) -> Option<Vec<[u64; 2]>> {
    let mut pairs = Vec::new();
    let (mut first, mut field): (Option<u64>, Option<u64>) = (None, None);
    let mut bytes = waits.iter().copied();
    while let Some(byte) = bytes.next() {
        match byte {
            b'0'..=b'9' => {
                let digit = (byte - b'0') as u64;
                field = Some(match field {
                    None => digit,
                    Some(0) if !M::WAITS_LEADING_ZERO => return None,
                    Some(value) if M::WAITS_WRAP => value.wrapping_mul(10).wrapping_add(digit),
                    Some(value) => value.checked_mul(10)?.checked_add(digit)?,
                });
            }
            b',' if first.is_none() => first = Some(field.take()?),
            b'\r' if bytes.next() == Some(b'\n') => pairs.push([first.take()?, field.take()?]),
            b'\n' if M::WAITS_LF => pairs.push([first.take()?, field.take()?]),
            _ => return None,
        }
    }
    if first.is_some() || field.is_some() {
        pairs.push([first?, field?]);
    }
    Some(pairs)
}

/// The task's words.
fn told<M: Manner>(text: &[u8], waits: &[u8]) -> Result<Vec<u64>, u64> {
    let pairs = pairs::<M>(waits).ok_or(TEXT);
    if M::WAITS_FIRST {
        pairs.as_ref().map_err(|&refusal| refusal)?;
    }
    let law = Reader::<M>::new(text)?.law()?;
    let pairs = pairs?;
    let (facts, members, actions) = (law.predicates.len(), law.goals.len(), law.actions.len());
    let limits =
        if M::WAITS_KNOWN_BY_LIMITS { [256, FACTS as u64] } else { [actions as u64, facts as u64] };
    let absent = |pair: &[u64; 2]| pair[0] >= limits[0] || pair[1] >= limits[1];
    let unknown = law.unknown || pairs.iter().any(absent);
    let many = facts > M::FACTS || members > M::MEMBERS || actions > M::ACTIONS;
    if many && M::LIMITS_FIRST {
        return Err(MANY);
    } else if unknown {
        return Err(UNKNOWN);
    } else if many {
        return Err(MANY);
    }
    let holding = law.initial.iter().enumerate().filter(|(_, &holds)| holds);
    let initial = holding.fold(0, |mask, (fact, _)| mask | bit::<M>(fact));
    let mut waited = vec![0; actions];
    for [action, fact] in pairs {
        let waits_for = bit::<M>(fact as usize);
        if M::ACTIONS_COUNT_ON {
            if let Some(wait) = waited.get_mut(action as usize) {
                *wait |= waits_for;
            }
            continue;
        }
        // Wrong: the number is looked for in each member anew.
        for member in 0..members as u64 {
            let own = |row: &usize| law.actions[*row].member == member;
            if let Some(row) = (0..actions).filter(own).nth(action as usize) {
                waited[row] |= waits_for;
            }
        }
    }
    if !M::WAITS_CHECKED {
        for (wait, action) in waited.iter_mut().zip(&law.actions) {
            *wait &= action.pre;
        }
    }
    let row = |(action, &wait): (&Masks, &u128)| {
        let &Masks { member, pre, add, del } = action;
        [u128::from(member), pre, wait, add, del]
    };
    let told = law::Law {
        facts,
        initial,
        goals: law.goals,
        actions: law.actions.iter().zip(&waited).map(row).collect(),
    };
    let words = told.words();
    Task::check(&words)?;
    Ok(words)
}

/// The reader in this manner.
pub fn read_by<M: Manner>(text: &[u8], waits: &[u8], words: &mut [u64]) -> Result<[u64; 1], u64> {
    let room = if M::ROOM_OF_THE_TEXT { ROW * ROWS } else { 2 * ROW };
    if (M::ROOM_FIRST || M::ROOM_OF_THE_TEXT) && words.len() < room {
        return Err(14);
    }
    let told = told::<M>(text, waits);
    match told {
        Ok(told) if words.len() < told.len() => {
            if M::CLEARS_SHORT {
                words.fill(0);
            }
            Err(14)
        }
        Ok(told) => {
            let (front, back) = words.split_at_mut(told.len());
            front.copy_from_slice(&told);
            if M::CLEARS_BEYOND {
                back.fill(0);
            }
            Ok([(told.len() / ROW) as u64])
        }
        Err(refusal) => {
            if M::CLEARS_REFUSED {
                words.fill(0);
            }
            Err(refusal)
        }
    }
}

/// The two texts of a task.
pub fn texts(words: &[u64]) -> Result<[Vec<u8>; 2], u64> {
    let task = Task::check(words)?;
    let put = "a vector takes every text";
    let (mut text, mut waits) = (Vec::new(), Vec::new());
    let atoms = |text: &mut Vec<u8>, mask: u128, front: &str, back: &str| {
        for fact in (0..FACTS).filter(|fact| mask >> fact & 1 == 1) {
            write!(text, " {front}(f{fact}){back}").expect(put);
        }
    };
    let mut count = 0;
    for (member, own) in task.own.iter().enumerate() {
        write!(text, "(define (domain member{member})\n (:predicates").expect(put);
        atoms(&mut text, task.known, "", "");
        text.push(b')');
        for &number in own {
            let action = task.actions[number as usize];
            write!(text, "\n (:action a{count}\n  :parameters ()\n  :precondition (and")
                .expect(put);
            atoms(&mut text, action.pre, "", "");
            text.extend(b")\n  :effect (and");
            atoms(&mut text, action.add, "", "");
            atoms(&mut text, action.del, "(not ", ")");
            text.extend(b"))");
            for fact in (0..FACTS).filter(|fact| action.wait >> fact & 1 == 1) {
                write!(waits, "{count},{fact}\r\n").expect(put);
            }
            count += 1;
        }
        write!(text, ")\n(define (problem member{member})\n (:domain member{member})\n (:init")
            .expect(put);
        atoms(&mut text, task.initial, "", "");
        text.extend(b")\n (:goal (and");
        atoms(&mut text, task.goals[member], "", "");
        text.extend(b")))\n");
    }
    Ok([text, waits])
}

pub(super) fn write(task: &[u64], text: &mut [u8], waits: &mut [u8]) -> Result<[u64; 2], u64> {
    let told = texts(task)?;
    if text.len() < told[0].len() || waits.len() < told[1].len() {
        return Err(14);
    }
    for (slice, told) in [text, waits].into_iter().zip(&told) {
        let (front, back) = slice.split_at_mut(told.len());
        front.copy_from_slice(told);
        back.fill(0);
    }
    Ok(told.map(|told| told.len() as u64))
}
