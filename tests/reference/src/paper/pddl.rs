//! "Laws in PDDL" (request F-1): the reader of domains and problems, and the writer. The text is
//! split into words, the words are read by the grammar, and only then are names and numbers looked
//! at, so that the refusals come in the written order by themselves.

use super::facts::Facts;
use super::task::{check, Task, ACTIONS, FACTS, MEMBERS, ROW};
use super::text;
use super::Refusal;
use std::collections::{BTreeMap, BTreeSet};
use std::fmt::Write;

/// The most `and`s around a place.
pub const DEEPEST: usize = 16;

/// A piece of the text. Words ignore letter case, so a word is kept in small letters.
#[derive(Clone, Debug, PartialEq)]
enum Piece {
    Open,
    Close,
    Word(String),
}

/// An atom of a condition or an effect; one that `not` stands before is `negated`.
#[derive(Clone, Debug)]
struct Atom {
    negated: bool,
    name: String,
}

/// An action as it is written.
#[derive(Clone, Debug)]
struct Action {
    name: String,
    precondition: Vec<Atom>,
    effect: Vec<Atom>,
}

/// A member: its domain, then its problem.
#[derive(Clone, Debug)]
struct Member {
    domain: String,
    predicates: Vec<String>,
    actions: Vec<Action>,
    /// The name of the domain that the problem is of.
    of: String,
    initial: Vec<String>,
    goal: Vec<Atom>,
}

// ---- the text

/// The pieces of a text; none where a byte outside a comment can stand in no word.
fn pieces(text: &[u8]) -> Option<Vec<Piece>> {
    let mut pieces = Vec::new();
    let mut at = 0;
    while at < text.len() {
        match text[at] {
            b' ' | b'\t' | b'\r' | b'\n' => at += 1,
            b';' => {
                while at < text.len() && text[at] != b'\n' {
                    at += 1;
                }
            }
            b'(' => {
                pieces.push(Piece::Open);
                at += 1;
            }
            b')' => {
                pieces.push(Piece::Close);
                at += 1;
            }
            _ => {
                let mut word = String::new();
                while at < text.len() && !b" \t\r\n;()".contains(&text[at]) {
                    let letter = text[at] as char;
                    if !(letter.is_ascii_alphanumeric() || "-_:".contains(letter)) {
                        return None;
                    }
                    word.push(letter.to_ascii_lowercase());
                    at += 1;
                }
                pieces.push(Piece::Word(word));
            }
        }
    }
    Some(pieces)
}

/// A letter, then letters, digits, `-` and `_`; `and` and `not` are no names.
fn is_name(word: &str) -> bool {
    let plain = |letter: char| letter.is_ascii_alphanumeric() || letter == '-' || letter == '_';
    word.starts_with(|first: char| first.is_ascii_alphabetic())
        && word.chars().all(plain)
        && word != "and"
        && word != "not"
}

/// The pieces from the next one on. Each function reads one thing of the grammar, or gives none.
struct Reading<'a> {
    pieces: &'a [Piece],
    next: usize,
}

impl Reading<'_> {
    fn ended(&self) -> bool {
        self.next == self.pieces.len()
    }

    fn is_open(&self) -> bool {
        self.pieces.get(self.next) == Some(&Piece::Open)
    }

    fn piece(&mut self) -> Option<Piece> {
        let piece = self.pieces.get(self.next)?.clone();
        self.next += 1;
        Some(piece)
    }

    fn open(&mut self) -> Option<()> {
        (self.piece()? == Piece::Open).then_some(())
    }

    fn close(&mut self) -> Option<()> {
        (self.piece()? == Piece::Close).then_some(())
    }

    fn any_word(&mut self) -> Option<String> {
        match self.piece()? {
            Piece::Word(word) => Some(word),
            _ => None,
        }
    }

    fn word(&mut self, asked: &str) -> Option<()> {
        (self.any_word()? == asked).then_some(())
    }

    fn name(&mut self) -> Option<String> {
        self.any_word().filter(|word| is_name(word))
    }

    /// `(WORD NAME)`
    fn titled(&mut self, asked: &str) -> Option<String> {
        self.open()?;
        self.word(asked)?;
        let name = self.name()?;
        self.close()?;
        Some(name)
    }

    /// `(SECTION (NAME)..)`
    fn names(&mut self, section: &str) -> Option<Vec<String>> {
        self.open()?;
        self.word(section)?;
        let mut names = Vec::new();
        while self.is_open() {
            self.open()?;
            names.push(self.name()?);
            self.close()?;
        }
        self.close()?;
        Some(names)
    }

    /// A condition, or an effect where `not` is allowed, with so many `and`s around it.
    fn condition(&mut self, depth: usize, effect: bool) -> Option<Vec<Atom>> {
        self.open()?;
        let word = self.any_word()?;
        let mut atoms = Vec::new();
        if word == "and" {
            if depth == DEEPEST {
                return None;
            }
            while self.is_open() {
                atoms.extend(self.condition(depth + 1, effect)?);
            }
        } else if word == "not" && effect {
            self.open()?;
            atoms.push(Atom { negated: true, name: self.name()? });
            self.close()?;
        } else if is_name(&word) {
            atoms.push(Atom { negated: false, name: word });
        } else {
            return None;
        }
        self.close()?;
        Some(atoms)
    }

    /// `(:action NAME :parameters () :precondition CONDITION :effect EFFECT)`
    fn action(&mut self) -> Option<Action> {
        self.open()?;
        self.word(":action")?;
        let name = self.name()?;
        self.word(":parameters")?;
        self.open()?;
        self.close()?;
        self.word(":precondition")?;
        let precondition = self.condition(0, false)?;
        self.word(":effect")?;
        let effect = self.condition(0, true)?;
        self.close()?;
        Some(Action { name, precondition, effect })
    }

    /// A domain, and the problem after it.
    fn member(&mut self) -> Option<Member> {
        self.open()?;
        self.word("define")?;
        let domain = self.titled("domain")?;
        let predicates = self.names(":predicates")?;
        let mut actions = Vec::new();
        while self.is_open() {
            actions.push(self.action()?);
        }
        self.close()?;
        self.open()?;
        self.word("define")?;
        self.titled("problem")?;
        let of = self.titled(":domain")?;
        let initial = self.names(":init")?;
        self.open()?;
        self.word(":goal")?;
        let goal = self.condition(0, false)?;
        self.close()?;
        self.close()?;
        Some(Member { domain, predicates, actions, of, initial, goal })
    }
}

/// The members of a text, at least one; none where the text is outside the subset.
fn members(text: &[u8]) -> Option<Vec<Member>> {
    let pieces = pieces(text)?;
    let mut reading = Reading { pieces: &pieces, next: 0 };
    let mut members = Vec::new();
    while !reading.ended() || members.is_empty() {
        members.push(reading.member()?);
    }
    Some(members)
}

/// The waits: records of two fields, by the text reader's rules, any number.
fn pairs(waits: &[u8]) -> Option<Vec<(u64, u64)>> {
    let pair = |record: &[u8]| {
        let fields: Vec<&[u8]> = record.split(|&byte| byte == b',').collect();
        let [action, fact] = fields[..] else { return None };
        Some((text::number(action)?, text::number(fact)?))
    };
    text::records(waits).into_iter().map(pair).collect()
}

// ---- names and numbers

/// The numbers of a domain's predicates; none where one is named twice.
fn numbers(predicates: &[String]) -> Option<BTreeMap<&str, usize>> {
    let mut numbers = BTreeMap::new();
    for (number, name) in predicates.iter().enumerate() {
        if numbers.insert(name.as_str(), number).is_some() {
            return None;
        }
    }
    Some(numbers)
}

/// Some name of the member is unknown, or named twice.
fn misnamed(member: &Member) -> bool {
    let Some(numbers) = numbers(&member.predicates) else { return true };
    let unknown = |name: &String| !numbers.contains_key(name.as_str());
    let unknowns = |atoms: &[Atom]| atoms.iter().any(|atom| unknown(&atom.name));
    let names: BTreeSet<&String> = member.actions.iter().map(|action| &action.name).collect();
    names.len() < member.actions.len()
        || member.actions.iter().any(|one| unknowns(&one.precondition) || unknowns(&one.effect))
        || member.of != member.domain
        || member.initial.iter().any(unknown)
        || unknowns(&member.goal)
}

/// Refusal 17: a name or number unknown, named twice, or different between members.
fn unknown(members: &[Member], waits: &[(u64, u64)]) -> bool {
    let first = &members[0];
    let set = |member: &Member| member.initial.iter().cloned().collect::<BTreeSet<String>>();
    let differs =
        |member: &Member| member.predicates != first.predicates || set(member) != set(first);
    let facts = first.predicates.len() as u64;
    let actions: usize = members.iter().map(|member| member.actions.len()).sum();
    let absent = |&(action, fact): &(u64, u64)| action >= actions as u64 || fact >= facts;
    members.iter().any(misnamed) || members.iter().any(differs) || waits.iter().any(absent)
}

/// The words of the task that a text and its waits tell.
pub fn words(text: &[u8], waits: &[u8]) -> Result<Vec<u64>, Refusal> {
    let waits = pairs(waits).ok_or(15u64)?;
    let members = members(text).ok_or(16u64)?;
    if unknown(&members, &waits) {
        return Err(17);
    }
    let first = &members[0];
    let actions: usize = members.iter().map(|member| member.actions.len()).sum();
    let sizes = [first.predicates.len(), members.len(), actions];
    if sizes.iter().zip([FACTS, MEMBERS, ACTIONS]).any(|(&size, most)| size as u64 > most) {
        return Err(18);
    }
    let numbers = numbers(&first.predicates).expect("each is named once");
    let mask = |names: &mut dyn Iterator<Item = &String>| {
        Facts::of_numbers(names.map(|name| numbers[name.as_str()] as u64)).words()
    };
    let part = |atoms: &[Atom], negated: bool| {
        mask(&mut atoms.iter().filter(|atom| atom.negated == negated).map(|atom| &atom.name))
    };
    let mut words = sizes.map(|size| size as u64).to_vec();
    words.extend(mask(&mut first.initial.iter()));
    words.resize(ROW, 0);
    for (number, member) in members.iter().enumerate() {
        words.push(number as u64);
        words.extend(part(&member.goal, false));
        words.resize(ROW * (2 + number), 0);
    }
    let mut count = 0;
    for (number, member) in members.iter().enumerate() {
        for action in &member.actions {
            let waited = waits.iter().filter(|wait| wait.0 == count).map(|wait| wait.1);
            words.push(number as u64);
            words.extend(part(&action.precondition, false));
            words.extend(Facts::of_numbers(waited).words());
            words.extend(part(&action.effect, false));
            words.extend(part(&action.effect, true));
            count += 1;
        }
    }
    check(&words)?;
    Ok(words)
}

/// The reader: the number of records. 14 leaves the slice as it was, and every other refusal leaves
/// zeros.
pub fn read(text: &[u8], waits: &[u8], slice: &mut [u64]) -> Result<usize, Refusal> {
    let told = words(text, waits);
    if matches!(&told, Ok(words) if slice.len() < words.len()) {
        return Err(14);
    }
    slice.fill(0);
    let words = told?;
    slice[..words.len()].copy_from_slice(&words);
    Ok(words.len() / ROW)
}

// ---- the writer

/// The words of a task with its actions grouped by member, else in order.
pub fn grouped(words: &[u64]) -> Vec<u64> {
    let members = words[1] as usize;
    let (front, actions) = words.split_at(ROW * (1 + members));
    let mut rows: Vec<&[u64]> = actions.chunks(ROW).collect();
    rows.sort_by_key(|row| row[0]);
    [front, &rows.concat()].concat()
}

/// The two texts of an accepted task.
pub fn texts(task: &Task) -> (String, String) {
    let put = "a string takes every text";
    let (mut text, mut waits) = (String::new(), String::new());
    let atoms = |facts: &Facts, front: &str, back: &str| {
        facts.numbers().map(|fact| format!(" {front}(f{fact}){back}")).collect::<String>()
    };
    let everything: String = (0..task.facts).map(|fact| format!(" (f{fact})")).collect();
    let mut count = 0;
    for (member, goal) in task.goals.iter().enumerate() {
        write!(text, "(define (domain member{member})\n (:predicates{everything})").expect(put);
        for (_, action) in task.own(member) {
            let (adds, dels) = (atoms(&action.add, "", ""), atoms(&action.del, "(not ", ")"));
            write!(text, "\n (:action a{count}\n  :parameters ()").expect(put);
            write!(text, "\n  :precondition (and{})", atoms(&action.pre, "", "")).expect(put);
            write!(text, "\n  :effect (and{adds}{dels}))").expect(put);
            for fact in action.wait.numbers() {
                write!(waits, "{count},{fact}\r\n").expect(put);
            }
            count += 1;
        }
        write!(text, ")\n(define (problem member{member})\n (:domain member{member})").expect(put);
        write!(text, "\n (:init{})", atoms(&task.initial, "", "")).expect(put);
        writeln!(text, "\n (:goal (and{})))", atoms(goal, "", "")).expect(put);
    }
    (text, waits)
}

/// The writer: the lengths of the two texts, which stand at the front of the slices with zeros
/// behind them. A refusal writes nothing.
pub fn write(task: &[u64], text: &mut [u8], waits: &mut [u8]) -> Result<[usize; 2], Refusal> {
    let told = texts(&check(task)?);
    if text.len() < told.0.len() || waits.len() < told.1.len() {
        return Err(14);
    }
    for (slice, told) in [(text, &told.0), (waits, &told.1)] {
        slice.fill(0);
        slice[..told.len()].copy_from_slice(told.as_bytes());
    }
    Ok([told.0.len(), told.1.len()])
}
