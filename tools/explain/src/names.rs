//! Names of facts, members and actions: from a names file, or else their numbers. What a file holds
//! is cleaned before it is shown: no name ends a line, moves a cursor or turns the reading order.

use crate::law::Law;
use std::collections::BTreeMap;

/// The most characters of a name that are shown.
const LONGEST: usize = 80;
/// The most lines of a names file that are complained about.
const COMPLAINTS: usize = 3;

/// What has a name.
#[derive(Clone, Copy, Debug, PartialEq, Eq, PartialOrd, Ord)]
enum Kind {
    Fact,
    Member,
    Action,
}

impl Kind {
    const ALL: [(&'static str, Kind); 3] =
        [("fact", Kind::Fact), ("member", Kind::Member), ("action", Kind::Action)];

    fn word(self) -> &'static str {
        Kind::ALL[self as usize].0
    }
}

#[derive(Clone)]
pub struct Names {
    given: BTreeMap<(Kind, usize), String>,
    /// The most characters of a name.
    longest: usize,
}

impl Names {
    /// No names: numbers.
    pub fn none() -> Names {
        Names { given: BTreeMap::new(), longest: LONGEST }
    }

    /// The names of a file's lines `fact,NUMBER,NAME`, `member,..` and `action,..`, and what is
    /// wrong with the lines that were passed over.
    pub fn read(text: &[u8], law: &Law) -> (Names, Vec<String>) {
        let mut names = Names::none();
        let (mut wrong, mut more) = (Vec::new(), 0);
        for (place, line) in text.split(|&byte| byte == b'\n').enumerate() {
            let line = line.strip_suffix(b"\r").unwrap_or(line);
            if line.is_empty() {
                continue;
            }
            if let Err(why) = names.take(line, law) {
                if wrong.len() < COMPLAINTS {
                    wrong.push(format!("line {}: {why}", place + 1));
                } else {
                    more += 1;
                }
            }
        }
        if more > 0 {
            wrong.push(format!("{more} more lines are passed over"));
        }
        (names, wrong)
    }

    fn take(&mut self, line: &[u8], law: &Law) -> Result<(), String> {
        let mut fields = line.splitn(3, |&byte| byte == b',');
        let (Some(kind), Some(number), Some(name)) = (fields.next(), fields.next(), fields.next())
        else {
            return Err("it is not KIND,NUMBER,NAME".to_string());
        };
        let Some(&(word, kind)) = Kind::ALL.iter().find(|(word, _)| word.as_bytes() == kind) else {
            return Err("its kind is not fact, member or action".to_string());
        };
        let number = std::str::from_utf8(number).ok().and_then(|told| told.parse::<u16>().ok());
        let most = match kind {
            Kind::Fact => law.facts,
            Kind::Member => law.members,
            Kind::Action => law.actions,
        };
        let Some(number) = number.map(usize::from).filter(|&number| number < most) else {
            return Err(format!("the law has no such {word}"));
        };
        let name = clean(unquoted(name).as_ref());
        if name.is_empty() {
            return Err("the name is empty".to_string());
        }
        if self.given.contains_key(&(kind, number)) {
            return Err(format!("{word} {number} has a name already"));
        }
        self.given.insert((kind, number), name);
        Ok(())
    }

    /// The same names, each with at most so many characters.
    pub fn cut(&self, longest: usize) -> Names {
        Names { given: self.given.clone(), longest }
    }

    fn name(&self, kind: Kind, number: usize) -> String {
        match self.given.get(&(kind, number)) {
            Some(name) => cut(name, self.longest),
            None => format!("{} {number}", kind.word()),
        }
    }

    pub fn fact(&self, fact: u32) -> String {
        self.name(Kind::Fact, fact as usize)
    }

    pub fn member(&self, member: usize) -> String {
        self.name(Kind::Member, member)
    }

    pub fn action(&self, action: u16) -> String {
        self.name(Kind::Action, usize::from(action))
    }

    /// An action with its member, where its name does not begin with that.
    pub fn step(&self, law: &Law, action: u16) -> String {
        let (name, member) = (self.action(action), self.member(law.owner(action)));
        match name.strip_prefix(&member) {
            Some(rest) if rest.starts_with(' ') => name,
            _ => format!("{member}: {name}"),
        }
    }
}

/// A name of at most so many characters; what was cut is told by an ellipsis.
pub fn cut(name: &str, longest: usize) -> String {
    if name.chars().count() <= longest {
        return name.to_string();
    }
    let kept: String = name.chars().take(longest.saturating_sub(1)).collect();
    format!("{}…", kept.trim_end())
}

/// A field without the quotes around it, as RFC 4180 has them.
fn unquoted(field: &[u8]) -> Vec<u8> {
    match field {
        [b'"', inner @ .., b'"'] => {
            let mut told = Vec::new();
            let mut rest = inner;
            while let [byte, after @ ..] = rest {
                told.push(*byte);
                rest = if rest.starts_with(b"\"\"") { &rest[2..] } else { after };
            }
            told
        }
        _ => field.to_vec(),
    }
}

/// A text for one line of a terminal or a page: blanks for white space, and a mark for bytes that
/// are no UTF-8 and for characters that control something.
pub fn clean(text: &[u8]) -> String {
    // A name is cut to its first characters, so the rest of a long one is not looked at.
    let front = &text[..text.len().min(8 * LONGEST)];
    let told: String = String::from_utf8_lossy(front).chars().map(plain).collect();
    let words: Vec<&str> = told.split_whitespace().collect();
    cut(&words.join(" "), LONGEST)
}

fn plain(character: char) -> char {
    match character {
        '\t' => ' ',
        // Marks that turn or hide what is read: directions, joiners, invisible and tag characters.
        '\u{ad}'
        | '\u{61c}'
        | '\u{180e}'
        | '\u{200b}'..='\u{200f}'
        | '\u{2028}'..='\u{202e}'
        | '\u{2060}'..='\u{206f}'
        | '\u{feff}'
        | '\u{fff9}'..='\u{fffb}'
        | '\u{e0000}'..='\u{e0fff}' => char::REPLACEMENT_CHARACTER,
        _ if character.is_control() => char::REPLACEMENT_CHARACTER,
        _ if character.is_whitespace() => ' ',
        _ => character,
    }
}
