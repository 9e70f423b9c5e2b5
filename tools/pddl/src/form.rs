//! 16: the form of the text, read as far as it goes.

use crate::place::{Source, Trouble};

/// The most `and`s around a place.
const DEEPEST: usize = 16;

/// A name, by its bytes in the text.
#[derive(Clone, Copy, Debug)]
pub struct Name {
    pub begin: usize,
    pub end: usize,
}

impl Name {
    /// The name in small letters: what it is told apart by.
    pub fn folded(self, text: &[u8]) -> Vec<u8> {
        text[self.begin..self.end].to_ascii_lowercase()
    }

    /// The name as it is written.
    pub fn written(self, text: &[u8]) -> String {
        String::from_utf8_lossy(&text[self.begin..self.end]).into_owned()
    }

    /// The name as it is written, the front of a long one.
    pub fn shown(self, text: &[u8]) -> String {
        crate::place::shown(&text[self.begin..self.end])
    }

    pub fn range(self) -> (usize, usize) {
        (self.begin, self.end)
    }
}

pub struct Action {
    pub name: Name,
    pub pre: Vec<Name>,
    pub effect: Vec<Name>,
}

pub struct Member {
    pub domain: Name,
    /// The word `:predicates`.
    pub section: Name,
    pub predicates: Vec<Name>,
    pub actions: Vec<Action>,
    pub of: Name,
    /// The word `:init`.
    pub init: Name,
    pub initial: Vec<Name>,
    pub goal: Vec<Name>,
}

#[derive(Clone, Copy, PartialEq)]
enum Kind {
    Open,
    Close,
    Word,
    End,
}

#[derive(Clone, Copy)]
struct Piece {
    kind: Kind,
    begin: usize,
    end: usize,
}

struct Reading<'a> {
    text: &'a [u8],
    next: Piece,
}

type Read<T> = Result<T, Trouble>;

/// The members of a text, or the first place at which it leaves the subset.
pub fn read(text: &[u8]) -> Read<Vec<Member>> {
    let mut reading = Reading { text, next: piece(text, 0) };
    let mut members = Vec::new();
    while members.is_empty() || reading.next.kind != Kind::End {
        members.push(reading.member(members.is_empty())?);
    }
    Ok(members)
}

/// The piece from a byte on, past blanks and comments.
fn piece(text: &[u8], from: usize) -> Piece {
    let mut begin = from;
    loop {
        match text.get(begin) {
            Some(b' ' | b'\t' | b'\r' | b'\n') => begin += 1,
            Some(b';') => {
                let rest = &text[begin..];
                begin += rest.iter().position(|&byte| byte == b'\n').unwrap_or(rest.len());
            }
            Some(b'(') => return Piece { kind: Kind::Open, begin, end: begin + 1 },
            Some(b')') => return Piece { kind: Kind::Close, begin, end: begin + 1 },
            Some(_) => {
                let ends = |byte: &u8| b" \t\r\n;()".contains(byte);
                let rest = &text[begin..];
                let length = rest.iter().position(ends).unwrap_or(rest.len());
                return Piece { kind: Kind::Word, begin, end: begin + length };
            }
            None => return Piece { kind: Kind::End, begin, end: begin },
        }
    }
}

impl Reading<'_> {
    fn step(&mut self) -> Piece {
        let this = self.next;
        self.next = piece(self.text, this.end);
        this
    }

    /// The next piece is not what was expected.
    fn expected<T>(&self, what: &str) -> Read<T> {
        let Piece { kind, begin, end } = self.next;
        if kind == Kind::Word {
            self.plain(begin, end)?;
        }
        self.wrong((begin, end), format!("expected {what}"))
    }

    fn wrong<T>(&self, range: (usize, usize), said: String) -> Read<T> {
        Err(Trouble::new(16, Source::Law, self.text, range, said))
    }

    /// A word has only bytes that words have.
    fn plain(&self, begin: usize, end: usize) -> Read<()> {
        let odd = |&byte: &u8| !byte.is_ascii_alphanumeric() && !b"-_:".contains(&byte);
        let Some(at) = self.text[begin..end].iter().position(odd) else { return Ok(()) };
        let said = match self.text[begin + at] {
            b'?' => "expected no parameters: the subset has none",
            _ => "expected a word of letters, digits, -, _ and :, a blank, a parenthesis or ;",
        };
        self.wrong((begin + at, begin + at + 1), said.to_string())
    }

    fn word_is(&self, asked: &str) -> bool {
        let Piece { kind, begin, end } = self.next;
        kind == Kind::Word && self.text[begin..end].eq_ignore_ascii_case(asked.as_bytes())
    }

    fn open(&mut self, what: &str) -> Read<()> {
        if self.next.kind != Kind::Open {
            return self.expected(what);
        }
        self.step();
        Ok(())
    }

    fn close(&mut self, what: &str) -> Read<()> {
        if self.next.kind != Kind::Close {
            return self.expected(what);
        }
        self.step();
        Ok(())
    }

    fn word(&mut self, asked: &str, what: &str) -> Read<Name> {
        if !self.word_is(asked) {
            return self.expected(what);
        }
        let Piece { begin, end, .. } = self.step();
        Ok(Name { begin, end })
    }

    fn name(&mut self, what: &str) -> Read<Name> {
        let Piece { kind, begin, end } = self.next;
        if kind != Kind::Word {
            return self.expected(what);
        }
        self.plain(begin, end)?;
        let word = &self.text[begin..end];
        let why = if word.eq_ignore_ascii_case(b"and") || word.eq_ignore_ascii_case(b"not") {
            "and and not are no names"
        } else if !word[0].is_ascii_alphabetic() {
            "a name begins with a letter"
        } else if word.contains(&b':') {
            "a name has no colon (a blank has to stand before a word that begins with one)"
        } else {
            self.step();
            return Ok(Name { begin, end });
        };
        self.wrong((begin, end), format!("expected {what}; {why}"))
    }

    /// `(WORD NAME)`
    fn titled(&mut self, asked: &str, what: &str) -> Read<Name> {
        let all = format!("({asked} NAME)");
        self.open(&all)?;
        self.word(asked, &format!("{asked} in {all}"))?;
        let name = self.name(what)?;
        self.close(&format!(") after the name in {all}"))?;
        Ok(name)
    }

    /// `(SECTION (NAME)..)`: the section's word and the names.
    fn names(&mut self, asked: &str) -> Read<(Name, Vec<Name>)> {
        let all = format!("({asked} (NAME)..)");
        self.open(&all)?;
        let section = self.word(asked, &format!("{asked} in {all}"))?;
        let mut names = Vec::new();
        while self.next.kind == Kind::Open {
            self.step();
            names.push(self.name(&format!("a predicate's name in {all}"))?);
            self.close(") after the predicate's name; predicates have no parameters")?;
        }
        self.close(&format!("(NAME), or ) to end {all}"))?;
        Ok((section, names))
    }

    /// A condition, or an effect, with so many `and`s around it; its names go to `names`.
    fn condition(&mut self, depth: usize, effect: bool, names: &mut Vec<Name>) -> Read<()> {
        let (one, what) = if effect {
            ("an effect", "(NAME), (not (NAME)) or (and EFFECT..)")
        } else {
            ("a condition", "(NAME) or (and CONDITION..)")
        };
        self.open(&format!("{one}: {what}"))?;
        if self.word_is("and") {
            let Piece { begin, end, .. } = self.step();
            if depth == DEEPEST {
                let said = format!("expected at most {DEEPEST} and around a place");
                return self.wrong((begin, end), said);
            }
            while self.next.kind == Kind::Open {
                self.condition(depth + 1, effect, names)?;
            }
            return self.close(&format!("{one} within and, or ) to end it"));
        }
        if self.word_is("not") {
            let Piece { begin, end, .. } = self.step();
            if !effect {
                let said = "expected a condition without not, which stands in effects alone";
                return self.wrong((begin, end), said.to_string());
            }
            self.open("an atom after not: (NAME)")?;
            names.push(self.name("a predicate's name after not")?);
            self.close(") after the predicate's name; atoms have no arguments")?;
            return self.close(") after (not (NAME)");
        }
        names.push(self.name(&format!("{one}: {what}"))?);
        self.close(") after the predicate's name; atoms have no arguments")
    }

    /// `(:action NAME :parameters () :precondition CONDITION :effect EFFECT)`
    fn action(&mut self) -> Read<Action> {
        self.open("(:action ..)")?;
        self.word(":action", ":action, since a domain has (:predicates ..) and then its actions")?;
        let name = self.name("the action's name")?;
        self.word(":parameters", ":parameters () after the action's name")?;
        self.open("() after :parameters")?;
        self.close(") at once: an action has no parameters")?;
        self.word(":precondition", ":precondition after :parameters ()")?;
        let (mut pre, mut effect) = (Vec::new(), Vec::new());
        self.condition(0, false, &mut pre)?;
        self.word(":effect", ":effect after the precondition")?;
        self.condition(0, true, &mut effect)?;
        self.close(") to end the action after its effect")?;
        Ok(Action { name, pre, effect })
    }

    fn define(&mut self, what: &str) -> Read<()> {
        self.open(what)?;
        self.word("define", &format!("define in {what}"))?;
        Ok(())
    }

    fn member(&mut self, first: bool) -> Read<Member> {
        let begins = if first {
            "(define (domain NAME) ..): a law has a member or more"
        } else {
            "(define (domain NAME) ..) of the next member, or the end"
        };
        self.define(begins)?;
        let domain = self.titled("domain", "the domain's name")?;
        let (section, predicates) = self.names(":predicates")?;
        let mut actions = Vec::new();
        while self.next.kind == Kind::Open {
            actions.push(self.action()?);
        }
        self.close("(:action ..), or ) to end the domain")?;
        self.define("(define (problem NAME) ..) after its domain")?;
        self.titled("problem", "the problem's name")?;
        let of = self.titled(":domain", "the domain's name")?;
        let (init, initial) = self.names(":init")?;
        self.open("(:goal CONDITION)")?;
        self.word(":goal", ":goal in (:goal CONDITION)")?;
        let mut goal = Vec::new();
        self.condition(0, false, &mut goal)?;
        self.close(") after the goal's condition")?;
        self.close(") to end the problem after its goal")?;
        Ok(Member { domain, section, predicates, actions, of, init, initial, goal })
    }
}
