//! 17, 18 and the task check: names, numbers and limits of a text that has the form.

use crate::form::{Member, Name};
use crate::place::{place, Source, Trouble};
use crate::waits::{Field, Wait};
use std::collections::{HashMap, HashSet};

/// The most facts, members and actions.
const FACTS: usize = 128;
const MEMBERS: usize = 8;
const ACTIONS: usize = 256;

type Checked = Result<(), Trouble>;

struct Law<'a> {
    text: &'a [u8],
    waits: &'a [u8],
    members: &'a [Member],
}

/// The first of the names, numbers and limits that is wrong, in the written order.
pub fn check(text: &[u8], waits: &[u8], members: &[Member], pairs: &[Wait]) -> Checked {
    let law = Law { text, waits, members };
    members.iter().try_for_each(|member| law.names(member))?;
    pairs.iter().try_for_each(|pair| law.numbers(pair))?;
    law.limits()?;
    if members[0].predicates.is_empty() {
        let said = format!("expected a predicate: a law has 1 to {FACTS} facts");
        return law.wrong(2, members[0].section, said);
    }
    law.waited(pairs)
}

impl Law<'_> {
    fn wrong(&self, number: u64, name: Name, said: String) -> Checked {
        Err(Trouble::new(number, Source::Law, self.text, name.range(), said))
    }

    /// The line of a name.
    fn line(&self, name: Name) -> usize {
        place(self.text, name.begin).0
    }

    fn shown(&self, name: Name) -> String {
        name.shown(self.text)
    }

    /// The names of a member, as they stand, and that it has the first one's facts.
    fn names(&self, member: &Member) -> Checked {
        let first = &self.members[0];
        let mut facts: HashMap<Vec<u8>, Name> = HashMap::new();
        for (place, &name) in member.predicates.iter().enumerate() {
            if let Some(&before) = facts.get(&name.folded(self.text)) {
                let said = format!("named twice, on line {} before", self.line(before));
                return self.wrong(17, name, format!("expected another predicate: {said}"));
            }
            facts.insert(name.folded(self.text), name);
            match first.predicates.get(place) {
                Some(there) if there.folded(self.text) == name.folded(self.text) => {}
                Some(&there) => {
                    let said = format!(
                        "expected {} (line {}): members have the same predicates in one order",
                        self.shown(there),
                        self.line(there)
                    );
                    return self.wrong(17, name, said);
                }
                None => {
                    let said = "expected no predicate that the first member does not have";
                    return self.wrong(17, name, said.to_string());
                }
            }
        }
        if let Some(&there) = first.predicates.get(member.predicates.len()) {
            let said = format!(
                "expected {} (line {}) too: members have the same predicates in one order",
                self.shown(there),
                self.line(there)
            );
            return self.wrong(17, member.section, said);
        }
        let known = |name: &Name| {
            if facts.contains_key(&name.folded(self.text)) {
                return Ok(());
            }
            let said = format!(
                "expected a predicate of domain {} (line {})",
                self.shown(member.domain),
                self.line(member.section)
            );
            self.wrong(17, *name, said)
        };
        let mut actions: HashMap<Vec<u8>, Name> = HashMap::new();
        for action in &member.actions {
            if let Some(before) = actions.insert(action.name.folded(self.text), action.name) {
                let said = format!("named twice, on line {} before", self.line(before));
                return self.wrong(17, action.name, format!("expected another name: {said}"));
            }
            action.pre.iter().chain(&action.effect).try_for_each(known)?;
        }
        if member.of.folded(self.text) != member.domain.folded(self.text) {
            let said = format!(
                "expected {}, the domain before this problem (line {})",
                self.shown(member.domain),
                self.line(member.domain)
            );
            return self.wrong(17, member.of, said);
        }
        member.initial.iter().try_for_each(known)?;
        self.initial(member, first)?;
        member.goal.iter().try_for_each(known)
    }

    /// A member's initial facts are the first one's.
    fn initial(&self, member: &Member, first: &Member) -> Checked {
        let folded = |name: &Name| name.folded(self.text);
        let set = |member: &Member| member.initial.iter().map(folded).collect::<HashSet<_>>();
        let (here, there) = (set(member), set(first));
        if let Some(more) = member.initial.iter().find(|name| !there.contains(&folded(name))) {
            let said = format!(
                "expected only facts that hold at first for the first member too (line {})",
                self.line(first.init)
            );
            return self.wrong(17, *more, said);
        }
        if let Some(less) = first.initial.iter().find(|name| !here.contains(&folded(name))) {
            let said = format!(
                "expected {} among them, which holds at first for the first member (line {})",
                self.shown(*less),
                self.line(*less)
            );
            return self.wrong(17, member.init, said);
        }
        Ok(())
    }

    fn actions(&self) -> usize {
        self.members.iter().map(|member| member.actions.len()).sum()
    }

    /// The numbers of a wait are known.
    fn numbers(&self, wait: &Wait) -> Checked {
        let counts = [("action", self.actions()), ("fact", self.members[0].predicates.len())];
        for (field, (kind, count)) in wait.fields.iter().zip(counts) {
            if field.number >= count as u64 {
                let said = match count {
                    0 => format!("expected no wait: the law has no {kind}"),
                    1 => format!("expected 0: the law has one {kind}"),
                    _ => format!("expected a number from 0 to {}: the law's {kind}s", count - 1),
                };
                return self.in_waits(17, field, said);
            }
        }
        Ok(())
    }

    fn in_waits(&self, number: u64, field: &Field, said: String) -> Checked {
        let range = (field.begin, field.end);
        Err(Trouble::new(number, Source::Waits, self.waits, range, said))
    }

    fn limits(&self) -> Checked {
        if let Some(&name) = self.members[0].predicates.get(FACTS) {
            let said = format!("expected at most {FACTS} predicates");
            return self.wrong(18, name, said);
        }
        if let Some(member) = self.members.get(MEMBERS) {
            let said = format!("expected at most {MEMBERS} members");
            return self.wrong(18, member.domain, said);
        }
        let actions = self.members.iter().flat_map(|member| &member.actions);
        if let Some(action) = actions.clone().nth(ACTIONS) {
            let said = format!("expected at most {ACTIONS} actions");
            return self.wrong(18, action.name, said);
        }
        Ok(())
    }

    /// Every wait is for a precondition of its action.
    fn waited(&self, waits: &[Wait]) -> Checked {
        let mut actions = Vec::new();
        for member in self.members {
            actions.extend(member.actions.iter().map(|action| (member, action)));
        }
        for wait in waits {
            let [number, fact] = wait.fields;
            let (member, action) = actions[number.number as usize];
            let name = self.members[0].predicates[fact.number as usize];
            let same = |other: &Name| other.folded(self.text) == name.folded(self.text);
            if !action.pre.iter().any(same) {
                let said = format!(
                    "expected a precondition of action {}, {} of {} (line {}); fact {} is {}",
                    number.number,
                    self.shown(action.name),
                    self.shown(member.domain),
                    self.line(action.name),
                    fact.number,
                    self.shown(name)
                );
                return self.in_waits(6, &fact, said);
            }
        }
        Ok(())
    }
}
