//! Where and why a law in PDDL is refused, for people: a second, plain reading of the text and its
//! waits. The refusal's number comes from the library alone; the command shows what is said here
//! only where the number is the same.
#![forbid(unsafe_code)]

mod form;
mod names;
mod place;
mod waits;

pub use place::{place, Source, Trouble};

/// The first refusal of a law in PDDL with its waits, in the written order; none where the law is
/// taken. A word slice that is too short is not looked at.
pub fn diagnose(text: &[u8], waits: &[u8]) -> Option<Trouble> {
    check(text, waits).err()
}

fn check(text: &[u8], waits: &[u8]) -> Result<(), Trouble> {
    let pairs = waits::read(waits)?;
    let members = form::read(text)?;
    names::check(text, waits, &members, &pairs)
}

/// The name of a member: that of its domain. None where the text is no law, or has no such member.
pub fn member(text: &[u8], number: usize) -> Option<String> {
    let members = form::read(text).ok()?;
    Some(members.get(number)?.domain.shown(text))
}

/// The names of a law: lines KIND,NUMBER,NAME, each ended by CR LF, for its facts, its members and
/// its actions. None where the text is no law.
pub fn named(text: &[u8]) -> Option<String> {
    let members = form::read(text).ok()?;
    let mut told = String::new();
    let mut tell = |kind: &str, names: Vec<form::Name>| {
        for (number, name) in names.into_iter().enumerate() {
            told += &format!("{kind},{number},{}\r\n", name.written(text));
        }
    };
    tell("fact", members.first()?.predicates.clone());
    tell("member", members.iter().map(|member| member.domain).collect());
    let actions = members.iter().flat_map(|member| &member.actions);
    tell("action", actions.map(|action| action.name).collect());
    Some(told)
}
