//! The explanation in sentences, for the text and for the page.

use crate::finding::{Conflict, Done, Fault, Nearest, Taken, Waited};
use crate::law::Law;
use crate::names::Names;
use lawcheck::{facts, Mask, Verdict};

/// How names are told.
#[derive(Clone, Copy)]
pub struct Words<'a> {
    pub law: &'a Law,
    pub names: &'a Names,
    /// What stands before and behind a name.
    pub quotes: [&'a str; 2],
    /// The most names of a list, and the most picks that are told of a fault.
    pub most: usize,
}

/// So many of a thing, which gets an s.
pub fn many(count: usize, what: &str) -> String {
    format!("{count} {what}{}", if count == 1 { "" } else { "s" })
}

/// What is told of each conflict that is shown.
pub const FIRST_CONFLICT: &str = "the first conflict: no other has fewer picks before its fault";

/// A list with commas and a last `and`, of the first so many.
fn listed(items: &[String], most: usize) -> String {
    let more = items.len().saturating_sub(most);
    match &items[..items.len() - more] {
        [] => String::new(),
        first if more > 0 => format!("{} and {more} more", first.join(", ")),
        [one] => one.clone(),
        [first @ .., last] => format!("{} and {last}", first.join(", ")),
    }
}

/// What a verdict is called; a fault with the picks before it.
fn kind(verdict: Verdict) -> String {
    let (kind, picks) = match verdict {
        Verdict::Collision { picks, .. } => ("collision", picks),
        Verdict::Deadlock { picks } => ("deadlock", picks),
        Verdict::Missed { picks, .. } => ("goal missed", picks),
        Verdict::Robust { .. } => return "robust".to_string(),
        Verdict::Unsolvable { .. } => return "unsolvable".to_string(),
    };
    format!("{kind} after {}", many(picks as usize, "pick"))
}

impl Words<'_> {
    fn listed(&self, items: &[String]) -> String {
        listed(items, self.most)
    }

    fn quoted(&self, name: &str) -> String {
        format!("{}{name}{}", self.quotes[0], self.quotes[1])
    }

    pub fn fact(&self, fact: u32) -> String {
        self.quoted(&self.names.fact(fact))
    }

    pub fn facts(&self, mask: Mask) -> Vec<String> {
        facts(mask).map(|fact| self.fact(fact)).collect()
    }

    pub fn member(&self, member: usize) -> String {
        self.names.member(member)
    }

    pub fn step(&self, action: u16) -> String {
        self.quoted(&self.names.step(self.law, action))
    }

    /// The size of the law.
    pub fn size(&self) -> String {
        let Law { members, facts, actions, .. } = self.law;
        let [members, facts, actions] = [(members, "member"), (facts, "fact"), (actions, "action")]
            .map(|(count, what)| many(*count, what));
        format!("{members}, {facts}, {actions}")
    }

    /// What a conflict is called.
    pub fn kind(&self, conflict: &Conflict) -> String {
        format!("{} after {}", conflict.fault.kind(), many(conflict.picks.len(), "pick"))
    }

    /// A pick by its number, from 1, and its step.
    fn pick(&self, picks: &[Done], pick: usize) -> String {
        format!("pick {}, {},", pick + 1, self.step(picks[pick].action))
    }

    /// The facts by the picks that took them away, in the order of the picks.
    fn by_pick(lacks: &[Taken]) -> Vec<(usize, Vec<Taken>)> {
        let mut groups: Vec<(usize, Vec<Taken>)> = Vec::new();
        for &taken in lacks {
            match groups.iter_mut().find(|(pick, _)| *pick == taken.pick) {
                Some((_, group)) => group.push(taken),
                None => groups.push((taken.pick, vec![taken])),
            }
        }
        groups.sort_by_key(|(pick, _)| *pick);
        groups
    }

    fn names_of(&self, lacks: &[Taken]) -> Vec<String> {
        lacks.iter().map(|taken| self.fact(taken.fact)).collect()
    }

    /// Whose picks took facts away.
    fn took(&self, picks: &[Done], lacks: &[Taken]) -> Vec<String> {
        let groups = Self::by_pick(lacks);
        let one = groups.len() == 1;
        let told = |(pick, group): &(usize, Vec<Taken>)| {
            let what = match (one, &group[..]) {
                (true, [_]) => "it".to_string(),
                (true, _) => "them".to_string(),
                (false, group) => self.listed(&self.names_of(group)),
            };
            format!("{} took {what} away.", capital(&self.pick(picks, *pick)))
        };
        let mut all: Vec<String> = groups.iter().take(self.most).map(told).collect();
        all.extend(self.more(groups.len()));
        all
    }

    /// That so many picks are not told one by one.
    fn more(&self, picks: usize) -> Option<String> {
        let more = picks.saturating_sub(self.most);
        (more > 0).then(|| format!("{} more took facts away.", many(more, "pick")))
    }

    /// The fault in sentences.
    pub fn fault(&self, conflict: &Conflict) -> Vec<String> {
        let picks = &conflict.picks;
        match &conflict.fault {
            Fault::Collision { member, action, missing } => {
                let lacks = self.listed(&self.names_of(missing));
                let (verb, them) = if missing.len() == 1 { ("does", "it") } else { ("do", "them") };
                let mut told = vec![format!(
                    "{} collides at {}: it needs {lacks}, which {verb} not hold, and does not wait \
                     for {them}.",
                    self.member(*member),
                    self.step(*action)
                )];
                told.extend(self.took(picks, missing));
                told
            }
            Fault::Deadlock(waiting) => {
                let one = |(member, action, lacks): &(usize, u16, Vec<Taken>)| {
                    let mut told = vec![format!(
                        "{} waits at {} for {}.",
                        self.member(*member),
                        self.step(*action),
                        self.listed(&self.names_of(lacks))
                    )];
                    let groups = Self::by_pick(lacks);
                    for (pick, group) in groups.iter().take(self.most) {
                        told.push(self.holds(conflict, lacks.len(), *pick, group));
                    }
                    told.extend(self.more(groups.len()));
                    told.join(" ")
                };
                let mut told: Vec<String> = waiting.iter().map(one).collect();
                for member in 0..self.law.members {
                    if conflict.left[member].is_empty() {
                        let goal = self.law.goal(member) & !conflict.shared == 0;
                        let goal = if goal { "its goal holds" } else { "its goal does not hold" };
                        told.push(format!("{} has no step left; {goal}.", self.member(member)));
                    }
                }
                told
            }
            Fault::Missed(missed) => {
                let one = |(member, lacks): &(usize, Vec<Taken>)| {
                    let names = self.listed(&self.names_of(lacks));
                    let verb = if lacks.len() == 1 { "does" } else { "do" };
                    let mut told = vec![format!(
                        "All plans are done, and the goal of {} is undone: {names} {verb} not \
                         hold.",
                        self.member(*member)
                    )];
                    told.extend(self.took(picks, lacks));
                    told.join(" ")
                };
                missed.iter().map(one).collect()
            }
        }
    }

    /// Who holds what a member waits for, and whether a step that is left brings it back.
    fn holds(&self, conflict: &Conflict, all: usize, pick: usize, group: &[Taken]) -> String {
        let holder = self.member(conflict.picks[pick].member);
        let (what, it) = match group {
            [_] if all == 1 => ("it".to_string(), "it"),
            [one] => (self.fact(one.fact), "it"),
            group if group.len() == all => ("them".to_string(), "them"),
            group => (self.listed(&self.names_of(group)), "them"),
        };
        let mut told =
            format!("{holder} holds {what}: {} took {it} away.", self.pick(&conflict.picks, pick));
        let mut back: Vec<Option<u16>> = group.iter().map(|taken| taken.back).collect();
        back.sort_unstable();
        back.dedup();
        for step in back.into_iter().take(self.most) {
            let which: Vec<Taken> =
                group.iter().filter(|taken| taken.back == step).copied().collect();
            let what = if which.len() == group.len() {
                it.to_string()
            } else {
                self.listed(&self.names_of(&which))
            };
            told.push_str(&match step {
                None => format!(" No step that is left brings {what} back."),
                Some(action) => format!(
                    " {} would bring {what} back, but {} waits too.",
                    self.step(action),
                    self.member(self.law.owner(action))
                ),
            });
        }
        told
    }

    /// What waiting for all preconditions would make of the law.
    pub fn waited(&self, waited: &Waited) -> String {
        match waited {
            Waited::Same => {
                "There is no precondition that is not waited for, so no marking of waits can mend \
                 this law."
                    .to_string()
            }
            Waited::Robust(count) => format!(
                "With every precondition waited for, the law would be robust ({}).",
                many(*count as usize, "configuration")
            ),
            Waited::Fails(verdict) => format!(
                "With every precondition waited for, the law would not be robust either ({}), and \
                 waiting for more never makes a robust law not robust (which is proved): so no \
                 marking of waits can mend this law.",
                kind(*verdict)
            ),
        }
    }

    /// What was checked of a conflict.
    pub fn checked(&self, conflict: &Conflict) -> String {
        let kind = match conflict.fault {
            Fault::Collision { .. } => "a collision that lacks just these facts,",
            Fault::Deadlock(_) => "a deadlock",
            Fault::Missed(_) => "a goal missed",
        };
        format!(
            "Checked: joint replay of these plans and picks ends in {kind} after {}, with the \
             shared copy that is shown.",
            many(conflict.picks.len(), "pick")
        )
    }

    /// A robust law.
    pub fn robust(&self, configurations: u64) -> String {
        format!(
            "Whatever plans the members choose and whoever is picked next, every step goes, nobody \
             waits for ever, and all goals stand in the end. {} can be reached.",
            many(configurations as usize, "configuration")
        )
    }

    /// How near a member without a plan comes.
    pub fn nearest(&self, nearest: &Nearest) -> Vec<String> {
        let member = self.member(nearest.member);
        let goal = self.law.goal(nearest.member);
        let copies = match nearest.copies {
            1 => "1 local copy".to_string(),
            copies => format!("{copies} local copies"),
        };
        let mut told = vec![format!(
            "The goal of {member} is {}. Alone it can reach {copies}, and none has all of it.",
            self.listed(&self.facts(goal))
        )];
        told.push(if nearest.never == 0 {
            "Each fact of the goal is in one of these, but never all at once.".to_string()
        } else {
            format!("None of these has {}.", self.listed(&self.facts(nearest.never)))
        });
        let steps = match nearest.steps.len() {
            0 => "where it begins, without a step".to_string(),
            count => format!("after {}", many(count, "step")),
        };
        told.push(format!(
            "The nearest it comes is {steps}: {} of {} of the goal, without {}.",
            (goal & !nearest.lacks).count_ones(),
            many(goal.count_ones() as usize, "fact"),
            self.listed(&self.facts(nearest.lacks))
        ));
        told
    }

    /// What was checked of a member without a plan.
    pub fn nearest_checked(&self, nearest: &Nearest) -> String {
        let steps = if nearest.steps.is_empty() { "the empty plan" } else { "these steps" };
        let member = self.member(nearest.member);
        format!("Checked: solo replay of {steps} of {member} ends short of the goal.")
    }
}

/// A text that begins with a capital.
pub fn capital(text: &str) -> String {
    let mut characters = text.chars();
    match characters.next() {
        Some(first) => first.to_uppercase().chain(characters).collect(),
        None => String::new(),
    }
}
