//! Laws made for a size: as many facts, members, actions, copies, configurations, steps or picks as
//! asked.

use super::families::places;
use super::{all, shuffle, some, Law};
use crate::fast::{copies, Task};
use crate::interface::FACTS;
use crate::random::Random;
use std::collections::BTreeSet;

/// The sizes from 1 to `most` at which machines break: each power of two, one less and one more.
pub fn sizes(most: usize) -> Vec<usize> {
    let near =
        (0..usize::BITS - 1).flat_map(|power| [(1 << power) - 1, 1 << power, (1 << power) + 1]);
    near.filter(|size| (1..=most).contains(size)).collect::<BTreeSet<usize>>().into_iter().collect()
}

/// Laws side by side: each keeps its facts, members and actions, and sees nothing of the others.
pub fn beside(laws: &[Law]) -> Law {
    let mut joined = Law { facts: 0, initial: 0, goals: Vec::new(), actions: Vec::new() };
    for law in laws {
        let (facts, members) = (joined.facts, joined.goals.len() as u128);
        joined.initial |= law.initial << facts;
        joined.goals.extend(law.goals.iter().map(|goal| goal << facts));
        joined.actions.extend(law.actions.iter().map(|&[member, pre, wait, add, del]| {
            [member + members, pre << facts, wait << facts, add << facts, del << facts]
        }));
        joined.facts += law.facts;
    }
    joined
}

/// Members with nothing to do, with one fact that holds.
pub fn idle(members: usize) -> Law {
    Law { facts: 1, initial: 1, goals: vec![1; members], actions: Vec::new() }
}

/// A law among idle members: its own come after `before` of them, and `after` come later.
pub fn amid(law: Law, before: usize, after: usize) -> Law {
    beside(&[idle(before), law, idle(after)])
}

/// The same law with its facts anywhere among `facts` of them.
pub fn scattered(random: &mut Random, law: Law, facts: usize) -> Law {
    let facts = facts.max(law.facts);
    let mut places: Vec<usize> = (0..facts).collect();
    shuffle(random, &mut places);
    law.at(facts, &places)
}

/// One member who counts up in base two: `rows` local copies, each led to by the one before alone.
/// The goal is the last of them. Bit k of the count is fact 2k + 1, and fact 2k where it is 0.
pub fn odometer(rows: usize) -> Law {
    let bits = rows.next_power_of_two().trailing_zeros().max(1) as usize;
    let zero = |bit: usize| 1u128 << (2 * bit);
    let one = |bit: usize| 1u128 << (2 * bit + 1);
    let state = |count: usize| {
        let fact = |bit: usize| if count >> bit & 1 == 1 { one(bit) } else { zero(bit) };
        (0..bits).map(fact).sum()
    };
    let actions = (0..bits)
        .map(|bit| {
            let (ones, zeros): (u128, u128) = ((0..bit).map(one).sum(), (0..bit).map(zero).sum());
            [0, zero(bit) | ones, 0, one(bit) | zeros, zero(bit) | ones]
        })
        .collect();
    let (first, last) = ((1 << bits) - rows, (1 << bits) - 1);
    Law { facts: 2 * bits, initial: state(first), goals: vec![state(last)], actions }
}

/// The odometer's plan: all its steps in turn.
pub fn odometer_plan(rows: usize) -> Vec<u16> {
    let bits = rows.next_power_of_two().trailing_zeros().max(1);
    let last = (1usize << bits) - 1;
    ((last + 1 - rows)..last).map(|count: usize| count.trailing_ones() as u16).collect()
}

/// How a run ends that is not a success.
#[derive(Clone, Copy, Debug, PartialEq)]
pub enum Fault {
    Collision,
    Deadlock,
    Missed,
}

/// Two members. Member 0 has one plan, of `picks` steps; the last takes a shared fact away that
/// member 1's one step needs or waits for, or that member 1 wants in the end. No fault comes
/// before.
pub fn fault_after(picks: usize, fault: Fault) -> Law {
    let mut law = odometer(picks);
    let [shared, done, ready, reached] = [0, 1, 2, 3].map(|fact| 1u128 << (law.facts + fact));
    let counted = law.goals[0];
    law.facts += 4;
    law.initial |= shared | ready;
    law.actions.push([0, counted, 0, done, counted | shared]);
    law.goals = vec![done, reached];
    match fault {
        Fault::Missed => law.goals[1] = shared,
        Fault::Collision => law.actions.push([1, shared | ready, 0, reached, ready]),
        Fault::Deadlock => law.actions.push([1, shared | ready, shared, reached, ready]),
    }
    law
}

/// Two members. Member 1's one step takes a shared fact away that member 0's first step needs, and
/// waits for where it is a deadlock; after that step member 0 has `steps` more to its goal. So the
/// picks of a conflict are few and its plans are long.
pub fn fault_before(steps: usize, fault: Fault) -> Law {
    let mut law = odometer(steps + 1);
    let [shared, fresh, begun, taken] = [0, 1, 2, 3].map(|fact| 1u128 << (law.facts + fact));
    law.facts += 4;
    law.initial |= shared | fresh;
    for action in &mut law.actions {
        action[1] |= begun;
    }
    law.goals = vec![law.goals[0] | begun, taken];
    let wait = if fault == Fault::Deadlock { shared } else { 0 };
    law.actions.push([0, shared | fresh, wait, begun, fresh]);
    law.actions.push([1, 0, 0, taken, shared]);
    law
}

/// Members who turn a fact of their own on and off as often as they like, and share one fact that
/// each of them can take away, can need and can wait for.
pub struct Turns {
    pub law: Law,
    /// The fact that is shared.
    pub shared: u128,
    /// Each member's own.
    pub own: Vec<u128>,
}

impl Turns {
    /// With the first facts.
    pub fn new(members: usize) -> Turns {
        Turns::at(members, &(0..=members).collect::<Vec<usize>>())
    }

    /// With any facts, up to the last.
    pub fn anywhere(random: &mut Random, members: usize) -> Turns {
        Turns::at(members, &places(random, members + 1))
    }

    /// With as many facts as there are places: each member's own, then the shared one, at the first
    /// of them.
    fn at(members: usize, places: &[usize]) -> Turns {
        let (own, shared) = (&places[..members], 1 << places[members]);
        let own: Vec<u128> = own.iter().map(|place| 1 << place).collect();
        let mut law = Law {
            facts: places.len(),
            initial: shared,
            goals: vec![0; members],
            actions: Vec::new(),
        };
        for (member, &own) in own.iter().enumerate() {
            law.actions.extend([
                [member as u128, 0, 0, own, 0],
                [member as u128, own, 0, 0, own],
                [member as u128, 0, 0, 0, shared],
                [member as u128, shared, 0, 0, 0],
                [member as u128, shared, shared, 0, 0],
            ]);
        }
        Turns { law, shared, own }
    }

    /// So many steps that turn the member's fact on and off.
    pub fn plan(&self, member: usize, steps: usize) -> Vec<u16> {
        (0..steps).map(|step| (5 * member + step % 2) as u16).collect()
    }

    /// The step that takes the shared fact away.
    pub fn takes(&self, member: usize) -> u16 {
        5 * member as u16 + 2
    }

    /// The step that needs the shared fact.
    pub fn needs(&self, member: usize) -> u16 {
        5 * member as u16 + 3
    }

    /// The step that waits for the shared fact.
    pub fn waits(&self, member: usize) -> u16 {
        5 * member as u16 + 4
    }

    /// The member wants the shared fact in the end.
    pub fn wants(&mut self, member: usize) {
        self.law.goals[member] = self.shared;
    }
}

/// A law of `actions` actions of which only the last does anything: it is member 0's way to its
/// goal.
pub fn last_action(actions: usize) -> Law {
    let (goal, never) = (1, 2);
    let mut rows = vec![[0, never, 0, goal, 0]; actions];
    if let Some(last) = rows.last_mut() {
        last[1] = 0;
    }
    Law { facts: 2, initial: 0, goals: vec![goal], actions: rows }
}

/// A law of `facts` facts in which the last is what one action adds, one needs and one takes away.
pub fn last_fact(random: &mut Random, facts: usize) -> Law {
    let last = 1 << (facts - 1);
    let initial = some(random, facts);
    let actions = vec![[0, 0, 0, last, 0], [0, last, 0, 0, last], [0, last, last, 0, 0]];
    Law { facts, initial, goals: vec![last], actions }
}

/// A law of `facts` facts and two members in which the last fact decides. Member 0 takes it away,
/// then adds it again, which it needs to be gone for; member 1 needs it, or waits for it, or wants
/// it.
pub fn last_fact_of_two(random: &mut Random, facts: usize) -> Law {
    let last = 1 << (facts - 1);
    let initial = some(random, facts) | last;
    let wait = random.one_of(&[0, last]);
    Law {
        facts,
        initial,
        goals: vec![last, random.one_of(&[0, last])],
        actions: vec![[0, last, 0, 0, last], [0, 0, 0, last, 0], [1, last, wait, 0, 0]],
    }
}

/// Two members without goals. Member 0's step takes so many facts away, the first ones or any; the
/// one step of member 1 needs them and some others, and waits for some of these, so that it
/// collides then for want of just so many.
pub fn lacking(random: &mut Random, missing: usize) -> Law {
    let any = random.between(missing, FACTS);
    let mut places: Vec<usize> = (0..random.one_of(&[missing, FACTS, any])).collect();
    if random.chance(50) {
        shuffle(random, &mut places);
    }
    let taken = places[..missing].iter().fold(0, |mask, place| mask | 1 << place);
    let others = some(random, places.len()) & !taken;
    let wait = random.one_of(&[0, others]) & some(random, places.len());
    Law {
        facts: places.len(),
        initial: all(places.len()),
        goals: vec![0, 0],
        actions: vec![[0, 0, 0, 0, taken], [1, taken | others, wait, 0, 0]],
    }
}

/// Members of whom the last alone has no plan.
pub fn last_unsolvable(members: usize) -> Law {
    let mut goals = vec![1; members - 1];
    goals.push(2);
    Law { facts: 2, initial: 1, goals, actions: vec![[members as u128 - 1, 1, 0, 1, 0]] }
}

/// A law of 128 facts, one member and no action, with a word of its initial mask of so many digits.
pub fn digits(random: &mut Random, digits: u32) -> Law {
    let least = 10u64.pow(digits - 1);
    let most = least.checked_mul(10).map_or(u64::MAX, |next| next - 1);
    let word = u128::from(least + random.word() % (most - least + 1));
    let initial = word << random.one_of(&[0, 64]);
    Law { facts: FACTS, initial, goals: vec![initial], actions: Vec::new() }
}

/// The same law with `actions` actions: before its own stand some that need what nobody adds.
pub fn padded(law: Law, actions: usize) -> Law {
    let (never, own) = (1u128 << law.facts, law.actions.len());
    let unused = (own..actions).map(|_| [0, never, 0, never, never]);
    Law {
        facts: law.facts + 1,
        actions: unused.chain(law.actions.iter().copied()).collect(),
        ..law
    }
}

/// The same law with each action twice, in any order: whatever one does, another does too.
pub fn doubled(random: &mut Random, law: Law) -> Law {
    let mut actions = law.actions.repeat(2);
    shuffle(random, &mut actions);
    Law { actions, ..law }
}

/// The odometer with a goal on the way: every row after it is dead.
pub fn odometer_past(rows: usize, goal: usize) -> Law {
    let mut law = odometer(rows);
    let plan = odometer_plan(rows);
    law.goals[0] = plan[..goal].iter().fold(law.initial, |state, &number| {
        let [_, _, _, add, del] = law.actions[number as usize];
        (state & !del) | add
    });
    law
}

/// The odometer that counts down as well, not below its first row: each row leads to the one before
/// it and to the one after it. The goal is the first, so rows become live in their order, each by
/// the one before.
pub fn winder(rows: usize) -> Law {
    let mut law = odometer(rows);
    let bits = law.facts / 2;
    let first = (1 << bits) - rows;
    for bit in 0..bits {
        let [_, _, _, up, down] = law.actions[bit];
        if first.trailing_zeros() as usize == bit {
            // From every row but the first: a higher bit is another one than there.
            for higher in bit + 1..bits {
                let other = 1 << (2 * higher + 1 - (first >> higher & 1));
                law.actions.push([0, up | other, 0, down, up]);
            }
        } else {
            law.actions.push([0, up, 0, down, up]);
        }
    }
    law.goals = vec![law.initial];
    law
}

/// The winder with two rows for each count, 2k and 2k + 1: row 2k leads to 2k + 1 and 2k + 2, and
/// row 2k + 1 back to 2k - 2. The goal is row 1, so rows become live two by two: the later of a
/// pair by the pair before, then the earlier one by it.
pub fn zigzag(counts: usize) -> Law {
    let Law { facts, initial, actions: counting, .. } = winder(counts);
    let [even, odd] = [1 << facts, 2 << facts];
    let (bits, mut actions) = (facts / 2, vec![[0, even, 0, odd, even]]);
    for (number, [member, pre, wait, add, del]) in counting.into_iter().enumerate() {
        actions.push(if number < bits {
            [member, pre | even, wait, add, del]
        } else {
            [member, pre | odd, wait, add | even, del | odd]
        });
    }
    Law { facts: facts + 2, initial: initial | even, goals: vec![initial | odd], actions }
}

/// The copy of the only member of a law that stands in a row.
fn copy_at(law: &Law, row: usize) -> u128 {
    let task = Task::check(&law.words()).expect("a law");
    copies(&task, 0, usize::MAX).expect("any number of rows").rows[row]
}

/// A law of one member whose last row leads on to the rows of another such law. The last row is the
/// only one with all its facts.
pub fn then(law: Law, next: Law) -> Law {
    let last = copy_at(&law, rows_of(&law) - 1);
    let mut joined = beside(&[law, next.clone()]);
    let shift = joined.facts - next.facts;
    joined.initial &= all(shift);
    joined.goals.remove(0);
    for action in &mut joined.actions {
        action[0] = 0;
    }
    joined.actions.push([0, last, 0, next.initial << shift, last]);
    joined
}

/// How many rows the only member of a law has.
fn rows_of(law: &Law) -> usize {
    let task = Task::check(&law.words()).expect("a law");
    copies(&task, 0, usize::MAX).expect("any number of rows").rows.len()
}

/// What a member of a forest wants.
#[derive(Clone, Copy, Debug, PartialEq)]
pub enum Wants {
    /// What holds before its first step alone: no row but the first is live.
    First,
    /// Its copy in this row alone.
    Row(usize),
    /// What it cannot reach.
    Never,
}

/// From where a member of a forest can go back to its first row.
#[derive(Clone, Copy, Debug, PartialEq)]
pub enum Back {
    Never,
    /// From the rows past the full levels.
    FromEnds,
    Anywhere,
}

/// One member of a forest.
#[derive(Clone, Copy, Debug)]
pub struct Tree {
    pub rows: usize,
    pub wants: Wants,
    pub back: Back,
}

impl Tree {
    /// The levels below the first that are full.
    fn depth(&self) -> usize {
        (self.rows + 1).ilog2() as usize - 1
    }
}

/// Members who each choose a bit at every level, 0 before 1, all over the same facts: a tree of
/// just so many rows, few steps deep. Below its full levels there are ends: for each digit of the
/// number of rows that are left, the leaves that begin with some ones have one. The last action of
/// each member does nothing, so every row leads to itself too.
pub fn forest(trees: &[Tree]) -> Law {
    let depth = trees.iter().map(Tree::depth).max().unwrap_or(0);
    let level = |number: usize| 1u128 << number;
    let bit = |number: usize, one: usize| 1u128 << (depth + 1 + 2 * number + one);
    let end = |digit: usize| 1u128 << (3 * depth + 1 + digit);
    let [home, never] = [0, 1].map(|fact| 1u128 << (4 * depth + 2 + fact));
    let facts = 4 * depth + 4;
    let initial = level(0) | home;
    let mut law = Law { facts, initial, goals: vec![home; trees.len()], actions: Vec::new() };
    for (member, tree) in trees.iter().enumerate() {
        let (number, own) = (member as u128, tree.depth());
        // Who wants nothing else leaves home by its first step.
        let left = if tree.wants == Wants::First { home } else { 0 };
        let mut rows = Vec::new();
        for at in 0..own {
            let del = level(at) | if at == 0 { left } else { 0 };
            rows.extend(
                [0, 1].map(|one| [number, level(at), 0, level(at + 1) | bit(at, one), del]),
            );
        }
        let rest = tree.rows + 1 - (2 << own);
        for digit in (0..=own).filter(|digit| rest >> digit & 1 == 1) {
            let ones: u128 = (0..own - digit).map(|at| bit(at, 1)).sum();
            let del = level(own) | if own == 0 { left } else { 0 };
            rows.push([number, level(own) | ones, 0, end(digit), del]);
            if tree.back == Back::FromEnds {
                rows.push([number, end(digit), 0, initial, all(facts)]);
            }
        }
        if tree.back == Back::Anywhere {
            rows.push([number, 0, 0, initial, all(facts)]);
        }
        rows.push([number, 0, 0, 0, 0]);
        law.goals[member] = match tree.wants {
            Wants::First => home,
            Wants::Never => never,
            Wants::Row(row) => {
                let actions = rows.iter().map(|&[_, pre, wait, add, del]| [0, pre, wait, add, del]);
                copy_at(&Law { goals: vec![0], actions: actions.collect(), ..law.clone() }, row)
            }
        };
        law.actions.extend(rows);
    }
    law
}

/// A forest of one member.
pub fn tree(rows: usize, wants: Wants, back: Back) -> Law {
    forest(&[Tree { rows, wants, back }])
}

/// A law of so many records and 128 facts, with any masks of the first `used` of them.
pub fn records(random: &mut Random, records: usize, used: usize) -> Law {
    let members = random.between(1, (records - 1).min(8)).max((records - 1).saturating_sub(256));
    let mask = |random: &mut Random| some(random, used);
    let row = |random: &mut Random| {
        let pre = mask(random);
        [random.below(members) as u128, pre, pre & mask(random), mask(random), mask(random)]
    };
    Law {
        facts: FACTS,
        initial: mask(random),
        goals: (0..members).map(|_| mask(random)).collect(),
        actions: (0..records - 1 - members).map(|_| row(random)).collect(),
    }
}
