//! Plans, ends, picks and runs for a valid task: mostly good ones, and bad ones of every kind.

use crate::fast::{copies, outcome, Copies, Outcome, Plans, Task};
use crate::generate::contents;
use crate::interface::{mask_words, Ticket, CHANGE, LAST, RUN, SHARED};
use crate::random::Random;

/// The most local copies that are listed to find plans.
const COPIES: usize = 1024;

/// A valid task with its members' local copies, where those are few enough.
pub struct Planner {
    pub task: Task,
    pub tables: Vec<Option<Copies>>,
}

/// Plans of all members in one slice, with their ends.
#[derive(Clone, Debug, Default)]
pub struct Bundle {
    pub plans: Vec<u16>,
    pub ends: Vec<u64>,
}

impl Planner {
    /// None where the task check refuses the words.
    pub fn new(words: &[u64]) -> Option<Planner> {
        Planner::with(words, COPIES)
    }

    /// The same, with room for so many copies of each member.
    pub fn with(words: &[u64], most: usize) -> Option<Planner> {
        let task = Task::check(words).ok()?;
        let tables = (0..task.members()).map(|member| copies(&task, member, most)).collect();
        Some(Planner { task, tables })
    }

    /// A solving plan: a walk over live copies, then a shortest way to the goal.
    pub fn solving(&self, random: &mut Random, member: usize) -> Option<Vec<u16>> {
        let table = self.tables[member].as_ref()?;
        let mut copy = self.task.initial;
        if !table.live(copy) {
            return None;
        }
        let mut plan = Vec::new();
        for _ in 0..random.one_of(&[0, 0, 1, 2, 3, 6, 12]) {
            let own = &self.task.own[member];
            if own.is_empty() {
                break;
            }
            let number = random.one_of(own);
            let action = &self.task.actions[number as usize];
            if action.applicable(copy) && table.live(action.apply(copy)) {
                copy = action.apply(copy);
                plan.push(number);
            }
        }
        table.complete(&self.task, member, copy, &mut plan);
        Some(plan)
    }

    /// Any plan for solo replay.
    pub fn any(&self, random: &mut Random, member: usize) -> Vec<u16> {
        let own = self.task.own.get(member).map_or(&[][..], Vec::as_slice);
        let mut plan = match random.below(10) {
            0 => Vec::new(),
            1..=3 if !own.is_empty() => {
                (0..random.between(1, 8)).map(|_| random.one_of(own)).collect()
            }
            4..=6 if !own.is_empty() => self.walk(random, own),
            _ if member < self.task.members() => self.solving(random, member).unwrap_or_default(),
            _ => Vec::new(),
        };
        if random.chance(15) {
            self.spoil(random, &mut plan);
        }
        plan
    }

    /// Applicable steps, with the goal or without.
    fn walk(&self, random: &mut Random, own: &[u16]) -> Vec<u16> {
        let mut copy = self.task.initial;
        let mut plan = Vec::new();
        for _ in 0..random.between(1, 20) {
            let number = random.one_of(own);
            let action = &self.task.actions[number as usize];
            if action.applicable(copy) || random.chance(3) {
                copy = action.apply(copy);
                plan.push(number);
            }
        }
        plan
    }

    /// Puts bad or doubtful entries somewhere.
    fn spoil(&self, random: &mut Random, plan: &mut Vec<u16>) {
        let actions = self.task.actions.len() as u16;
        for _ in 0..random.one_of(&[1, 1, 2, 3]) {
            let bad = match random.below(4) {
                0 => actions,
                1 => random.one_of(&[u16::MAX, 256, actions + 1]),
                _ => random.below(actions as usize + 1) as u16,
            };
            let place = random.below(plan.len() + 1);
            if place < plan.len() && random.chance(60) {
                plan[place] = bad;
            } else {
                plan.insert(place, bad);
            }
        }
    }

    /// One plan for each member, mostly solving.
    pub fn bundle(&self, random: &mut Random) -> Bundle {
        let mut bundle = Bundle::default();
        let spoilt = random.chance(15);
        for member in 0..self.task.members() {
            let mut plan = self.solving(random, member).unwrap_or_default();
            if spoilt && random.chance(50) {
                match random.below(3) {
                    0 => self.spoil(random, &mut plan),
                    1 => drop(plan.pop()),
                    _ => plan = self.any(random, member),
                }
            }
            bundle.plans.extend(plan);
            bundle.ends.push(bundle.plans.len() as u64);
        }
        if random.chance(8) {
            spoil_ends(random, &mut bundle);
        }
        bundle
    }

    /// Picks that are mostly possible, to the finish or to somewhere before it.
    pub fn picks(&self, random: &mut Random, bundle: &Bundle) -> Vec<u8> {
        let members = self.task.members();
        let Ok(plans) = Plans::check(&self.task, &bundle.plans, &bundle.ends) else {
            return (0..random.below(4)).map(|_| random.below(members + 1) as u8).collect();
        };
        let most = if random.chance(60) { usize::MAX } else { random.below(12) };
        let mut run = Player::start(&self.task);
        let mut picks = Vec::new();
        let favourite = random.chance(50).then(|| random.below(members));
        while picks.len() < most && run.outcome(&self.task, &plans) == Outcome::Open {
            let member = match favourite {
                Some(member) if random.chance(50) => member,
                _ => random.below(members),
            };
            if run.pick(&self.task, &plans, member) || random.chance(1) {
                picks.push(member as u8);
            }
        }
        if random.chance(12) {
            let bad = random.one_of(&[members as u8, 8, 255, 0, 1]);
            let place = if random.chance(50) { picks.len() } else { random.below(picks.len() + 1) };
            picks.insert(place, bad);
        }
        if random.chance(4) {
            let bad = random.one_of(&[members as u8, 255, 0]);
            picks.push(bad);
        }
        picks
    }

    /// Solving plans of all members and picks to the finish; none where a member has no plan.
    pub fn finished(&self, random: &mut Random) -> Option<(Bundle, Vec<u8>)> {
        let mut bundle = Bundle::default();
        for member in 0..self.task.members() {
            bundle.plans.extend(self.solving(random, member)?);
            bundle.ends.push(bundle.plans.len() as u64);
        }
        let plans = Plans::check(&self.task, &bundle.plans, &bundle.ends).ok()?;
        let mut run = Player::start(&self.task);
        let mut picks = Vec::new();
        while run.outcome(&self.task, &plans) == Outcome::Open {
            let member = random.below(self.task.members());
            if run.pick(&self.task, &plans, member) {
                picks.push(member as u8);
            }
        }
        Some((bundle, picks))
    }

    /// A member with a step left in a run, where there is one.
    pub fn with_step_left(&self, random: &mut Random, bundle: &Bundle, run: &[u64]) -> Option<u8> {
        let mut found = Vec::new();
        let mut begin = 0;
        for (member, &end) in bundle.ends.iter().enumerate().take(self.task.members()) {
            if run.get(1 + member).is_some_and(|&place| place < end.saturating_sub(begin)) {
                found.push(member as u8);
            }
            begin = end;
        }
        (!found.is_empty()).then(|| random.one_of(&found))
    }

    /// A run of twelve words: one that picks lead to, or any at all, at any change number.
    pub fn run(&self, random: &mut Random, bundle: &Bundle) -> Vec<u64> {
        let mut run = Player::start(&self.task);
        if let Ok(plans) = Plans::check(&self.task, &bundle.plans, &bundle.ends) {
            for _ in 0..random.one_of(&[0, 1, 2, 3, 6, 12]) {
                let member = random.below(self.task.members());
                run.pick(&self.task, &plans, member);
            }
        }
        let mut words = vec![0; RUN];
        words[0] = run.collided as u64;
        for (word, place) in words[1..SHARED].iter_mut().zip(run.places) {
            *word = place as u64;
        }
        put_shared(&mut words, run.shared);
        words[CHANGE] = change_word(random);
        for percent in [40, 30] {
            if random.chance(percent) {
                self.spoil_run(random, &mut words);
            }
        }
        words
    }

    /// Odd places, shared copies and marks of a collision.
    fn spoil_run(&self, random: &mut Random, words: &mut [u64]) {
        let members = self.task.members();
        match random.below(9) {
            0 => words[0] = random.one_of(&[1, 2, u64::MAX, 1 << 63]),
            1 | 2 => put_shared(words, random.mask() & self.task.known),
            3 => {
                let known = self.task.known;
                let above = [u128::MAX, known.wrapping_add(1), 1 << 127, known | 1 << 64];
                put_shared(words, random.one_of(&above));
            }
            8 => words.swap(SHARED, SHARED + 1),
            4 => {
                words[1 + random.below(members)] =
                    random.one_of(&[u64::MAX, 1 << 32, 1 << 63, 1000])
            }
            5 => {
                let place = 1 + random.below(members);
                words[place] = words[place].wrapping_add(random.one_of(&[1, 1, 2, u64::MAX]));
            }
            6 => {
                // Places of members that the task does not have.
                for word in &mut words[1 + members..SHARED] {
                    *word = random.word();
                }
            }
            _ => {
                for word in &mut words[1..1 + members] {
                    *word = random.below(4) as u64;
                }
            }
        }
    }
}

/// Writes the shared copy of a run.
pub fn put_shared(run: &mut [u64], shared: u128) {
    run[SHARED..CHANGE].copy_from_slice(&mask_words(shared));
}

/// A run at its start, at a change number.
pub fn run_at_start(initial: u128, change: u32) -> Vec<u64> {
    let mut run = vec![0; RUN];
    put_shared(&mut run, initial);
    run[CHANGE] = u64::from(change);
    run
}

/// A change number: mostly one of the first or the last.
pub fn change_number(random: &mut Random) -> u32 {
    let (any, bit) = (random.word() as u32, 1 << random.below(32));
    let few = random.below(20) as u32;
    random.one_of(&[0, 1, 1, few, LAST - 2, LAST - 1, LAST - 1, LAST, LAST, bit, bit - 1, any])
}

/// A run's last word: mostly a change number, else one too large for 32 bits.
fn change_word(random: &mut Random) -> u64 {
    let change = u64::from(change_number(random));
    let above = [1 << 32, change | 1 << 32, change | 1 << 63, u64::MAX, u64::from(LAST) + 2];
    if random.chance(96) {
        change
    } else {
        random.one_of(&above)
    }
}

/// The words of a run without a task: anything, with a change number.
pub fn any_run(random: &mut Random) -> Vec<u64> {
    let mut words: Vec<u64> = contents(random, RUN);
    words[CHANGE] = change_word(random);
    words
}

/// A ticket for a member of a run: mostly a good one, else one of another time.
pub fn ticket(random: &mut Random, run: &[u64], member: u8) -> Ticket {
    // Cut to 32 bits where the run's number is too large.
    let now = run.get(CHANGE).map_or(0, |&word| word as u32);
    let bit = 1 << random.below(32);
    let other = [now.wrapping_sub(1), now.wrapping_add(1), 0, LAST, now ^ bit];
    let change = match random.below(20) {
        0..=12 => now,
        13 => random.word() as u32,
        _ => random.one_of(&other),
    };
    Ticket { member, change }
}

/// Ends that fall, are too few or too many, or miss the plan slice's length.
fn spoil_ends(random: &mut Random, bundle: &mut Bundle) {
    let ends = &mut bundle.ends;
    match random.below(7) {
        0 => drop(ends.pop()),
        1 => ends.push(bundle.plans.len() as u64),
        2 => ends.reverse(),
        3 => {
            let place = random.below(ends.len());
            ends[place] = ends[place].wrapping_add(random.one_of(&[1, u64::MAX]));
        }
        4 => {
            let place = random.below(ends.len());
            ends[place] = random.one_of(&[u64::MAX, 1 << 32, 1 << 63]);
        }
        5 => ends.clear(),
        _ => drop(bundle.plans.pop()),
    }
}

/// A run while picks are made up.
struct Player {
    places: [usize; 8],
    shared: u128,
    collided: bool,
}

impl Player {
    fn start(task: &Task) -> Player {
        Player { places: [0; 8], shared: task.initial, collided: false }
    }

    fn outcome(&self, task: &Task, plans: &Plans) -> Outcome {
        outcome(task, plans, &self.places, self.shared, self.collided)
    }

    /// Picks a member where that is possible.
    fn pick(&mut self, task: &Task, plans: &Plans, member: usize) -> bool {
        let Some(&number) = plans.0[member].get(self.places[member]) else {
            return false;
        };
        let action = &task.actions[number as usize];
        if self.collided || action.waits(self.shared) {
            return false;
        }
        if action.applicable(self.shared) {
            self.shared = action.apply(self.shared);
            self.places[member] += 1;
        } else {
            self.collided = true;
        }
        true
    }
}
