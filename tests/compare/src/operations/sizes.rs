//! Cases made for a size: for each quantity that an answer, an index or a loop counts, every power
//! of two up to its limit, one less and one more.

use super::{asked, read, run, solo, step, verdict};
use crate::case::{Checked, Class};
use reference::generate::families::counters;
use reference::generate::plans::{change_number, put_shared, run_at_start, Bundle};
use reference::generate::sizes::{
    amid, beside, digits, doubled, fault_after, fault_before, forest, lacking, last_action,
    last_fact, last_fact_of_two, last_unsolvable, odometer, odometer_past, padded, records,
    scattered, sizes, tree, winder, zigzag, Back, Fault, Tree, Turns, Wants,
};
use reference::generate::{contents, shuffle, some, text, Law};
use reference::interface::{
    mask_words, Interface, Ticket, CHANGE, FACTS, LAST, MASK, ROW, RUN, TOO_SHORT,
};
use reference::random::Random;
use std::sync::OnceLock;

/// One case in so many is made for a size.
const EVERY: u64 = 64;

/// The most steps, picks and places.
const STEPS: usize = 65_537;
/// The most rows of a table; what a missed goal and another fault of two members need of them.
const ROWS: usize = 4097;
const MISSED: usize = 2049;
const PICKS: usize = 1025;
/// Rows that become live one by one against their order, and those of each member of a forest.
const SLOW: usize = 1025;
const MEMBERS: usize = 8;
const ACTIONS: usize = 256;
const RECORDS: usize = 265;
const DIGITS: usize = 20;
/// The most calls of a list of asks and commits.
const CALLS: usize = 1025;
const CHANGES: usize = LAST as usize;

/// What a case is made for.
#[derive(Clone, Copy, Debug)]
enum Made {
    TaskFacts,
    TaskFactAbove,
    TaskMembers,
    TaskActions,
    StepFacts,
    StepActions,
    StepNoAction,
    StartFacts,
    SoloMembers,
    SoloActions,
    SoloSteps,
    SoloShort,
    SoloBreak,
    SoloBadEntry,
    SearchMembers,
    SearchActions,
    SearchRows,
    SearchDead,
    SearchBush,
    SearchTree,
    SearchBack,
    SearchZigzag,
    SearchFull,
    SearchSlack,
    JointMissedMember,
    JointActions,
    JointSuccess,
    JointFault(Fault),
    JointOpen,
    JointUnsolved,
    JointBadEntry,
    JointBadPick,
    PickMembers,
    PickGo,
    PickCollision,
    PickImpossible,
    PickPastEnd,
    PickChange,
    AskMembers,
    AskFacts,
    AskGo,
    AskWait,
    AskCollision,
    AskImpossible,
    AskPastEnd,
    AskChange,
    CommitMembers,
    CommitGo,
    CommitCollision,
    CommitImpossible,
    CommitPastEnd,
    CommitChange,
    CommitStale,
    PlayGo,
    PlayCollision,
    PlayPassedOver,
    PlaySlack,
    PlayChange,
    PlayLast,
    Calls,
    VerdictMembers,
    VerdictUnsolvable,
    VerdictMissedMember,
    VerdictActions,
    VerdictConflictActions,
    VerdictRows,
    VerdictBush,
    VerdictForest,
    VerdictFull,
    VerdictSlack,
    VerdictFault(Fault),
    VerdictPlan(Fault),
    VerdictMoves(Fault),
    VerdictRest(Fault),
    ReadRecords,
    ReadNarrow,
    ReadBadRecord,
    ReadDigits,
    ReadSlack,
    StepAdds,
    SoloFacts,
    SearchFacts,
    SearchWords,
    JointFacts,
    PickFacts,
    CommitFacts,
    PlayFacts,
    VerdictFacts,
    VerdictLocalWords,
    VerdictWords,
    StepMissing,
    JointMissing,
    PickMissing,
    AskMissing,
    CommitMissing,
    VerdictMissing,
}
use Made::*;

/// Everything that a case is made for, with the largest size. What is new comes last, so that the
/// other cases keep their numbers.
const MADE: [(Made, usize); 102] = [
    (TaskFacts, FACTS),
    (TaskFactAbove, FACTS - 1),
    (TaskMembers, MEMBERS),
    (TaskActions, ACTIONS),
    (StepFacts, FACTS),
    (StepActions, ACTIONS),
    (StepNoAction, ACTIONS),
    (StartFacts, FACTS),
    (SoloMembers, MEMBERS),
    (SoloActions, ACTIONS),
    (SoloSteps, STEPS),
    (SoloShort, STEPS),
    (SoloBreak, STEPS),
    (SoloBadEntry, STEPS),
    (SearchMembers, MEMBERS),
    (SearchActions, ACTIONS),
    (SearchRows, ROWS),
    (SearchDead, ROWS),
    (SearchBush, ROWS),
    (SearchFull, ROWS),
    (SearchSlack, ROWS),
    (JointMissedMember, MEMBERS),
    (JointActions, ACTIONS),
    (JointSuccess, STEPS),
    (JointFault(Fault::Collision), STEPS),
    (JointFault(Fault::Deadlock), STEPS),
    (JointFault(Fault::Missed), STEPS),
    (JointOpen, STEPS),
    (JointUnsolved, STEPS),
    (JointBadEntry, STEPS),
    (JointBadPick, STEPS),
    (PickMembers, MEMBERS),
    (PickGo, STEPS),
    (PickCollision, STEPS),
    (PickImpossible, STEPS),
    (PickPastEnd, STEPS),
    (PlayGo, STEPS),
    (PlayCollision, STEPS),
    (PlayPassedOver, STEPS),
    (PlaySlack, STEPS),
    (VerdictMembers, MEMBERS),
    (VerdictUnsolvable, MEMBERS),
    (VerdictMissedMember, MEMBERS),
    (VerdictActions, ACTIONS),
    (VerdictConflictActions, ACTIONS),
    (VerdictRows, ROWS),
    (VerdictBush, ROWS),
    (VerdictFull, ROWS),
    (VerdictSlack, ROWS),
    (VerdictFault(Fault::Collision), PICKS),
    (VerdictFault(Fault::Deadlock), PICKS),
    (VerdictFault(Fault::Missed), MISSED),
    (VerdictPlan(Fault::Collision), PICKS),
    (VerdictPlan(Fault::Deadlock), PICKS),
    (VerdictMoves(Fault::Collision), PICKS),
    (VerdictMoves(Fault::Missed), PICKS),
    (VerdictRest(Fault::Deadlock), PICKS),
    (ReadRecords, RECORDS),
    (ReadNarrow, RECORDS),
    (ReadBadRecord, RECORDS),
    (ReadDigits, DIGITS),
    (ReadSlack, ROWS),
    (SearchTree, ROWS),
    (SearchBack, SLOW),
    (SearchZigzag, SLOW / 2 + 1),
    (VerdictForest, SLOW),
    (PickChange, CHANGES),
    (PlayChange, CHANGES),
    (PlayLast, STEPS),
    (AskMembers, MEMBERS),
    (AskFacts, FACTS),
    (AskGo, STEPS),
    (AskWait, STEPS),
    (AskCollision, STEPS),
    (AskImpossible, STEPS),
    (AskPastEnd, STEPS),
    (AskChange, CHANGES),
    (CommitMembers, MEMBERS),
    (CommitGo, STEPS),
    (CommitCollision, STEPS),
    (CommitImpossible, STEPS),
    (CommitPastEnd, STEPS),
    (CommitChange, CHANGES),
    (CommitStale, CHANGES),
    (Calls, CALLS),
    (StepAdds, FACTS),
    (SoloFacts, FACTS),
    (SearchFacts, FACTS),
    (SearchWords, SLOW),
    (JointFacts, FACTS),
    (PickFacts, FACTS),
    (CommitFacts, FACTS),
    (PlayFacts, FACTS),
    (VerdictFacts, FACTS),
    (VerdictLocalWords, SLOW),
    (VerdictWords, SLOW),
    (StepMissing, FACTS),
    (JointMissing, FACTS),
    (PickMissing, FACTS),
    (AskMissing, FACTS),
    (CommitMissing, FACTS),
    (VerdictMissing, FACTS),
];

/// Every case that is made for a size, in turn.
fn list() -> &'static [(Made, usize)] {
    static LIST: OnceLock<Vec<(Made, usize)>> = OnceLock::new();
    LIST.get_or_init(|| {
        let each = |&(made, most): &(Made, usize)| {
            let mut all = if most <= DIGITS { (1..=most).collect() } else { sizes(most) };
            if !all.contains(&most) {
                all.push(most);
            }
            if matches!(made, SearchBush | VerdictBush) {
                all.retain(|&size| size > 1 && size.is_power_of_two());
            }
            all.into_iter().map(move |size| (made, size))
        };
        MADE.iter().flat_map(each).collect()
    })
}

/// How many there are.
pub fn count() -> u64 {
    list().len() as u64
}

/// The number of the case that is the first made for the size at a place of the list.
pub fn case(place: u64) -> u64 {
    EVERY * place
}

/// How many of them are among the first cases.
pub fn among(cases: u64) -> u64 {
    cases.div_ceil(EVERY).min(count())
}

/// How often a case is tried anew where a lent slice is too short: that says nothing of the size.
const TRIES: usize = 4;

/// The case with this number, where it is made for a size.
pub fn any(case: u64, random: &mut Random, checked: &impl Interface) -> Option<Checked> {
    if !case.is_multiple_of(EVERY) {
        return None;
    }
    let (made, size) = list()[(case / EVERY % count()) as usize];
    let mut ran = made.check(size, random, checked);
    for _ in 1..TRIES {
        if ran.class == Class::Refusal(TOO_SHORT) && ran.failure.is_none() {
            ran = made.check(size, random, checked);
        }
    }
    Some(ran)
}

impl Made {
    fn check(self, size: usize, random: &mut Random, checked: &impl Interface) -> Checked {
        match self {
            TaskFacts => step::task_on(checked, last_fact(random, size).words()),
            TaskFactAbove => {
                let mut words = last_fact(random, size).words();
                // The masks of its rows.
                let mask = random.one_of(&[3, 10, 19, 21, 23, 25, 28, 37]);
                let above = random.between(size, FACTS - 1);
                words[mask + above / 64] |= 1 << (above % 64);
                step::task_on(checked, words)
            }
            TaskMembers => {
                let mut words = last_unsolvable(size).words();
                let wrong = random.one_of(&[0, 3, 4, 5, 6, 7, 8]);
                words[ROW * size + wrong] ^= random.one_of(&[1, 8, 1 << 63]);
                step::task_on(checked, words)
            }
            TaskActions => {
                let mut words = last_action(size).words();
                let row = words.len() - ROW;
                let wrong = random.below(ROW);
                words[row + wrong] ^= random.one_of(&[4, 8, 1 << 63]);
                step::task_on(checked, words)
            }
            StepFacts | StepAdds => {
                let law = last_fact(random, size);
                let action = if matches!(self, StepAdds) { 0 } else { random.below(2) as u16 };
                let shared = random.mask() & (law.known() >> 1) | u128::from(action) << (size - 1);
                let shared = mask_words(shared).to_vec();
                step::step_on(random, checked, law.words(), action, shared)
            }
            StepActions | StepNoAction => {
                let action = if matches!(self, StepActions) { size - 1 } else { size };
                let shared = vec![random.below(4) as u64, 0];
                step::step_on(random, checked, last_action(size).words(), action as u16, shared)
            }
            StartFacts => {
                let mut law = last_fact(random, size);
                law.initial |= 1 << (size - 1);
                let run = contents(random, RUN);
                run::start_on(checked, law.words(), run)
            }
            SoloMembers => {
                let turns = Turns::anywhere(random, size);
                let plan = turns.plan(size - 1, random.below(4));
                solo::replay_on(random, checked, turns.law.words(), size as u8 - 1, plan)
            }
            SoloActions => {
                let plan = vec![size as u16 - 1; random.between(1, 3)];
                solo::replay_on(random, checked, last_action(size).words(), 0, plan)
            }
            SoloSteps | SoloShort | SoloBreak | SoloBadEntry => self.solo(size, random, checked),
            SearchMembers => {
                let words = Turns::anywhere(random, size).law.words();
                solo::search_in(random, checked, words, size as u8 - 1, 8)
            }
            SearchActions => solo::search_in(random, checked, last_action(size).words(), 0, 8),
            SearchRows => search(random, checked, odometer(size), size),
            SearchDead => {
                let goal = random.below(size);
                search(random, checked, odometer_past(size, goal), size)
            }
            SearchBush => {
                let law = counters(1, size.ilog2() as usize);
                search(random, checked, law, size)
            }
            SearchTree => {
                let (wants, back) = (wants(random, size), back(random));
                search(random, checked, tree(size, wants, back), size)
            }
            SearchBack => {
                let mut law = winder(size);
                if random.chance(50) {
                    law.goals = odometer_past(size, random.below(size)).goals;
                }
                search(random, checked, law, size)
            }
            SearchZigzag => search(random, checked, zigzag(size), 2 * size),
            SearchFull => solo::search_in(random, checked, odometer(size + 1).words(), 0, size),
            SearchSlack => {
                let law = counters(1, random.between(1, 4));
                let rows = size + (1 << law.goals[0].count_ones());
                solo::search_in(random, checked, law.words(), 0, rows)
            }
            JointMissedMember => {
                let mut turns = Turns::anywhere(random, size.max(2));
                let missed = turns.law.goals.len() - 1;
                turns.wants(missed);
                let taker = random.below(missed);
                let mut plans = vec![Vec::new(); missed + 1];
                plans[taker] = vec![turns.takes(taker)];
                run::joint_replay_on(
                    random,
                    checked,
                    turns.law.words(),
                    bundle(plans),
                    vec![taker as u8],
                )
            }
            JointActions => {
                let turns = Turns::new(2);
                let before = size.max(10) - 10;
                let moved =
                    |plan: Vec<u16>| plan.iter().map(|entry| entry + before as u16).collect();
                let plans = (0..2).map(|member| moved(turns.plan(member, 3))).collect();
                let words = padded(turns.law, size).words();
                let mut picks = vec![0, 0, 0, 1, 1, 1];
                shuffle(random, &mut picks);
                run::joint_replay_on(random, checked, words, bundle(plans), picks)
            }
            JointSuccess | JointFault(_) | JointOpen | JointUnsolved | JointBadEntry
            | JointBadPick => self.joint(size, random, checked),
            PickMembers | PickGo | PickCollision | PickImpossible | PickPastEnd | PickChange
            | AskMembers | AskGo | AskWait | AskCollision | AskImpossible | AskPastEnd
            | AskChange | CommitMembers | CommitGo | CommitCollision | CommitImpossible
            | CommitPastEnd | CommitChange | CommitStale => self.pick(size, random, checked),
            AskFacts => {
                let law = last_fact(random, size);
                let run = run_at_start(some(random, size), 0);
                run::ask_on(random, checked, law.words(), bundle(vec![vec![0]]), run, 0)
            }
            PlayGo | PlayCollision | PlayPassedOver | PlaySlack | PlayChange | PlayLast => {
                self.play(size, random, checked)
            }
            Calls => asked::in_turn(random, checked, size),
            VerdictMembers => {
                let law = beside(&vec![odometer(2); size]);
                judged(random, checked, law, [2, 1 << size])
            }
            VerdictUnsolvable => judged(random, checked, last_unsolvable(size), [2, 2]),
            VerdictMissedMember => {
                let before = size.max(2) - 2;
                judged(random, checked, amid(fault_after(1, Fault::Missed), before, 0), [4, 4])
            }
            VerdictActions => judged(random, checked, last_action(size), [2, 2]),
            VerdictConflictActions => {
                let fault = random.one_of(&[Fault::Collision, Fault::Deadlock]);
                judged(random, checked, padded(fault_after(1, fault), size), [4, 8])
            }
            VerdictRows => {
                let law = idled(random, odometer(size), 1);
                judged(random, checked, law, [size, size])
            }
            VerdictBush => {
                let facts = size.ilog2() as usize;
                let members = random.between(1, facts.clamp(1, 4));
                let split = (0..members).map(|member| (facts + member) / members);
                let laws: Vec<Law> = split.map(|facts| counters(1, facts)).collect();
                judged(random, checked, beside(&laws), [size, size])
            }
            // One member moves at most, so there are no more configurations than it has rows.
            VerdictForest => {
                let members = random.between(2, MEMBERS);
                let mut trees =
                    vec![Tree { rows: size, wants: Wants::First, back: Back::Never }; members];
                let one = &mut trees[random.below(members)];
                (one.wants, one.back) = (wants(random, size), back(random));
                judged(random, checked, forest(&trees), [size, size])
            }
            VerdictFull => {
                let words = odometer(size + 1).words();
                let slices = verdict::room(random, 1, [size + 1, size]);
                verdict::verdict_on(random, checked, words, slices)
            }
            VerdictSlack => {
                let law = fault_after(2, random.one_of(&[Fault::Collision, Fault::Missed]));
                let slices = verdict::room(random, 2, [8 + size / 2, 16 + size]);
                verdict::verdict_on(random, checked, law.words(), slices)
            }
            VerdictFault(fault) => {
                let law = idled(random, fault_after(size, fault), 2);
                judged(random, checked, law, [size + 2, 2 * size + 8])
            }
            VerdictPlan(fault) => {
                let law = idled(random, fault_before(size, fault), 2);
                judged(random, checked, law, [size + 2, 2 * size + 8])
            }
            // Every step with a choice between two actions.
            VerdictMoves(fault) | VerdictRest(fault) => {
                let law = match self {
                    VerdictMoves(_) => fault_after(size, fault),
                    _ => fault_before(size, fault),
                };
                let law = doubled(random, law);
                let law = idled(random, law, 2);
                judged(random, checked, law, [size + 2, 2 * size + 8])
            }
            ReadRecords | ReadNarrow => {
                let used = if matches!(self, ReadRecords) { FACTS } else { 16 };
                let text = text::of_words(&records(random, size.max(2), used).words());
                read::read_on(random, checked, text.into_bytes(), read::ASKED)
            }
            ReadBadRecord => {
                let text = text::of_words(&records(random, size.max(2), FACTS).words());
                let mut text = text.trim_end().as_bytes().to_vec();
                let place = text.iter().rposition(|&byte| byte == b'\n').map_or(0, |end| end + 1);
                let place = random.between(place, text.len() - 1);
                text[place] = random.one_of(b"\n\r;\" x\xff\0");
                read::read_on(random, checked, text, read::ASKED)
            }
            ReadDigits => {
                let text = text::of_words(&digits(random, size as u32).words());
                read::read_on(random, checked, text.into_bytes(), read::ASKED)
            }
            ReadSlack => {
                let text = text::of_words(&records(random, RECORDS, FACTS).words());
                read::read_on(random, checked, text.into_bytes(), read::ASKED + size)
            }
            SoloFacts | SearchFacts | JointFacts | PickFacts | CommitFacts | PlayFacts
            | VerdictFacts => self.facts(size, random, checked),
            StepMissing | JointMissing | PickMissing | AskMissing | CommitMissing
            | VerdictMissing => self.missing(size, random, checked),
            // A table of so many words: just enough, or where the number is odd one too few.
            SearchWords => {
                let words = odometer(size.div_ceil(MASK)).words();
                solo::search_of_length(random, checked, words, 0, size)
            }
            VerdictLocalWords | VerdictWords => {
                let members = random.between(1, 3);
                let (rows, lacking) = (size.div_ceil(MASK), size % MASK);
                let words = amid(odometer(rows), 0, members - 1).words();
                let mut lengths = [MASK * members * rows, MASK * (members + 1) * rows];
                lengths[usize::from(matches!(self, VerdictWords))] -= lacking;
                let slices = verdict::of_lengths(random, members, lengths);
                verdict::verdict_on(random, checked, words, slices)
            }
        }
    }

    /// A law in which the last of so many facts decides: two members of whom the second adds it and
    /// the first needs it.
    fn facts(self, size: usize, random: &mut Random, checked: &impl Interface) -> Checked {
        let law = last_fact_of_two(random, size);
        let start = run_at_start(law.initial | random.one_of(&[0, 1 << (size - 1)]), 0);
        let (words, plans) = (law.words(), bundle(vec![vec![0, 1], vec![2]]));
        match self {
            SoloFacts => {
                let plan = random.one_of(&[&[0, 1][..], &[1], &[0]]).to_vec();
                solo::replay_on(random, checked, words, 0, plan)
            }
            SearchFacts => solo::search_in(random, checked, words, 0, 4),
            JointFacts => {
                let picks = random.one_of(&[&[0, 1, 0][..], &[1, 0, 0], &[0, 0]]).to_vec();
                run::joint_replay_on(random, checked, words, plans, picks)
            }
            PickFacts => run::pick_on(random, checked, words, plans, start, 0),
            CommitFacts => {
                let ticket = Ticket { member: 0, change: 0 };
                run::commit_on(random, checked, words, plans, start, ticket)
            }
            PlayFacts => {
                let picks = random.one_of(&[[0, 1, 0], [1, 0, 0], [0, 0, 1]]).to_vec();
                let answers = contents(random, picks.len());
                run::play_on(checked, words, plans, start, picks, answers)
            }
            _ => judged(random, checked, law, [8, 16]),
        }
    }

    /// A collision that lacks so many facts.
    fn missing(self, size: usize, random: &mut Random, checked: &impl Interface) -> Checked {
        let law = lacking(random, size);
        let (words, plans) = (law.words(), bundle(vec![vec![0], vec![1]]));
        let shared = law.initial & !law.actions[0][4];
        let mut run = run_at_start(shared, 1);
        run[1] = 1;
        match self {
            StepMissing => step::step_on(random, checked, words, 1, mask_words(shared).to_vec()),
            JointMissing => run::joint_replay_on(random, checked, words, plans, vec![0, 1]),
            PickMissing => run::pick_on(random, checked, words, plans, run, 1),
            AskMissing => run::ask_on(random, checked, words, plans, run, 1),
            CommitMissing => {
                let ticket = Ticket { member: 1, change: 1 };
                run::commit_on(random, checked, words, plans, run, ticket)
            }
            _ => judged(random, checked, law, [4, 8]),
        }
    }

    /// Solo replay of a plan that goes well for about `size` steps.
    fn solo(self, size: usize, random: &mut Random, checked: &impl Interface) -> Checked {
        let members = random.between(2, MEMBERS);
        let mut turns = Turns::anywhere(random, members);
        let member = random.below(turns.law.goals.len());
        let mut plan = turns.plan(member, size);
        match self {
            SoloShort => {
                let missing = size.is_multiple_of(2);
                turns.law.goals[member] = if missing { turns.own[member] } else { 0 };
            }
            SoloBreak => {
                plan[size - 1] = turns.takes(member);
                plan.extend(vec![turns.needs(member); random.between(1, 3)]);
            }
            SoloBadEntry => {
                plan.push(bad_entry(random, &turns, member));
                plan.extend(turns.plan(member, random.below(3)));
            }
            _ => {}
        }
        solo::replay_on(random, checked, turns.law.words(), member as u8, plan)
    }

    /// Joint replay of about `size` picks.
    fn joint(self, size: usize, random: &mut Random, checked: &impl Interface) -> Checked {
        let members = random.between(2, MEMBERS);
        let mut turns = Turns::anywhere(random, members);
        let members = turns.law.goals.len();
        let taker = random.below(members);
        let other = (taker + random.between(1, members - 1)) % members;
        let turned = if matches!(self, JointFault(_)) { size - 1 } else { size };
        let mut lengths = shares(random, members, turned);
        if matches!(self, JointUnsolved) && size > 256 {
            lengths.fill(0);
            lengths[other] = size;
        }
        let mut plans: Vec<Vec<u16>> =
            lengths.iter().enumerate().map(|(member, &steps)| turns.plan(member, steps)).collect();
        let mut picks = in_any_order(random, &lengths);
        match self {
            JointFault(fault) => {
                plans[taker].push(turns.takes(taker));
                picks.push(taker as u8);
                match fault {
                    Fault::Missed => turns.wants(other),
                    Fault::Deadlock => plans[other].push(turns.waits(other)),
                    Fault::Collision => {
                        plans[other].push(turns.needs(other));
                        picks.push(other as u8);
                    }
                }
            }
            JointOpen => plans[other].push(turns.needs(other)),
            JointUnsolved => plans[other].extend([turns.takes(other), turns.needs(other)]),
            JointBadEntry => {
                let last = members - 1;
                plans[last].push(bad_entry(random, &turns, last));
            }
            JointBadPick => picks.push(random.one_of(&[members as u8, other as u8, u8::MAX])),
            _ => {}
        }
        run::joint_replay_on(random, checked, turns.law.words(), bundle(plans), picks)
    }

    /// A pick, an ask or a commit of a member that stands at about the place `size`, or of a run
    /// with that change number.
    fn pick(self, size: usize, random: &mut Random, checked: &impl Interface) -> Checked {
        let last = matches!(self, PickMembers | AskMembers | CommitMembers);
        let counts = matches!(self, PickChange | AskChange | CommitChange | CommitStale);
        let members = if last { size } else { random.between(1, MEMBERS) };
        let turns = Turns::anywhere(random, members);
        let member = if last { size - 1 } else { random.below(members) };
        let steps = if last || counts { 2 } else { size };
        let mut plans: Vec<Vec<u16>> =
            (0..members).map(|member| turns.plan(member, random.below(3))).collect();
        plans[member] = turns.plan(member, steps);
        let (all, rest) = (turns.law.known(), turns.law.known() & !turns.shared);
        let mut run = run_at_start(all, if counts { size } else { steps } as u32);
        run[1 + member] = steps as u64;
        match self {
            PickCollision | AskCollision | CommitCollision => {
                plans[member].push(turns.needs(member));
                put_shared(&mut run, rest);
            }
            AskWait => {
                plans[member].push(turns.waits(member));
                put_shared(&mut run, rest);
            }
            PickImpossible | CommitImpossible if random.chance(50) => {
                plans[member].push(turns.waits(member));
                put_shared(&mut run, rest);
            }
            PickImpossible | AskImpossible | CommitImpossible => {}
            PickPastEnd | AskPastEnd | CommitPastEnd => run[1 + member] += 1,
            _ => plans[member].extend(turns.plan(member, 2)),
        }
        let mut change = run[CHANGE] as u32;
        if matches!(self, CommitStale) {
            run[CHANGE] = u64::from(change_number(random));
            change = (run[CHANGE] as u32) ^ size as u32;
        }
        let (words, bundle, member) = (turns.law.words(), bundle(plans), member as u8);
        match self {
            PickMembers | PickGo | PickCollision | PickImpossible | PickPastEnd | PickChange => {
                run::pick_on(random, checked, words, bundle, run, member)
            }
            AskMembers | AskGo | AskWait | AskCollision | AskImpossible | AskPastEnd
            | AskChange => run::ask_on(random, checked, words, bundle, run, member),
            _ => {
                let ticket = Ticket { member, change };
                run::commit_on(random, checked, words, bundle, run, ticket)
            }
        }
    }

    /// About `size` picks played on a run at its start, on one with that change number, or on one
    /// that the last of these picks but one brings to the last change number.
    fn play(self, size: usize, random: &mut Random, checked: &impl Interface) -> Checked {
        let members = random.between(2, MEMBERS);
        let turns = Turns::anywhere(random, members);
        let few = matches!(self, PlaySlack | PlayChange);
        let lengths = shares(random, members, if few { 3 } else { size });
        let mut plans: Vec<Vec<u16>> =
            lengths.iter().enumerate().map(|(member, &steps)| turns.plan(member, steps)).collect();
        let mut picks = in_any_order(random, &lengths);
        match self {
            PlayCollision => {
                plans[0].push(turns.takes(0));
                plans[1].push(turns.needs(1));
                picks.extend([0, 1, 1]);
            }
            PlayPassedOver => picks.push(random.one_of(&[members as u8, u8::MAX, 0])),
            _ => {}
        }
        let change = match self {
            PlayChange => size as u32,
            PlayLast => (u64::from(LAST) + 1 - size as u64) as u32,
            _ => 0,
        };
        let run = run_at_start(turns.law.initial, change);
        let free = if matches!(self, PlaySlack) { size } else { random.below(3) };
        let answers = contents(random, picks.len() + free);
        run::play_on(checked, turns.law.words(), bundle(plans), run, picks, answers)
    }
}

/// What a member of a tree of so many rows wants: mostly a row.
fn wants(random: &mut Random, rows: usize) -> Wants {
    let any = Wants::Row(random.below(rows));
    random.one_of(&[any, any, Wants::Row(rows - 1), Wants::First, Wants::Never])
}

fn back(random: &mut Random) -> Back {
    random.one_of(&[Back::Never, Back::FromEnds, Back::Anywhere])
}

/// An entry that is no action, or another member's.
fn bad_entry(random: &mut Random, turns: &Turns, member: usize) -> u16 {
    let members = turns.law.goals.len();
    let actions = turns.law.actions.len() as u16;
    random.one_of(&[actions, u16::MAX, turns.takes((member + 1) % members)])
}

/// Steps for each of some members: all for one of them, or as many for each.
fn shares(random: &mut Random, members: usize, steps: usize) -> Vec<usize> {
    if random.chance(50) {
        let one = random.below(members);
        (0..members).map(|member| if member == one { steps } else { 0 }).collect()
    } else {
        (0..members).map(|member| (steps + member) / members).collect()
    }
}

/// Each member as often as it has steps.
fn in_any_order(random: &mut Random, lengths: &[usize]) -> Vec<u8> {
    let mut picks: Vec<u8> =
        lengths.iter().enumerate().flat_map(|(member, &steps)| vec![member as u8; steps]).collect();
    shuffle(random, &mut picks);
    picks
}

pub fn bundle(plans: Vec<Vec<u16>>) -> Bundle {
    let mut bundle = Bundle::default();
    for plan in plans {
        bundle.plans.extend(plan);
        bundle.ends.push(bundle.plans.len() as u64);
    }
    bundle
}

/// The law of some members among idle ones, with its facts anywhere. A large law has few of them,
/// since each has its part in every configuration.
fn idled(random: &mut Random, law: Law, members: usize) -> Law {
    let most = if law.facts > 20 { 2 } else { MEMBERS - members };
    let before = random.between(0, most);
    let after = random.between(0, most - before);
    let law = amid(law, before, after);
    scattered(random, law, FACTS)
}

/// Solo search of a law of one member, which stands among idle ones, in a table of so many rows.
fn search(random: &mut Random, checked: &impl Interface, law: Law, rows: usize) -> Checked {
    let law = idled(random, law, 1);
    let member = law.actions.first().map_or(0, |action| action[0]) as u8;
    solo::search_in(random, checked, law.words(), member, rows)
}

/// The verdict with room for what the law needs, at most so many copies and configurations.
fn judged(random: &mut Random, checked: &impl Interface, law: Law, most: [usize; 2]) -> Checked {
    let words = law.words();
    let slices = verdict::enough(random, &words, most);
    verdict::verdict_on(random, checked, words, slices)
}
