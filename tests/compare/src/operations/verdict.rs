//! The verdict: its numbers, tables and conflict, that conflict's replay in both implementations,
//! runs played to the finish where it is robust, and brute force beside it where a law is small.

use super::run::last_step;
use super::step::{lacks_as_the_step, random_out};
use super::task_words;
use crate::case::{list, Checked, Comparison, Input};
use crate::lent::Lent;
use reference::brute;
use reference::fast::{count_configurations, Copies, Judged};
use reference::generate::plans::{Bundle, Planner};
use reference::generate::{contents, length_near};
use reference::interface::{give, missing, out_length, Interface, MASK, TOO_SHORT};
use reference::paper::conflict::Conflict;
use reference::paper::facts::Facts;
use reference::paper::interface::{outcome_numbers, verdict_numbers};
use reference::paper::run::{joint_replay, Outcome};
use reference::paper::task::check;
use reference::paper::verdict::{self as paper, Class as Answer};
use reference::paper::Refusal;
use reference::random::Random;

/// The most copies that a table is lent for, and the most configurations, mostly and at times.
const COPIES: usize = 1024;
const MOST: [usize; 2] = [400, 2000];

/// The slices that are lent, as they are at entry or as the paper leaves them.
#[derive(Clone)]
pub struct Slices {
    local: Vec<u64>,
    marks: Vec<u8>,
    configurations: Vec<u64>,
    trail: Vec<u64>,
    plans: Vec<u16>,
    ends: Vec<u64>,
    picks: Vec<u8>,
    pub out: Vec<u64>,
}

/// The same slices as they are lent.
struct LentSlices {
    local: Lent<u64>,
    marks: Lent<u8>,
    configurations: Lent<u64>,
    trail: Lent<u64>,
    plans: Lent<u16>,
    ends: Lent<u64>,
    picks: Lent<u8>,
    out: Lent<u64>,
}

/// A number of rows near what is needed: just enough, one too few, some more, few or none.
pub fn rows_near(random: &mut Random, needed: Option<usize>, most: usize) -> usize {
    let needed = needed.unwrap_or(most);
    let rows = match random.below(100) {
        0..=54 => needed,
        55..=67 => needed.saturating_sub(1),
        68..=91 => needed + random.between(1, 6),
        92..=95 => random.below(needed + 1),
        96 => 0,
        _ => 1,
    };
    rows.min(most)
}

/// How many copies a member of the task has at most, and how many configurations there are; none
/// where they are more than `most` of each.
fn needed(words: &[u64], most: [usize; 2]) -> (usize, [Option<usize>; 2]) {
    let Some(Planner { task, tables }) = Planner::with(words, most[0]) else {
        return (2, [None; 2]);
    };
    let members = task.members();
    let Some(tables) = tables.into_iter().collect::<Option<Vec<Copies>>>() else {
        return (members, [None; 2]);
    };
    let copies = tables.iter().map(|table| table.rows.len()).max();
    let live = tables.iter().all(|table| table.live(task.initial));
    (members, [copies, if live { count_configurations(&task, &tables, most[1]) } else { Some(3) }])
}

/// Slices of lengths near what the task needs, for at most so many copies and configurations.
fn slices(random: &mut Random, words: &[u64], most: [usize; 2]) -> Slices {
    let (members, [copies, configurations]) = needed(words, most);
    let rows = rows_near(random, copies, most[0]);
    let configurations = rows_near(random, configurations, most[1]);
    let spared = random.chance(40);
    let length =
        |random: &mut Random, asked| if spared { asked } else { length_near(random, asked) };
    slices_for(random, members, [rows, configurations], length)
}

/// Slices that are long enough for the task, which needs at most so many copies and configurations.
pub fn enough(random: &mut Random, words: &[u64], most: [usize; 2]) -> Slices {
    let (members, rows) = needed(words, most);
    let rows = [0, 1].map(|kind| rows[kind].unwrap_or(most[kind]) + random.one_of(&[0, 0, 1, 6]));
    room(random, members, rows)
}

/// Slices for just so many rows, of copies of each member and of configurations, the others at
/// least as long as asked.
pub fn room(random: &mut Random, members: usize, rows: [usize; 2]) -> Slices {
    slices_for(random, members, rows, |random, asked| asked + random.one_of(&[0, 0, 1, 4]))
}

/// Slices with a local table and a configuration table of just so many words, the others as long as
/// asked.
pub fn of_lengths(random: &mut Random, members: usize, words: [usize; 2]) -> Slices {
    let rows = [words[0] / (MASK * members), words[1] / (MASK * (members + 1))];
    let mut slices = slices_for(random, members, rows, |_, asked| asked);
    slices.local = contents(random, words[0]);
    slices.configurations = contents(random, words[1]);
    slices
}

/// Slices for so many rows, the others of a length near what is asked.
fn slices_for(
    random: &mut Random,
    members: usize,
    [rows, most]: [usize; 2],
    length: impl Fn(&mut Random, usize) -> usize,
) -> Slices {
    let local = MASK * members * rows + random.below(MASK * members);
    let configurations = MASK * (members + 1) * most + random.below(MASK * (members + 1));
    let marks = length(random, members * rows);
    let trail = length(random, 2 * most);
    let plans = length(random, most + members * rows);
    let ends = length(random, members);
    let picks = length(random, most);
    Slices {
        local: contents(random, local),
        marks: contents(random, marks),
        configurations: contents(random, configurations),
        trail: contents(random, trail),
        plans: contents(random, plans),
        ends: contents(random, ends),
        picks: contents(random, picks),
        out: random_out(random, out_length::VERDICT),
    }
}

impl Slices {
    fn lend(&self) -> LentSlices {
        LentSlices {
            local: Lent::new(&self.local),
            marks: Lent::new(&self.marks),
            configurations: Lent::new(&self.configurations),
            trail: Lent::new(&self.trail),
            plans: Lent::new(&self.plans),
            ends: Lent::new(&self.ends),
            picks: Lent::new(&self.picks),
            out: Lent::new(&self.out),
        }
    }

    /// The paper's answer on these slices.
    fn expect(&mut self, words: &[u64]) -> Result<Answer, Refusal> {
        if self.out.len() < out_length::VERDICT {
            return Err(TOO_SHORT);
        }
        let mut lent = paper::Lent {
            local: &mut self.local,
            marks: &mut self.marks,
            configurations: &mut self.configurations,
            trail: &mut self.trail,
            plans: &mut self.plans,
            ends: &mut self.ends,
            picks: &mut self.picks,
        };
        let answer = paper::verdict(words, &mut lent)?;
        give(&mut self.out, &verdict_numbers(&answer));
        Ok(answer)
    }

    fn lengths(&self) -> Vec<(&'static str, String)> {
        vec![
            ("local length", self.local.len().to_string()),
            ("marks length", self.marks.len().to_string()),
            ("configurations length", self.configurations.len().to_string()),
            ("trail length", self.trail.len().to_string()),
            ("plans length", self.plans.len().to_string()),
            ("ends length", self.ends.len().to_string()),
            ("picks length", self.picks.len().to_string()),
            ("out at entry", list(&self.out)),
        ]
    }
}

impl LentSlices {
    fn call(&mut self, words: &[u64], checked: &impl Interface) -> u64 {
        checked.verdict(
            words,
            self.local.slice(),
            self.marks.slice(),
            self.configurations.slice(),
            self.trail.slice(),
            self.plans.slice(),
            self.ends.slice(),
            self.picks.slice(),
            self.out.slice(),
        )
    }
}

pub fn verdict(random: &mut Random, checked: &impl Interface) -> Checked {
    let words = task_words(random, 6);
    let most = if random.chance(1) { MOST[1] } else { MOST[0] };
    let entry = slices(random, &words, [COPIES, most]);
    verdict_on(random, checked, words, entry)
}

/// The verdict on this task with these slices.
pub fn verdict_on(
    random: &mut Random,
    checked: &impl Interface,
    words: Vec<u64>,
    entry: Slices,
) -> Checked {
    let mut expected = entry.clone();
    let answer = expected.expect(&words);
    let mut found = entry.lend();
    let returned = found.call(&words, checked);

    let mut comparison = Comparison::new("lawcheck_verdict");
    let refusal = answer.as_ref().err().copied().unwrap_or(0);
    comparison.answer((refusal, &expected.out), returned, &found.out);
    comparison.lacks((refusal, &expected.out), missing::VERDICT);
    comparison.slice("local", &expected.local, &found.local);
    comparison.slice("marks", &expected.marks, &found.marks);
    comparison.slice("configurations", &expected.configurations, &found.configurations);
    comparison.slice("plans", &expected.plans, &found.plans);
    comparison.slice("ends", &expected.ends, &found.ends);
    comparison.slice("picks", &expected.picks, &found.picks);
    if refusal == 0 {
        comparison.guards("trail", &found.trail);
    } else {
        comparison.slice("trail", &expected.trail, &found.trail);
    }
    if let Ok(Answer::NotRobust(listed, ..)) = answer {
        if let Err(difference) = replays(&words, listed, &expected, returned, &found, checked) {
            comparison.differ(difference);
        }
    }
    let class = crate::case::class(refusal, expected.out.first().copied().unwrap_or(0));
    let small = words.len() >= 3 && words[1] <= 3 && words[2] <= 4;
    // Every conflict of a small law, and some of the other verdicts.
    let not_robust = matches!(answer, Ok(Answer::NotRobust(..)));
    let beside = small && (not_robust || random.chance(25));
    if refusal == 0 && returned == 0 && beside {
        comparison.brute = true;
        let numbers = *found.out.held().first_chunk().expect("an answer's numbers");
        if let Err(difference) = beside_brute_force(&words, numbers, found.ends.held()) {
            comparison.differ(difference);
        }
    }
    if refusal == 0 && returned == 0 && found.out.held()[0] == 0 && random.chance(40) {
        comparison.played = true;
        if let Err(difference) = beside_played_runs(random, &words) {
            comparison.differ(difference);
        }
    }
    if comparison.differs() {
        let all = |returned, out, plans, ends, picks| {
            let [out, ends] = [out, ends].map(list::<u64>);
            let (plans, picks) = (list::<u16>(plans), list::<u8>(picks));
            format!("returns {returned}, out {out}, plans {plans}, ends {ends}, picks {picks}")
        };
        let Slices { out, plans, ends, picks, .. } = &expected;
        let held = &found;
        comparison.set_answers(
            all(refusal, out, plans, ends, picks),
            all(returned, held.out.held(), held.plans.held(), held.ends.held(), held.picks.held()),
        );
    }
    comparison.close(class, || (Input::Task(words), entry.lengths()))
}

/// The outcome that a verdict's numbers state.
fn stated(out: &[u64]) -> Option<Outcome> {
    match *out {
        [2, 0, ..] => Some(Outcome::Collision),
        [3, 0, ..] => Some(Outcome::Deadlock),
        [4, member, ..] => Some(Outcome::Missed(member as usize)),
        _ => None,
    }
}

/// A conflict by its replay: the paper's own has to be as every conflict is, and the one that was
/// found has to end as told in the joint replay of the implementation that found it, and lack what
/// is told there and by its step.
fn replays(
    words: &[u64],
    listed: usize,
    expected: &Slices,
    returned: u64,
    found: &LentSlices,
    checked: &impl Interface,
) -> Result<(), String> {
    let members = words[1] as usize;
    let Slices { out, plans, ends, picks, .. } = expected;
    let outcome = stated(out).ok_or("the second implementation's numbers are no fault's")?;
    Conflict { outcome, done: out[2], missing: [out[3], out[4]], plans, ends, picks }
        .check(words, members, listed)
        .map_err(|difference| format!("the second implementation's conflict: {difference}"))?;
    let (out, plans) = (found.out.held(), found.plans.held());
    let (ends, picks) = (found.ends.held(), found.picks.held());
    let (0, Some(outcome)) = (returned, stated(out)) else {
        return Err("the law is not robust".into());
    };
    let told = &out[missing::VERDICT];
    let conflict =
        Conflict { outcome, done: out[2], missing: [told[0], told[1]], plans, ends, picks };
    let (plans, ends, picks) =
        conflict.replayed(members).ok_or("the conflict goes past its slices")?;
    let mut replayed = [0; out_length::JOINT_REPLAY];
    let refusal = checked.joint_replay(words, plans, ends, picks, &mut replayed);
    let (kind, member) = outcome_numbers(outcome);
    let ends_so = replayed[..3] == [kind, member, out[2]];
    if refusal != 0 || !ends_so || replayed[missing::JOINT_REPLAY] != *told {
        let text = list(&replayed);
        return Err(format!("its own replay of the conflict: returns {refusal}, out {text}"));
    }
    let action = last_step(plans, ends, picks).filter(|_| outcome == Outcome::Collision);
    let met = action.map(|action| (action, &replayed[3..5]));
    lacks_as_the_step(checked, words, met, told)
}

/// Some runs of a law that was found robust, played to the finish: each has to be a success.
fn beside_played_runs(random: &mut Random, words: &[u64]) -> Result<(), String> {
    let Some(planner) = Planner::new(words) else {
        return Ok(());
    };
    for _ in 0..3 {
        let Some((bundle, picks)) = planner.finished(random) else {
            return Ok(());
        };
        let Bundle { plans, ends } = bundle;
        let replay = joint_replay(words, &plans, &ends, &picks);
        if replay.as_ref().map(|replay| replay.outcome) != Ok(Outcome::Success) {
            let lists = [list(&plans), list(&ends), list(&picks)];
            return Err(format!("a run of plans, ends, picks {lists:?} ends as {replay:?}"));
        }
    }
    Ok(())
}

/// Brute force over short plans against the numbers of a verdict and the ends of its plans: the
/// class, that no run comes to a fault after fewer picks, and that one lacks what is told.
pub fn beside_brute_force(words: &[u64], out: Judged, ends: &[u64]) -> Result<(), String> {
    let task = check(words).map_err(|refusal| format!("refused with {refusal}"))?;
    let longest = if task.members() <= 2 { 4 } else { 3 };
    if out[0] == 1 {
        return match brute::plans(&task, out[1] as usize, longest).first() {
            Some(plan) => Err(format!("brute force finds the plan {}", list(plan))),
            None => Ok(()),
        };
    }
    let Some(outcomes) = brute::outcomes(&task, longest) else {
        return Ok(());
    };
    let fewest = brute::fewest(&outcomes);
    let Some(outcome) = stated(&out) else {
        return match fewest {
            Some(_) => Err(format!("brute force finds {outcomes:?}")),
            None => Ok(()),
        };
    };
    let told = out[2] as usize;
    if let Some(fewer) = fewest.filter(|&fewest| fewest < told) {
        return Err(format!("brute force finds a fault after {fewer} picks, not {told}"));
    }
    // A conflict with plans this short is among the runs that brute force goes through.
    let ends = &ends[..task.members()];
    let begins = [&[0], ends].concat();
    let short =
        ends.iter().zip(begins).all(|(end, begin)| end.saturating_sub(begin) <= longest as u64);
    let missing = Facts::of_words(&out[missing::VERDICT]);
    if short && outcomes.get(&(outcome, missing.clone())) != Some(&told) {
        let text = format!("{outcome:?} after {told} picks for want of {missing:?}");
        return Err(format!("brute force does not find {text}"));
    }
    Ok(())
}
