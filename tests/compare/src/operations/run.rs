//! Joint replay, the start of a run, and picks on a run that is handed in, asked for or not.

use super::step::{lacks_as_the_step, random_out};
use super::{member, task_words};
use crate::case::{class, list, Checked, Comparison, Input};
use crate::lent::Lent;
use reference::generate::plans::{any_run, put_shared, ticket, Bundle, Planner};
use reference::generate::{contents, lacking, length_near};
use reference::interface::{missing, out_length, Interface, Ticket, CHANGE, RUN, SHARED};
use reference::paper::interface as paper;
use reference::random::Random;
use std::ops::Range;

/// A task for runs: one in which every member has a plan, where some tries find one.
pub fn task_with_plans(random: &mut Random) -> (Vec<u64>, Option<Planner>, Bundle) {
    let mut left = 4;
    loop {
        let words = task_words(random, 6);
        let planner = Planner::new(&words);
        let bundle = match &planner {
            Some(planner) => planner.bundle(random),
            None => Bundle {
                plans: (0..random.below(4)).map(|_| random.below(5) as u16).collect(),
                ends: (0..random.below(3)).map(|_| random.below(5) as u64).collect(),
            },
        };
        let solvable = planner.as_ref().is_none_or(|planner| {
            let live = |table: &reference::fast::Copies| table.live(planner.task.initial);
            planner.tables.iter().all(|table| table.as_ref().is_some_and(live))
        });
        left -= 1;
        if solvable || left == 0 {
            return (words, planner, bundle);
        }
    }
}

pub fn joint_replay(random: &mut Random, checked: &impl Interface) -> Checked {
    let (words, planner, bundle) = task_with_plans(random);
    let picks = match &planner {
        Some(planner) => planner.picks(random, &bundle),
        None => (0..random.below(4)).map(|_| random.below(3) as u8).collect(),
    };
    joint_replay_on(random, checked, words, bundle, picks)
}

/// The joint replay of these plans and picks.
pub fn joint_replay_on(
    random: &mut Random,
    checked: &impl Interface,
    words: Vec<u64>,
    bundle: Bundle,
    picks: Vec<u8>,
) -> Checked {
    let Bundle { plans, ends } = bundle;
    let out = random_out(random, out_length::JOINT_REPLAY);
    let mut expected_out = out.clone();
    let expected = paper::joint_replay(&words, &plans, &ends, &picks, &mut expected_out);
    let mut found_out = Lent::new(&out);
    let found = checked.joint_replay(&words, &plans, &ends, &picks, found_out.slice());
    let mut comparison = Comparison::new("lawcheck_joint_replay");
    comparison.answer((expected, &expected_out), found, &found_out);
    comparison.lacks((expected, &expected_out), missing::JOINT_REPLAY);
    if (expected, found) == (0, 0) {
        let out = found_out.held();
        let met = (out[0] == 1).then(|| last_step(&plans, &ends, &picks)).flatten();
        let met = met.map(|action| (action, &out[3..5]));
        let told = &out[missing::JOINT_REPLAY];
        if let Err(difference) = lacks_as_the_step(checked, &words, met, told) {
            comparison.differ(difference);
        }
    }
    let answer = expected_out.first().copied().unwrap_or(0);
    comparison.close(class(expected, answer), || {
        let others = vec![
            ("plans", list(&plans)),
            ("ends", list(&ends)),
            ("picks", list(&picks)),
            ("out at entry", list(&out)),
        ];
        (Input::Task(words), others)
    })
}

/// The step at a place of a member's plan.
pub fn step_at(plans: &[u16], ends: &[u64], member: u8, place: u64) -> Option<u16> {
    let begin = if member == 0 { 0 } else { *ends.get(member as usize - 1)? };
    let end = *ends.get(member as usize)?;
    let at = begin.checked_add(place).filter(|&at| at < end)?;
    plans.get(at as usize).copied()
}

/// The step of the last of some picks of which the others went.
pub fn last_step(plans: &[u16], ends: &[u64], picks: &[u8]) -> Option<u16> {
    let (&last, before) = picks.split_last()?;
    let place = before.iter().filter(|&&member| member == last).count();
    step_at(plans, ends, last, place as u64)
}

/// A run that is handed in, and a member to pick: mostly one with a step left.
pub struct Handed {
    pub words: Vec<u64>,
    pub bundle: Bundle,
    pub run: Vec<u64>,
    pub member: u8,
}

pub fn handed_in(random: &mut Random) -> Handed {
    let (words, planner, bundle) = task_with_plans(random);
    let mut run = match &planner {
        Some(planner) => planner.run(random, &bundle),
        None => any_run(random),
    };
    change_length(random, &mut run);
    let left = planner
        .as_ref()
        .filter(|_| random.chance(75))
        .and_then(|planner| planner.with_step_left(random, &bundle, &run));
    let member = left.unwrap_or_else(|| member(random, &words));
    if let Some(planner) = planner.filter(|_| random.chance(35)) {
        put_lacking(random, &planner, &bundle, &mut run, member);
    }
    Handed { words, bundle, run, member }
}

/// Puts a shared copy into a run that lacks what the member's next step needs, where it has one.
pub fn put_lacking(
    random: &mut Random,
    planner: &Planner,
    Bundle { plans, ends }: &Bundle,
    run: &mut [u64],
    member: u8,
) {
    let place = run.get(1 + member as usize).filter(|_| run.len() >= RUN);
    let number = place.and_then(|&place| step_at(plans, ends, member, place));
    if let Some(action) = number.and_then(|number| planner.task.actions.get(number as usize)) {
        let facts = planner.task.known.count_ones() as usize;
        put_shared(run, lacking(random, facts, action.pre, action.wait));
    }
}

pub fn pick(random: &mut Random, checked: &impl Interface) -> Checked {
    let Handed { words, bundle, run, member } = handed_in(random);
    pick_on(random, checked, words, bundle, run, member)
}

pub fn ask(random: &mut Random, checked: &impl Interface) -> Checked {
    let Handed { words, bundle, run, member } = handed_in(random);
    ask_on(random, checked, words, bundle, run, member)
}

pub fn commit(random: &mut Random, checked: &impl Interface) -> Checked {
    let Handed { words, bundle, run, member } = handed_in(random);
    let ticket = ticket(random, &run, member);
    commit_on(random, checked, words, bundle, run, ticket)
}

/// Makes a run too short or longer than asked, at times.
fn change_length(random: &mut Random, run: &mut Vec<u64>) {
    match random.below(20) {
        0 => run.truncate(random.one_of(&[0, 1, RUN - 2, RUN - 1])),
        1 => run.extend(contents::<u64>(random, 3)),
        _ => {}
    }
}

/// A pick of this member on this run.
pub fn pick_on(
    random: &mut Random,
    checked: &impl Interface,
    words: Vec<u64>,
    bundle: Bundle,
    run: Vec<u64>,
    member: u8,
) -> Checked {
    let out = random_out(random, out_length::PICK);
    on_run(
        checked,
        ("lawcheck_pick", "member", member.to_string()),
        Held { words, bundle, run, member, out, missing: missing::PICK },
        |words, plans, ends, run, out| paper::pick(words, plans, ends, run, member, out),
        |words, plans, ends, run, out| checked.pick(words, plans, ends, run, member, out),
    )
}

/// An ask for this member on this run, which stays as it was.
pub fn ask_on(
    random: &mut Random,
    checked: &impl Interface,
    words: Vec<u64>,
    bundle: Bundle,
    run: Vec<u64>,
    member: u8,
) -> Checked {
    let out = random_out(random, out_length::ASK);
    on_run(
        checked,
        ("lawcheck_ask", "member", member.to_string()),
        Held { words, bundle, run, member, out, missing: missing::ASK },
        |words, plans, ends, run, out| paper::ask(words, plans, ends, run, member, out),
        |words, plans, ends, run, out| checked.ask(words, plans, ends, run, member, out),
    )
}

/// The commit of this ticket on this run.
pub fn commit_on(
    random: &mut Random,
    checked: &impl Interface,
    words: Vec<u64>,
    bundle: Bundle,
    run: Vec<u64>,
    ticket: Ticket,
) -> Checked {
    let out = random_out(random, out_length::COMMIT);
    let member = ticket.member;
    on_run(
        checked,
        ("lawcheck_commit", "ticket", format!("{ticket:?}")),
        Held { words, bundle, run, member, out, missing: missing::COMMIT },
        |words, plans, ends, run, out| paper::commit(words, plans, ends, run, ticket, out),
        |words, plans, ends, run, out| checked.commit(words, plans, ends, run, ticket, out),
    )
}

/// What a call on a run is handed, and where it tells what is missing.
struct Held {
    words: Vec<u64>,
    bundle: Bundle,
    run: Vec<u64>,
    member: u8,
    out: Vec<u64>,
    missing: Range<usize>,
}

/// A call on a run, by the paper and as it is to be checked; named with the argument's name and
/// text.
fn on_run(
    checked: &impl Interface,
    (function, argument, text): (&'static str, &'static str, String),
    held: Held,
    paper: impl Fn(&[u64], &[u16], &[u64], &mut [u64], &mut [u64]) -> u64,
    call: impl Fn(&[u64], &[u16], &[u64], &mut [u64], &mut [u64]) -> u64,
) -> Checked {
    let Held { words, bundle: Bundle { plans, ends }, run, member, out, missing } = held;
    let (mut expected_run, mut expected_out) = (run.clone(), out.clone());
    let expected = paper(&words, &plans, &ends, &mut expected_run, &mut expected_out);
    let (mut found_run, mut found_out) = (Lent::new(&run), Lent::new(&out));
    let found = call(&words, &plans, &ends, found_run.slice(), found_out.slice());
    let mut comparison = Comparison::new(function);
    comparison.answer((expected, &expected_out), found, &found_out);
    comparison.slice("run", &expected_run, &found_run);
    comparison.lacks((expected, &expected_out), missing.clone());
    if (expected, found) == (0, 0) {
        let told = found_out.held();
        // A pick that collides tells 1, an ask 2.
        let collides = told[0] == if missing == missing::ASK { 2 } else { 1 };
        let action = step_at(&plans, &ends, member, run[1 + member as usize]);
        let met = action.filter(|_| collides).map(|action| (action, &run[SHARED..CHANGE]));
        if let Err(difference) = lacks_as_the_step(checked, &words, met, &told[missing]) {
            comparison.differ(difference);
        }
    }
    let answer = expected_out.first().copied().unwrap_or(0);
    comparison.close(class(expected, answer), || {
        let others = vec![
            ("plans", list(&plans)),
            ("ends", list(&ends)),
            ("run at entry", list(&run)),
            (argument, text),
            ("out at entry", list(&out)),
        ];
        (Input::Task(words), others)
    })
}

pub fn start(random: &mut Random, checked: &impl Interface) -> Checked {
    let words = task_words(random, 30);
    let mut run = contents(random, RUN);
    change_length(random, &mut run);
    start_on(checked, words, run)
}

/// The start of a run, written to these words.
pub fn start_on(checked: &impl Interface, words: Vec<u64>, run: Vec<u64>) -> Checked {
    let mut expected_run = run.clone();
    let expected = paper::start(&words, &mut expected_run);
    let mut found_run = Lent::new(&run);
    let found = checked.start(&words, found_run.slice());
    let mut comparison = Comparison::new("lawcheck_start");
    comparison.answer((expected, &[]), found, &Lent::new(&[]));
    comparison.slice("run", &expected_run, &found_run);
    comparison
        .close(class(expected, 0), || (Input::Task(words), vec![("run at entry", list(&run))]))
}

pub fn play(random: &mut Random, checked: &impl Interface) -> Checked {
    let (words, planner, bundle) = task_with_plans(random);
    let (mut run, mut picks) = match &planner {
        Some(planner) => (planner.run(random, &bundle), planner.picks(random, &bundle)),
        None => (any_run(random), contents(random, 3)),
    };
    change_length(random, &mut run);
    for _ in 0..random.below(4) {
        picks.insert(random.below(picks.len() + 1), member(random, &words));
    }
    if let (Some(planner), Some(&first)) = (planner.filter(|_| random.chance(35)), picks.first()) {
        put_lacking(random, &planner, &bundle, &mut run, first);
    }
    let length = length_near(random, picks.len());
    let answers = contents(random, length);
    play_on(checked, words, bundle, run, picks, answers)
}

/// These picks in turn on this run.
pub fn play_on(
    checked: &impl Interface,
    words: Vec<u64>,
    bundle: Bundle,
    run: Vec<u64>,
    picks: Vec<u8>,
    answers: Vec<u64>,
) -> Checked {
    let Bundle { plans, ends } = bundle;
    let (mut expected_run, mut expected_answers) = (run.clone(), answers.clone());
    let expected =
        paper::play(&words, &plans, &ends, &mut expected_run, &picks, &mut expected_answers);
    let (mut found_run, mut found_answers) = (Lent::new(&run), Lent::new(&answers));
    let found =
        checked.play(&words, &plans, &ends, found_run.slice(), &picks, found_answers.slice());
    let mut comparison = Comparison::new("lawcheck_play");
    comparison.answer((expected, &[]), found, &Lent::new(&[]));
    comparison.slice("run", &expected_run, &found_run);
    comparison.slice("answers", &expected_answers, &found_answers);
    // The case counts by what its last pick answers.
    let last = picks
        .len()
        .checked_sub(1)
        .map_or(0, |last| expected_answers.get(last).copied().unwrap_or(0));
    comparison.close(class(expected, last), || {
        let others = vec![
            ("plans", list(&plans)),
            ("ends", list(&ends)),
            ("run at entry", list(&run)),
            ("picks", list(&picks)),
            ("answers at entry", list(&answers)),
        ];
        (Input::Task(words), others)
    })
}
