//! Lists of asks, commits and picks on one run. Each call is compared with the paper's. Besides,
//! without looking at the paper: an ask leaves the run as it was; a commit that is not refused
//! answers what an ask answers just before it, what is missing too; and the calls that were not
//! refused, asks left out, answer the same alone and leave the same run.

use super::run::{put_lacking, task_with_plans};
use super::{member, sizes::bundle};
use crate::case::{list, Checked, Class, Comparison, Input};
use crate::lent::Lent;
use reference::generate::contents;
use reference::generate::plans::{any_run, change_number, run_at_start, ticket, Bundle};
use reference::generate::sizes::Turns;
use reference::interface::{missing, out_length, Interface, Ticket, CHANGE, LAST, SHARED};
use reference::paper::interface as paper;
use reference::random::Random;

/// How the cases are called.
pub const NAME: &str = "asks and commits";

/// A call on the run.
#[derive(Clone, Copy, Debug, PartialEq)]
enum Call {
    Ask(u8),
    Commit(Ticket),
    Pick(u8),
}

/// The most calls of a random list.
const CALLS: usize = 24;

pub fn any(random: &mut Random, checked: &impl Interface) -> Checked {
    let (words, planner, bundle) = task_with_plans(random);
    let mut run = match &planner {
        Some(planner) if random.chance(30) => planner.run(random, &bundle),
        Some(planner) => run_at_start(planner.task.initial, change_number(random)),
        None => any_run(random),
    };
    if let Some(planner) = planner.filter(|_| random.chance(35)) {
        let member = member(random, &words);
        put_lacking(random, &planner, &bundle, &mut run, member);
    }
    let calls = random.between(1, CALLS);
    calls_on(random, checked, words, bundle, run, calls)
}

/// So many calls on a run of members that take turns, where most steps go.
pub fn in_turn(random: &mut Random, checked: &impl Interface, calls: usize) -> Checked {
    let members = random.between(2, 8);
    let turns = Turns::anywhere(random, members);
    let mut plans: Vec<Vec<u16>> =
        (0..members).map(|member| turns.plan(member, calls / members)).collect();
    // One takes the shared fact and another waits for it, or needs it.
    if random.chance(50) {
        plans[0].push(turns.takes(0));
        plans[1].push(random.one_of(&[turns.waits(1), turns.needs(1)]));
    }
    let numbers = [0, change_number(random), LAST - random.below(2 * calls) as u32];
    let run = run_at_start(turns.law.initial, random.one_of(&numbers));
    calls_on(random, checked, turns.law.words(), bundle(plans), run, calls)
}

/// The call that comes next, by the run as it stands and the tickets that were given.
fn next(random: &mut Random, words: &[u64], run: &[u64], tickets: &[Ticket]) -> Call {
    match (random.below(20), tickets.last()) {
        (0..=8, _) => Call::Ask(member(random, words)),
        (9..=14, Some(&last)) => Call::Commit(last),
        (15..=16, Some(_)) => Call::Commit(random.one_of(tickets)),
        (17, _) => Call::Pick(member(random, words)),
        _ => {
            let member = member(random, words);
            Call::Commit(ticket(random, run, member))
        }
    }
}

/// A call on the run by the implementation that is checked.
fn call(
    checked: &impl Interface,
    words: &[u64],
    Bundle { plans, ends }: &Bundle,
    run: &mut [u64],
    call: Call,
    out: &mut Lent<u64>,
) -> u64 {
    match call {
        Call::Ask(member) => checked.ask(words, plans, ends, run, member, out.slice()),
        Call::Commit(ticket) => checked.commit(words, plans, ends, run, ticket, out.slice()),
        Call::Pick(member) => checked.pick(words, plans, ends, run, member, out.slice()),
    }
}

/// So many calls on this run.
fn calls_on(
    random: &mut Random,
    checked: &impl Interface,
    words: Vec<u64>,
    bundle: Bundle,
    run: Vec<u64>,
    calls: usize,
) -> Checked {
    let Bundle { plans, ends } = &bundle;
    let mut comparison = Comparison::new(NAME);
    let (mut expected_run, mut found_run) = (run.clone(), Lent::new(&run));
    let (mut made, mut tickets) = (Vec::new(), Vec::new());
    // Those that are not refused, asks left out, with what they answer.
    let mut done: Vec<(Call, Vec<u64>)> = Vec::new();
    // The case counts by its last commit, or by one that collides.
    let mut class = Class::Answer(0);
    while made.len() < calls && !comparison.differs() {
        let this = next(random, &words, &expected_run, &tickets);
        made.push(this);
        let entry: Vec<u64> = contents(random, out_length::ASK);
        let (mut expected_out, mut found_out) = (entry.clone(), Lent::new(&entry));
        let before = found_run.held().to_vec();
        let expected = match this {
            Call::Ask(member) => {
                paper::ask(&words, plans, ends, &expected_run, member, &mut expected_out)
            }
            Call::Commit(ticket) => {
                paper::commit(&words, plans, ends, &mut expected_run, ticket, &mut expected_out)
            }
            Call::Pick(member) => {
                paper::pick(&words, plans, ends, &mut expected_run, member, &mut expected_out)
            }
        };
        let found = call(checked, &words, &bundle, found_run.slice(), this, &mut found_out);
        comparison.answer((expected, &expected_out), found, &found_out);
        comparison.slice("run", &expected_run, &found_run);
        let place = if matches!(this, Call::Ask(_)) { missing::ASK } else { missing::PICK };
        comparison.lacks((expected, &expected_out), place);
        if (matches!(this, Call::Ask(_)) || found != 0) && before != found_run.held() {
            comparison.differ("an ask or a refused call changes the run".to_string());
        }
        match this {
            Call::Ask(_) if expected == 0 => {
                let (member, change) = (expected_out[5] as u8, expected_out[6] as u32);
                tickets.push(Ticket { member, change });
            }
            Call::Ask(_) => {}
            _ if found == 0 => done.push((this, found_out.held()[..out_length::PICK].to_vec())),
            _ => {}
        }
        if let Call::Commit(ticket) = this {
            class = match expected {
                _ if class == Class::Answer(1) => class,
                0 => Class::Answer(expected_out[0]),
                8 | 13 | 19 | 20 => Class::Answer(expected),
                _ => Class::Refusal(expected),
            };
            if found == 0 {
                let told = (found_out.held(), found_run.held());
                answers_as_asked(checked, &words, &bundle, &before, ticket, told, &mut comparison);
            }
        }
    }
    if !comparison.differs() {
        alone(checked, &words, &bundle, &run, &done, found_run.held(), &mut comparison);
    }
    comparison.close(class, || {
        let calls: Vec<String> = made.iter().map(|call| format!("{call:?}")).collect();
        let others = vec![
            ("plans", list(&bundle.plans)),
            ("ends", list(&bundle.ends)),
            ("run at entry", list(&run)),
            ("calls up to the first that differs", calls.join(", ")),
        ];
        (Input::Task(words), others)
    })
}

/// A commit that was not refused answers what an ask answers on the run before it, with the same
/// mask of what is missing.
fn answers_as_asked(
    checked: &impl Interface,
    words: &[u64],
    Bundle { plans, ends }: &Bundle,
    before: &[u64],
    Ticket { member, change }: Ticket,
    (answered, after): (&[u64], &[u64]),
    comparison: &mut Comparison,
) {
    let mut asked = [0; out_length::ASK];
    let refusal = checked.ask(words, plans, ends, &mut before.to_vec(), member, &mut asked);
    let shared = SHARED..CHANGE;
    let as_asked = match asked[0] {
        0 => answered[0] == 0 && after[shared] == asked[1..3],
        2 => answered[0] == 1 && after[shared.clone()] == before[shared],
        _ => false,
    };
    let ticket = [u64::from(member), u64::from(change)];
    let lacks_as_asked = answered[missing::COMMIT] == asked[missing::ASK];
    if refusal != 0 || !as_asked || !lacks_as_asked || asked[5..] != ticket {
        let answered = &answered[..out_length::COMMIT];
        comparison.differ(format!("a commit answers {answered:?}, asked {asked:?}"));
    }
}

/// The calls that were done, alone, answer the same and leave the same run.
fn alone(
    checked: &impl Interface,
    words: &[u64],
    bundle: &Bundle,
    run: &[u64],
    done: &[(Call, Vec<u64>)],
    left: &[u64],
    comparison: &mut Comparison,
) {
    let mut again = run.to_vec();
    for (place, (this, answer)) in done.iter().enumerate() {
        let mut out = Lent::new(&[u64::MAX; out_length::PICK]);
        let returned = call(checked, words, bundle, &mut again, *this, &mut out);
        if returned != 0 || out.held() != answer {
            comparison.differ(format!("alone, {this:?} at {place} gives another answer"));
            return;
        }
    }
    if again != left {
        comparison.differ(format!("alone they leave the run {}", list(&again)));
    }
}
