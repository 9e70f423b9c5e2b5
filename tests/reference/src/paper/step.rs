//! "Step": what an action answers at a shared copy.

use super::facts::Facts;
use super::task::{check, Action};
use super::Refusal;

/// The answer of an action at a shared copy.
#[derive(Clone, Debug, PartialEq, Eq)]
pub enum Step {
    Go(Facts),
    Wait,
    /// The missing preconditions, which are never none.
    Collision(Facts),
}

/// The one rule: wait, else collision with what is missing, else go with the new state.
pub fn step(action: &Action, shared: &Facts) -> Step {
    if !action.wait.within(shared) {
        Step::Wait
    } else if !action.pre.within(shared) {
        Step::Collision(action.pre.without(shared))
    } else {
        Step::Go(shared.after(&action.add, &action.del))
    }
}

/// The operation: an action by its number, at a shared copy given as two words.
pub fn step_by_number(words: &[u64], action: u16, shared: &[u64]) -> Result<Step, Refusal> {
    let task = check(words)?;
    if action as usize >= task.actions.len() {
        return Err(7);
    }
    let shared = Facts::of_words(shared);
    if shared.exceeds(task.facts) {
        return Err(4);
    }
    Ok(step(&task.actions[action as usize], &shared))
}
