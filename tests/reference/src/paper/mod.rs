//! The paper, read as plainly as possible: a state is a set of facts, a list is a list, and every
//! search is a loop. Nothing here is fast, and no mask is taken apart except where a word comes in
//! or goes out.
//!
//! Each operation takes the words as they are lent and leaves its lent slices as the paper says.

pub mod conflict;
pub mod facts;
pub mod interface;
pub mod pddl;
pub mod run;
pub mod solo;
pub mod step;
pub mod task;
pub mod text;
pub mod verdict;

/// A refusal's number.
pub type Refusal = u64;
