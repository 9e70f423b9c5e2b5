//! The comparison: generated cases, each an operation of the C interface on one input, held against
//! the second implementation. The return, `out` and every lent slice are compared cell by cell,
//! also after a refusal; the trail alone is free after an answer. A conflict is also replayed in
//! both implementations.
#![forbid(unsafe_code)]

// Brings the functions that the wrapper declares.
#[cfg(feature = "mock")]
extern crate mock as _;

pub mod case;
pub mod coverage;
pub mod driver;
pub mod lent;
pub mod operations;
pub mod proved;
