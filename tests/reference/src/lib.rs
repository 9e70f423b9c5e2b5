//! A second implementation of the law checker, written from the scope paper and not from the
//! definitions in `specs/`.
//!
//! * [`paper`]: facts as sets, plain loops, one module for each section of the paper. The oracle.
//! * [`brute`]: all short plans and all pick orders of small laws.
//! * [`fast`]: masks and hash maps, the twin for benchmarks, which also stands in for the library.
//! * [`interface`]: the operations as the C interface lends them, one trait.
//! * [`generate`]: laws, plans, picks and texts from fixed seeds, valid and damaged.
//! * [`law`]: a law in parts, and its layout in words.
//! * [`laws`]: L1 to L12 of the paper.
//! * [`wrong`]: verdicts that choose another conflict and operations that tell another mask of what
//!   is missing, which the tests have to find.
#![forbid(unsafe_code)]

pub mod brute;
pub mod fast;
pub mod generate;
pub mod interface;
pub mod law;
pub mod laws;
pub mod paper;
pub mod random;
pub mod wrong;
