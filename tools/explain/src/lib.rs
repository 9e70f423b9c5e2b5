//! A verdict explained for people: as text, or as a page. Everything that is told comes from the
//! proved library, through its wrapper; [`finding`] holds it against the library's replay before
//! it is shown.
#![forbid(unsafe_code)]

// Brings the functions that the wrapper declares.
#[cfg(feature = "mock")]
extern crate mock as _;

pub mod chart;
pub mod finding;
pub mod law;
pub mod measure;
pub mod names;
pub mod page;
pub mod text;
pub mod words;
