//! The verdict program on generated texts: each file that it prints is held against the second
//! implementation, byte for byte.
#![forbid(unsafe_code)]

pub mod driver;
pub mod file;
pub mod reached;
pub mod sizes;
pub mod texts;
