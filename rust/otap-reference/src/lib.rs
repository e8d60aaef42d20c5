//! An independent reading of document 01 in plain Rust, and messages to try it or another implementation with.
#![forbid(unsafe_code)]

pub mod inputs;
pub mod layout;
pub mod programs;
pub mod records;
pub mod reference;
