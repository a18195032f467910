//! Four builders in safe Rust, to measure the proved one against. Each takes
//! what `bridge_build` takes and returns the same packed number. And a check,
//! which takes what `bridge_check` takes.

#![forbid(unsafe_code)]

pub mod check;
mod hand;
pub mod heap;
pub mod one;
pub mod own;
mod rule;
pub mod same;
mod tables;
pub mod tuned;
