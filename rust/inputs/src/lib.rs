//! Test inputs for the comparison of the two builders.
//!
//! All of them are deterministic from a seed that a test prints, so that a
//! failure can be met again. Nothing here reads or builds: this crate knows
//! the layout of a protocol table and of a permission list, and nothing else
//! of documents 01 and 02.

#![forbid(unsafe_code)]
#![warn(missing_docs)]

pub mod damage;
pub mod limits;
pub mod listings;
pub mod lists;
pub mod many_rounds;
pub mod pairs;
pub mod questions;
pub mod random;
pub mod tables;

pub use damage::{damaged_pair, damaged_table, prefixes, single_changes};
pub use limits::{buffers, limit_moves, limits, patterned, Call};
pub use listings::listing_input;
pub use lists::{list_bytes, longest_way, moves_past_letters, random_sets, thinned, wrong_lists};
pub use many_rounds::{many_rounds, ManyRounds, MANY_ROUNDS};
pub use pairs::{all_kept, chains, clocks, large_pair, long_way, many_moves_pair, small_pair};
pub use pairs::{Pair, FLOW_THROUGH, NO_RULES, REGISTERED, RULES};
pub use questions::{configuration, cycle, kept_bytes, kept_set, letters, run, Cycle, Run};
pub use random::Random;
pub use tables::Parts;

/// Bytes as hex, in pairs with blanks between.
pub fn hex(bytes: &[u8]) -> String {
    let pairs: Vec<String> = bytes.iter().map(|byte| format!("{byte:02x}")).collect();
    pairs.join(" ")
}

/// A pair as bytes in hex, for the message of a failure.
pub fn hex_pair(pair: &Pair) -> String {
    format!(
        "writer: {}\nreader: {}\nbound: {}\nrule: {}",
        hex(&pair.writer),
        hex(&pair.reader),
        pair.bound,
        pair.rule
    )
}
