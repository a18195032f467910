//! The independent second builder.
//!
//! Everything here is written from the customer's document 01 and requests a
//! to c of document 02 alone (the call `why` from what docs/DECISIONS.md says
//! of it), and by another algorithm than marking sweeps over places: `build`
//! makes a graph of configurations and moves once, and in each round walks it
//! backwards, breadth-first from the finish (see [`mod@builder`]); `check`
//! walks the graph of a list forwards and backwards (see [`mod@check`]).
//!
//! Quoted sentences in the comments are those of document 01 and of the
//! requests, word for word.

#![forbid(unsafe_code)]
#![warn(missing_docs)]

pub mod builder;
pub mod check;
pub mod kept;
pub mod listing;
pub mod pair;
pub mod question;
pub mod reason;
pub mod rule;
pub mod run;
pub mod table;
pub mod why;
pub mod worked;

pub use builder::{build, Built};
pub use check::{check, Checked, Permitted, Standing};
pub use kept::Kept;
pub use listing::listing;
pub use pair::{Configuration, Pair};
pub use question::{ask, Asked};
pub use reason::Reason;
pub use rule::Rule;
pub use run::{begin, step, Begun, Cycle, Run, Stepped};
pub use table::{read, Refusal, Row, Side, Table};
pub use why::{why, Explained};
