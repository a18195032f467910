//! The rule: which buffer tests an outcome has to pass.

use crate::table::Refusal;

/// "A rule number chooses: 0 registered (the old tests), 1 flow-through".
#[derive(Clone, Copy, Debug, PartialEq, Eq)]
pub enum Rule {
    /// 0: "the old tests", which look at the level "at the start of the
    /// cycle".
    Registered,
    /// 1: "the level after the outcome lies in 0 to B".
    FlowThrough,
}

impl Rule {
    /// The rule of a number, or 17: "rule above 1".
    pub fn of(number: u64) -> Result<Rule, Refusal> {
        match number {
            0 => Ok(Rule::Registered),
            1 => Ok(Rule::FlowThrough),
            // "New refusals carry side 0, row 0 unless said."
            _ => Err(Refusal::of_call(17)),
        }
    }

    /// 0 or 1.
    pub fn number(self) -> u64 {
        match self {
            Rule::Registered => 0,
            Rule::FlowThrough => 1,
        }
    }
}
