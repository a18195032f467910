//! The rule of the buffer.

#[derive(Clone, Copy, PartialEq, Eq)]
pub enum Rule {
    Registered,
    FlowThrough,
}

impl Rule {
    /// The rule of a number, or refusal 17.
    #[inline]
    pub fn of(number: u64) -> Result<Rule, u64> {
        match number {
            0 => Ok(Rule::Registered),
            1 => Ok(Rule::FlowThrough),
            _ => Err(17),
        }
    }

    /// The room and the stock that an outcome needs at the start of the cycle,
    /// for items of 0 or 1.
    #[inline]
    pub fn needs(self, written: u8, taken: u8) -> (u8, u8) {
        match self {
            Rule::Registered => (written, taken),
            Rule::FlowThrough => (written & !taken, taken & !written),
        }
    }
}
