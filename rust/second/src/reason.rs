//! The reason that the move test gives.

/// "0 allowed, 1 configuration not kept, 2 no writer row, 3 no reader row, 4
/// some outcome overflows, 5 some outcome underflows, 6 some outcome lands
/// outside the kept set; the lowest that applies". In order of number.
#[derive(Clone, Copy, Debug, PartialEq, Eq, PartialOrd, Ord)]
pub enum Reason {
    /// 0: "allowed".
    Allowed,
    /// 1: "configuration not kept".
    NotKept,
    /// 2: "no writer row".
    NoWriterRow,
    /// 3: "no reader row".
    NoReaderRow,
    /// 4: "some outcome overflows".
    Overflows,
    /// 5: "some outcome underflows".
    Underflows,
    /// 6: "some outcome lands outside the kept set".
    LandsOutside,
}

impl Reason {
    /// 0 to 6.
    pub fn number(self) -> u64 {
        self as u64
    }
}
