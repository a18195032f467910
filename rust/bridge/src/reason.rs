//! Why a move is not allowed.

use std::fmt;

/// What the test of a move says: allowed, or the first in this order that
/// keeps it from being so, over all its outcomes.
///
/// ```
/// use bridge::Reason;
///
/// let reason = Reason::of(4).unwrap();
/// assert_eq!((reason, reason.number()), (Reason::Overflows, 4));
/// assert_eq!(reason.to_string(), "some outcome overflows the buffer");
/// assert_eq!(Reason::of(7), None);
/// ```
#[derive(Clone, Copy, Debug, PartialEq, Eq, PartialOrd, Ord, Hash)]
pub enum Reason {
    /// 0: the move is allowed.
    Allowed,
    /// 1: the configuration itself is not kept.
    NotKept,
    /// 2: the writer has no row for its state and the letter x.
    NoWriterRow,
    /// 3: the reader has no row for its state and the letter y.
    NoReaderRow,
    /// 4: some outcome writes an item for which there is no room.
    Overflows,
    /// 5: some outcome takes an item that is not there.
    Underflows,
    /// 6: some outcome lands on a configuration that is not kept.
    LandsOutside,
}

impl Reason {
    const ALL: [Reason; 7] = [
        Reason::Allowed,
        Reason::NotKept,
        Reason::NoWriterRow,
        Reason::NoReaderRow,
        Reason::Overflows,
        Reason::Underflows,
        Reason::LandsOutside,
    ];

    /// The reason of a number, 0 to 6.
    pub fn of(number: u64) -> Option<Reason> {
        let mut all = Reason::ALL.into_iter();
        all.find(|reason| reason.number() == number)
    }

    /// The reason's number, 0 to 6.
    pub fn number(self) -> u64 {
        self as u64
    }
}

impl fmt::Display for Reason {
    fn fmt(&self, f: &mut fmt::Formatter<'_>) -> fmt::Result {
        f.write_str(match self {
            Reason::Allowed => "the move is allowed",
            Reason::NotKept => "the configuration is not kept",
            Reason::NoWriterRow => "the writer has no row for its state and letter",
            Reason::NoReaderRow => "the reader has no row for its state and letter",
            Reason::Overflows => "some outcome overflows the buffer",
            Reason::Underflows => "some outcome underflows the buffer",
            Reason::LandsOutside => "some outcome lands outside the kept set",
        })
    }
}
