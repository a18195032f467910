//! Why: the reason of one move, as a call of its own.

use crate::kept::Kept;
use crate::pair::Configuration;
use crate::reason::Reason;
use crate::table::Refusal;

/// What why returns: number, side and row as ask does, and the reason.
#[derive(Clone, Copy, Debug, PartialEq, Eq)]
pub struct Explained {
    /// 0 for done, else the refusal's number.
    pub number: u64,
    /// The refusal's side.
    pub side: u64,
    /// The refusal's row.
    pub row: u64,
    /// The number of the reason, 0 in a refusal.
    pub reason: u64,
}

impl Explained {
    /// number + 2^8 × side + 2^16 × row + 2^32 × reason.
    pub fn packed(&self) -> u64 {
        self.number + (self.side << 8) + (self.row << 16) + (self.reason << 32)
    }

    /// The refusal, or done with the reason.
    pub fn of(result: Result<Reason, Refusal>) -> Explained {
        match result {
            Err(Refusal { number, side, row }) => Explained {
                number,
                side,
                row,
                reason: 0,
            },
            Ok(reason) => Explained {
                number: 0,
                side: 0,
                row: 0,
                reason: reason.number(),
            },
        }
    }
}

/// Why: ask's refusals, then 14, else the reason of move x.y.
pub fn why(
    writer: &[u8],
    reader: &[u8],
    bound: u64,
    rule: u64,
    kept: &[u8],
    at: Configuration,
    xy: (u64, u64),
) -> Explained {
    let kept = Kept::read(writer, reader, bound, rule, kept);
    Explained::of(kept.and_then(|kept| kept.why(at, xy)))
}

impl Kept<'_> {
    /// Refusals 13 and 14, else the reason of move x.y.
    pub fn why(&self, at: Configuration, xy: (u64, u64)) -> Result<Reason, Refusal> {
        self.pair.check_range(at)?;
        self.pair.check_letters(xy)?;
        Ok(self.reason(at, xy))
    }
}
