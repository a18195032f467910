//! Ask: "which moves are allowed here".

use crate::kept::Kept;
use crate::pair::Configuration;
use crate::table::Refusal;

/// What ask returns: "number, side and row too", and "the allowed moves at a
/// configuration as a 64-bit set, bit 8x + y, with their count and the lowest
/// set bit's number (64 if none)".
#[derive(Clone, Copy, Debug, PartialEq, Eq)]
pub struct Asked {
    /// 0 for done, else the refusal's number.
    pub number: u64,
    /// The refusal's side.
    pub side: u64,
    /// The refusal's row.
    pub row: u64,
    /// The allowed moves, bit 8x + y.
    pub set: u64,
    /// How many they are.
    pub count: u64,
    /// The lowest set bit's number, 64 if none.
    pub lowest: u64,
}

impl Asked {
    /// "with ask's count and lowest in the last two places".
    pub fn packed(&self) -> u64 {
        self.number + (self.side << 8) + (self.row << 16) + (self.count << 32) + (self.lowest << 48)
    }

    /// "A refusal returns set 0, count 0, lowest 64."
    fn refused(refusal: Refusal) -> Asked {
        Asked {
            number: refusal.number,
            side: refusal.side,
            row: refusal.row,
            set: 0,
            count: 0,
            lowest: 64,
        }
    }

    /// The answer for these allowed moves, in order of bit.
    fn done(moves: &[(u64, u64)]) -> Asked {
        let bits: Vec<u64> = moves.iter().map(|(x, y)| 8 * x + y).collect();
        Asked {
            number: 0,
            side: 0,
            row: 0,
            set: bits.iter().fold(0, |set, bit| set | (1 << bit)),
            count: bits.len() as u64,
            lowest: bits.iter().min().copied().unwrap_or(64),
        }
    }
}

/// Ask, "over the 0/1 bytes the caller lends, built by us or not": refusals
/// 1 to 9, 17, 10, 12 and 13.
pub fn ask(
    writer: &[u8],
    reader: &[u8],
    bound: u64,
    rule: u64,
    kept: &[u8],
    at: Configuration,
) -> Asked {
    let moves = Kept::read(writer, reader, bound, rule, kept).and_then(|kept| {
        kept.pair.check_range(at)?;
        Ok(kept.allowed_moves(at))
    });
    match moves {
        Err(refusal) => Asked::refused(refusal),
        Ok(moves) => Asked::done(&moves),
    }
}
