//! A pair with kept bytes: a set K of its configurations.

use crate::pair::{Configuration, Pair};
use crate::reason::Reason;
use crate::table::Refusal;

/// A checked pair and the first N of "the 0/1 bytes the caller lends, built
/// by us or not".
#[derive(Clone, Debug)]
pub struct Kept<'a> {
    /// The pair.
    pub pair: Pair,
    bytes: &'a [u8],
}

impl<'a> Kept<'a> {
    /// Refusals 1 to 9, 17, 10 and 12, of ask, why and step alike.
    pub fn read(
        writer: &[u8],
        reader: &[u8],
        bound: u64,
        rule: u64,
        kept: &'a [u8],
    ) -> Result<Kept<'a>, Refusal> {
        let pair = Pair::read(writer, reader, bound, rule)?;
        // 10: "lent buffer under N bytes"
        let Some(bytes) = kept.get(..pair.count()) else {
            return Err(Refusal::of_call(10));
        };
        // 12: "one of the first N bytes is neither 0 nor 1 (ask, step)"
        if bytes.iter().any(|byte| *byte > 1) {
            return Err(Refusal::of_call(12));
        }
        Ok(Kept { pair, bytes })
    }

    /// Whether a configuration in range is in K.
    pub fn has(&self, at: Configuration) -> bool {
        self.bytes[self.pair.place(at)] == 1
    }

    /// The reason of move x.y at a configuration in range.
    pub fn reason(&self, at: Configuration, xy: (u64, u64)) -> Reason {
        self.pair.reason(|at| self.has(at), at, xy)
    }

    /// The moves x.y at a configuration in range whose reason is 0, in order
    /// of bit: "Wherever the test is used, allowed means reason 0."
    pub fn allowed_moves(&self, at: Configuration) -> Vec<(u64, u64)> {
        let (xs, ys) = (self.pair.writer.letters, self.pair.reader.letters);
        let row = |x: u64| (0..u64::from(ys)).map(move |y| (x, y));
        let all = (0..u64::from(xs)).flat_map(row);
        all.filter(|xy| self.reason(at, *xy) == Reason::Allowed)
            .collect()
    }
}
