//! Calls at the limits: counts of rows, bounds, rules, buffers and letters.

use crate::pairs::Pair;
use crate::tables::Parts;

/// A call of build: a pair and what stands in the lent buffer before.
#[derive(Clone, Debug, PartialEq, Eq)]
pub struct Call {
    /// What it is for.
    pub name: String,
    /// The pair.
    pub pair: Pair,
    /// The lent buffer before the call.
    pub buffer: Vec<u8>,
}

/// Bytes with a pattern in them, none of them 0 or 1.
pub fn patterned(length: usize) -> Vec<u8> {
    (0..length).map(|i| (2 + i % 251) as u8).collect()
}

/// Buffers of no, N - 1, N and N + 7 bytes, with a pattern in them.
pub fn buffers(n: usize) -> Vec<Vec<u8>> {
    [0, n - 1, n, n + 7].map(patterned).to_vec()
}

/// The bounds at the limit: "bound 15 passes and 16 gives 9".
pub const BOUNDS: [u64; 6] = [0, 15, 16, 256, 257, u64::MAX];

/// Both rules, and numbers above 1.
pub const LIMIT_RULES: [u64; 4] = [0, 1, 2, 257];

/// "64 rows pass and 65 with a true length give 5; bound 15 passes and 16
/// gives 9; N - 1 bytes give 10." Rule 1 passes and 2 gives 17.
pub fn limits() -> Vec<Call> {
    let mut calls = Vec::new();
    for rows in [0, 1, 63, 64, 65, 66, 255] {
        for (writer_rows, reader_rows) in [(rows, 2), (2, rows), (rows, rows)] {
            for (bound, rule) in bounds_and_rules() {
                let pair = Pair {
                    writer: many_rows(1, writer_rows),
                    reader: many_rows(2, reader_rows),
                    bound,
                    rule,
                };
                let n = 16 * 16 * (bound.min(15) as usize + 1);
                calls.extend(buffers(n).into_iter().map(|buffer| Call {
                    name: format!(
                        "rows {writer_rows} and {reader_rows}, bound {bound}, rule {rule}, buffer {}",
                        buffer.len()
                    ),
                    pair: pair.clone(),
                    buffer,
                }));
            }
        }
    }
    calls
}

/// The letters at the limit: 7 is the last that a table can have. The low
/// bytes of two of the others are letters.
pub const LIMIT_LETTERS: [u64; 8] = [0, 1, 7, 8, 255, 256, 1 << 32, u64::MAX];

/// Moves with each letter at the limit on one side, with 0 on the other, and
/// on both.
pub fn limit_moves() -> impl Iterator<Item = (u64, u64)> {
    LIMIT_LETTERS
        .into_iter()
        .flat_map(|letter| [(letter, 0), (0, letter), (letter, letter)])
}

/// Each bound at the limit with each rule at the limit.
fn bounds_and_rules() -> impl Iterator<Item = (u64, u64)> {
    BOUNDS
        .into_iter()
        .flat_map(|bound| LIMIT_RULES.map(|rule| (bound, rule)))
}

/// 16 states and this many rows with a true length, the first two letters of
/// each state in turn: one holds, the other moves an item and goes on.
pub fn many_rows(role: u8, count: u8) -> Vec<u8> {
    let rows = (0..count).map(|i| {
        let (state, drive, answer) = (i / 16, (i / 8) % 2, i % 8);
        let next = if drive == 0 { state } else { (state + 1) % 16 };
        [state, drive, answer, drive, next]
    });
    let side = Parts {
        role,
        states: 16,
        start: 0,
        finish: 2,
        letters: 8,
        rows: rows.collect(),
    };
    side.bytes_as_they_are()
}
