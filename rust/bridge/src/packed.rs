//! The entry points as they stand: one 64-bit number each.
//!
//! Each takes the number of the rule, 0 registered and 1 flow-through, right
//! after the bound; a larger one is refused with 17.
//!
//! The number returned is number + 2^8 × side + 2^16 × row + 2^32 × kept +
//! 2^48 × rounds, with ask's count and lowest in the last two places, why's
//! reason and 0, or 0 and 0 for check.

use crate::Configuration;

mod entry {
    extern "C" {
        pub fn bridge_build(
            writer: *const u8,
            writer_len: usize,
            reader: *const u8,
            reader_len: usize,
            bound: u64,
            rule: u64,
            buffer: *mut u8,
            buffer_len: usize,
        ) -> u64;

        pub fn bridge_ask(
            writer: *const u8,
            writer_len: usize,
            reader: *const u8,
            reader_len: usize,
            bound: u64,
            rule: u64,
            kept: *const u8,
            kept_len: usize,
            writer_state: u64,
            reader_state: u64,
            level: u64,
        ) -> u64;

        pub fn bridge_ask_set(
            writer: *const u8,
            writer_len: usize,
            reader: *const u8,
            reader_len: usize,
            bound: u64,
            rule: u64,
            kept: *const u8,
            kept_len: usize,
            writer_state: u64,
            reader_state: u64,
            level: u64,
        ) -> u64;

        pub fn bridge_why(
            writer: *const u8,
            writer_len: usize,
            reader: *const u8,
            reader_len: usize,
            bound: u64,
            rule: u64,
            kept: *const u8,
            kept_len: usize,
            writer_state: u64,
            reader_state: u64,
            level: u64,
            writer_letter: u64,
            reader_letter: u64,
        ) -> u64;

        pub fn bridge_check(
            writer: *const u8,
            writer_len: usize,
            reader: *const u8,
            reader_len: usize,
            bound: u64,
            rule: u64,
            list: *const u8,
            list_len: usize,
        ) -> u64;
    }
}

/// Build's packed number.
pub fn build(writer: &[u8], reader: &[u8], bound: u64, rule: u64, buffer: &mut [u8]) -> u64 {
    // SAFETY: each pointer and length is one slice's, the lent buffer is
    // borrowed alone, and the function is proved for any bytes and numbers:
    // it has no `requires`, and reads and writes within the slices only.
    unsafe {
        entry::bridge_build(
            writer.as_ptr(),
            writer.len(),
            reader.as_ptr(),
            reader.len(),
            bound,
            rule,
            buffer.as_mut_ptr(),
            buffer.len(),
        )
    }
}

/// Ask's packed number.
pub fn ask(
    writer: &[u8],
    reader: &[u8],
    bound: u64,
    rule: u64,
    kept: &[u8],
    at: Configuration,
) -> u64 {
    // SAFETY: as in `build`; nothing is written.
    unsafe {
        entry::bridge_ask(
            writer.as_ptr(),
            writer.len(),
            reader.as_ptr(),
            reader.len(),
            bound,
            rule,
            kept.as_ptr(),
            kept.len(),
            at.writer,
            at.reader,
            at.level,
        )
    }
}

/// Ask's set, bit 8x + y for the move x.y; 0 at a refusal.
pub fn ask_set(
    writer: &[u8],
    reader: &[u8],
    bound: u64,
    rule: u64,
    kept: &[u8],
    at: Configuration,
) -> u64 {
    // SAFETY: as in `build`; nothing is written.
    unsafe {
        entry::bridge_ask_set(
            writer.as_ptr(),
            writer.len(),
            reader.as_ptr(),
            reader.len(),
            bound,
            rule,
            kept.as_ptr(),
            kept.len(),
            at.writer,
            at.reader,
            at.level,
        )
    }
}

/// Why's packed number, of the move x.y.
pub fn why(
    writer: &[u8],
    reader: &[u8],
    bound: u64,
    rule: u64,
    kept: &[u8],
    at: Configuration,
    (x, y): (u64, u64),
) -> u64 {
    // SAFETY: as in `build`; nothing is written.
    unsafe {
        entry::bridge_why(
            writer.as_ptr(),
            writer.len(),
            reader.as_ptr(),
            reader.len(),
            bound,
            rule,
            kept.as_ptr(),
            kept.len(),
            at.writer,
            at.reader,
            at.level,
            x,
            y,
        )
    }
}

/// Check's packed number; at 19 and 20 the row is a place.
pub fn check(writer: &[u8], reader: &[u8], bound: u64, rule: u64, list: &[u8]) -> u64 {
    // SAFETY: as in `build`; nothing is written.
    unsafe {
        entry::bridge_check(
            writer.as_ptr(),
            writer.len(),
            reader.as_ptr(),
            reader.len(),
            bound,
            rule,
            list.as_ptr(),
            list.len(),
        )
    }
}

/// The number of the refusal, 0 for done.
pub fn number(packed: u64) -> u8 {
    packed as u8
}

/// The side of the refusal: 0 none, 1 writes, 2 reads.
pub fn side(packed: u64) -> u8 {
    (packed >> 8) as u8
}

/// The row of the refusal.
pub fn row(packed: u64) -> u16 {
    (packed >> 16) as u16
}

/// The fourth place: build's kept count, ask's count, why's reason, or 0 for
/// check.
pub fn fourth(packed: u64) -> u64 {
    (packed >> 32) & 0xffff
}

/// The fifth place: build's rounds, ask's lowest, or 0 for why and check.
pub fn fifth(packed: u64) -> u64 {
    packed >> 48
}
