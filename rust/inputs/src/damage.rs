//! Damaged tables.

use crate::pairs::{small_pair, Pair, NO_RULES, RULES};
use crate::random::Random;

/// A good pair under either rule of which one side, or at times both, is
/// damaged; at times its bound or its rule is out of range too.
pub fn damaged_pair(random: &mut Random) -> Pair {
    let rule = random.pick(&RULES);
    let mut pair = small_pair(random, rule);
    let which = random.below(5);
    if which != 0 {
        pair.writer = damaged_table(random, &pair.writer);
    }
    if which == 0 || which == 1 {
        pair.reader = damaged_table(random, &pair.reader);
    }
    if random.chance(10) {
        pair.bound = random.pick(&[15, 16, 257, u64::MAX]);
    }
    if random.chance(10) {
        pair.rule = random.pick(&NO_RULES);
    }
    pair
}

/// A good table with one fault, or with two or three at once. Each refusal
/// from 1 to 8 is about as often aimed at; two faults may hide each other,
/// and a fault may happen to leave the table good.
pub fn damaged_table(random: &mut Random, good: &[u8]) -> Vec<u8> {
    let mut table = good.to_vec();
    let faults = random.pick(&[1, 1, 1, 1, 2, 3]);
    for _ in 0..faults {
        let aim = random.from_to(1, 9);
        damage(random, &mut table, aim);
    }
    table
}

/// One fault that aims at a refusal by its number; 9 stands for any byte.
fn damage(random: &mut Random, table: &mut Vec<u8>, aim: u64) {
    if table.len() < 9 {
        return;
    }
    match aim {
        1 => table.truncate(random.below(9) as usize),
        2 => table[0] = random.pick(&[0, 2, 3, 128, 255]),
        3 => wrong_length(random, table),
        4 => table[3] = random.pick(&[0, 1, 2, 3, 255]),
        5 => out_of_count(random, table),
        6 => {
            let above = random.byte_below(3);
            let value = random.pick(&[table[4].saturating_add(above), 255]);
            let place = random.pick(&[5, 6]);
            table[place] = value;
        }
        7 => bad_field(random, table),
        8 => not_rising(random, table),
        _ => {
            let place = random.below(table.len() as u64) as usize;
            table[place] = random.byte();
        }
    }
}

/// A length field, a count of bytes or a count of rows that is not true.
fn wrong_length(random: &mut Random, table: &mut Vec<u8>) {
    match random.below(7) {
        0 => table[1] = random.byte(),
        1 => table[2] = random.byte(),
        2 => table[8] = random.byte_below(70),
        3 => {
            let length = random.from_to(9, table.len() as u64) as usize;
            table.truncate(length);
        }
        4 => {
            let more = random.from_to(1, 6);
            for _ in 0..more {
                table.push(random.byte());
            }
        }
        // The field true for the bytes, but no whole number of rows.
        5 => {
            table.push(random.byte());
            set_length(table);
        }
        // One row less or more in bytes and field, not in the count.
        _ => {
            if random.chance(50) && table.len() >= 14 {
                table.truncate(table.len() - 5);
            } else {
                table.extend([0, 0, 0, 0, 0]);
            }
            set_length(table);
        }
    }
}

/// Sets the length field to the true count of bytes.
pub(crate) fn set_length(table: &mut [u8]) {
    let length = table.len() - 3;
    table[1] = (length / 256) as u8;
    table[2] = (length % 256) as u8;
}

/// States, letters or rows outside their range.
fn out_of_count(random: &mut Random, table: &mut Vec<u8>) {
    match random.below(3) {
        0 => table[4] = random.pick(&[0, 17, 18, 255]),
        1 => table[7] = random.pick(&[0, 9, 10, 255]),
        _ => {
            let rows = random.pick(&[65, 66, 200, 255]);
            table.resize(9 + 5 * usize::from(rows), 0);
            table[8] = rows;
            set_length(table);
        }
    }
}

/// The count of whole rows in the bytes.
fn rows_there(table: &[u8]) -> usize {
    (table.len() - 9) / 5
}

/// A row field out of range, often by one only.
fn bad_field(random: &mut Random, table: &mut [u8]) {
    let rows = rows_there(table);
    if rows == 0 {
        return;
    }
    let field = random.below(5) as usize;
    let end = [table[4], table[7], 16, 2, table[4]][field];
    let row = random.below(rows as u64) as usize;
    let above = random.byte_below(2);
    table[9 + 5 * row + field] = random.pick(&[end.saturating_add(above), 255]);
}

/// Two rows exchanged, a row copied over the next, or one of a row's first
/// three fields set to 0.
fn not_rising(random: &mut Random, table: &mut [u8]) {
    let rows = rows_there(table);
    if rows < 2 {
        return;
    }
    let row = random.below(rows as u64 - 1) as usize;
    let at = 9 + 5 * row;
    match random.below(4) {
        0 => {
            for i in 0..5 {
                table.swap(at + i, at + 5 + i);
            }
        }
        1 => table.copy_within(at..at + 5, at + 5),
        2 => table.copy_within(at..at + 3, at + 5),
        _ => {
            let field = random.below(3) as usize;
            table[at + 5 + field] = 0;
        }
    }
}

/// Every prefix of a table, the empty one and the whole one too.
pub fn prefixes(table: &[u8]) -> impl Iterator<Item = Vec<u8>> + '_ {
    (0..=table.len()).map(|n| table[..n].to_vec())
}

/// Every table that differs from this one in a single byte, 255 for each
/// byte.
pub fn single_changes(table: &[u8]) -> impl Iterator<Item = Vec<u8>> + '_ {
    (0..table.len()).flat_map(move |place| {
        (1..=255u8).map(move |change| {
            let mut changed = table.to_vec();
            changed[place] = changed[place].wrapping_add(change);
            changed
        })
    })
}
