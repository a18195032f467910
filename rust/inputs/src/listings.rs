//! Inputs of the listing program.

use crate::damage::damaged_table;
use crate::pairs::{small_pair, Pair, RULES};
use crate::random::Random;

/// A random input: two tables, a bound byte and a rule byte, whole, without
/// the last or the last two, cut, damaged, with later bytes, or longer than
/// 1,024 bytes; at times no input or noise.
pub fn listing_input(random: &mut Random) -> Vec<u8> {
    let rule = random.pick(&RULES);
    let pair = small_pair(random, rule);
    let whole = joined(&pair);
    let tables = pair.writer.len() + pair.reader.len();
    match random.below(24) {
        0..=7 => whole,
        8 => whole[..tables + 1].to_vec(),
        9 => whole[..tables].to_vec(),
        10..=12 => cut(random, whole),
        13..=14 => damaged_input(random, &pair),
        15 => one_byte(random, whole),
        16 => [whole, noise(random)].concat(),
        17 => long(random, &pair),
        18 => any_byte(random, whole, tables),
        19 => any_byte(random, whole, tables + 1),
        20 => long_reader(random, &pair),
        21 => noise(random),
        22 => wrong_cut(random, whole, pair.writer.len()),
        _ => {
            if random.chance(10) {
                Vec::new()
            } else {
                wrong_cut(random, whole, 0)
            }
        }
    }
}

/// Writer table, reader table, bound byte, rule byte.
pub fn joined(pair: &Pair) -> Vec<u8> {
    let last = [pair.bound as u8, pair.rule as u8];
    [&pair.writer[..], &pair.reader, &last].concat()
}

/// A prefix.
fn cut(random: &mut Random, mut input: Vec<u8>) -> Vec<u8> {
    let length = random.from_to(1, input.len() as u64) as usize;
    input.truncate(length);
    input
}

/// One table or both damaged.
fn damaged_input(random: &mut Random, pair: &Pair) -> Vec<u8> {
    let mut pair = pair.clone();
    let which = random.below(3);
    if which != 0 {
        pair.writer = damaged_table(random, &pair.writer);
    }
    if which != 1 {
        pair.reader = damaged_table(random, &pair.reader);
    }
    joined(&pair)
}

/// One byte changed.
fn one_byte(random: &mut Random, input: Vec<u8>) -> Vec<u8> {
    let place = random.below(input.len() as u64) as usize;
    any_byte(random, input, place)
}

/// Any byte at this place.
fn any_byte(random: &mut Random, mut input: Vec<u8>, place: usize) -> Vec<u8> {
    input[place] = random.byte();
    input
}

/// More than 1,024 bytes.
fn long(random: &mut Random, pair: &Pair) -> Vec<u8> {
    let mut input = joined(pair);
    let length = random.pick(&[1023, 1024, 1025, 1500, 5000]);
    let filler = random.byte();
    input.resize(length, filler);
    input
}

/// A reader that reaches over the 1,024 bytes, of a length that is true for
/// them or for all.
fn long_reader(random: &mut Random, pair: &Pair) -> Vec<u8> {
    let total = random.pick(&[1020, 1024, 1030, 1100]);
    let seen = random.pick(&[total, 1024]);
    let rows = (seen - pair.writer.len() - 9) / 5;
    let length = 6 + 5 * rows;
    let mut input = pair.writer.clone();
    input.extend([1, (length / 256) as u8, (length % 256) as u8]);
    input.extend([2, 2, 0, 1, 2, rows as u8]);
    input.resize(total, 0);
    input
}

/// Some random bytes.
fn noise(random: &mut Random) -> Vec<u8> {
    let length = random.from_to(1, 40);
    (0..length).map(|_| random.byte_below(20)).collect()
}

/// A length field that cuts elsewhere, of the table that begins here.
fn wrong_cut(random: &mut Random, mut input: Vec<u8>, table: usize) -> Vec<u8> {
    let by = random.byte_from_to(1, 30);
    let low = &mut input[table + 2];
    *low = if random.chance(50) {
        low.wrapping_add(by)
    } else {
        low.wrapping_sub(by)
    };
    input
}
