//! The listing, as text.

use crate::builder::build;
use crate::kept::Kept;
use crate::table::length_field;
use crate::worked::{A_READER, A_WRITER, C_READER, C_WRITER};

/// The text that the program prints for these bytes of standard input: "The
/// program reads at most the first 1,024 bytes of standard input and ignores
/// any after them".
pub fn listing(input: &[u8]) -> String {
    let input = &input[..input.len().min(1024)];
    if input.is_empty() {
        return worked_listings();
    }
    let (writer, reader, bound, rule) = cut(input);
    pair_listing(writer, reader, bound, rule)
}

/// "With no input at all it lists the two worked pairs, carried in the
/// program as constants: pair A at bounds 0, 1, 2, then pair C at 1, 2." "With
/// no input the pairs are listed under rule 0."
fn worked_listings() -> String {
    let of_a = [0, 1, 2].map(|bound| pair_listing(&A_WRITER, &A_READER, bound, 0));
    let of_c = [1, 2].map(|bound| pair_listing(&C_WRITER, &C_READER, bound, 0));
    of_a.concat() + &of_c.concat()
}

/// The parts of the input: "the reader's table is now cut like the writer's;
/// a bound and a rule byte follow (0 and 1 if missing), later bytes are
/// ignored".
fn cut(input: &[u8]) -> (&[u8], &[u8], u64, u64) {
    let (writer, rest) = input.split_at(table_bytes(input));
    let (reader, rest) = rest.split_at(table_bytes(rest));
    let byte = |at: usize, missing: u64| rest.get(at).map_or(missing, |byte| u64::from(*byte));
    (writer, reader, byte(0, 0), byte(1, 1))
}

/// "The writer gets 3 + its length field bytes, or all there are if fewer or
/// if no length field is there"; so does the reader of what is left.
fn table_bytes(left: &[u8]) -> usize {
    match left {
        [_, high, low, ..] => left.len().min(3 + length_field(*high, *low)),
        _ => left.len(),
    }
}

/// The lines for one pair at one bound under one rule, each ended by one LF.
pub fn pair_listing(writer: &[u8], reader: &[u8], bound: u64, rule: u64) -> String {
    let mut buffer = [0; 4096];
    let built = build(writer, reader, bound, rule, &mut buffer);
    let kept = match Kept::read(writer, reader, bound, rule, &buffer) {
        Ok(kept) if built.number == 0 => kept,
        // "A refusal prints `refused 11 side 0 row 0` with its numbers."
        _ => {
            return format!(
                "refused {} side {} row {}\n",
                built.number, built.side, built.row
            )
        }
    };
    // "First line: kept count, N, rounds, B."; it "ends in ` rule=` and the
    // number".
    let mut text = format!(
        "converter kept={} of={} rounds={} bound={} rule={}\n",
        built.kept,
        kept.pair.count(),
        built.rounds,
        kept.pair.bound,
        kept.pair.rule.number()
    );
    text += &kept_lines(&kept);
    text
}

/// "Then a line for each kept configuration in order of place: writer state,
/// reader state, level, allowed moves x.y in order of bit."
fn kept_lines(kept: &Kept) -> String {
    let mut all = kept.pair.configurations();
    all.sort_by_key(|at| kept.pair.place(*at));
    let mut text = String::new();
    for at in all {
        if kept.has(at) {
            text += &format!("{} {} {} moves", at.writer, at.reader, at.level);
            // "With no moves the line ends after `moves`."
            for (x, y) in kept.allowed_moves(at) {
                text += &format!(" {x}.{y}");
            }
            text.push('\n');
        }
    }
    text
}
