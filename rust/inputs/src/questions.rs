//! What ask, why and step take beside a pair: kept bytes, configurations,
//! letters, runs and cycles, in range and out of it.

use crate::pairs::Pair;
use crate::random::Random;

/// A run as a caller passes it.
#[derive(Clone, Copy, Debug, Default, PartialEq, Eq)]
pub struct Run {
    /// The writer's state.
    pub writer: u64,
    /// The reader's state.
    pub reader: u64,
    /// The level.
    pub level: u64,
    /// The held items.
    pub items: [u32; 16],
}

/// A cycle as a caller passes it.
#[derive(Clone, Copy, Debug, Default, PartialEq, Eq)]
pub struct Cycle {
    /// The writer's letter.
    pub writer_letter: u64,
    /// The reader's letter.
    pub reader_letter: u64,
    /// The writer's answer.
    pub writer_answer: u64,
    /// The reader's answer.
    pub reader_answer: u64,
    /// The incoming item.
    pub incoming: u32,
}

/// Kept bytes that nobody built: `n` bytes of 0 and 1, at times all 1 or
/// dense.
pub fn kept_set(random: &mut Random, n: usize) -> Vec<u8> {
    let ones = random.pick(&[100, 100, 90, 70, 50]);
    (0..n).map(|_| u8::from(random.chance(ones))).collect()
}

/// The same, but at times too short, too long with noise past N, or with
/// another byte.
pub fn kept_bytes(random: &mut Random, n: usize) -> Vec<u8> {
    let mut kept = kept_set(random, n);
    match random.below(20) {
        0 => {
            let length = random.below(n as u64) as usize;
            kept.truncate(length);
        }
        1 | 2 => kept.extend([2, 255, 7]),
        3 => {
            let place = random.below(n as u64) as usize;
            kept[place] = random.pick(&[2, 3, 128, 255]);
        }
        _ => {}
    }
    kept
}

/// A configuration of a good pair: mostly in range.
pub fn configuration(random: &mut Random, pair: &Pair) -> (u64, u64, u64) {
    (
        mostly_below(random, u64::from(pair.writer[4])),
        mostly_below(random, u64::from(pair.reader[4])),
        mostly_below(random, pair.bound.min(15) + 1),
    )
}

/// The letters of a move of a good pair: mostly in range.
pub fn letters(random: &mut Random, pair: &Pair) -> (u64, u64) {
    (
        mostly_below(random, u64::from(pair.writer[7])),
        mostly_below(random, u64::from(pair.reader[7])),
    )
}

/// Below `end`, but in 5 % of the cases at or above it.
fn mostly_below(random: &mut Random, end: u64) -> u64 {
    if random.chance(95) {
        random.below(end)
    } else {
        random.pick(&[end, end + 1, 255, 256, 1 << 32, u64::MAX])
    }
}

/// A run of a good pair: mostly at a configuration in range, with as many
/// items as its level says.
pub fn run(random: &mut Random, pair: &Pair) -> Run {
    let (writer, reader, level) = configuration(random, pair);
    let mut items = [0; 16];
    for item in items.iter_mut().take(level.min(16) as usize) {
        let any = random.bits() as u32;
        *item = random.pick(&[0, 1, 7, u32::MAX, any]);
    }
    if random.chance(5) {
        let place = random.below(16) as usize;
        items[place] = random.bits() as u32;
    }
    Run {
        writer,
        reader,
        level,
        items,
    }
}

/// A cycle for a run of a good pair: mostly with letters and answers of rows
/// that its states have.
pub fn cycle(random: &mut Random, pair: &Pair, run: &Run) -> Cycle {
    let (writer_letter, writer_answer) = seen(random, &pair.writer, run.writer);
    let (reader_letter, reader_answer) = seen(random, &pair.reader, run.reader);
    Cycle {
        writer_letter,
        reader_letter,
        writer_answer,
        reader_answer,
        incoming: random.bits() as u32,
    }
}

/// A letter and an answer of one side.
fn seen(random: &mut Random, table: &[u8], state: u64) -> (u64, u64) {
    let rows = table[9..].chunks_exact(5);
    let here: Vec<(u8, u8)> = rows
        .filter(|row| u64::from(row[0]) == state)
        .map(|row| (row[1], row[2]))
        .collect();
    let (mut letter, mut answer) = if here.is_empty() {
        (random.below(u64::from(table[7])), random.below(16))
    } else {
        let (letter, answer) = random.pick(&here);
        (u64::from(letter), u64::from(answer))
    };
    if random.chance(5) {
        letter = mostly_below(random, u64::from(table[7]));
    }
    if random.chance(2) {
        letter = random.pick(&[u64::from(table[7]), 8, 255, 256, u64::MAX]);
    }
    if random.chance(8) {
        answer = random.pick(&[0, 1, 15, 16, 256 + answer, u64::MAX]);
    }
    (letter, answer)
}
