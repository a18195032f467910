//! Permission lists, right and wrong.

use crate::damage::set_length;
use crate::pairs::Pair;
use crate::random::Random;
use crate::tables::Parts;

/// A list in bytes: version 1, two bytes for the count of those after them, and
/// eight for each set, big-endian.
pub fn list_bytes(sets: &[u64]) -> Vec<u8> {
    let mut list = vec![1];
    list.extend((8 * sets.len() as u16).to_be_bytes());
    list.extend(sets.iter().flat_map(|set| set.to_be_bytes()));
    list
}

/// Sets that nobody chose, one for each configuration of a good pair: any
/// moves, or moves with rows on both sides and at times another.
pub fn random_sets(random: &mut Random, pair: &Pair) -> Vec<u64> {
    let kind = random.below(10);
    let share = random.pick(&[2, 10, 30, 50, 80, 100]);
    let with_rows = moves_with_rows(pair);
    let set = |with_rows: &u64| match kind {
        0..=1 => thinned(random, u64::MAX, share),
        2..=6 => thinned(random, *with_rows, share),
        7..=8 => thinned(random, *with_rows, share) | thinned(random, 1 << 63 | 1, 1),
        _ => 1 << random.below(64),
    };
    with_rows.iter().map(set).collect()
}

/// Some of the moves of a set, each by a chance in 100.
pub fn thinned(random: &mut Random, set: u64, share: u64) -> u64 {
    let bits = (0..64).filter(|bit| set >> bit & 1 == 1);
    let kept = bits.filter(|_| random.chance(share));
    kept.fold(0, |set, bit| set | 1 << bit)
}

/// At each configuration of a good pair, in order of place, the moves for
/// which both sides have rows.
pub fn moves_with_rows(pair: &Pair) -> Vec<u64> {
    let mut sets = Vec::with_capacity(pair.count());
    for writer in 0..pair.writer[4] {
        for reader in 0..pair.reader[4] {
            let set = product(letters(&pair.writer, writer), letters(&pair.reader, reader));
            sets.extend((0..=pair.bound).map(|_| set));
        }
    }
    sets
}

/// The moves that have letters past the last of either table.
pub fn moves_past_letters(pair: &Pair) -> u64 {
    let all = |table: &[u8]| (0..table[7]).fold(0, |letters, letter| letters | 1 << letter);
    !product(all(&pair.writer), all(&pair.reader))
}

/// The moves of these letters, bit 8x + y.
fn product(writer_letters: u64, reader_letters: u64) -> u64 {
    let with = |x: u64| (writer_letters >> x & 1) * (reader_letters << (8 * x));
    (0..8).map(with).sum()
}

/// The letters with a row in a state.
fn letters(table: &[u8], state: u8) -> u64 {
    let rows = table[9..].chunks_exact(5);
    let here = rows.filter(|row| row[0] == state);
    here.fold(0, |letters, row| letters | 1 << row[1])
}

/// A pair of full size, and sets for it that are a single way from the start
/// through all 4,096 configurations to the finish, at which nothing is
/// permitted: the level goes up and down in turn, and between them a side goes
/// on to its next state. `upward` has the states numbered along the way, else
/// against it.
pub fn longest_way(upward: bool, rule: u64) -> (Pair, Vec<u64>) {
    let state = |i: u8| if upward { i } else { 15 - i };
    // Letter 0 holds, 1 goes on, 2 moves an item.
    let rows = |i: u8| {
        let (here, next) = (state(i), state((i + 1) % 16));
        [
            [here, 0, 0, 0, here],
            [here, 1, 0, 0, next],
            [here, 2, 0, 1, here],
        ]
    };
    let side = |role| Parts {
        role,
        states: 16,
        start: state(0),
        finish: state(15),
        letters: 3,
        rows: (0..16).flat_map(rows).collect(),
    };
    let mut sets = vec![0; 4_096];
    for i in 0..4_095 {
        let (writer, reader, step) = (i >> 8 & 15, i >> 4 & 15, i & 15);
        let rises = reader % 2 == 0;
        let level = if rises { step } else { 15 - step };
        let (x, y) = match (step, reader) {
            (15, 15) => (1, 1),
            (15, _) => (0, 1),
            _ if rises => (2, 0),
            _ => (0, 2),
        };
        let states = [writer, reader].map(|i| usize::from(state(i as u8)));
        sets[(states[0] * 16 + states[1]) * 16 + level] = 1 << (8 * x + y);
    }
    (Pair::of(&side(1), &side(2), 15, rule), sets)
}

/// Lists that are wrong in their bytes, each with what is wrong, made from the
/// good one of these sets for a pair with this many levels.
pub fn wrong_lists(sets: &[u64], levels: usize) -> Vec<(&'static str, Vec<u8>)> {
    let good = list_bytes(sets);
    let n = sets.len();
    let other_bound = if levels == 16 { 15 } else { levels + 1 };
    let mut others = sets.to_vec();
    others.resize(n + n, 0);
    let with = |place: usize, value: u8| {
        let mut list = good.clone();
        list[place] = value;
        list
    };
    vec![
        ("no byte", Vec::new()),
        ("1 byte", good[..1].to_vec()),
        ("2 bytes", good[..2].to_vec()),
        ("3 bytes", good[..3].to_vec()),
        ("no set, and the length says so", list_bytes(&[])),
        ("one byte short", good[..good.len() - 1].to_vec()),
        ("one byte long", [&good[..], &[0]].concat()),
        ("one byte short, and the length says so", resized(&good, -1)),
        ("one byte long, and the length says so", resized(&good, 1)),
        ("one set less", list_bytes(&sets[..n - 1])),
        ("one set more", list_bytes(&others[..n + 1])),
        (
            "the N of another bound",
            list_bytes(&others[..n / levels * other_bound]),
        ),
        ("version 2", with(0, 2)),
        ("version 0", with(0, 0)),
        ("length one too small", with(2, good[2].wrapping_sub(1))),
        ("length one too large", with(2, good[2] + 1)),
        ("length 256 too large", with(1, good[1] + 1)),
        ("65,536 bytes more", [&good[..], &[0; 65_536]].concat()),
    ]
}

/// A list with some bytes less or more and a length that is true.
fn resized(list: &[u8], by: isize) -> Vec<u8> {
    let mut list = list.to_vec();
    list.resize(list.len().saturating_add_signed(by), 0);
    set_length(&mut list);
    list
}
