//! Good pairs: small random ones, large random ones, chains and clocks.

use crate::random::Random;
use crate::tables::Parts;

/// Rule 0, registered.
pub const REGISTERED: u64 = 0;

/// Rule 1, flow-through.
pub const FLOW_THROUGH: u64 = 1;

/// Both rules.
pub const RULES: [u64; 2] = [REGISTERED, FLOW_THROUGH];

/// Numbers that are no rule. The low bytes of two of them are one.
pub const NO_RULES: [u64; 5] = [2, 255, 256, 257, u64::MAX];

/// Two tables, a bound and a rule, as a call takes them.
#[derive(Clone, Debug, PartialEq, Eq)]
pub struct Pair {
    /// The writer's table in bytes.
    pub writer: Vec<u8>,
    /// The reader's table in bytes.
    pub reader: Vec<u8>,
    /// The bound.
    pub bound: u64,
    /// The number of the rule.
    pub rule: u64,
}

impl Pair {
    /// A pair of two tables in parts.
    pub fn of(writer: &Parts, reader: &Parts, bound: u64, rule: u64) -> Pair {
        Pair {
            writer: writer.bytes(),
            reader: reader.bytes(),
            bound,
            rule,
        }
    }

    /// The same tables and bound under another rule.
    pub fn under(&self, rule: u64) -> Pair {
        Pair {
            rule,
            ..self.clone()
        }
    }

    /// N of a good pair with a good bound.
    pub fn count(&self) -> usize {
        usize::from(self.writer[4]) * usize::from(self.reader[4]) * (self.bound as usize + 1)
    }
}

/// A random small good pair: states 1 to 4, letters 1 to 3, up to 8 rows a
/// side, bounds 0 to 4. Several kinds by chance, tuned so that under each rule
/// many are accepted and many refused with 11, after 2, 3 and more rounds. The
/// tables do not depend on the rule.
pub fn small_pair(random: &mut Random, rule: u64) -> Pair {
    let kind = random.below(100);
    let bound = random.pick(&[0, 1, 1, 2, 2, 2, 3, 3, 4]);
    let (writer, reader) = match kind {
        // Rows anywhere.
        0..=6 => (loose_side(random, 1), loose_side(random, 2)),
        // A way to the finish on both sides, with other rows about it.
        7..=19 => (led_side(random, 1), led_side(random, 2)),
        // The same, with few ways and risky answers.
        20..=27 => (risky_side(random, 1), risky_side(random, 2)),
        // Sides that mostly can hold and end well, with risky answers.
        28..=74 => (handy_side(random, 1), handy_side(random, 2)),
        75..=79 => (handy_side(random, 1), risky_side(random, 2)),
        80..=84 => (risky_side(random, 1), handy_side(random, 2)),
        // Against a free side that may hold, put or take at will.
        85..=89 => (risky_side(random, 1), free_side(2)),
        90..=93 => (free_side(1), handy_side(random, 2)),
        // Small clocks, whole or nearly.
        _ => (worn_clock(random, 1), worn_clock(random, 2)),
    };
    Pair::of(&writer, &reader, bound, rule)
}

/// A side without rows, of small size.
fn empty_side(random: &mut Random, role: u8) -> Parts {
    let states = random.byte_from_to(1, 4);
    Parts {
        role,
        states,
        start: random.byte_below(states),
        finish: random.byte_below(states),
        letters: random.byte_from_to(1, 3),
        rows: Vec::new(),
    }
}

/// Random rows, 0 to 8.
fn loose_side(random: &mut Random, role: u8) -> Parts {
    let mut side = empty_side(random, role);
    let rows = random.below(9);
    let items = random.pick(&[0, 20, 50, 80]);
    for _ in 0..rows {
        add_random_row(random, &mut side, items);
    }
    side
}

/// A random walk from start to finish, a holding row here and there, and some
/// other rows.
fn led_side(random: &mut Random, role: u8) -> Parts {
    let mut side = empty_side(random, role);
    let items = random.pick(&[20, 50, 80]);
    add_walk(random, &mut side, items);
    for state in 0..side.states {
        if random.chance(50) {
            let letter = random.byte_below(side.letters);
            let answer = random.byte_below(16);
            add_row(&mut side, [state, letter, answer, 0, state]);
        }
    }
    let more = random.below(3);
    for _ in 0..more {
        add_random_row(random, &mut side, items);
    }
    side
}

/// A random walk from start to finish, in which many a letter has a second
/// answer that leads elsewhere.
fn risky_side(random: &mut Random, role: u8) -> Parts {
    let mut side = empty_side(random, role);
    side.states = random.byte_from_to(2, 4);
    side.start = 0;
    side.finish = side.states - 1;
    let items = random.pick(&[30, 50, 70]);
    add_walk(random, &mut side, items);
    if random.chance(80) {
        let letter = random.byte_below(side.letters);
        let finish = side.finish;
        let answer = random.byte_below(16);
        add_row(&mut side, [finish, letter, answer, 0, finish]);
    }
    for row in side.rows.clone() {
        if random.chance(60) {
            let answer = random.byte_below(16);
            let item = u8::from(random.chance(items));
            let next = random.byte_below(side.states);
            add_row(&mut side, [row[0], row[1], answer, item, next]);
        }
    }
    side
}

/// Two to four states, counted up to the finish; letter 0 mostly holds, the
/// other letters go on, and half of their rows have a second answer that
/// goes elsewhere. At the finish the side holds and often moves items too.
fn handy_side(random: &mut Random, role: u8) -> Parts {
    let mut side = empty_side(random, role);
    side.states = random.byte_from_to(2, 4);
    side.letters = random.byte_from_to(2, 3);
    side.finish = side.states - 1;
    side.start = if random.chance(50) {
        0
    } else {
        random.byte_below(side.states)
    };
    let finish = side.finish;
    let items = random.pick(&[30, 50, 80]);
    let risk = random.pick(&[20, 50, 80]);
    let ends_with_items = random.chance(if role == 2 { 75 } else { 25 });
    add_row(&mut side, [finish, 0, 0, 0, finish]);
    if ends_with_items {
        add_row(&mut side, [finish, 1, 1, 1, finish]);
    }
    for state in 0..finish {
        let letter = random.byte_from_to(1, side.letters - 1);
        let item = u8::from(random.chance(items));
        add_row(&mut side, [state, letter, 3, item, state + 1]);
        if random.chance(risk) {
            let answer = random.byte_below(16);
            let item = u8::from(random.chance(items));
            let next = random.byte_below(side.states);
            add_row(&mut side, [state, letter, answer, item, next]);
        }
        if random.chance(60) {
            add_row(&mut side, [state, 0, 0, 0, state]);
        }
    }
    side
}

/// A clock of period 1 to 3 (see [`clocks`]), begun anywhere; in half of the
/// cases one of its rows has another item or next state.
fn worn_clock(random: &mut Random, role: u8) -> Parts {
    let has_end = role == 2 || random.chance(50);
    let mut side = clock_side(role, random.byte_from_to(1, 3), has_end);
    side.start = random.byte_below(side.states);
    if random.chance(50) {
        let row = random.below(side.rows.len() as u64) as usize;
        side.rows[row][3] = random.byte_below(2);
        side.rows[row][4] = random.byte_below(side.states);
    }
    side
}

/// One state, start and finish, that may hold (letter 0) or move an item
/// (letter 1).
fn free_side(role: u8) -> Parts {
    Parts {
        role,
        states: 1,
        start: 0,
        finish: 0,
        letters: 2,
        rows: vec![[0, 0, 0, 0, 0], [0, 1, 1, 1, 0]],
    }
}

/// A walk from start to finish over random states.
fn add_walk(random: &mut Random, side: &mut Parts, items: u64) {
    let mut state = side.start;
    for _ in 0..4 {
        if state == side.finish {
            return;
        }
        let next = if random.chance(60) {
            side.finish
        } else {
            random.byte_below(side.states)
        };
        let letter = random.byte_below(side.letters);
        let answer = random.byte_below(16);
        let item = u8::from(random.chance(items));
        add_row(side, [state, letter, answer, item, next]);
        state = next;
    }
}

/// A random row in range, its answer among few so that letters share rows.
fn add_random_row(random: &mut Random, side: &mut Parts, items: u64) {
    let row = [
        random.byte_below(side.states),
        random.byte_below(side.letters),
        random.byte_below(16),
        u8::from(random.chance(items)),
        random.byte_below(side.states),
    ];
    add_row(side, row);
}

/// Adds a row if its state, drive and answer are new and fewer than 8 are
/// there.
fn add_row(side: &mut Parts, row: [u8; 5]) {
    if side.rows.len() < 8 && !side.has(row[0], row[1], row[2]) {
        side.rows.push(row);
    }
}

/// A random good pair with few configurations and many moves: states 1 to 3,
/// letters 5 to 8, bounds 0 to 2. Over its kept bytes, built or random, each
/// reason of a move is met often. The tables do not depend on the rule.
pub fn many_moves_pair(random: &mut Random, rule: u64) -> Pair {
    let bound = random.pick(&[0, 0, 1, 1, 1, 2]);
    let writer = many_letters_side(random, 1);
    let reader = many_letters_side(random, 2);
    Pair::of(&writer, &reader, bound, rule)
}

/// Letter 0 holds; most other letters of a state have rows, often with
/// several answers, of which many stay in the state.
fn many_letters_side(random: &mut Random, role: u8) -> Parts {
    let mut side = empty_side(random, role);
    side.states = random.pick(&[1, 1, 1, 2, 2, 2, 2, 3]);
    side.start = 0;
    side.finish = side.states - 1;
    side.letters = random.byte_from_to(5, 8);
    for state in 0..side.states {
        side.rows.push([state, 0, 0, 0, state]);
        for letter in 1..side.letters {
            let answers = random.pick(&[0, 1, 1, 1, 2, 2]);
            for answer in 0..answers {
                let item = u8::from(random.chance(40));
                let any = random.byte_below(side.states);
                let next = random.pick(&[state, any]);
                side.rows.push([state, letter, answer, item, next]);
            }
        }
    }
    side
}

/// A random pair of full size: 16 states a side, 64 rows a side, bound 15,
/// with this many letters (1 to 8). The tables do not depend on the rule.
pub fn large_pair(random: &mut Random, letters: u8, rule: u64) -> Pair {
    let writer = large_side(random, 1, letters);
    let reader = large_side(random, 2, letters);
    Pair::of(&writer, &reader, 15, rule)
}

/// 16 states and 64 rows; in half of the cases four rows a state.
fn large_side(random: &mut Random, role: u8, letters: u8) -> Parts {
    let mut side = Parts {
        role,
        states: 16,
        start: random.byte_below(16),
        finish: random.byte_below(16),
        letters,
        rows: Vec::new(),
    };
    let even = random.chance(50);
    let items = random.pick(&[20, 35, 50]);
    while side.rows.len() < 64 {
        let state = if even {
            (side.rows.len() / 4) as u8
        } else {
            random.byte_below(16)
        };
        let letter = random.byte_below(letters);
        let answer = random.byte_below(16);
        if !side.has(state, letter, answer) {
            let item = u8::from(random.chance(items));
            let next = random.byte_below(16);
            side.rows.push([state, letter, answer, item, next]);
        }
    }
    side
}

/// Sides of 16 states with four letters in each: hold, two ways on, and an
/// item. At a bound of 15 every one of the 4,096 configurations is kept.
pub fn all_kept(rule: u64) -> Pair {
    let side = |role| Parts {
        role,
        states: 16,
        start: 0,
        finish: 15,
        letters: 4,
        rows: (0..64).map(|i| four_letters(i / 4, i % 4)).collect(),
    };
    Pair::of(&side(1), &side(2), 15, rule)
}

fn four_letters(state: u8, letter: u8) -> [u8; 5] {
    let item = u8::from(letter == 3);
    let on = [0, 1, 5, 0][usize::from(letter)];
    [state, letter, 0, item, (state + on) % 16]
}

/// Chains of 16 by 16 states at bound 15: one row a state on each side,
/// leading along, upward or downward on each side, with no items, with an
/// item in each row, in every second, or in the last rows only. The last
/// state holds itself, or has no row.
pub fn chains(rule: u64) -> Vec<Pair> {
    let patterns: [fn(u8) -> u8; 4] = [|_| 0, |_| 1, |i| i % 2, |i| u8::from(i > 7)];
    let mut pairs = Vec::new();
    for (writer_down, reader_down) in [(false, false), (false, true), (true, false), (true, true)] {
        for writer_items in patterns {
            for reader_items in patterns {
                for ends in [true, false] {
                    let writer = chain_side(1, writer_down, writer_items, ends);
                    let reader = chain_side(2, reader_down, reader_items, ends);
                    pairs.push(Pair::of(&writer, &reader, 15, rule));
                }
            }
        }
    }
    pairs
}

/// One side of a chain. Its i-th row from the start has item `items(i)`.
fn chain_side(role: u8, down: bool, items: fn(u8) -> u8, holds_at_end: bool) -> Parts {
    let state = |i: u8| if down { 15 - i } else { i };
    let mut rows: Vec<[u8; 5]> = (0..15)
        .map(|i| [state(i), 0, i, items(i), state(i + 1)])
        .collect();
    if holds_at_end {
        rows.push([state(15), 0, 15, 0, state(15)]);
    }
    Parts {
        role,
        states: 16,
        start: state(0),
        finish: state(15),
        letters: 1,
        rows,
    }
}

/// Two clocks that cannot wait: the writer must put an item every
/// `writer_period` cycles (1 to 16) and the reader must take one every
/// `reader_period` cycles (1 to 15); the reader may at any cycle answer by
/// leaving its clock for good for an end state, in which it takes as the
/// bridge wishes. If the periods have no common divisor and differ by one,
/// the level drifts by one in each writer_period × reader_period cycles, and
/// nearly all configurations are removed one by one: the longest sequences of
/// rounds that we know.
pub fn clocks(writer_period: u8, reader_period: u8, bound: u64, rule: u64) -> Pair {
    let writer = clock_side(1, writer_period, false);
    let reader = clock_side(2, reader_period, true);
    Pair::of(&writer, &reader, bound, rule)
}

/// One clock: states 0 to period - 1, counted down, an item at 0, and the end
/// state if it has one, which is then the finish; else 0 is.
fn clock_side(role: u8, period: u8, has_end: bool) -> Parts {
    let end = period;
    let mut rows = Vec::new();
    for state in 0..period {
        let item = u8::from(state == 0);
        let next = if state == 0 { period - 1 } else { state - 1 };
        rows.push([state, 0, 0, item, next]);
        if has_end {
            rows.push([state, 0, 1, item, end]);
        }
    }
    if has_end {
        rows.push([end, 0, 0, 0, end]);
        rows.push([end, 1, 0, 1, end]);
    }
    Parts {
        role,
        states: period + u8::from(has_end),
        start: period - 1,
        finish: if has_end { end } else { 0 },
        letters: 2,
        rows,
    }
}

/// Clocks of periods 16 and 15 without an end state, with the finish where
/// both stand at 0. The level drifts down, and 240 × bound configurations (15
/// more under flow-through) lie on a single way, one after the other, to the
/// finish: accepted after two rounds, with ways as long as the kept count less
/// one. `upward` numbers the states the other way round.
pub fn long_way(bound: u64, upward: bool, rule: u64) -> Pair {
    let mut writer = clock_side(1, 16, false);
    let mut reader = clock_side(2, 15, false);
    (writer.start, reader.start) = (0, 1);
    if upward {
        turn(&mut writer);
        turn(&mut reader);
    }
    Pair::of(&writer, &reader, bound, rule)
}

/// Numbers the states of a side the other way round.
fn turn(side: &mut Parts) {
    let last = side.states - 1;
    side.start = last - side.start;
    side.finish = last - side.finish;
    for row in &mut side.rows {
        row[0] = last - row[0];
        row[4] = last - row[4];
    }
}
