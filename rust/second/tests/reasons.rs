//! Reasons by hand, under both rules: what why gives, what ask leaves out, and
//! the row of a step that is refused with 15.

use second::worked::*;
use second::{ask, read, step, why, Configuration, Cycle, Explained, Run, Side};

/// Rows of state 0 and letter 0: state, drive, answer, item, next state.
type Rows = &'static [[u8; 5]];

const HOLDS: Rows = &[[0, 0, 0, 0, 0]];
const MOVES: Rows = &[[0, 0, 0, 1, 0]];
const HOLDS_OR_MOVES: Rows = &[[0, 0, 0, 0, 0], [0, 0, 1, 1, 0]];
const LEAVES_OR_MOVES: Rows = &[[0, 0, 0, 0, 1], [0, 0, 1, 1, 0]];
const MOVES_OR_LEAVES: Rows = &[[0, 0, 0, 1, 0], [0, 0, 1, 0, 1]];
const OF_STATE_1: Rows = &[[1, 0, 0, 0, 0]];

/// A table of two states and two letters.
fn table(role: u8, rows: Rows) -> Vec<u8> {
    let count = rows.len() as u8;
    let head = [1, 0, 6 + 5 * count, role, 2, 0, 0, 2, count];
    [&head[..], &rows.concat()].concat()
}

/// Two sides, a bound and kept bytes under both rules.
struct Asker {
    writer: Vec<u8>,
    reader: Vec<u8>,
    bound: u64,
    kept: Vec<u8>,
}

impl Asker {
    /// Sides of these rows. Kept is where both are in state 0, at any level.
    fn of(writer: Rows, reader: Rows, bound: u64) -> Asker {
        let levels = bound as usize + 1;
        let mut kept = vec![0; 4 * levels];
        kept[..levels].fill(1);
        Asker {
            writer: table(1, writer),
            reader: table(2, reader),
            bound,
            kept,
        }
    }

    /// The reasons of a move under rules 0 and 1.
    fn reasons(&self, at: Configuration, xy: (u64, u64)) -> [u64; 2] {
        [0, 1].map(|rule| self.reason(rule, at, xy))
    }

    /// The reason that why gives, having held ask and step to it.
    fn reason(&self, rule: u64, at: Configuration, xy: (u64, u64)) -> u64 {
        let (writer, reader) = (&self.writer[..], &self.reader[..]);
        let explained = why(writer, reader, self.bound, rule, &self.kept, at, xy);
        let reason = explained.reason;
        assert_eq!(explained, done(reason));
        assert_eq!(explained.packed(), reason << 32);

        let asked = ask(writer, reader, self.bound, rule, &self.kept, at);
        let bit = 8 * xy.0 + xy.1;
        assert_eq!(asked.set >> bit & 1, u64::from(reason == 0));

        let (run, cycle) = (run_at(at), self.cycle(at, xy));
        let stepped = step(writer, reader, self.bound, rule, &self.kept, &run, &cycle);
        let number = if reason == 0 { 0 } else { 15 };
        assert_eq!(
            (stepped.number, stepped.side, stepped.row),
            (number, 0, reason)
        );
        reason
    }

    /// A cycle of this move, each side with its first answer there.
    fn cycle(&self, at: Configuration, (x, y): (u64, u64)) -> Cycle {
        Cycle {
            writer_letter: x,
            reader_letter: y,
            writer_answer: first_answer(&self.writer, Side::Writer, at.writer, x),
            reader_answer: first_answer(&self.reader, Side::Reader, at.reader, y),
            incoming: 7,
        }
    }

    /// The reasons of move 0.0 in states 0 at a level.
    fn at_level(&self, level: u64) -> [u64; 2] {
        self.reasons(Configuration::of(0, 0, level), (0, 0))
    }
}

fn done(reason: u64) -> Explained {
    Explained {
        number: 0,
        side: 0,
        row: 0,
        reason,
    }
}

fn run_at(at: Configuration) -> Run {
    let mut items = [0; 16];
    items[..at.level as usize].fill(9);
    Run {
        writer: at.writer,
        reader: at.reader,
        level: at.level,
        items,
    }
}

/// The first answer of a side for a state and a letter, 0 if it has none.
fn first_answer(table: &[u8], side: Side, state: u64, letter: u64) -> u64 {
    let table = read(table, side).unwrap();
    let first = table.rows_for(state, letter).first();
    first.map_or(0, |row| u64::from(row.answer))
}

#[test]
fn overflow_before_outside() {
    // The first outcome lands outside, the second overflows where it is full.
    let asker = Asker::of(LEAVES_OR_MOVES, HOLDS, 1);
    assert_eq!(asker.at_level(1), [4, 4]);
    assert_eq!(asker.at_level(0), [6, 6]);
    let asker = Asker::of(MOVES_OR_LEAVES, HOLDS, 1);
    assert_eq!(asker.at_level(1), [4, 4]);
    assert_eq!(asker.at_level(0), [6, 6]);
}

#[test]
fn underflow_before_outside() {
    let asker = Asker::of(HOLDS, LEAVES_OR_MOVES, 1);
    assert_eq!(asker.at_level(0), [5, 5]);
    assert_eq!(asker.at_level(1), [6, 6]);
    let asker = Asker::of(HOLDS, MOVES_OR_LEAVES, 1);
    assert_eq!(asker.at_level(0), [5, 5]);
    assert_eq!(asker.at_level(1), [6, 6]);
}

/// Of the outcomes hold and take, put and hold, the first underflows and the
/// later one overflows.
#[test]
fn overflow_before_underflow() {
    let asker = Asker::of(HOLDS_OR_MOVES, HOLDS_OR_MOVES, 0);
    assert_eq!(asker.at_level(0), [4, 4]);
    let asker = Asker::of(HOLDS_OR_MOVES, HOLDS_OR_MOVES, 2);
    assert_eq!([0, 1, 2].map(|level| asker.at_level(level)[0]), [5, 0, 4]);
    assert_eq!([0, 1, 2].map(|level| asker.at_level(level)[1]), [5, 0, 4]);
}

/// First outside, then an underflow, then an overflow.
#[test]
fn all_three() {
    let asker = Asker::of(LEAVES_OR_MOVES, HOLDS_OR_MOVES, 0);
    assert_eq!(asker.at_level(0), [4, 4]);
}

/// Put and take in one outcome: registered it fails one test or both, under
/// flow-through none.
#[test]
fn one_outcome_that_passes_an_item() {
    assert_eq!(Asker::of(MOVES, MOVES, 0).at_level(0), [4, 0]);
    let asker = Asker::of(MOVES, MOVES, 2);
    assert_eq!(asker.at_level(0), [5, 0]);
    assert_eq!(asker.at_level(1), [0, 0]);
    assert_eq!(asker.at_level(2), [4, 0]);
}

/// Leave and take, put and take: the first lands outside, the second fails a
/// test when registered only.
#[test]
fn another_reason_by_rule() {
    let asker = Asker::of(LEAVES_OR_MOVES, MOVES, 1);
    assert_eq!(asker.at_level(0), [5, 5]);
    assert_eq!(asker.at_level(1), [4, 6]);
    assert_eq!(Asker::of(LEAVES_OR_MOVES, MOVES, 2).at_level(1), [6, 6]);
}

/// "no writer row" before "no reader row"; both before what any row does.
#[test]
fn no_rows() {
    let start = Configuration::of(0, 0, 0);
    let asker = Asker::of(HOLDS, HOLDS, 0);
    assert_eq!(asker.reasons(start, (0, 0)), [0, 0]);
    assert_eq!(asker.reasons(start, (1, 0)), [2, 2]);
    assert_eq!(asker.reasons(start, (0, 1)), [3, 3]);
    assert_eq!(asker.reasons(start, (1, 1)), [2, 2]);
    // A letter with rows in the other state has none here.
    assert_eq!(Asker::of(OF_STATE_1, MOVES, 0).at_level(0), [2, 2]);
    assert_eq!(Asker::of(MOVES, OF_STATE_1, 0).at_level(0), [3, 3]);
}

/// "configuration not kept" before all, also with letters that have no rows.
#[test]
fn not_kept() {
    for (writer, reader) in [
        (HOLDS, HOLDS),
        (LEAVES_OR_MOVES, MOVES),
        (OF_STATE_1, OF_STATE_1),
        (&[], &[]),
    ] {
        let asker = Asker::of(writer, reader, 1);
        for xy in [(0, 0), (0, 1), (1, 0), (1, 1)] {
            assert_eq!(asker.reasons(Configuration::of(1, 0, 1), xy), [1, 1]);
            assert_eq!(asker.reasons(Configuration::of(1, 1, 0), xy), [1, 1]);
        }
    }
}

/// Every move of pair A at bound 1, over what is kept there.
#[test]
fn pair_a() {
    let asker = Asker {
        writer: A_WRITER.to_vec(),
        reader: A_READER.to_vec(),
        bound: 1,
        kept: vec![1, 0, 0, 0, 0, 1, 1, 0],
    };
    for (w, r, l, registered, flow_through) in [
        (0, 0, 0, [0, 5, 0, 5], [0, 5, 0, 0]),
        (0, 0, 1, [1; 4], [1; 4]),
        (1, 0, 1, [0, 0, 2, 2], [0, 0, 2, 2]),
        (1, 1, 0, [0, 3, 2, 2], [0, 3, 2, 2]),
    ] {
        let at = Configuration::of(w, r, l);
        let moves = [(0, 0), (0, 1), (1, 0), (1, 1)];
        let reasons = moves.map(|xy| asker.reasons(at, xy));
        assert_eq!(reasons.map(|[reason, _]| reason), registered);
        assert_eq!(reasons.map(|[_, reason]| reason), flow_through);
    }
}

/// "Case 9 loses only move 1.0": the burst's first item fits, its state does
/// not stay. One level higher neither item fits.
#[test]
fn pair_c() {
    let mut asker = Asker {
        writer: C_WRITER.to_vec(),
        reader: C_READER.to_vec(),
        bound: 2,
        kept: vec![1, 1, 1, 1, 1, 1, 1, 1, 0],
    };
    let at = |level| Configuration::of(0, 0, level);
    assert_eq!(asker.reasons(at(1), (1, 0)), [6, 6]);
    assert_eq!(asker.reasons(at(1), (1, 1)), [0, 0]);
    assert_eq!(asker.reasons(at(2), (1, 0)), [4, 4]);
    assert_eq!(asker.reasons(at(2), (1, 1)), [4, 6]);
    asker.kept[8] = 1;
    assert_eq!(asker.reasons(at(2), (1, 1)), [4, 0]);
}
