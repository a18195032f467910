//! Each refusal of document 01 and 17, the order among them, and what stands
//! in the lent buffer after each.

use second::worked::*;
use second::{ask, begin, build, check, read, step, why};
use second::{Built, Checked, Configuration, Cycle, Explained, Refusal, Run, Side};

/// Both rules.
const RULES: [u64; 2] = [0, 1];

/// Numbers that are no rule; the low bytes of two of them are one.
const NO_RULES: [u64; 5] = [2, 255, 256, 257, u64::MAX];

/// A good writer's table to be damaged: pair C's.
fn good() -> Vec<u8> {
    C_WRITER.to_vec()
}

/// The good table with some bytes set.
fn with(changes: &[(usize, u8)]) -> Vec<u8> {
    let mut table = good();
    for (at, value) in changes {
        table[*at] = *value;
    }
    table
}

/// A reader's or writer's table with this many rows and a true length.
fn many_rows(role: u8, count: u8) -> Vec<u8> {
    let length = 6 + 5 * u16::from(count);
    let mut table = vec![
        1,
        (length >> 8) as u8,
        length as u8,
        role,
        16,
        0,
        0,
        1,
        count,
    ];
    for i in 0..count {
        table.extend([i / 16, 0, i % 16, 0, 0]);
    }
    table
}

/// The refusal of this table as a writer's, through every call that reads it,
/// under both rules and under none: 17 comes later.
fn refusal(table: &[u8]) -> (u64, u64, u64) {
    let Refusal { number, side, row } = read(table, Side::Writer).unwrap_err();
    let all = (number, side, row);
    let begun = begin(table, &C_READER, 2);
    assert_eq!((begun.number, begun.side, begun.row), all);
    assert_eq!(begun.run, Run::default());
    for rule in [0, 1, 2] {
        refused_under(rule, table, all);
    }
    all
}

/// How ask refuses, and why for any letters: 14 comes later.
fn asked(
    writer: &[u8],
    reader: &[u8],
    bound: u64,
    rule: u64,
    kept: &[u8],
    at: Configuration,
) -> (u64, u64, u64) {
    let asked = ask(writer, reader, bound, rule, kept, at);
    assert_eq!((asked.set, asked.count, asked.lowest), (0, 0, 64));
    let (number, side, row) = (asked.number, asked.side, asked.row);
    for xy in [(0, 0), (9, u64::MAX)] {
        let explained = why(writer, reader, bound, rule, kept, at, xy);
        let refused = Explained {
            number,
            side,
            row,
            reason: 0,
        };
        assert_eq!(explained, refused);
        assert_eq!(asked.packed(), explained.packed() + (64 << 48));
    }
    (number, side, row)
}

/// Ask and why of pair A.
fn asked_of_a(bound: u64, rule: u64, kept: &[u8], at: Configuration) -> (u64, u64, u64) {
    asked(&A_WRITER, &A_READER, bound, rule, kept, at)
}

/// Build, ask, why, step and check refuse this writer's table so.
fn refused_under(rule: u64, table: &[u8], (number, side, row): (u64, u64, u64)) {
    let mut buffer = [0xEE; 4096];
    let built = build(table, &C_READER, 2, rule, &mut buffer);
    let expected = Built {
        number,
        side,
        row,
        kept: 0,
        rounds: 0,
    };
    assert_eq!(built, expected);
    assert_eq!(buffer, [0xEE; 4096], "buffer untouched");

    let asked = asked(table, &C_READER, 2, rule, &[0; 9], START);
    assert_eq!(asked, (number, side, row));

    let run = senseless();
    let stepped = step(table, &C_READER, 2, rule, &[0; 9], &run, &Cycle::default());
    assert_eq!(
        (stepped.number, stepped.side, stepped.row),
        (number, side, row)
    );
    assert_eq!((stepped.run, stepped.item, stepped.mark), (run, 0, 0));

    let checked = check(table, &C_READER, 2, rule, &[]);
    assert_eq!(checked, Checked { number, side, row });
}

/// A configuration that is nowhere in range.
const NOWHERE: Configuration = Configuration {
    writer: 99,
    reader: u64::MAX,
    level: 1 << 40,
};

/// Pair A's start.
const START: Configuration = Configuration {
    writer: 0,
    reader: 0,
    level: 0,
};

/// A run that is nowhere in range.
fn senseless() -> Run {
    Run {
        writer: NOWHERE.writer,
        reader: NOWHERE.reader,
        level: NOWHERE.level,
        items: [9; 16],
    }
}

/// A step of pair A from a run that is nowhere in range.
fn senseless_step(bound: u64, rule: u64, kept: &[u8]) -> second::Stepped {
    let cycle = Cycle::default();
    step(
        &A_WRITER,
        &A_READER,
        bound,
        rule,
        kept,
        &senseless(),
        &cycle,
    )
}

#[test]
fn refusal_1() {
    for n in 0..9 {
        assert_eq!(refusal(&good()[..n]), (1, 1, 0));
        // A wrong version is not looked at in fewer than 9 bytes.
        assert_eq!(refusal(&vec![7; n]), (1, 1, 0));
    }
}

#[test]
fn refusal_2() {
    assert_eq!(refusal(&with(&[(0, 0)])), (2, 1, 0));
    assert_eq!(refusal(&with(&[(0, 2), (1, 9), (3, 9)])), (2, 1, 0));
}

#[test]
fn refusal_3() {
    assert_eq!(refusal(&with(&[(1, 1)])), (3, 1, 0));
    assert_eq!(refusal(&with(&[(2, 30)])), (3, 1, 0));
    assert_eq!(refusal(&with(&[(8, 4)])), (3, 1, 0));
    // The count of rows agrees with the field but not with the bytes.
    assert_eq!(refusal(&with(&[(2, 26), (8, 4)])), (3, 1, 0));
    assert_eq!(refusal(&good()[..33]), (3, 1, 0));
    let mut longer = good();
    longer.push(0);
    assert_eq!(refusal(&longer), (3, 1, 0));
    // The field agrees with the bytes but not with the count of rows.
    longer[2] += 1;
    assert_eq!(refusal(&longer), (3, 1, 0));
}

/// Nothing is cut to 16 bits: 65,536 bytes more are not the same length.
#[test]
fn refusal_3_of_long_input() {
    let mut long = good();
    long.resize(34 + 65_536, 0);
    assert_eq!(refusal(&long), (3, 1, 0));
}

#[test]
fn refusal_4() {
    for role in [0, 2, 3, 255] {
        assert_eq!(refusal(&with(&[(3, role), (4, 0)])), (4, 1, 0));
    }
    let refused = read(&A_WRITER, Side::Reader).unwrap_err();
    assert_eq!((refused.number, refused.side, refused.row), (4, 2, 0));
}

#[test]
fn refusal_5() {
    for states in [0, 17, 255] {
        assert_eq!(refusal(&with(&[(4, states)])), (5, 1, 0));
    }
    for letters in [0, 9, 255] {
        assert_eq!(refusal(&with(&[(7, letters), (5, 99)])), (5, 1, 0));
    }
    assert!(read(&many_rows(1, 64), Side::Writer).is_ok());
    assert_eq!(refusal(&many_rows(1, 65)), (5, 1, 0));
    assert_eq!(refusal(&many_rows(1, 255)), (5, 1, 0));
}

#[test]
fn refusal_6() {
    assert_eq!(refusal(&with(&[(5, 3)])), (6, 1, 0));
    assert_eq!(refusal(&with(&[(6, 3), (9, 16)])), (6, 1, 0));
}

#[test]
fn refusal_7() {
    for (field, value) in [(0, 3), (1, 2), (2, 16), (3, 2), (4, 3)] {
        for row in 0..5 {
            let place = 9 + 5 * row + field;
            assert_eq!(refusal(&with(&[(place, value)])), (7, 1, row as u64));
        }
    }
    // Tried over the whole table before 8, here at row 1.
    assert_eq!(refusal(&with(&[(15, 0), (16, 0), (32, 2)])), (7, 1, 4));
}

#[test]
fn refusal_8() {
    // Row 1 equal to row 0 in state, drive and answer.
    assert_eq!(refusal(&with(&[(15, 0), (16, 0)])), (8, 1, 1));
    // Row 2 before row 1; row 4 before row 3 too.
    assert_eq!(refusal(&with(&[(21, 0), (29, 0)])), (8, 1, 2));
    assert_eq!(refusal(&with(&[(29, 0)])), (8, 1, 4));
}

#[test]
fn writer_before_reader() {
    for rule in [0, 1, 2] {
        let bad_row = with(&[(9, 9)]);
        let mut buffer = [3; 64];
        let built = build(&bad_row, &[], 99, rule, &mut buffer);
        assert_eq!((built.number, built.side, built.row), (7, 1, 0));
        let built = build(&A_WRITER, &[], 99, rule, &mut buffer);
        assert_eq!((built.number, built.side, built.row), (1, 2, 0));
        let mut reader = A_READER;
        reader[20] = 9;
        let built = build(&A_WRITER, &reader, 99, rule, &mut buffer);
        assert_eq!((built.number, built.side, built.row), (7, 2, 2));
        assert_eq!(buffer, [3; 64]);
    }
}

/// 9 before 17 and 10.
#[test]
fn refusal_9() {
    for bound in [16, 17, 256, 257, u64::MAX] {
        let begun = begin(&A_WRITER, &A_READER, bound);
        assert_eq!((begun.number, begun.run), (9, Run::default()));
        for rule in [0, 1, 2, u64::MAX] {
            let built = build(&A_WRITER, &A_READER, bound, rule, &mut []);
            assert_eq!((built.number, built.side, built.row), (9, 0, 0));
            assert_eq!(asked_of_a(bound, rule, &[], START), (9, 0, 0));
            let stepped = senseless_step(bound, rule, &[]);
            assert_eq!((stepped.number, stepped.run), (9, senseless()));
        }
    }
    assert_eq!(begin(&A_WRITER, &A_READER, 15).number, 0);
}

/// "17, rule above 1, directly after 9": before 10, 12 and 13. "New refusals
/// carry side 0, row 0 unless said."
#[test]
fn refusal_17() {
    for rule in NO_RULES {
        for room in [0, 7, 8, 11] {
            let mut buffer = vec![5; room];
            let built = build(&A_WRITER, &A_READER, 1, rule, &mut buffer);
            assert_eq!((built.number, built.side, built.row), (17, 0, 0));
            assert_eq!((built.kept, built.rounds), (0, 0));
            assert_eq!(buffer, vec![5; room], "buffer untouched");
            assert_eq!(asked_of_a(1, rule, &buffer, NOWHERE), (17, 0, 0));
            let stepped = senseless_step(1, rule, &buffer);
            assert_eq!((stepped.number, stepped.side, stepped.row), (17, 0, 0));
            assert_eq!((stepped.run, stepped.item), (senseless(), 0));
            assert_eq!(stepped.mark, 0);
        }
    }
}

#[test]
fn refusal_10() {
    for rule in RULES {
        let mut buffer = [5; 63];
        let built = build(&A_WRITER, &A_READER, 15, rule, &mut buffer);
        assert_eq!((built.number, built.side, built.row), (10, 0, 0));
        assert_eq!((built.kept, built.rounds), (0, 0));
        assert_eq!(buffer, [5; 63]);
        let mut buffer = [5; 64];
        assert_eq!(build(&A_WRITER, &A_READER, 15, rule, &mut buffer).number, 0);
        // 10 before 12 and 13.
        assert_eq!(asked_of_a(1, rule, &[2; 7], NOWHERE), (10, 0, 0));
        assert_eq!(senseless_step(1, rule, &[2; 7]).number, 10);
    }
}

#[test]
fn refusal_11_buffer() {
    let mut buffer = [5; 11];
    let built = build(&C_WRITER, &C_READER, 1, 0, &mut buffer);
    assert_eq!((built.number, built.side, built.row), (11, 0, 0));
    assert_eq!((built.kept, built.rounds), (0, 3));
    assert_eq!(buffer, [0, 0, 0, 0, 0, 0, 5, 5, 5, 5, 5]);
}

/// A writer that never moves an item and a reader that must take one: the
/// start goes in the first round, under flow-through as well.
#[test]
fn refusal_11_under_flow_through() {
    let writer = [1, 0, 11, 1, 1, 0, 0, 1, 1, 0, 0, 0, 0, 0];
    let reader = [1, 0, 11, 2, 2, 0, 1, 1, 1, 0, 0, 0, 1, 1];
    let mut buffer = [5; 5];
    let built = build(&writer, &reader, 1, 1, &mut buffer);
    assert_eq!((built.number, built.side, built.row), (11, 0, 0));
    assert_eq!((built.kept, built.rounds), (0, 2));
    assert_eq!(buffer, [0, 0, 0, 0, 5]);
}

#[test]
fn refusal_12() {
    for rule in RULES {
        let mut kept = [1, 0, 0, 0, 0, 1, 1, 2];
        // 12 before 13.
        assert_eq!(asked_of_a(1, rule, &kept, NOWHERE), (12, 0, 0));
        let stepped = senseless_step(1, rule, &kept);
        assert_eq!((stepped.number, stepped.run), (12, senseless()));
        // Bytes past N are never looked at.
        kept[7] = 0;
        let mut longer = kept.to_vec();
        longer.push(77);
        let asked = ask(&A_WRITER, &A_READER, 1, rule, &longer, START);
        // The move 1.1 passes under flow-through only.
        assert_eq!((asked.number, asked.set), (0, 257 + (rule << 9)));
    }
}

/// What pair A keeps at bound 1, under both rules.
const A_KEPT: [u8; 8] = [1, 0, 0, 0, 0, 1, 1, 0];

/// A step of pair A at bound 1, which is the same under both rules.
fn step_of_a(kept: &[u8], run: &Run, cycle: &Cycle) -> second::Stepped {
    let under = |rule| step(&A_WRITER, &A_READER, 1, rule, kept, run, cycle);
    let [registered, flow_through] = RULES.map(under);
    assert_eq!(registered, flow_through);
    registered
}

#[test]
fn refusal_13() {
    for (w, r, l) in [
        (2, 0, 0),
        (0, 2, 0),
        (0, 0, 2),
        (u64::MAX, u64::MAX, u64::MAX),
    ] {
        let at = Configuration::of(w, r, l);
        for rule in RULES {
            assert_eq!(asked_of_a(1, rule, &A_KEPT, at), (13, 0, 0));
        }
        let mut run = Run {
            writer: w,
            reader: r,
            level: l,
            items: [0; 16],
        };
        // 13 before 14.
        let cycle = Cycle {
            writer_letter: 9,
            ..Cycle::default()
        };
        assert_eq!(step_of_a(&A_KEPT, &run, &cycle).number, 13);
        run.items = [1; 16];
        let stepped = step_of_a(&A_KEPT, &run, &cycle);
        assert_eq!((stepped.number, stepped.run), (13, run));
    }
    for place in 1..16 {
        let mut run = Run {
            writer: 1,
            reader: 0,
            level: 1,
            items: [0; 16],
        };
        run.items[0] = 3;
        assert_eq!(step_of_a(&A_KEPT, &run, &Cycle::default()).number, 0);
        run.items[place] = 1;
        let stepped = step_of_a(&A_KEPT, &run, &Cycle::default());
        assert_eq!((stepped.number, stepped.side, stepped.run), (13, 0, run));
    }
}

/// Number and side of a step at the start of pair A, bound 1.
fn at_start(x: u64, y: u64, a: u64, b: u64) -> (u64, u64, u64) {
    let cycle = Cycle {
        writer_letter: x,
        reader_letter: y,
        writer_answer: a,
        reader_answer: b,
        incoming: 4,
    };
    let stepped = step_of_a(&A_KEPT, &Run::default(), &cycle);
    if stepped.number != 0 {
        assert_eq!(
            (stepped.run, stepped.item, stepped.mark),
            (Run::default(), 0, 0)
        );
    }
    (stepped.number, stepped.side, stepped.row)
}

/// The low bytes of some of these letters are letters.
#[test]
fn refusal_14() {
    for letter in [2, 7, 8, 255, 256, 1 << 32, u64::MAX] {
        for (x, y, side) in [(letter, letter, 1), (letter, 0, 1), (0, letter, 2)] {
            assert_eq!(at_start(x, y, 99, 99), (14, side, 0));
            // 14 also where the configuration is not kept.
            for (rule, kept) in [(0, A_KEPT), (1, A_KEPT), (0, [0; 8]), (1, [0; 8])] {
                let explained = why(&A_WRITER, &A_READER, 1, rule, &kept, START, (x, y));
                assert_eq!(explained.packed(), 14 + (side << 8));
            }
        }
    }
}

/// "15's row is amended": the reason.
#[test]
fn refusal_15() {
    // The reader's item at level 0.
    assert_eq!(at_start(0, 1, 0, 1), (15, 0, 5));
    // An impossible answer in a move that is not allowed.
    assert_eq!(at_start(0, 1, 9, 99), (15, 0, 5));
    // Nothing kept.
    let stepped = step_of_a(&[0; 8], &Run::default(), &Cycle::default());
    assert_eq!((stepped.number, stepped.side, stepped.row), (15, 0, 1));
}

#[test]
fn refusal_16() {
    assert_eq!(at_start(0, 0, 0, 0), (0, 0, 0));
    assert_eq!(at_start(0, 0, 1, 1), (16, 1, 0));
    assert_eq!(at_start(0, 0, 0, 1), (16, 2, 0));
    assert_eq!(at_start(0, 0, 16, 0), (16, 1, 0));
    assert_eq!(at_start(0, 0, 0, 256), (16, 2, 0));
}

#[test]
fn table_in_hand() {
    let table = read(&A_WRITER, Side::Writer).unwrap();
    assert_eq!((table.version, table.role, table.states), (1, 1, 2));
    assert_eq!((table.start, table.finish, table.letters), (0, 1, 2));
    assert_eq!(table.rows.len(), 3);
    let padded = table.padded_rows();
    assert_eq!(padded[..3], table.rows[..]);
    assert!(padded[3..].iter().all(|row| *row == second::Row::default()));
    assert_eq!((padded[1].drive, padded[1].next), (1, 1));
}
