//! Damaged tables and calls at the limits, on both builders: number, side,
//! row and the lent buffer.

mod compare;

use compare::{seeded, Compared};
use inputs::*;

#[test]
fn damaged_pairs() {
    let mut random = seeded(20261109);
    let mut compared = Compared::new();
    let moves = Vec::from_iter(limit_moves());
    for _ in 0..40_000 {
        let pair = damaged_pair(&mut random);
        let room = random.pick(&[0, 3, 16, 80, 4_096]);
        let (_, left) = compared.build(&pair, &patterned(room));
        let ones = (vec![1; room], random.below(5));
        for (kept, state) in [(left, 0), (patterned(room), 0), ones] {
            compared.ask(&pair, &kept, (state, 0, 0));
            compared.why(&pair, &kept, (state, 0, 0), random.pick(&moves));
        }
    }
    compared.print("damaged pairs");
    for rule in RULES {
        assert!(compared.calls("build", rule) >= 15_000);
    }
    for call in ["build", "ask", "why"] {
        for number in 1..=8 {
            for side in 1..=2 {
                assert!(
                    compared.met(call, number, side) >= 20,
                    "{call} {number} {side}"
                );
            }
        }
        for number in [0, 9, 10, 17] {
            assert!(compared.met(call, number, 0) >= 20, "{call} {number}");
        }
    }
    assert!(compared.met("build", 11, 0) >= 20);
    for call in ["ask", "why"] {
        assert!(compared.met(call, 12, 0) >= 20 && compared.met(call, 13, 0) >= 20);
    }
    assert!(compared.met("why", 14, 1) >= 20 && compared.met("why", 14, 2) >= 20);
}

/// Every prefix of a good table and every change of a single byte, as the
/// writer's and as the reader's.
#[test]
fn prefixes_and_single_changes() {
    let mut random = seeded(20261110);
    let mut compared = Compared::new();
    let buffer = patterned(64);
    for rule in RULES.repeat(6) {
        let good = small_pair(&mut random, rule);
        let tables = prefixes(&good.writer).chain(single_changes(&good.writer));
        for writer in tables {
            compared.build(
                &Pair {
                    writer,
                    ..good.clone()
                },
                &buffer,
            );
        }
        let tables = prefixes(&good.reader).chain(single_changes(&good.reader));
        for reader in tables {
            compared.build(
                &Pair {
                    reader,
                    ..good.clone()
                },
                &buffer,
            );
        }
    }
    compared.print("prefixes and single changes");
}

/// Every number that is no rule, on good pairs: with good and bad bounds, with
/// buffers of any length, at configurations in range and out of it.
#[test]
fn numbers_that_are_no_rule() {
    let mut random = seeded(20261111);
    let mut compared = Compared::new();
    for _ in 0..200 {
        for rule in NO_RULES {
            let mut pair = small_pair(&mut random, rule);
            let room = random.pick(&[0, pair.count() - 1, pair.count(), 4_096]);
            let at = configuration(&mut random, &pair);
            let xy = letters(&mut random, &pair);
            if random.chance(20) {
                pair.bound = random.pick(&[16, 257, u64::MAX]);
            }
            let (_, left) = compared.build(&pair, &patterned(room));
            assert_eq!(left, patterned(room));
            for kept in [left, vec![1; room]] {
                compared.ask(&pair, &kept, at);
                compared.why(&pair, &kept, at, xy);
            }
        }
    }
    compared.print("numbers that are no rule");
    for rule in NO_RULES {
        for (call, total) in [("build", 200), ("ask", 400), ("why", 400)] {
            let met = [9, 17].map(|number| compared.met_under(rule, call, number, 0));
            assert!(met[0] >= 20 && met[1] >= 20);
            assert_eq!(met[0] + met[1], total);
        }
    }
}

/// 0 to 255 rows, bounds, rules and letters to the largest, buffers of no,
/// N - 1, N and N + 7 bytes; what stands in the buffer is compared whole.
#[test]
fn limit_calls() {
    let mut compared = Compared::new();
    for call in limits() {
        let (_, left) = compared.build(&call.pair, &call.buffer);
        compared.ask(&call.pair, &left, (0, 0, 0));
        for xy in limit_moves() {
            compared.why(&call.pair, &left, (0, 0, 0), xy);
        }
    }
    compared.print("limits");
    for call in ["build", "ask", "why"] {
        for (number, side) in [(0, 0), (5, 1), (5, 2), (9, 0), (17, 0), (10, 0)] {
            assert!(
                compared.met(call, number, side) > 0,
                "{call} {number} side {side}"
            );
        }
    }
    assert!(compared.met("why", 14, 1) > 0 && compared.met("why", 14, 2) > 0);
}

/// Tables that are longer than a length field can say.
#[test]
fn very_long_tables() {
    let mut compared = Compared::new();
    let good = Pair {
        writer: vec![1, 0, 6, 1, 1, 0, 0, 1, 0],
        reader: vec![1, 0, 6, 2, 1, 0, 0, 1, 0],
        bound: 0,
        rule: 0,
    };
    for length in [334, 1_284, 65_538, 65_545, 131_081] {
        let mut pair = good.clone();
        pair.writer.resize(length, 0);
        compared.build(&pair, &[7; 4]);
        let mut pair = good.clone();
        pair.reader.resize(length, 0);
        compared.build(&pair, &[7; 4]);
    }
    compared.print("very long tables");
    assert_eq!(
        compared.met("build", 3, 1) + compared.met("build", 3, 2),
        10
    );
}
