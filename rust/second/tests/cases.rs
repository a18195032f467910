//! "Pairs at their limits": the ten cases of document 01, which "are marked
//! registered", and what the same pairs give under flow-through.

use second::worked::*;
use second::{ask, begin, build, step, Asked, Built, Configuration, Cycle, Run, Stepped};

const REGISTERED: u64 = 0;
const FLOW_THROUGH: u64 = 1;

/// A buffer byte that no call writes.
const OLD: u8 = 0xEE;

/// Builds into N + 3 old bytes; returns the result and the first N bytes,
/// having checked that the rest stand as before.
fn built(writer: &[u8], reader: &[u8], bound: u64, rule: u64, n: usize) -> (Built, Vec<u8>) {
    let mut buffer = vec![OLD; n + 3];
    let built = build(writer, reader, bound, rule, &mut buffer);
    assert_eq!(buffer[n..], [OLD; 3]);
    buffer.truncate(n);
    (built, buffer)
}

fn done(kept: u64, rounds: u64) -> Built {
    Built {
        number: 0,
        side: 0,
        row: 0,
        kept,
        rounds,
    }
}

fn no_converter(rounds: u64) -> Built {
    Built {
        number: 11,
        side: 0,
        row: 0,
        kept: 0,
        rounds,
    }
}

/// N bytes, 1 at these places.
fn ones(n: usize, places: &[usize]) -> Vec<u8> {
    (0..n).map(|p| u8::from(places.contains(&p))).collect()
}

#[test]
fn case_1_a_0() {
    let (result, bytes) = built(&A_WRITER, &A_READER, 0, REGISTERED, 4);
    assert_eq!(result, no_converter(2));
    assert_eq!(bytes, [0; 4]);
}

#[test]
fn case_2_a_1() {
    let (result, bytes) = built(&A_WRITER, &A_READER, 1, REGISTERED, 8);
    assert_eq!(result, done(3, 2));
    assert_eq!(bytes, [1, 0, 0, 0, 0, 1, 1, 0]);
    assert_eq!(result.packed(), (3 << 32) + (2 << 48));
}

#[test]
fn case_3_a_2() {
    let (result, bytes) = built(&A_WRITER, &A_READER, 2, REGISTERED, 12);
    assert_eq!(result, done(3, 2));
    assert_eq!(bytes, ones(12, &[0, 7, 9]));
}

#[test]
fn case_4_c_1() {
    let (result, bytes) = built(&C_WRITER, &C_READER, 1, REGISTERED, 6);
    assert_eq!(result, no_converter(3));
    assert_eq!(bytes, [0; 6]);
    let pair = second::Pair::read(&C_WRITER, &C_READER, 1, REGISTERED).unwrap();
    let largest = second::builder::largest(&pair);
    let mut places: Vec<usize> = largest.members.iter().map(|at| pair.place(*at)).collect();
    places.sort();
    assert_eq!(places, [2, 3, 4]);
}

#[test]
fn case_5_c_2() {
    let (result, bytes) = built(&C_WRITER, &C_READER, 2, REGISTERED, 9);
    assert_eq!(result, done(8, 2));
    assert_eq!(bytes, [1, 1, 1, 1, 1, 1, 1, 1, 0]);
}

#[test]
fn case_6_bare_0() {
    let (result, bytes) = built(&BARE_WRITER, &BARE_READER, 0, REGISTERED, 1);
    assert_eq!(result, done(1, 1));
    assert_eq!(bytes, [1]);
    let asked = ask(
        &BARE_WRITER,
        &BARE_READER,
        0,
        REGISTERED,
        &bytes,
        Configuration::of(0, 0, 0),
    );
    assert_eq!(asked, moves(0, 0, 64));
    assert_eq!(asked.packed(), 64 << 48);
}

#[test]
fn case_7_bare_15() {
    let (result, bytes) = built(&BARE_WRITER, &BARE_READER, 15, REGISTERED, 16);
    assert_eq!(result, done(1, 2));
    assert_eq!(bytes, ones(16, &[0]));
}

fn moves(set: u64, count: u64, lowest: u64) -> Asked {
    Asked {
        number: 0,
        side: 0,
        row: 0,
        set,
        count,
        lowest,
    }
}

#[test]
fn case_8_a_1_sets() {
    let (_, kept) = built(&A_WRITER, &A_READER, 1, REGISTERED, 8);
    let at = |w, r, l| {
        let at = Configuration::of(w, r, l);
        ask(&A_WRITER, &A_READER, 1, REGISTERED, &kept, at)
    };
    assert_eq!(at(0, 0, 0), moves(257, 2, 0));
    assert_eq!(at(1, 0, 1), moves(3, 2, 0));
    assert_eq!(at(1, 1, 0), moves(1, 1, 0));
    // A configuration that is not kept is done, with no moves.
    assert_eq!(at(0, 0, 1), moves(0, 0, 64));
}

#[test]
fn case_9_c_2_set() {
    let (_, kept) = built(&C_WRITER, &C_READER, 2, REGISTERED, 9);
    let asked = ask(
        &C_WRITER,
        &C_READER,
        2,
        REGISTERED,
        &kept,
        Configuration::of(0, 0, 1),
    );
    assert_eq!(asked, moves(515, 3, 0));
}

#[test]
fn case_10_a_1_run() {
    let (_, kept) = built(&A_WRITER, &A_READER, 1, REGISTERED, 8);
    let begun = begin(&A_WRITER, &A_READER, 1);
    assert_eq!((begun.number, begun.run), (0, Run::default()));

    let put = Cycle {
        writer_letter: 1,
        reader_letter: 0,
        writer_answer: 1,
        reader_answer: 0,
        incoming: 7,
    };
    let one = step(&A_WRITER, &A_READER, 1, REGISTERED, &kept, &begun.run, &put);
    assert_eq!((one.number, one.item, one.mark), (0, 0, 0));
    let mut held = Run {
        writer: 1,
        reader: 0,
        level: 1,
        items: [0; 16],
    };
    held.items[0] = 7;
    assert_eq!(one.run, held);

    let take = Cycle {
        writer_letter: 0,
        reader_letter: 1,
        writer_answer: 0,
        reader_answer: 1,
        incoming: 99,
    };
    let two = step(&A_WRITER, &A_READER, 1, REGISTERED, &kept, &one.run, &take);
    assert_eq!((two.number, two.item, two.mark), (0, 7, 1));
    let finish = Run {
        writer: 1,
        reader: 1,
        level: 0,
        items: [0; 16],
    };
    assert_eq!(two.run, finish);
}

/// "Pair C at bound 1 then keeps all 6, rounds 1."
#[test]
fn flow_through_c_1() {
    let (result, bytes) = built(&C_WRITER, &C_READER, 1, FLOW_THROUGH, 6);
    assert_eq!(result, done(6, 1));
    assert_eq!(bytes, [1; 6]);
    // At the full buffer the burst may begin only while one is taken.
    let full = Configuration::of(0, 0, 1);
    let asked = ask(&C_WRITER, &C_READER, 1, FLOW_THROUGH, &bytes, full);
    assert_eq!(asked, moves(0b11 + (1 << 9), 3, 0));
}

/// With no room at all an item can still pass: the two configurations in
/// which both sides are before it or both past it.
#[test]
fn flow_through_a_0() {
    let (result, bytes) = built(&A_WRITER, &A_READER, 0, FLOW_THROUGH, 4);
    assert_eq!(result, done(2, 2));
    assert_eq!(bytes, [1, 0, 0, 1]);
    let start = Configuration::of(0, 0, 0);
    let asked = ask(&A_WRITER, &A_READER, 0, FLOW_THROUGH, &bytes, start);
    assert_eq!(asked, moves(1 + (1 << 9), 2, 0));
}

/// No move of one side alone gains or loses by the rule: at bound 1 pair A has
/// one way more, both letters 1 at the start.
#[test]
fn flow_through_a_1() {
    let (result, bytes) = built(&A_WRITER, &A_READER, 1, FLOW_THROUGH, 8);
    assert_eq!(result, done(3, 2));
    assert_eq!(bytes, [1, 0, 0, 0, 0, 1, 1, 0]);
    let start = Configuration::of(0, 0, 0);
    let asked = ask(&A_WRITER, &A_READER, 1, FLOW_THROUGH, &bytes, start);
    assert_eq!(asked, moves(257 + (1 << 9), 3, 0));
}

// ---- items that pass

/// One state a side that is start and finish; letter 0 holds, 1 moves.
const FREE_WRITER: [u8; 19] = [1, 0, 16, 1, 1, 0, 0, 2, 2, 0, 0, 0, 0, 0, 0, 1, 5, 1, 0];
const FREE_READER: [u8; 19] = [1, 0, 16, 2, 1, 0, 0, 2, 2, 0, 0, 0, 0, 0, 0, 1, 5, 1, 0];

/// A step of the free sides with these letters, all levels kept.
fn free_step(bound: u64, rule: u64, run: &Run, (x, y): (u64, u64), incoming: u32) -> Stepped {
    let kept = vec![1; bound as usize + 1];
    let cycle = Cycle {
        writer_letter: x,
        reader_letter: y,
        writer_answer: 5 * x,
        reader_answer: 5 * y,
        incoming,
    };
    step(&FREE_WRITER, &FREE_READER, bound, rule, &kept, run, &cycle)
}

/// A run that put 10, 11 and so on up to a level, and its step in which both
/// sides move, with 99 coming in.
fn both_move(bound: u64, rule: u64, level: u32) -> (Run, Stepped) {
    let mut run = begin(&FREE_WRITER, &FREE_READER, bound).run;
    for incoming in 10..10 + level {
        run = free_step(bound, rule, &run, (1, 0), incoming).run;
    }
    let stepped = free_step(bound, rule, &run, (1, 1), 99);
    (run, stepped)
}

/// Both rows with item 1: the front leaves, the incoming one goes behind the
/// last, the level stands.
#[test]
fn put_and_take_in_one_cycle() {
    for rule in [REGISTERED, FLOW_THROUGH] {
        let (result, bytes) = built(&FREE_WRITER, &FREE_READER, 3, rule, 4);
        assert_eq!((result.kept, result.rounds, bytes), (4, 1, vec![1; 4]));
        let (run, stepped) = both_move(3, rule, 2);
        assert_eq!((run.level, &run.items[..3]), (2, &[10, 11, 0][..]));
        assert_eq!((stepped.number, stepped.item, stepped.mark), (0, 10, 1));
        assert_eq!(stepped.run.level, 2);
        assert_eq!(stepped.run.items[..3], [11, 99, 0]);
    }
}

/// "lets an item pass in the cycle it is written".
#[test]
fn an_item_passes_at_level_0() {
    for bound in [0, 1, 15] {
        let (run, stepped) = both_move(bound, FLOW_THROUGH, 0);
        assert_eq!((stepped.number, stepped.item, stepped.mark), (0, 99, 1));
        assert_eq!(stepped.run, run);
        // Reason 5, and without room 4.
        let reason = if bound == 0 { 4 } else { 5 };
        let (run, stepped) = both_move(bound, REGISTERED, 0);
        assert_eq!((stepped.number, stepped.side, stepped.row), (15, 0, reason));
        assert_eq!((stepped.item, stepped.mark, stepped.run), (0, 0, run));
    }
}

/// "and a full buffer take one while giving one": with bound 15 there are 16
/// items for a moment.
#[test]
fn an_item_passes_at_a_full_buffer() {
    for full in [1, 2, 15] {
        let bound = u64::from(full);
        let (_, stepped) = both_move(bound, FLOW_THROUGH, full);
        assert_eq!((stepped.number, stepped.item, stepped.mark), (0, 10, 1));
        let mut held: Vec<u32> = (11..10 + full).chain([99]).collect();
        held.resize(16, 0);
        assert_eq!(stepped.run.level, bound);
        assert_eq!(stepped.run.items[..], held);
        let (run, stepped) = both_move(bound, REGISTERED, full);
        assert_eq!(run.level, bound);
        assert_eq!((stepped.number, stepped.side, stepped.row), (15, 0, 4));
        assert_eq!((stepped.item, stepped.mark, stepped.run), (0, 0, run));
    }
}

/// Pair A with no room: the item goes from side to side in one cycle, and
/// both have finished.
#[test]
fn pair_a_without_room() {
    let (_, kept) = built(&A_WRITER, &A_READER, 0, FLOW_THROUGH, 4);
    let begun = begin(&A_WRITER, &A_READER, 0);
    let pass = Cycle {
        writer_letter: 1,
        reader_letter: 1,
        writer_answer: 1,
        reader_answer: 1,
        incoming: 7,
    };
    let stepped = step(
        &A_WRITER,
        &A_READER,
        0,
        FLOW_THROUGH,
        &kept,
        &begun.run,
        &pass,
    );
    assert_eq!((stepped.number, stepped.item, stepped.mark), (0, 7, 1));
    assert_eq!(stepped.run.at(), Configuration::of(1, 1, 0));
    assert_eq!(stepped.run.items, [0; 16]);
}

/// Numbers and places each name every configuration once.
#[test]
fn numbers_and_places() {
    let pair = second::Pair::read(&C_WRITER, &A_READER, 2, REGISTERED).unwrap();
    let all = pair.configurations();
    let numbers: Vec<usize> = all.iter().map(|at| pair.number(*at)).collect();
    assert_eq!(numbers, Vec::from_iter(0..18));
    let mut places: Vec<usize> = all.iter().map(|at| pair.place(*at)).collect();
    assert_ne!(places, numbers);
    places.sort();
    assert_eq!(places, numbers);
}
