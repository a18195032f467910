//! The worked cases of document 01, which are registered, and those of
//! flow-through, on both builders and through the wrapper.

mod compare;

use bridge::Rule::{FlowThrough, Registered};
use bridge::{ask, build, check, why};
use bridge::{Built, Configuration, Moves, Permissions, Reason, Refusal, Rule};
use compare::Compared;
use inputs::Pair;
use second::worked::*;

/// Writer, reader, bound, rule; what build gives; the places that are kept.
type Case = (
    &'static [u8],
    &'static [u8],
    u64,
    Rule,
    Result<(u64, u64), u64>,
    &'static [usize],
);

const ALL_BUT_8: &[usize] = &[0, 1, 2, 3, 4, 5, 6, 7];

/// Cases 1 to 7, and the same pairs under flow-through.
const CASES: [Case; 14] = [
    (&A_WRITER, &A_READER, 0, Registered, Err(2), &[]),
    (&A_WRITER, &A_READER, 1, Registered, Ok((3, 2)), &[0, 5, 6]),
    (&A_WRITER, &A_READER, 2, Registered, Ok((3, 2)), &[0, 7, 9]),
    (&C_WRITER, &C_READER, 1, Registered, Err(3), &[]),
    (&C_WRITER, &C_READER, 2, Registered, Ok((8, 2)), ALL_BUT_8),
    (&BARE_WRITER, &BARE_READER, 0, Registered, Ok((1, 1)), &[0]),
    (&BARE_WRITER, &BARE_READER, 15, Registered, Ok((1, 2)), &[0]),
    (&A_WRITER, &A_READER, 0, FlowThrough, Ok((2, 2)), &[0, 3]),
    (&A_WRITER, &A_READER, 1, FlowThrough, Ok((3, 2)), &[0, 5, 6]),
    (&A_WRITER, &A_READER, 2, FlowThrough, Ok((3, 2)), &[0, 7, 9]),
    (
        &C_WRITER,
        &C_READER,
        1,
        FlowThrough,
        Ok((6, 1)),
        &[0, 1, 2, 3, 4, 5],
    ),
    (
        &C_WRITER,
        &C_READER,
        2,
        FlowThrough,
        Ok((9, 1)),
        &[0, 1, 2, 3, 4, 5, 6, 7, 8],
    ),
    (&BARE_WRITER, &BARE_READER, 0, FlowThrough, Ok((1, 1)), &[0]),
    (
        &BARE_WRITER,
        &BARE_READER,
        15,
        FlowThrough,
        Ok((1, 2)),
        &[0],
    ),
];

fn no_bridge(rounds: u64) -> Refusal {
    Refusal {
        number: 11,
        side: None,
        row: 0,
        at: None,
        rounds,
    }
}

#[test]
fn cases() {
    let mut compared = Compared::new();
    for (writer, reader, bound, rule, expected, places) in CASES {
        let pair = Pair {
            writer: writer.to_vec(),
            reader: reader.to_vec(),
            bound,
            rule: rule.number(),
        };
        let n = pair.count();
        let (_, bytes) = compared.build(&pair, &[0xEE; 64][..n + 3]);
        let ones: Vec<usize> = (0..n).filter(|p| bytes[*p] == 1).collect();
        assert_eq!(ones, places);
        assert_eq!(bytes[n..], [0xEE; 3]);
        compared.every_move_everywhere(&pair, &bytes);

        let mut buffer = vec![9; n];
        let built = build(writer, reader, bound, rule, &mut buffer);
        let expected = expected.map(|(kept, rounds)| Built { kept, rounds });
        assert_eq!(built, expected.map_err(no_bridge));
    }
    compared.print("worked cases");
}

fn at(writer: u64, reader: u64, level: u64) -> Configuration {
    Configuration {
        writer,
        reader,
        level,
    }
}

#[test]
fn sets() {
    let mut kept = [0; 9];
    build(&A_WRITER, &A_READER, 1, Registered, &mut kept).unwrap();
    for (at, registered, flow_through) in [
        (at(0, 0, 0), 257, 257 + (1 << 9)),
        (at(1, 0, 1), 3, 3),
        (at(1, 1, 0), 1, 1),
        (at(0, 0, 1), 0, 0),
    ] {
        for (rule, set) in [(Registered, registered), (FlowThrough, flow_through)] {
            let moves = ask(&A_WRITER, &A_READER, 1, rule, &kept, at);
            assert_eq!(moves, Ok(Moves::from_bits(set)));
        }
    }
    build(&C_WRITER, &C_READER, 2, Registered, &mut kept).unwrap();
    let ask_c = |rule, at| ask(&C_WRITER, &C_READER, 2, rule, &kept, at);
    let moves = ask_c(Registered, at(0, 0, 1)).unwrap();
    assert_eq!(moves.bits(), 515);
    assert_eq!(moves.iter().collect::<Vec<_>>(), [(0, 0), (0, 1), (1, 1)]);
    // Place 8, the burst at a full buffer, is not among these bytes.
    let moves = ask_c(FlowThrough, at(0, 0, 2)).unwrap();
    assert_eq!(moves.iter().collect::<Vec<_>>(), [(0, 0), (0, 1)]);
    let outside = ask_c(Registered, at(0, 1, 0)).unwrap_err();
    assert_eq!(
        outside.to_string(),
        "there is no such configuration (refusal 13, side 0, row 0)"
    );
}

/// Pair A at bound 1 over what is kept there, which is the same under both
/// rules.
fn why_a(rule: Rule, at: Configuration, xy: (u64, u64)) -> Result<Reason, Refusal> {
    let kept = [1, 0, 0, 0, 0, 1, 1, 0];
    why(&A_WRITER, &A_READER, 1, rule, &kept, at, xy)
}

#[test]
fn reasons() {
    let start = at(0, 0, 0);
    for rule in [Registered, FlowThrough] {
        assert_eq!(why_a(rule, start, (1, 0)), Ok(Reason::Allowed));
        assert_eq!(why_a(rule, start, (0, 1)), Ok(Reason::Underflows));
        assert_eq!(why_a(rule, at(0, 0, 1), (1, 1)), Ok(Reason::NotKept));
        assert_eq!(why_a(rule, at(1, 0, 1), (1, 1)), Ok(Reason::NoWriterRow));
        assert_eq!(why_a(rule, at(1, 1, 0), (0, 1)), Ok(Reason::NoReaderRow));
    }
    assert_eq!(why_a(Registered, start, (1, 1)), Ok(Reason::Underflows));
    assert_eq!(why_a(FlowThrough, start, (1, 1)), Ok(Reason::Allowed));

    // Pair C at bound 2, less the burst at a full buffer: begun at level 1 it
    // lands there, and at level 2 its first item has no room.
    let why_c = |rule, level, xy| {
        let kept = [1, 1, 1, 1, 1, 1, 1, 1, 0];
        why(&C_WRITER, &C_READER, 2, rule, &kept, at(0, 0, level), xy)
    };
    for rule in [Registered, FlowThrough] {
        assert_eq!(why_c(rule, 1, (1, 0)), Ok(Reason::LandsOutside));
        assert_eq!(why_c(rule, 2, (1, 0)), Ok(Reason::Overflows));
    }
    assert_eq!(why_c(Registered, 2, (1, 1)), Ok(Reason::Overflows));
    assert_eq!(why_c(FlowThrough, 2, (1, 1)), Ok(Reason::LandsOutside));
}

/// 256 is not taken for 0, and the writer's letter comes first.
#[test]
fn letters_that_are_none() {
    for (xy, side) in [
        ((256, 0), "writer"),
        ((2, 2), "writer"),
        ((0, 256), "reader"),
        ((0, u64::MAX), "reader"),
    ] {
        let refusal = why_a(FlowThrough, at(0, 0, 0), xy).unwrap_err();
        let number = refusal.side_number();
        assert_eq!(
            refusal.to_string(),
            format!("the {side}'s table has no such letter (refusal 14, side {number}, row 0)")
        );
    }
}

/// The reasons in words, and in the refusal of a step.
#[test]
fn reasons_in_words() {
    for (number, words) in [
        (1, "the configuration is not kept"),
        (2, "the writer has no row for its state and letter"),
        (3, "the reader has no row for its state and letter"),
        (4, "some outcome overflows the buffer"),
        (5, "some outcome underflows the buffer"),
        (6, "some outcome lands outside the kept set"),
    ] {
        let reason = Reason::of(number).unwrap();
        assert_eq!(
            (reason.number(), reason.to_string()),
            (number, words.into())
        );
        assert_eq!(
            refused_step(number),
            format!("the move is not allowed: {words} (refusal 15, side 0, row {number})")
        );
    }
    assert_eq!(Reason::of(0), Some(Reason::Allowed));
    assert_eq!(Reason::Allowed.to_string(), "the move is allowed");
    for number in [7, 256, 1 << 32, u64::MAX] {
        assert_eq!(Reason::of(number), None);
    }
    for row in [0, 7, 255, 65_535] {
        assert_eq!(
            refused_step(row),
            format!("the move is not allowed (refusal 15, side 0, row {row})")
        );
    }
}

/// The words of a step's refusal with this row.
fn refused_step(row: u64) -> String {
    Refusal::of(15 + (row << 16)).unwrap().to_string()
}

#[test]
fn numbers_of_rules() {
    for rule in [Registered, FlowThrough] {
        assert_eq!(Rule::of(rule.number()), Some(rule));
    }
    for number in inputs::NO_RULES {
        assert_eq!(Rule::of(number), None);
    }
}

/// Pair A at bound 1, of which the list permits these sets.
fn list_of_a(sets: [u64; 8]) -> Permissions {
    let mut list = Permissions::none(&A_WRITER, &A_READER, 1).unwrap();
    list.sets_mut().copy_from_slice(&sets.map(Moves::from_bits));
    list
}

fn check_a(rule: Rule, sets: [u64; 8]) -> Result<(), Refusal> {
    check(&A_WRITER, &A_READER, 1, rule, &list_of_a(sets).bytes())
}

/// The words of a refused list, the same under both rules.
fn words_of_a(sets: [u64; 8]) -> String {
    let says = |rule| check_a(rule, sets).unwrap_err().to_string();
    assert_eq!(says(Registered), says(FlowThrough));
    says(Registered)
}

const BAD: &str = "a side has no row for it, or some outcome overflows or underflows the buffer";

#[test]
fn lists() {
    // Put at place 0, take at 5, finished at 6; held at each.
    assert_eq!(check_a(Registered, [257, 0, 0, 0, 0, 3, 1, 0]), Ok(()));
    // What it permits where it never is.
    let elsewhere = [257, 9, 9, 9, 9, 3, 1, 9];
    assert_eq!(check_a(FlowThrough, elsewhere), Ok(()));
    // From side to side in one cycle.
    let passes = [1 << 9, 0, 0, 0, 0, 0, 0, 0];
    assert_eq!(check_a(FlowThrough, passes), Ok(()));
    let refusal = check_a(Registered, passes).unwrap_err();
    let expected = Refusal {
        number: 19,
        side: None,
        row: 0,
        at: Some(at(0, 0, 0)),
        rounds: 0,
    };
    assert_eq!(refusal, expected);
}

/// README's example: a bridge that never waits, and three that differ from it
/// in one set. The rule makes no difference.
#[test]
fn lists_of_the_readme() {
    let never_waits = [1 << 8, 0, 0, 0, 0, 1 << 1, 0, 0];
    let bytes = list_of_a(never_waits).bytes();
    assert_eq!(bytes.len(), 67);
    assert_eq!(bytes[..11], [1, 0, 0x40, 0, 0, 0, 0, 0, 0, 1, 0]);
    assert_eq!(bytes[43..51], [0, 0, 0, 0, 0, 0, 0, 2]);

    for rule in [Registered, FlowThrough] {
        assert_eq!(check_a(rule, never_waits), Ok(()));
        let with = |place: usize, set: u64| {
            let mut sets = never_waits;
            sets[place] = set;
            check_a(rule, sets).map_err(|refusal| (refusal.number, refusal.row))
        };
        assert_eq!(with(0, 1 << 8 | 1 << 1), Err((19, 0)));
        assert_eq!(with(5, 0), Err((20, 0)));
        assert_eq!(with(2, 1 << 1), Ok(()));
    }
}

#[test]
fn lists_in_words() {
    // A letter that the writer has no row for, while an item is held.
    assert_eq!(
        words_of_a([257, 0, 0, 0, 0, 3 + 256, 1, 0]),
        format!("the list permits a bad move at writer state 1, reader state 0, level 1: {BAD} (refusal 19, side 0, row 5)")
    );
    // The item is never handed over; the start has no way then either.
    assert_eq!(
        words_of_a([257, 0, 0, 0, 0, 1, 1, 0]),
        "the list has no way to finish from writer state 0, reader state 0, level 0 (refusal 20, side 0, row 0)"
    );
    // By flow-through the start has another way, but not who takes the item.
    let refusal = check_a(FlowThrough, [257 + 512, 0, 0, 0, 0, 1, 1, 0]).unwrap_err();
    assert_eq!((refusal.number, refusal.at), (20, Some(at(1, 0, 1))));
    assert_eq!(
        refusal.to_string(),
        "the list has no way to finish from writer state 1, reader state 0, level 1 (refusal 20, side 0, row 5)"
    );
    // A packed number alone has the place.
    assert_eq!(
        Refusal::of(19 + (4_095 << 16)).unwrap().to_string(),
        format!("the list permits a bad move at place 4095: {BAD} (refusal 19, side 0, row 4095)")
    );
    assert_eq!(
        Refusal::of(20).unwrap().to_string(),
        "the list has no way to finish from place 0 (refusal 20, side 0, row 0)"
    );
}

/// Bytes that are no list for the pair, and a pair that is none.
#[test]
fn lists_that_are_none() {
    let list = Permissions::none(&A_WRITER, &A_READER, 2).unwrap().bytes();
    let wrong = [&list[..], &list[..2], &list[..1], &[], &[2, 0, 64]];
    for list in wrong {
        let refusal = check(&A_WRITER, &A_READER, 1, Registered, list).unwrap_err();
        assert_eq!(refusal.at, None);
        assert_eq!(
            refusal.to_string(),
            "the list is not of version 1, has fewer than 3 bytes, or has a length field that is not that of its bytes or of the configurations \
             (refusal 18, side 0, row 0)"
        );
        let refusal = check(&A_WRITER, &A_READER, 16, Registered, list).unwrap_err();
        assert_eq!((refusal.number, refusal.at), (9, None));
        let refusal = check(&A_WRITER, &A_WRITER, 1, Registered, list).unwrap_err();
        assert_eq!((refusal.number, refusal.side_number()), (4, 2));
    }
}

#[test]
fn permissions() {
    let mut kept = [0; 9];
    build(&C_WRITER, &C_READER, 2, Registered, &mut kept).unwrap();
    let own = Permissions::allowed(&C_WRITER, &C_READER, 2, Registered, &kept).unwrap();
    assert_eq!(own[at(0, 0, 1)].bits(), 515);
    let list = own.bytes();
    assert_eq!(list[..3], [1, 0, 72]);
    assert_eq!(list[3 + 8..3 + 16], [0, 0, 0, 0, 0, 0, 2, 3]);
    assert_eq!(check(&C_WRITER, &C_READER, 2, Registered, &list), Ok(()));

    let mut other = Permissions::none(&C_WRITER, &C_READER, 2).unwrap();
    assert_eq!(other.sets(), [Moves::default(); 9]);
    for (place, at) in [(0, at(0, 0, 0)), (5, at(1, 0, 2)), (7, at(2, 0, 1))] {
        other[at] = Moves::from_bits(1 << place);
        assert_eq!(other.sets()[place].bits(), 1 << place);
    }
    assert_eq!(
        Permissions::none(&C_WRITER, &C_READER, 16)
            .unwrap_err()
            .number,
        9
    );
    let refused = Permissions::allowed(&C_WRITER, &C_READER, 2, Registered, &[1; 8]);
    assert_eq!(refused.unwrap_err().number, 10);
}

#[test]
#[should_panic(expected = "the pair has no configuration writer state 0, reader state 1, level 0")]
fn permissions_elsewhere() {
    let mut list = Permissions::none(&C_WRITER, &C_READER, 2).unwrap();
    list[at(0, 1, 0)] = Moves::from_bits(1);
}
