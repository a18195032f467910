//! Permission lists by hand, under both rules: what check says of each.

use second::worked::*;
use second::{check, Checked, Permitted, Standing};

/// A list in bytes.
fn list(sets: &[u64]) -> Vec<u8> {
    let length = 8 * sets.len();
    let mut bytes = vec![1, (length / 256) as u8, (length % 256) as u8];
    bytes.extend(sets.iter().flat_map(|set| set.to_be_bytes()));
    bytes
}

/// The set of these moves.
fn set(moves: &[(u64, u64)]) -> u64 {
    moves.iter().fold(0, |set, (x, y)| set | 1 << (8 * x + y))
}

const ACCEPTED: Checked = Checked {
    number: 0,
    side: 0,
    row: 0,
};

/// "19 bad move; 20 no way to finish, both with side 0 and the place as row".
fn fault(number: u64, place: u64) -> Checked {
    Checked {
        row: place,
        ..refused(number)
    }
}

fn refused(number: u64) -> Checked {
    Checked { number, ..ACCEPTED }
}

/// Check of pair A at bound 1 under a rule.
fn check_a(rule: u64, sets: &[u64]) -> Checked {
    check(&A_WRITER, &A_READER, 1, rule, &list(sets))
}

/// The same under both rules, which have to agree.
fn both(sets: &[u64]) -> Checked {
    let [registered, flow_through] = [0, 1].map(|rule| check_a(rule, sets));
    assert_eq!(registered, flow_through);
    registered
}

/// Pair A's own sets at bound 1: puts at place 0, takes at 5, has finished at
/// 6, and may hold at each.
const A_OWN: [u64; 8] = [257, 0, 0, 0, 0, 3, 1, 0];

#[test]
fn own_sets() {
    assert_eq!(both(&A_OWN), ACCEPTED);
    assert_eq!(both(&A_OWN).packed(), 0);
    // Only what leads on, and nothing at the finish.
    assert_eq!(both(&[256, 0, 0, 0, 0, 2, 0, 0]), ACCEPTED);
    // In one cycle, by flow-through only.
    let passes = [set(&[(1, 1)]), 0, 0, 0, 0, 0, 0, 0];
    assert_eq!(check_a(0, &passes), fault(19, 0));
    assert_eq!(check_a(1, &passes), ACCEPTED);
}

/// Places that are not reached are not faulty, whatever they permit.
#[test]
fn not_reached() {
    let mut sets = A_OWN;
    for place in [1, 2, 3, 4, 7] {
        sets[place] = u64::MAX;
    }
    assert_eq!(both(&sets), ACCEPTED);
}

#[test]
fn bad_moves() {
    // No row of the writer, none of the reader, and letters past d.
    for (place, xy) in [
        (5, (1, 0)),
        (6, (0, 1)),
        (0, (2, 0)),
        (0, (0, 2)),
        (6, (7, 7)),
    ] {
        let mut sets = A_OWN;
        sets[place] |= set(&[xy]);
        assert_eq!(both(&sets), fault(19, place as u64));
    }
    // An underflow at the start.
    let mut sets = A_OWN;
    sets[0] |= set(&[(0, 1)]);
    assert_eq!(both(&sets), fault(19, 0));
    assert_eq!(both(&sets).packed(), 19);
    sets = A_OWN;
    sets[6] = u64::MAX;
    assert_eq!(both(&sets).packed(), 19 + (6 << 16));
}

/// One outcome that breaks a test is enough, though another passes: a writer
/// that holds or puts, as it likes, and a reader that takes on letter 1.
#[test]
fn some_outcome() {
    let writer = [1, 0, 16, 1, 1, 0, 0, 1, 2, 0, 0, 0, 0, 0, 0, 0, 1, 1, 0];
    let reader = [1, 0, 16, 2, 1, 0, 0, 2, 2, 0, 0, 0, 0, 0, 0, 1, 1, 1, 0];
    let [hold, take] = [set(&[(0, 0)]), set(&[(0, 1)])];
    for (sets, registered, flow_through) in [
        ([hold, hold], fault(19, 1), fault(19, 1)),
        ([hold, take], fault(19, 1), ACCEPTED),
        ([hold, 0], fault(20, 1), fault(20, 1)),
        ([take, take], fault(19, 0), fault(19, 0)),
        ([0, hold], ACCEPTED, ACCEPTED),
    ] {
        let checked = [0, 1].map(|rule| check(&writer, &reader, 1, rule, &list(&sets)));
        assert_eq!(checked, [registered, flow_through], "{sets:?}");
    }
}

/// Every outcome is met: pair C's burst at bound 1, begun at place 0, stands at
/// place 3 or 5.
#[test]
fn every_outcome() {
    let begin = set(&[(1, 0)]);
    for (sets, registered, flow_through) in [
        ([begin, 0, 0, 2, 0, 2], fault(19, 5), ACCEPTED),
        ([begin, 0, 0, 2, 0, 0], fault(20, 5), fault(20, 5)),
        ([begin, 0, 0, 0, 0, 2], fault(20, 0), fault(20, 0)),
        ([begin, begin, 0, 2, begin, 1], fault(19, 5), fault(19, 5)),
    ] {
        let checked = [0, 1].map(|rule| check(&C_WRITER, &C_READER, 1, rule, &list(&sets)));
        assert_eq!(checked, [registered, flow_through], "{sets:?}");
    }
}

/// "the finish cannot be reached from it": holding for ever, and no move at
/// all.
#[test]
fn no_way() {
    for start in [0, 1] {
        assert_eq!(both(&[start, 0, 0, 0, 0, 3, 1, 0]), fault(20, 0));
    }
    for held in [0, 1] {
        // Both the start and the place after it have none; the start is lower.
        assert_eq!(both(&[257, 0, 0, 0, 0, held, 1, 0]), fault(20, 0));
    }
    let sets = [set(&[(1, 0), (1, 1)]), 0, 0, 0, 0, 1, 1, 0];
    assert_eq!(check_a(0, &sets), fault(19, 0));
    // By flow-through the start has another way.
    assert_eq!(check_a(1, &sets), fault(20, 5));
}

/// "else give the lowest": 20 at place 0 though place 5 has 19; 19 before 20 at
/// one place.
#[test]
fn the_lowest() {
    let bad = set(&[(7, 7)]);
    assert_eq!(both(&[257, 0, 0, 0, 0, bad, 0, 0]), fault(20, 0));
    assert_eq!(both(&[257 + bad, 0, 0, 0, 0, bad, bad, 0]), fault(19, 0));
    assert_eq!(both(&[257, 0, 0, 0, 0, 3 + bad, bad, 0]), fault(19, 5));
    assert_eq!(both(&[1 + bad, 0, 0, 0, 0, 3, 1, 0]), fault(19, 0));
    // A bad move is not followed: place 5 is not reached.
    assert_eq!(both(&[bad, 0, 0, 0, 0, bad, bad, 0]), fault(19, 0));
}

/// Moves permitted at the finish are judged and followed like any other.
#[test]
fn at_the_finish() {
    // One state a side that is start and finish; letter 0 holds, 1 moves.
    let writer = [1, 0, 16, 1, 1, 0, 0, 2, 2, 0, 0, 0, 0, 0, 0, 1, 5, 1, 0];
    let mut reader = writer;
    reader[3] = 2;
    let check_free = |sets: &[u64]| check(&writer, &reader, 1, 0, &list(sets));
    let put = set(&[(1, 0)]);
    assert_eq!(check_free(&[0, u64::MAX]), ACCEPTED);
    assert_eq!(check_free(&[1, u64::MAX]), ACCEPTED);
    assert_eq!(check_free(&[put, 0]), fault(20, 1));
    assert_eq!(check_free(&[put, 1]), fault(20, 1));
    assert_eq!(check_free(&[put, 2]), ACCEPTED);
    assert_eq!(check_free(&[put, 2 + put]), fault(19, 1));
    assert_eq!(check_free(&[2, 2]), fault(19, 0));
}

/// What the list makes of each place.
#[test]
fn standings() {
    let sets = list(&[256, 2, 0, 0, u64::MAX, 2, 0, 0]);
    let permitted = Permitted::read(&A_WRITER, &A_READER, 1, 0, &sets).unwrap();
    let standings = permitted.standings();
    let places =
        |has: fn(&Standing) -> bool| Vec::from_iter((0..8).filter(|place| has(&standings[*place])));
    assert_eq!(places(|s| s.reached), [0, 5, 6]);
    assert_eq!(places(|s| s.permits_bad), [4]);
    assert_eq!(places(|s| s.finishes), [0, 5, 6]);
}

/// "18 list's version not 1, list shorter than three bytes, or its length not
/// true or not 8 × N, after 17"; before 19 and 20.
#[test]
fn refusal_18() {
    for sets in [A_OWN, [u64::MAX; 8], [0; 8]] {
        let good = list(&sets);
        let mut wrong: Vec<Vec<u8>> = (0..good.len()).map(|n| good[..n].to_vec()).collect();
        wrong.push([&good[..], &[0]].concat());
        // The length is not true, though the bytes are those of N.
        for (at, by) in [(0, 1), (0, 255), (1, 1), (2, 1), (2, 255), (2, 8)] {
            let mut other = good.clone();
            other[at] = other[at].wrapping_add(by);
            wrong.push(other);
        }
        // The length is true, but that of another N.
        for n in [0, 1, 4, 7, 9, 12, 16] {
            wrong.push(list(&[257, 0, 0, 0, 0, 3, 1, 0].repeat(2)[..n]));
        }
        // Nothing is cut to 16 bits.
        let mut long = good.clone();
        long.resize(good.len() + 65_536, 0);
        wrong.push(long);
        for bytes in wrong {
            for rule in [0, 1] {
                let checked = check(&A_WRITER, &A_READER, 1, rule, &bytes);
                assert_eq!(checked, refused(18), "{bytes:?}");
            }
        }
    }
}

/// The refusals of the pair come first, whatever the list; there is no 10.
#[test]
fn refusals_before_18() {
    for bytes in [list(&A_OWN), list(&[]), vec![], vec![2], vec![1, 0]] {
        for rule in [2, 255, 256, 257, u64::MAX] {
            assert_eq!(check(&A_WRITER, &A_READER, 1, rule, &bytes), refused(17));
            let checked = check(&A_WRITER, &A_READER, 16, rule, &bytes);
            assert_eq!(checked, refused(9));
            let checked = check(&A_WRITER, &[], 16, rule, &bytes);
            assert_eq!(
                checked,
                Checked {
                    side: 2,
                    ..refused(1)
                }
            );
            let mut writer = A_WRITER;
            writer[20] = 9;
            let checked = check(&writer, &[], 16, rule, &bytes);
            let row = 2;
            assert_eq!(
                checked,
                Checked {
                    side: 1,
                    row,
                    ..refused(7)
                }
            );
        }
    }
}
