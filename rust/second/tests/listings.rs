//! "The listing", with the rule of request a.

use second::listing;
use second::worked::*;

/// Document 01's print of pair A at bound 1, "whole"; "The first line ends in
/// ` rule=` and the number."
const A_1: &str = "converter kept=3 of=8 rounds=2 bound=1 rule=0
0 0 0 moves 0.0 1.0
1 0 1 moves 0.0 0.1
1 1 0 moves 0.0
";

const REFUSED_11: &str = "refused 11 side 0 row 0\n";

const A_2: &str = "converter kept=3 of=12 rounds=2 bound=2 rule=0
0 0 0 moves 0.0 1.0
1 0 1 moves 0.0 0.1
1 1 0 moves 0.0
";

/// By hand from the definitions: (0,0,2) may not begin the burst, and at
/// (0,0,1) case 9 gives 0.0, 0.1 and 1.1.
const C_2: &str = "converter kept=8 of=9 rounds=2 bound=2 rule=0
0 0 0 moves 0.0 1.0
0 0 1 moves 0.0 0.1 1.1
0 0 2 moves 0.0 0.1
1 0 0 moves 0.0
1 0 1 moves 0.0 0.1
1 0 2 moves 0.0 0.1
2 0 0 moves 0.0
2 0 1 moves 0.0 0.1
";

/// By hand: with no room the item goes from side to side in one cycle.
const A_0_FLOW_THROUGH: &str = "converter kept=2 of=4 rounds=2 bound=0 rule=1
0 0 0 moves 0.0 1.1
1 1 0 moves 0.0
";

/// By hand: at the start of pair A both may move at once as well.
const A_1_FLOW_THROUGH: &str = "converter kept=3 of=8 rounds=2 bound=1 rule=1
0 0 0 moves 0.0 1.0 1.1
1 0 1 moves 0.0 0.1
1 1 0 moves 0.0
";

/// By hand: the burst may begin at level 0, and at a full buffer while one is
/// taken; in state 2 the writer must put one, so that at a full buffer one
/// must be taken.
const C_1_FLOW_THROUGH: &str = "converter kept=6 of=6 rounds=1 bound=1 rule=1
0 0 0 moves 0.0 1.0 1.1
0 0 1 moves 0.0 0.1 1.1
1 0 0 moves 0.0
1 0 1 moves 0.0 0.1
2 0 0 moves 0.0 0.1
2 0 1 moves 0.1
";

/// An input of two tables, a bound byte and a rule byte.
fn input(writer: &[u8], reader: &[u8], bound: u8, rule: u8) -> Vec<u8> {
    [writer, reader, &[bound, rule]].concat()
}

#[test]
fn pair_a_at_bound_1() {
    assert_eq!(listing(&input(&A_WRITER, &A_READER, 1, 0)), A_1);
}

#[test]
fn flow_through() {
    let texts = [
        listing(&input(&A_WRITER, &A_READER, 0, 1)),
        listing(&input(&A_WRITER, &A_READER, 1, 1)),
        listing(&input(&C_WRITER, &C_READER, 1, 1)),
    ];
    assert_eq!(
        texts,
        [A_0_FLOW_THROUGH, A_1_FLOW_THROUGH, C_1_FLOW_THROUGH]
    );
}

/// "With no input the pairs are listed under rule 0."
#[test]
fn no_input() {
    let expected = [REFUSED_11, A_1, A_2, REFUSED_11, C_2].concat();
    assert_eq!(listing(&[]), expected);
}

#[test]
fn no_moves() {
    for rule in [0, 1] {
        let text = listing(&input(&BARE_WRITER, &BARE_READER, 0, rule));
        assert_eq!(
            text,
            format!("converter kept=1 of=1 rounds=1 bound=0 rule={rule}\n0 0 0 moves\n")
        );
    }
}

#[test]
fn refusals() {
    let whole = input(&A_WRITER, &A_READER, 1, 0);
    // Fewer than three bytes: all to the writer.
    for n in 1..9 {
        assert_eq!(listing(&whole[..n]), "refused 1 side 1 row 0\n");
    }
    for n in 9..24 {
        assert_eq!(listing(&whole[..n]), "refused 3 side 1 row 0\n");
    }
    // The rest is empty or a short reader: all to the reader.
    for n in 24..33 {
        assert_eq!(listing(&whole[..n]), "refused 1 side 2 row 0\n");
    }
    for n in 33..48 {
        assert_eq!(listing(&whole[..n]), "refused 3 side 2 row 0\n");
    }
    for bound in [16, 255] {
        // 9 before 17.
        for rule in [0, 1, 2, 255] {
            let text = listing(&input(&A_WRITER, &A_READER, bound, rule));
            assert_eq!(text, "refused 9 side 0 row 0\n");
        }
    }
    for rule in [2, 3, b'\n', 255] {
        let text = listing(&input(&A_WRITER, &A_READER, 0, rule));
        assert_eq!(text, "refused 17 side 0 row 0\n");
    }
    assert_eq!(listing(&input(&A_WRITER, &A_READER, 0, 0)), REFUSED_11);
}

/// "a bound and a rule byte follow (0 and 1 if missing)".
#[test]
fn missing_bytes() {
    let whole = input(&A_WRITER, &A_READER, 1, 0);
    assert_eq!(listing(&whole[..50]), A_1);
    assert_eq!(listing(&whole[..49]), A_1_FLOW_THROUGH);
    assert_eq!(listing(&whole[..48]), A_0_FLOW_THROUGH);
}

/// "later bytes are ignored".
#[test]
fn later_bytes() {
    for more in [&b"\n"[..], &[0, 1, 2], &[255; 40], &[7; 2000]] {
        let long = [&input(&A_WRITER, &A_READER, 1, 0), more].concat();
        assert_eq!(listing(&long), A_1);
    }
}

/// "the reader's table is now cut like the writer's": by its own bytes 1 and
/// 2, whatever follows.
#[test]
fn the_readers_cut() {
    let whole = input(&A_WRITER, &A_READER, 1, 7);
    // Two bytes more are the reader's.
    let mut longer = whole.clone();
    longer[24 + 2] += 2;
    assert_eq!(listing(&longer), "refused 3 side 2 row 0\n");
    // One row less: its bytes, 1 0 0 0 1, are bound, rule and three more.
    let mut shorter = whole.clone();
    shorter[24 + 2] -= 5;
    assert_eq!(listing(&shorter), "refused 3 side 2 row 0\n");
    shorter[24 + 8] -= 1;
    assert_eq!(
        listing(&shorter),
        "converter kept=3 of=8 rounds=2 bound=1 rule=0
0 0 0 moves 0.0 1.0
1 0 1 moves 0.0 0.1
1 1 0 moves
"
    );
    // Length field 0: the reader gets three bytes.
    let three = [&A_WRITER[..], &[1, 0, 0, 16, 2]].concat();
    assert_eq!(listing(&three), "refused 1 side 2 row 0\n");
}

/// The cut uses bytes 1 and 2 whatever byte 0 says.
#[test]
fn version_does_not_move_the_cut() {
    let mut bad = input(&A_WRITER, &A_READER, 1, 0);
    bad[0] = 7;
    assert_eq!(listing(&bad), "refused 2 side 1 row 0\n");
    let mut bad = input(&A_WRITER, &A_READER, 1, 0);
    bad[24] = 7;
    assert_eq!(listing(&bad), "refused 2 side 2 row 0\n");
    // Length field 0: the writer gets three bytes.
    assert_eq!(listing(&[1, 0, 0, 1, 2, 3]), "refused 1 side 1 row 0\n");
}

/// A table with this many rows of zeros and a true length.
fn rows_of_zeros(role: u8, rows: u8) -> Vec<u8> {
    let length = 6 + 5 * u16::from(rows);
    let [high, low] = length.to_be_bytes();
    let mut table = vec![1, high, low, role, 2, 0, 1, 2, rows];
    table.resize(3 + usize::from(length), 0);
    table
}

/// "reads at most the first 1,024 bytes of standard input and ignores any
/// after them": a table that they hold has too many rows, one that reaches
/// over them is cut there.
#[test]
fn more_than_1024_bytes() {
    let fits = rows_of_zeros(1, 203);
    assert_eq!(fits.len(), 1024);
    assert_eq!(listing(&fits), "refused 5 side 1 row 0\n");
    assert_eq!(listing(&fits[..1023]), "refused 3 side 1 row 0\n");
    let too_long = rows_of_zeros(1, 204);
    assert_eq!(listing(&too_long), "refused 3 side 1 row 0\n");

    let mut fits = [&A_WRITER[..], &rows_of_zeros(2, 198)].concat();
    assert_eq!(fits.len(), 1023);
    assert_eq!(listing(&fits), "refused 5 side 2 row 0\n");
    assert_eq!(listing(&fits[..1022]), "refused 3 side 2 row 0\n");
    fits.resize(5000, 9);
    assert_eq!(listing(&fits), "refused 5 side 2 row 0\n");
    let too_long = [&A_WRITER[..], &rows_of_zeros(2, 199)].concat();
    assert_eq!(listing(&too_long), "refused 3 side 2 row 0\n");
}
