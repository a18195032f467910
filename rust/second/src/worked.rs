//! The two worked pairs, "carried in the program as constants".

/// Pair A's writer: "`01 0015 01 02 00 01 02 03`, rows `00 00 00 00 00`,
/// `00 01 01 01 01`, `01 00 00 00 01`".
pub const A_WRITER: [u8; 24] = [
    1, 0, 0x15, 1, 2, 0, 1, 2, 3, //
    0, 0, 0, 0, 0, //
    0, 1, 1, 1, 1, //
    1, 0, 0, 0, 1,
];

/// Pair A's reader: "differs in role 2 only".
pub const A_READER: [u8; 24] = [
    1, 0, 0x15, 2, 2, 0, 1, 2, 3, //
    0, 0, 0, 0, 0, //
    0, 1, 1, 1, 1, //
    1, 0, 0, 0, 1,
];

/// Pair C's writer: "3 states, start 0, finish 1, 2 letters; rows
/// (0,0,0,0,0), (0,1,1,1,1), (0,1,2,1,2), (1,0,0,0,1), (2,0,3,1,1)".
pub const C_WRITER: [u8; 34] = [
    1, 0, 31, 1, 3, 0, 1, 2, 5, //
    0, 0, 0, 0, 0, //
    0, 1, 1, 1, 1, //
    0, 1, 2, 1, 2, //
    1, 0, 0, 0, 1, //
    2, 0, 3, 1, 1,
];

/// Pair C's reader: "1 state, 2 letters; rows (0,0,0,0,0), (0,1,1,1,0)".
pub const C_READER: [u8; 19] = [
    1, 0, 16, 2, 1, 0, 0, 2, 2, //
    0, 0, 0, 0, 0, //
    0, 1, 1, 1, 0,
];

/// "One state a side, no rows": the writer of cases 6 and 7.
pub const BARE_WRITER: [u8; 9] = [1, 0, 6, 1, 1, 0, 0, 1, 0];

/// "One state a side, no rows": the reader of cases 6 and 7.
pub const BARE_READER: [u8; 9] = [1, 0, 6, 2, 1, 0, 0, 1, 0];
