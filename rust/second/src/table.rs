//! A protocol table, in bytes and in hand.

/// The side a table is read for: "given its side (one of two cases, no third
/// can be passed)".
#[derive(Clone, Copy, Debug, PartialEq, Eq)]
pub enum Side {
    /// The writing side.
    Writer,
    /// The reading side.
    Reader,
}

impl Side {
    /// "side 1 writes, 2 reads"; also the role byte: "role: 1 writing side,
    /// 2 reading side".
    pub fn number(self) -> u64 {
        match self {
            Side::Writer => 1,
            Side::Reader => 2,
        }
    }
}

/// A refusal by number, with "Side, row" as the table of refusals gives them.
#[derive(Clone, Copy, Debug, PartialEq, Eq)]
pub struct Refusal {
    /// The refusal's number, 1 to 20.
    pub number: u64,
    /// 0 for no side, else 1 or 2.
    pub side: u64,
    /// "Rows count from 0." At 15 the number of the reason, at 19 and 20 the
    /// place.
    pub row: u64,
}

impl Refusal {
    /// A refusal whose "Side, row" is "0, 0".
    pub fn of_call(number: u64) -> Refusal {
        Refusal {
            number,
            side: 0,
            row: 0,
        }
    }

    /// A refusal whose "Side, row" is "side, 0".
    pub fn of_side(number: u64, side: Side) -> Refusal {
        Refusal::of_row(number, side, 0)
    }

    /// A refusal with a side and a row.
    pub fn of_row(number: u64, side: Side, row: usize) -> Refusal {
        Refusal {
            number,
            side: side.number(),
            row: row as u64,
        }
    }
}

/// "rows of five bytes: state, drive, answer, item, next state".
#[derive(Clone, Copy, Debug, Default, PartialEq, Eq)]
pub struct Row {
    /// The state in which the row may be taken.
    pub state: u8,
    /// The drive letter that the bridge chooses.
    pub drive: u8,
    /// The answer that the side shows.
    pub answer: u8,
    /// 1 if the row moves one new item, 0 if none.
    pub item: u8,
    /// The next state.
    pub next: u8,
}

/// The table in hand: a checked table.
#[derive(Clone, Debug, PartialEq, Eq)]
pub struct Table {
    /// Byte 0: "version, 1".
    pub version: u8,
    /// Byte 3: "role: 1 writing side, 2 reading side".
    pub role: u8,
    /// Byte 4: "states n, 1 to 16".
    pub states: u8,
    /// Byte 5: the start state, below n.
    pub start: u8,
    /// Byte 6: the finish state, below n.
    pub finish: u8,
    /// Byte 7: "drive letters d, 1 to 8".
    pub letters: u8,
    /// The rows, as many as byte 8 says: "rows, 0 to 64".
    pub rows: Vec<Row>,
}

impl Table {
    /// The table's 64 rows, "with unused rows zero".
    pub fn padded_rows(&self) -> [Row; 64] {
        let mut padded = [Row::default(); 64];
        padded[..self.rows.len()].copy_from_slice(&self.rows);
        padded
    }

    /// "any one of its rows for that state and letter": they stand together,
    /// since "Rows rise strictly by state, then drive, then answer".
    pub fn rows_for(&self, state: u64, letter: u64) -> &[Row] {
        let key = |row: &Row| (u64::from(row.state), u64::from(row.drive));
        let from = self.rows.partition_point(|row| key(row) < (state, letter));
        let rest = &self.rows[from..];
        &rest[..rest.partition_point(|row| key(row) == (state, letter))]
    }

    /// The letters that have a row at a state, rising.
    pub fn letters_at(&self, state: u64) -> Vec<u64> {
        let here = self.rows.iter().filter(|row| u64::from(row.state) == state);
        let mut letters: Vec<u64> = here.map(|row| u64::from(row.drive)).collect();
        letters.dedup();
        letters
    }

    /// "state, drive and answer fix the row".
    pub fn row(&self, state: u64, letter: u64, answer: u64) -> Option<&Row> {
        self.rows_for(state, letter)
            .iter()
            .find(|row| u64::from(row.answer) == answer)
    }
}

/// The bytes before the first row.
const HEAD: usize = 9;

/// Reads a table for a side, with refusals 1 to 8: "The lowest number that
/// applies is given".
pub fn read(bytes: &[u8], side: Side) -> Result<Table, Refusal> {
    check_head(bytes, side)?;
    let table = take_fields(bytes);
    check_rows(&table, side)?;
    Ok(table)
}

/// Refusals 1 to 6, those of the first nine bytes.
fn check_head(bytes: &[u8], side: Side) -> Result<(), Refusal> {
    let refuse = |number| Err(Refusal::of_side(number, side));
    if bytes.len() < HEAD {
        return refuse(1);
    }
    if bytes[0] != 1 {
        return refuse(2);
    }
    if !length_is_true(bytes) {
        return refuse(3);
    }
    if u64::from(bytes[3]) != side.number() {
        return refuse(4);
    }
    let (states, start, finish, letters, rows) = (bytes[4], bytes[5], bytes[6], bytes[7], bytes[8]);
    if !(1..=16).contains(&states) || !(1..=8).contains(&letters) || rows > 64 {
        return refuse(5);
    }
    if start >= states || finish >= states {
        return refuse(6);
    }
    Ok(())
}

/// Not refusal 3: "length field not (bytes - 3), or not 6 + 5 × rows".
/// The three numbers are compared as numbers, none of them cut.
fn length_is_true(bytes: &[u8]) -> bool {
    let field = length_field(bytes[1], bytes[2]);
    field == bytes.len() - 3 && field == 6 + 5 * usize::from(bytes[8])
}

/// "Version first, then the length, big-endian."
pub(crate) fn length_field(high: u8, low: u8) -> usize {
    256 * usize::from(high) + usize::from(low)
}

/// The fields of a table whose first nine bytes and length are checked.
fn take_fields(bytes: &[u8]) -> Table {
    let rows = bytes[HEAD..].chunks_exact(5).map(take_row).collect();
    Table {
        version: bytes[0],
        role: bytes[3],
        states: bytes[4],
        start: bytes[5],
        finish: bytes[6],
        letters: bytes[7],
        rows,
    }
}

/// One row of five bytes.
fn take_row(five: &[u8]) -> Row {
    Row {
        state: five[0],
        drive: five[1],
        answer: five[2],
        item: five[3],
        next: five[4],
    }
}

/// Refusals 7 and 8: "7 is tried over a whole table before 8."
fn check_rows(table: &Table, side: Side) -> Result<(), Refusal> {
    if let Some(row) = first_out_of_range(table) {
        return Err(Refusal::of_row(7, side, row));
    }
    if let Some(row) = first_not_rising(table) {
        return Err(Refusal::of_row(8, side, row));
    }
    Ok(())
}

/// Refusal 7: "a row field out of range", "first such row".
fn first_out_of_range(table: &Table) -> Option<usize> {
    table.rows.iter().position(|row| !in_range(table, row))
}

/// "State and next are below n, drive below d, answer below 16, item 0 or 1."
fn in_range(table: &Table, row: &Row) -> bool {
    row.state < table.states
        && row.next < table.states
        && row.drive < table.letters
        && row.answer < 16
        && row.item <= 1
}

/// Refusal 8: "rows do not rise", "later row of first bad pair".
fn first_not_rising(table: &Table) -> Option<usize> {
    let key = |row: &Row| (row.state, row.drive, row.answer);
    let earlier = table
        .rows
        .windows(2)
        .position(|two| key(&two[0]) >= key(&two[1]))?;
    Some(earlier + 1)
}
