//! Tables in bytes, checked where they stand: refusals 1 to 9 and 17.

use crate::rule::Rule;

/// A row: state, drive, answer, item, next state.
pub type Row = [u8; 5];

/// A checked table.
pub struct Table<'a> {
    pub states: u8,
    pub start: u8,
    pub finish: u8,
    pub rows: &'a [Row],
}

/// Two checked tables, a bound and a rule.
pub struct Pair<'a> {
    pub writer: Table<'a>,
    pub reader: Table<'a>,
    pub bound: u8,
    pub rule: Rule,
}

impl<'a> Pair<'a> {
    /// The pair, or the packed refusal.
    #[inline]
    pub fn read(
        writer: &'a [u8],
        reader: &'a [u8],
        bound: u64,
        rule: u64,
    ) -> Result<Pair<'a>, u64> {
        let writer = read(writer, 1)?;
        let reader = read(reader, 2)?;
        if bound > 15 {
            return Err(9);
        }
        Ok(Pair {
            writer,
            reader,
            bound: bound as u8,
            rule: Rule::of(rule)?,
        })
    }

    pub fn levels(&self) -> usize {
        usize::from(self.bound) + 1
    }

    /// N.
    pub fn places(&self) -> usize {
        usize::from(self.writer.states) * usize::from(self.reader.states) * self.levels()
    }

    pub fn start(&self) -> usize {
        self.place(self.writer.start, self.reader.start)
    }

    pub fn finish(&self) -> usize {
        self.place(self.writer.finish, self.reader.finish)
    }

    /// The place of two states at level 0.
    pub fn place(&self, writer: u8, reader: u8) -> usize {
        (usize::from(writer) * usize::from(self.reader.states) + usize::from(reader))
            * self.levels()
    }
}

#[inline]
fn read(bytes: &[u8], side: u8) -> Result<Table<'_>, u64> {
    let refuse = |number: u64| Err(number + (u64::from(side) << 8));
    let [version, high, low, role, states, start, finish, letters, count, rows @ ..] = bytes else {
        return refuse(1);
    };
    if *version != 1 {
        return refuse(2);
    }
    let field = usize::from(u16::from_be_bytes([*high, *low]));
    if field != bytes.len() - 3 || field != 6 + 5 * usize::from(*count) {
        return refuse(3);
    }
    if *role != side {
        return refuse(4);
    }
    if !(1..=16).contains(states) || !(1..=8).contains(letters) || *count > 64 {
        return refuse(5);
    }
    if start >= states || finish >= states {
        return refuse(6);
    }
    let (rows, _) = rows.as_chunks();
    if !are_good(rows, *states, *letters) {
        return refuse(wrong_row(rows, *states, *letters));
    }
    Ok(Table {
        states: *states,
        start: *start,
        finish: *finish,
        rows,
    })
}

fn fits(row: &Row, states: u8, letters: u8) -> bool {
    let [state, drive, answer, item, next] = *row;
    (state < states) & (drive < letters) & (answer < 16) & (item < 2) & (next < states)
}

/// State, drive and answer as one number.
fn key(row: &Row) -> u32 {
    u32::from_be_bytes([0, row[0], row[1], row[2]])
}

/// Both tests of rows in one walk, without a branch for each.
#[inline]
fn are_good(rows: &[Row], states: u8, letters: u8) -> bool {
    let (mut good, mut above) = (true, 0);
    for row in rows {
        good &= fits(row, states, letters) & (key(row) >= above);
        above = key(row) + 1;
    }
    good
}

/// Refusal 7 or 8 with its row.
#[cold]
fn wrong_row(rows: &[Row], states: u8, letters: u8) -> u64 {
    let at_row = |row: usize| (row as u64) << 16;
    if let Some(row) = rows.iter().position(|row| !fits(row, states, letters)) {
        return 7 + at_row(row);
    }
    let falls = rows.windows(2).position(|two| key(&two[0]) >= key(&two[1]));
    8 + falls.map_or(0, |row| at_row(row + 1))
}
