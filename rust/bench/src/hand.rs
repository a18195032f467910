//! Tables read as the proved code reads them: checked in their bytes, refusals
//! 1 to 9 and 17, and then taken in hand.

use crate::rule::Rule;

/// A checked table's header, and what is held of its rows.
pub struct Side<T> {
    pub states: u8,
    pub start: u8,
    pub finish: u8,
    pub held: T,
}

/// A table in hand: `count` rows are used, the others are zero.
pub struct Table {
    pub rows: [Row; 64],
    pub count: usize,
}

#[derive(Clone, Copy, Default)]
pub struct Row {
    pub state: u8,
    pub drive: u8,
    pub item: u8,
    pub next: u8,
}

/// A pair that passed its tests.
pub struct Entered<T> {
    pub writer: Side<T>,
    pub reader: Side<T>,
    pub bound: u8,
    pub rule: Rule,
}

/// Both tables read, the bound and the rule tested; else the packed refusal.
/// `hold` makes what is held of the bytes of rows.
#[inline(always)]
pub fn enter<T>(
    hold: impl Fn(&[u8]) -> T,
    writer: &[u8],
    reader: &[u8],
    bound: u64,
    rule: u64,
) -> Result<Entered<T>, u64> {
    let writer = read(&hold, writer, 1)?;
    let reader = read(&hold, reader, 2)?;
    if bound > 15 {
        return Err(9);
    }
    Ok(Entered {
        writer,
        reader,
        bound: bound as u8,
        rule: Rule::of(rule)?,
    })
}

#[inline(always)]
fn read<T>(hold: impl Fn(&[u8]) -> T, b: &[u8], side: u8) -> Result<Side<T>, u64> {
    let refuse = |number: u64| number + (u64::from(side) << 8);
    if b.len() < 9 {
        return Err(refuse(1));
    }
    if b[0] != 1 {
        return Err(refuse(2));
    }
    let field = 256 * usize::from(b[1]) + usize::from(b[2]);
    if field != b.len() - 3 || field != 6 + 5 * usize::from(b[8]) {
        return Err(refuse(3));
    }
    if b[3] != side {
        return Err(refuse(4));
    }
    let (n, d) = (b[4], b[7]);
    if !(1..=16).contains(&n) || !(1..=8).contains(&d) || b[8] > 64 {
        return Err(refuse(5));
    }
    if b[5] >= n || b[6] >= n {
        return Err(refuse(6));
    }
    let rows = b[9..].chunks_exact(5);
    let bad = |row: &[u8]| row[0] >= n || row[1] >= d || row[2] >= 16 || row[3] > 1 || row[4] >= n;
    if let Some(row) = rows.clone().position(bad) {
        return Err(refuse(7) + ((row as u64) << 16));
    }
    let falls = |(a, b): (&[u8], &[u8])| a[..3] >= b[..3];
    if let Some(row) = rows.clone().zip(rows.clone().skip(1)).position(falls) {
        return Err(refuse(8) + ((row as u64 + 1) << 16));
    }
    Ok(Side {
        states: n,
        start: b[5],
        finish: b[6],
        held: hold(&b[9..]),
    })
}

/// The table of these bytes of rows, in hand.
#[inline]
pub fn take(bytes: &[u8]) -> Table {
    let mut table = Table {
        rows: [Row::default(); 64],
        count: 0,
    };
    for (row, bytes) in table.rows.iter_mut().zip(bytes.chunks_exact(5)) {
        *row = Row {
            state: bytes[0],
            drive: bytes[1],
            item: bytes[3],
            next: bytes[4],
        };
        table.count += 1;
    }
    table
}
