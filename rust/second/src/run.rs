//! A run with real items.

use crate::kept::Kept;
use crate::pair::{start, tables, Configuration};
use crate::reason::Reason;
use crate::table::{Refusal, Row, Side};

/// "A run is the configuration and the held items, 32-bit, front first;
/// places from the level to 15 are zero."
#[derive(Clone, Copy, Debug, Default, PartialEq, Eq)]
pub struct Run {
    /// The writer's state.
    pub writer: u64,
    /// The reader's state.
    pub reader: u64,
    /// The level: how many items are held.
    pub level: u64,
    /// The held items, front first.
    pub items: [u32; 16],
}

impl Run {
    /// The configuration of the run.
    pub fn at(&self) -> Configuration {
        Configuration::of(self.writer, self.reader, self.level)
    }
}

/// One cycle as a step takes it: "two letters, the two answers seen and an
/// incoming item".
#[derive(Clone, Copy, Debug, Default, PartialEq, Eq)]
pub struct Cycle {
    /// The writer's letter x.
    pub writer_letter: u64,
    /// The reader's letter y.
    pub reader_letter: u64,
    /// The answer that the writer showed.
    pub writer_answer: u64,
    /// The answer that the reader showed.
    pub reader_answer: u64,
    /// The incoming item.
    pub incoming: u32,
}

/// What begin returns.
#[derive(Clone, Copy, Debug, PartialEq, Eq)]
pub struct Begun {
    /// 0 for done, else the refusal's number.
    pub number: u64,
    /// The refusal's side.
    pub side: u64,
    /// The refusal's row.
    pub row: u64,
    /// The run, "all zero" if refused.
    pub run: Run,
}

/// What step returns.
#[derive(Clone, Copy, Debug, PartialEq, Eq)]
pub struct Stepped {
    /// 0 for done, else the refusal's number.
    pub number: u64,
    /// The refusal's side.
    pub side: u64,
    /// The refusal's row.
    pub row: u64,
    /// The run after the step.
    pub run: Run,
    /// The returned item.
    pub item: u32,
    /// 1 if an item is returned, else 0.
    pub mark: u64,
}

/// "Beginning a run takes two tables and B and gives the start with nothing
/// held, or refuses (1 to 9) with all zero in the run beside the refusal's
/// number, side and row." It takes no rule: "Build, ask and step take it."
pub fn begin(writer: &[u8], reader: &[u8], bound: u64) -> Begun {
    match tables(writer, reader, bound) {
        Err(refusal) => Begun {
            number: refusal.number,
            side: refusal.side,
            row: refusal.row,
            run: Run::default(),
        },
        Ok((writer, reader)) => Begun {
            number: 0,
            side: 0,
            row: 0,
            run: run_at(start(&writer, &reader), &[]),
        },
    }
}

/// "A step takes a run, kept bytes, two letters, the two answers seen and an
/// incoming item." Refusals 1 to 9, 17, 10 and 12 to 16.
pub fn step(
    writer: &[u8],
    reader: &[u8],
    bound: u64,
    rule: u64,
    kept: &[u8],
    run: &Run,
    cycle: &Cycle,
) -> Stepped {
    let kept = Kept::read(writer, reader, bound, rule, kept);
    match kept.and_then(|kept| rows_taken(&kept, run, cycle)) {
        // "A refused step returns the run given, item 0, mark 0."
        Err(refusal) => Stepped {
            number: refusal.number,
            side: refusal.side,
            row: refusal.row,
            run: *run,
            item: 0,
            mark: 0,
        },
        Ok((writer_row, reader_row)) => moved(run, &writer_row, &reader_row, cycle.incoming),
    }
}

/// Refusals 13 to 16, or the two rows that the sides took. "In 14 and 16 the
/// writer comes first."
fn rows_taken(kept: &Kept, run: &Run, cycle: &Cycle) -> Result<(Row, Row), Refusal> {
    let pair = &kept.pair;
    let (x, y) = (cycle.writer_letter, cycle.reader_letter);
    pair.check_range(run.at())?;
    // 13: "or a nonzero place at or past the level (step)"
    if run.items[run.level as usize..].iter().any(|i| *i != 0) {
        return Err(Refusal::of_call(13));
    }
    pair.check_letters((x, y))?;
    // 15: "move not allowed (step)"; "A step that is refused with 15 carries
    // it in the row field."
    let reason = kept.reason(run.at(), (x, y));
    if reason != Reason::Allowed {
        return Err(Refusal {
            row: reason.number(),
            ..Refusal::of_call(15)
        });
    }
    // 16: "no row for that state, letter and answer (step)"
    let writer_row = pair.writer.row(run.writer, x, cycle.writer_answer);
    let reader_row = pair.reader.row(run.reader, y, cycle.reader_answer);
    match (writer_row, reader_row) {
        (None, _) => Err(Refusal::of_side(16, Side::Writer)),
        (_, None) => Err(Refusal::of_side(16, Side::Reader)),
        (Some(writer_row), Some(reader_row)) => Ok((*writer_row, *reader_row)),
    }
}

/// The step of an allowed move by two rows: "the incoming item is appended
/// first, then the front leaves". In between there may be one item more than
/// the bound, and at level 0 the incoming one is the front.
fn moved(run: &Run, writer_row: &Row, reader_row: &Row, incoming: u32) -> Stepped {
    let mut held = run.items[..run.level as usize].to_vec();
    // "if the writer's row has item 1 the incoming one goes behind the last";
    // "If the writer's row has item 0 the incoming one is ignored"
    if writer_row.item == 1 {
        held.push(incoming);
    }
    let (mut item, mut mark) = (0, 0);
    // "If the reader's row has item 1 the front leaves and is returned with a
    // mark"; "if the reader's row has item 0 the returned item and mark are 0"
    if reader_row.item == 1 {
        item = held.remove(0);
        mark = 1;
    }
    let at = Configuration {
        writer: u64::from(writer_row.next),
        reader: u64::from(reader_row.next),
        level: held.len() as u64,
    };
    Stepped {
        number: 0,
        side: 0,
        row: 0,
        run: run_at(at, &held),
        item,
        mark,
    }
}

/// The run at a configuration with these items held, as many as the level.
fn run_at(at: Configuration, held: &[u32]) -> Run {
    let mut items = [0; 16];
    items[..held.len()].copy_from_slice(held);
    Run {
        writer: at.writer,
        reader: at.reader,
        level: at.level,
        items,
    }
}
