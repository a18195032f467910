//! The proved bridge builder, for Rust.
//!
//! Two protocol tables in bytes, the bound of the buffer between them and the
//! [`Rule`] of that buffer go in; out come the configurations in which a
//! bridge can stay for ever without losing an item and can always still
//! finish ([`build`]), the moves that are allowed at each ([`ask`]), and why
//! another move is not ([`why`]). A bridge that comes from elsewhere goes in as
//! a list of the moves that it permits, and is accepted or not ([`check`]).
//! Every call takes anything: what is neither a table nor such a list is
//! refused, with a [`Refusal`] that says what is wrong.
//!
//! ```
//! use bridge::{ask, build, why, Configuration, Reason, Rule};
//!
//! // Two states a side: letter 0 waits, letter 1 moves an item to the end.
//! let mut writer = [0; 24];
//! writer[..9].copy_from_slice(&[1, 0, 21, 1, 2, 0, 1, 2, 3]);
//! writer[9..].copy_from_slice(&[0, 0, 0, 0, 0, 0, 1, 1, 1, 1, 1, 0, 0, 0, 1]);
//! let mut reader = writer;
//! reader[3] = 2;
//!
//! let mut kept = [0; 8];
//! let built = build(&writer, &reader, 1, Rule::Registered, &mut kept)?;
//! assert_eq!((built.kept, built.rounds), (3, 2));
//! assert_eq!(kept, [1, 0, 0, 0, 0, 1, 1, 0]);
//!
//! let start = Configuration { writer: 0, reader: 0, level: 0 };
//! let moves = ask(&writer, &reader, 1, Rule::Registered, &kept, start)?;
//! assert_eq!(moves.iter().collect::<Vec<_>>(), [(0, 0), (1, 0)]);
//!
//! // The move 1.1 would take an item that is not held yet.
//! let reason = why(&writer, &reader, 1, Rule::Registered, &kept, start, (1, 1))?;
//! assert_eq!(reason, Reason::Underflows);
//!
//! // Under the other rule the item may go from side to side in one cycle.
//! let moves = ask(&writer, &reader, 1, Rule::FlowThrough, &kept, start)?;
//! assert_eq!(moves.iter().collect::<Vec<_>>(), [(0, 0), (1, 0), (1, 1)]);
//! # Ok::<(), bridge::Refusal>(())
//! ```

#![deny(unsafe_op_in_unsafe_fn)]
#![warn(missing_docs)]

mod moves;
pub mod packed;
mod permissions;
mod reason;
mod refusal;
mod rule;

pub use moves::{Iter, Moves};
pub use permissions::Permissions;
pub use reason::Reason;
pub use refusal::{Refusal, Side};
pub use rule::Rule;

use permissions::Places;
use std::fmt;

/// What an accepted pair gives beside the kept bytes.
#[derive(Clone, Copy, Debug, PartialEq, Eq)]
pub struct Built {
    /// How many configurations are kept.
    pub kept: u64,
    /// How many rounds it took; the last, which removed nothing, is counted.
    pub rounds: u64,
}

/// Where both sides stand, and how many items are held.
#[derive(Clone, Copy, Debug, PartialEq, Eq, PartialOrd, Ord, Hash)]
pub struct Configuration {
    /// The writer's state.
    pub writer: u64,
    /// The reader's state.
    pub reader: u64,
    /// The items in the buffer.
    pub level: u64,
}

impl fmt::Display for Configuration {
    fn fmt(&self, f: &mut fmt::Formatter<'_>) -> fmt::Result {
        let (writer, reader, level) = (self.writer, self.reader, self.level);
        write!(
            f,
            "writer state {writer}, reader state {reader}, level {level}"
        )
    }
}

/// Builds the largest set of configurations that a bridge can keep to.
///
/// `buffer` has a byte for each of the N = n1 × n2 × (bound + 1)
/// configurations; 4,096 bytes are enough for any pair. The place of one is
/// `(writer * n2 + reader) * (bound + 1) + level`.
///
/// If the pair is accepted the first N bytes are 1 where the configuration is
/// kept and 0 elsewhere; if there is no bridge (refusal 11) they are 0; at
/// any other refusal the buffer stands as it was. Bytes past N are never
/// written.
///
/// ```
/// use bridge::{build, Rule};
///
/// // One state a side and no rows: what is at its end already may stay there.
/// let writer = [1, 0, 6, 1, 1, 0, 0, 1, 0];
/// let reader = [1, 0, 6, 2, 1, 0, 0, 1, 0];
/// let mut buffer = [7; 3];
/// let built = build(&writer, &reader, 0, Rule::FlowThrough, &mut buffer).unwrap();
/// assert_eq!((built.kept, built.rounds, buffer), (1, 1, [1, 7, 7]));
///
/// let refusal = build(&writer, &writer, 0, Rule::FlowThrough, &mut buffer).unwrap_err();
/// assert_eq!(
///     refusal.to_string(),
///     "the reader's table has the role of the other side (refusal 4, side 2, row 0)"
/// );
/// ```
pub fn build(
    writer: &[u8],
    reader: &[u8],
    bound: u64,
    rule: Rule,
    buffer: &mut [u8],
) -> Result<Built, Refusal> {
    let number = packed::build(writer, reader, bound, rule.number(), buffer);
    match Refusal::of(number) {
        None => Ok(Built {
            kept: packed::fourth(number),
            rounds: packed::fifth(number),
        }),
        Some(refusal) => Err(refusal),
    }
}

/// Which moves are allowed at a configuration, with respect to the set that
/// the first N bytes of `kept` keep: any bytes of 0 and 1, built by [`build`]
/// or not. At a configuration that is not kept there are none.
///
/// ```
/// use bridge::{ask, Configuration, Rule};
///
/// let writer = [1, 0, 11, 1, 1, 0, 0, 1, 1, 0, 0, 0, 0, 0];
/// let mut reader = writer;
/// reader[3] = 2;
/// let start = Configuration { writer: 0, reader: 0, level: 0 };
/// let at_start = |kept: &[u8]| ask(&writer, &reader, 0, Rule::Registered, kept, start);
/// assert!(at_start(&[1]).unwrap().contains(0, 0));
/// assert!(at_start(&[0]).unwrap().is_empty());
/// assert_eq!(at_start(&[2]).unwrap_err().number, 12);
/// ```
pub fn ask(
    writer: &[u8],
    reader: &[u8],
    bound: u64,
    rule: Rule,
    kept: &[u8],
    at: Configuration,
) -> Result<Moves, Refusal> {
    let rule = rule.number();
    let set = packed::ask_set(writer, reader, bound, rule, kept, at);
    if set != 0 {
        return Ok(Moves::from_bits(set));
    }
    // A refusal's set is empty, and so may an answer's be: ask which it is.
    match Refusal::of(packed::ask(writer, reader, bound, rule, kept, at)) {
        None => Ok(Moves::default()),
        Some(refusal) => Err(refusal),
    }
}

/// Why a move is allowed at a configuration or not, with respect to the set
/// that the first N bytes of `kept` keep, as in [`ask`]. The move is a writer
/// letter x and a reader letter y; the reason is the lowest that applies, over
/// all its outcomes. The moves that are [`Reason::Allowed`] are those of
/// [`ask`].
///
/// A letter that the side's table does not have is refused (14). One that it
/// has, without a row for it in this state, is a reason.
///
/// ```
/// use bridge::{why, Configuration, Reason, Rule};
///
/// // One state a side; letter 0 holds, letter 1 moves an item, 2 has no rows.
/// let writer = [1, 0, 16, 1, 1, 0, 0, 3, 2, 0, 0, 0, 0, 0, 0, 1, 1, 1, 0];
/// let mut reader = writer;
/// reader[3] = 2;
/// let kept = [1, 1];
/// let at_level = |level, xy| {
///     let at = Configuration { writer: 0, reader: 0, level };
///     why(&writer, &reader, 1, Rule::Registered, &kept, at, xy)
/// };
/// assert_eq!(at_level(0, (1, 0)), Ok(Reason::Allowed));
/// assert_eq!(at_level(1, (1, 0)), Ok(Reason::Overflows));
/// assert_eq!(at_level(0, (1, 1)), Ok(Reason::Underflows));
/// assert_eq!(at_level(0, (0, 2)), Ok(Reason::NoReaderRow));
/// assert_eq!(
///     at_level(0, (0, 3)).unwrap_err().to_string(),
///     "the reader's table has no such letter (refusal 14, side 2, row 0)"
/// );
/// ```
pub fn why(
    writer: &[u8],
    reader: &[u8],
    bound: u64,
    rule: Rule,
    kept: &[u8],
    at: Configuration,
    xy: (u64, u64),
) -> Result<Reason, Refusal> {
    let number = packed::why(writer, reader, bound, rule.number(), kept, at, xy);
    match Refusal::of(number) {
        None => Ok(Reason::of(packed::fourth(number)).expect("a reason is proved to be 0 to 6")),
        Some(refusal) => Err(refusal),
    }
}

/// Accepts a bridge that somebody else built, or says what is wrong with it.
///
/// The bridge is a list in bytes: version 1, two bytes for the count of those
/// after them, and for each configuration in order of place eight bytes, the
/// set of moves that it permits there, with bit 8x + y for the move x.y. Both
/// are big-endian. [`Permissions`] writes such a list.
///
/// A permitted move is bad if a side has no row for it, or if some outcome
/// overflows or underflows the buffer. The list is accepted if, wherever its
/// moves may lead from the start, it permits no bad move (19) and can still
/// finish (20). Otherwise the refusal names the configuration with the lowest
/// place at which one of these fails, and 19 if both do. What it permits
/// elsewhere does not matter.
///
/// ```
/// use bridge::{check, Configuration, Moves, Permissions, Rule};
///
/// // One state a side; letter 0 holds, letter 1 moves an item.
/// let writer = [1, 0, 16, 1, 1, 0, 0, 2, 2, 0, 0, 0, 0, 0, 0, 1, 1, 1, 0];
/// let mut reader = writer;
/// reader[3] = 2;
/// let at_level = |level| Configuration { writer: 0, reader: 0, level };
/// let says = |list: &[u8]| check(&writer, &reader, 1, Rule::Registered, list);
///
/// // Put an item, take it, put the next: nothing is ever lost.
/// let mut list = Permissions::none(&writer, &reader, 1)?;
/// list[at_level(0)] = Moves::from_bits(1 << 8);
/// list[at_level(1)] = Moves::from_bits(1 << 1);
/// assert_eq!(says(&list.bytes()), Ok(()));
///
/// // Who only puts has no room for a second item.
/// list[at_level(1)] = Moves::from_bits(1 << 8);
/// let refusal = says(&list.bytes()).unwrap_err();
/// assert_eq!((refusal.number, refusal.at), (19, Some(at_level(1))));
///
/// // Who holds it for ever cannot finish.
/// list[at_level(1)] = Moves::from_bits(1 << 0);
/// assert_eq!(
///     says(&list.bytes()).unwrap_err().to_string(),
///     "the list has no way to finish from writer state 0, reader state 0, level 1 \
///      (refusal 20, side 0, row 1)"
/// );
/// # Ok::<(), bridge::Refusal>(())
/// ```
///
/// Which move is bad, [`why`] says over kept bytes that are all 1: any reason
/// but [`Reason::Allowed`], or refusal 14.
pub fn check(
    writer: &[u8],
    reader: &[u8],
    bound: u64,
    rule: Rule,
    list: &[u8],
) -> Result<(), Refusal> {
    let number = packed::check(writer, reader, bound, rule.number(), list);
    match Refusal::of(number) {
        None => Ok(()),
        Some(refusal) if refusal.is_at_place() => {
            let places = Places::of(writer, reader, bound);
            let at = Some(places.configuration(usize::from(refusal.row)));
            Err(Refusal { at, ..refusal })
        }
        Some(refusal) => Err(refusal),
    }
}
