//! Refusals, in words and in numbers.

use crate::{packed, Configuration, Reason};
use std::fmt;

/// One of the two sides.
#[derive(Clone, Copy, Debug, PartialEq, Eq, Hash)]
pub enum Side {
    /// The writing side, 1.
    Writer,
    /// The reading side, 2.
    Reader,
}

/// Why a call was refused.
///
/// ```
/// use bridge::{build, Rule, Side};
///
/// let refusal = build(&[1, 0, 6], &[], 0, Rule::Registered, &mut []).unwrap_err();
/// assert_eq!((refusal.number, refusal.side, refusal.row), (1, Some(Side::Writer), 0));
/// let error: Box<dyn std::error::Error> = refusal.into();
/// assert_eq!(
///     error.to_string(),
///     "the writer's table has fewer than 9 bytes (refusal 1, side 1, row 0)"
/// );
/// ```
#[derive(Clone, Copy, Debug, PartialEq, Eq, Hash)]
pub struct Refusal {
    /// The number of the refusal, 1 to 20.
    pub number: u8,
    /// The side whose table it is about, if it is about one.
    pub side: Option<Side>,
    /// The row that it is about, counted from 0; 0 if it is about none. If a
    /// step's move is not allowed (15), the number of its [`Reason`]; if a
    /// list is faulty (19, 20), the place of the configuration.
    pub row: u16,
    /// The configuration at which a list is faulty (19, 20), as
    /// [`check`](crate::check) gives it; else none.
    pub at: Option<Configuration>,
    /// The rounds made, if there is no bridge (11); else 0.
    pub rounds: u64,
}

impl Refusal {
    /// The refusal in a packed number, if it is one: what [`packed::build`],
    /// [`packed::ask`], [`packed::why`] or [`packed::check`] returned. The
    /// number of a faulty list has the place alone, and no configuration.
    ///
    /// ```
    /// use bridge::{packed, Refusal};
    ///
    /// let writer = [1, 0, 6, 1, 1, 0, 0, 1, 0];
    /// let reader = [1, 0, 6, 2, 1, 0, 0, 1, 0];
    /// let number = packed::build(&writer, &reader, 0, 2, &mut [0]);
    /// assert_eq!(
    ///     Refusal::of(number).unwrap().to_string(),
    ///     "the rule is above 1 (refusal 17, side 0, row 0)"
    /// );
    /// assert_eq!(Refusal::of(packed::build(&writer, &reader, 0, 1, &mut [0])), None);
    /// ```
    pub fn of(number: u64) -> Option<Refusal> {
        let side = match packed::side(number) {
            1 => Some(Side::Writer),
            2 => Some(Side::Reader),
            _ => None,
        };
        // 11 is build's alone; in other numbers the place has another meaning.
        let rounds = match packed::number(number) {
            0 => return None,
            11 => packed::fifth(number),
            _ => 0,
        };
        Some(Refusal {
            number: packed::number(number),
            side,
            row: packed::row(number),
            at: None,
            rounds,
        })
    }

    /// 0 for no side, 1 for the writer, 2 for the reader.
    pub fn side_number(&self) -> u8 {
        match self.side {
            None => 0,
            Some(Side::Writer) => 1,
            Some(Side::Reader) => 2,
        }
    }

    /// Is it about a configuration of a list, with its place as row?
    pub(crate) fn is_at_place(&self) -> bool {
        matches!(self.number, 19 | 20)
    }

    /// Where a list is faulty.
    fn place(&self) -> String {
        match self.at {
            None => format!("place {}", self.row),
            Some(at) => at.to_string(),
        }
    }

    /// Whose table it is about.
    fn whose(&self) -> &'static str {
        match self.side {
            None => "a",
            Some(Side::Writer) => "the writer's",
            Some(Side::Reader) => "the reader's",
        }
    }

    /// What was wrong, after whose table it is.
    fn fault(&self) -> &'static str {
        match self.number {
            1 => "table has fewer than 9 bytes",
            2 => "table is not of version 1",
            3 => "table's length field is not that of its bytes or of its rows",
            4 => "table has the role of the other side",
            5 => "table has states, letters or rows outside their range",
            6 => "table's start or finish is none of its states",
            7 => "table has a row with a field out of range",
            8 => "table has a row that does not rise above the one before",
            14 => "table has no such letter",
            16 => "table has no row for that state, letter and answer",
            _ => "call was refused",
        }
    }

    /// Why a step's move is not allowed.
    fn not_allowed(&self) -> String {
        match Reason::of(u64::from(self.row)) {
            None | Some(Reason::Allowed) => String::from("the move is not allowed"),
            Some(reason) => format!("the move is not allowed: {reason}"),
        }
    }
}

impl fmt::Display for Refusal {
    fn fmt(&self, f: &mut fmt::Formatter<'_>) -> fmt::Result {
        match self.number {
            9 => write!(f, "the bound is above 15")?,
            10 => write!(f, "the lent bytes are fewer than the configurations")?,
            11 => write!(f, "there is no bridge: the start is not in the largest set")?,
            12 => write!(f, "one of the kept bytes is neither 0 nor 1")?,
            13 => write!(f, "there is no such configuration")?,
            15 => write!(f, "{}", self.not_allowed())?,
            17 => write!(f, "the rule is above 1")?,
            18 => write!(
                f,
                "the list is not of version 1, has fewer than 3 bytes, or has a length field that is not that of its bytes or of the configurations"
            )?,
            19 => write!(
                f,
                "the list permits a bad move at {}: a side has no row for it, or some outcome overflows or underflows the buffer",
                self.place()
            )?,
            20 => write!(f, "the list has no way to finish from {}", self.place())?,
            _ => write!(f, "{} {}", self.whose(), self.fault())?,
        }
        let (number, side, row) = (self.number, self.side_number(), self.row);
        write!(f, " (refusal {number}, side {side}, row {row})")
    }
}

impl std::error::Error for Refusal {}
