//! A set of moves.

use std::iter::FusedIterator;

/// The moves that are allowed or permitted at a configuration, each a writer
/// letter x and a reader letter y.
///
/// ```
/// let moves = bridge::Moves::from_bits(1 << 0 | 1 << 8 | 1 << 10);
/// assert_eq!(moves.len(), 3);
/// assert!(moves.contains(1, 2) && !moves.contains(2, 1));
/// assert_eq!(moves.lowest(), Some((0, 0)));
/// let mut list = Vec::new();
/// for (x, y) in moves {
///     list.push((x, y));
/// }
/// assert_eq!(list, [(0, 0), (1, 0), (1, 2)]);
/// ```
#[derive(Clone, Copy, Debug, Default, PartialEq, Eq, Hash)]
pub struct Moves(u64);

impl Moves {
    /// The set whose bit 8x + y is the move x.y.
    pub fn from_bits(bits: u64) -> Moves {
        Moves(bits)
    }

    /// The set as a number, bit 8x + y for the move x.y.
    pub fn bits(self) -> u64 {
        self.0
    }

    /// How many moves there are.
    pub fn len(self) -> usize {
        self.0.count_ones() as usize
    }

    /// Is there none?
    pub fn is_empty(self) -> bool {
        self.0 == 0
    }

    /// Is the move x.y among them? No letter is above 7.
    pub fn contains(self, x: u8, y: u8) -> bool {
        x < 8 && y < 8 && self.0 >> (8 * x + y) & 1 == 1
    }

    /// The first move in order of bit.
    pub fn lowest(self) -> Option<(u8, u8)> {
        self.iter().next()
    }

    /// The moves (x, y) in order of bit.
    pub fn iter(self) -> Iter {
        Iter(self.0)
    }
}

impl IntoIterator for Moves {
    type Item = (u8, u8);
    type IntoIter = Iter;

    fn into_iter(self) -> Iter {
        self.iter()
    }
}

/// The moves (x, y) of a set, in order of bit.
#[derive(Clone, Debug)]
pub struct Iter(u64);

impl Iterator for Iter {
    type Item = (u8, u8);

    fn next(&mut self) -> Option<(u8, u8)> {
        if self.0 == 0 {
            return None;
        }
        let bit = self.0.trailing_zeros() as u8;
        self.0 &= self.0 - 1;
        Some((bit / 8, bit % 8))
    }

    fn size_hint(&self) -> (usize, Option<usize>) {
        let left = self.0.count_ones() as usize;
        (left, Some(left))
    }
}

impl ExactSizeIterator for Iter {}
impl FusedIterator for Iter {}
