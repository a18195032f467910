//! A permission list, and the places of configurations in it.

use crate::{ask, packed, Configuration, Moves, Refusal, Rule};
use std::ops::{Index, IndexMut};

/// The moves that a bridge permits at each configuration of a pair. Its bytes
/// are a list for [`check`](crate::check).
///
/// ```
/// use bridge::{build, check, Configuration, Moves, Permissions, Rule};
///
/// // Two states a side: letter 0 waits, letter 1 moves an item to the end.
/// let mut writer = [0; 24];
/// writer[..9].copy_from_slice(&[1, 0, 21, 1, 2, 0, 1, 2, 3]);
/// writer[9..].copy_from_slice(&[0, 0, 0, 0, 0, 0, 1, 1, 1, 1, 1, 0, 0, 0, 1]);
/// let mut reader = writer;
/// reader[3] = 2;
/// let (bound, rule) = (1, Rule::Registered);
///
/// // A bridge that never waits: it takes the item, and then hands it over.
/// let start = Configuration { writer: 0, reader: 0, level: 0 };
/// let held = Configuration { writer: 1, reader: 0, level: 1 };
/// let mut mine = Permissions::none(&writer, &reader, bound)?;
/// mine[start] = Moves::from_bits(1 << 8);
/// mine[held] = Moves::from_bits(1 << 1);
/// assert_eq!(mine.bytes()[..11], [1, 0, 64, 0, 0, 0, 0, 0, 0, 1, 0]);
/// assert_eq!(check(&writer, &reader, bound, rule, &mine.bytes()), Ok(()));
///
/// // All that is allowed is a bridge too, and permits the most.
/// let mut kept = [0; 8];
/// build(&writer, &reader, bound, rule, &mut kept)?;
/// let most = Permissions::allowed(&writer, &reader, bound, rule, &kept)?;
/// assert_eq!(check(&writer, &reader, bound, rule, &most.bytes()), Ok(()));
/// assert!(most[start].contains(1, 0) && most[start].contains(0, 0));
/// # Ok::<(), bridge::Refusal>(())
/// ```
#[derive(Clone, Debug, PartialEq, Eq)]
pub struct Permissions {
    places: Places,
    sets: Vec<Moves>,
}

impl Permissions {
    /// No move anywhere, for two tables and a bound; refused if they are no
    /// pair (1 to 9).
    pub fn none(writer: &[u8], reader: &[u8], bound: u64) -> Result<Permissions, Refusal> {
        // Every pair has a configuration, so an empty buffer is too short for it
        // (10), and build never gets further.
        let number = packed::build(writer, reader, bound, Rule::Registered.number(), &mut []);
        match Refusal::of(number) {
            Some(refusal) if refusal.number == 10 => {
                let places = Places::of(writer, reader, bound);
                let sets = vec![Moves::default(); places.count()];
                Ok(Permissions { places, sets })
            }
            Some(refusal) => Err(refusal),
            None => unreachable!("build is proved to refuse fewer bytes than configurations"),
        }
    }

    /// The moves that [`ask`] gives at each configuration: over the bytes that
    /// [`build`](crate::build) left, every move that any bridge may permit.
    pub fn allowed(
        writer: &[u8],
        reader: &[u8],
        bound: u64,
        rule: Rule,
        kept: &[u8],
    ) -> Result<Permissions, Refusal> {
        let mut all = Permissions::none(writer, reader, bound)?;
        for (place, moves) in all.sets.iter_mut().enumerate() {
            let at = all.places.configuration(place);
            *moves = ask(writer, reader, bound, rule, kept, at)?;
        }
        Ok(all)
    }

    /// The sets in order of place.
    pub fn sets(&self) -> &[Moves] {
        &self.sets
    }

    /// The sets in order of place, to be set.
    pub fn sets_mut(&mut self) -> &mut [Moves] {
        &mut self.sets
    }

    /// The list in bytes: version 1, two bytes for the count of those after
    /// them, and eight for each configuration in order of place, big-endian.
    pub fn bytes(&self) -> Vec<u8> {
        // At most 8 × 4,096.
        let length = (8 * self.sets.len()) as u16;
        let mut bytes = vec![1];
        bytes.extend(length.to_be_bytes());
        bytes.extend(self.sets.iter().flat_map(|set| set.bits().to_be_bytes()));
        bytes
    }
}

/// The set of a configuration.
///
/// # Panics
///
/// If the pair has no such configuration.
impl Index<Configuration> for Permissions {
    type Output = Moves;

    fn index(&self, at: Configuration) -> &Moves {
        &self.sets[self.places.place(at)]
    }
}

/// The set of a configuration, to be set.
///
/// # Panics
///
/// If the pair has no such configuration.
impl IndexMut<Configuration> for Permissions {
    fn index_mut(&mut self, at: Configuration) -> &mut Moves {
        &mut self.sets[self.places.place(at)]
    }
}

/// Where the configurations of a pair stand, in kept bytes and in lists.
#[derive(Clone, Copy, Debug, PartialEq, Eq)]
pub(crate) struct Places {
    writers: usize,
    readers: usize,
    levels: usize,
}

impl Places {
    /// Of two tables and a bound that are a pair.
    pub(crate) fn of(writer: &[u8], reader: &[u8], bound: u64) -> Places {
        Places {
            writers: usize::from(writer[4]),
            readers: usize::from(reader[4]),
            levels: bound as usize + 1,
        }
    }

    /// N.
    fn count(self) -> usize {
        self.writers * self.readers * self.levels
    }

    fn place(self, at: Configuration) -> usize {
        let within = |part: u64, end: usize| {
            let part = usize::try_from(part).ok().filter(|part| *part < end);
            part.unwrap_or_else(|| panic!("the pair has no configuration {at}"))
        };
        let writer = within(at.writer, self.writers);
        let reader = within(at.reader, self.readers);
        (writer * self.readers + reader) * self.levels + within(at.level, self.levels)
    }

    /// The configuration of a place below N.
    pub(crate) fn configuration(self, place: usize) -> Configuration {
        let states = place / self.levels;
        Configuration {
            writer: (states / self.readers) as u64,
            reader: (states % self.readers) as u64,
            level: (place % self.levels) as u64,
        }
    }
}
