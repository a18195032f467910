//! A protocol table in parts, before it is written as bytes.

/// The parts of a table. Rows are state, drive, answer, item, next state.
#[derive(Clone, Debug, PartialEq, Eq)]
pub struct Parts {
    /// 1 or 2 in a good table.
    pub role: u8,
    /// The number of states.
    pub states: u8,
    /// The start state.
    pub start: u8,
    /// The finish state.
    pub finish: u8,
    /// The number of drive letters.
    pub letters: u8,
    /// The rows, in any order; of rows with the same state, drive and answer
    /// the first counts.
    pub rows: Vec<[u8; 5]>,
}

impl Parts {
    /// Sorts the rows by state, drive and answer and drops repeats.
    pub fn tidy(&mut self) {
        self.rows.sort_by_key(|row| (row[0], row[1], row[2]));
        self.rows.dedup_by_key(|row| (row[0], row[1], row[2]));
    }

    /// Whether a row has this state, drive and answer.
    pub fn has(&self, state: u8, drive: u8, answer: u8) -> bool {
        let key = [state, drive, answer];
        self.rows.iter().any(|row| row[..3] == key)
    }

    /// The table in bytes, with rows that rise and a true length.
    pub fn bytes(&self) -> Vec<u8> {
        let mut tidied = self.clone();
        tidied.tidy();
        tidied.bytes_as_they_are()
    }

    /// The table in bytes, the rows as they stand, with a true length.
    pub fn bytes_as_they_are(&self) -> Vec<u8> {
        let length = 6 + 5 * self.rows.len();
        let mut bytes = vec![
            1,
            (length / 256) as u8,
            (length % 256) as u8,
            self.role,
            self.states,
            self.start,
            self.finish,
            self.letters,
            self.rows.len() as u8,
        ];
        bytes.extend(self.rows.concat());
        bytes
    }

    /// The parts of a good table.
    pub fn of(bytes: &[u8]) -> Parts {
        let rows = bytes[9..].chunks_exact(5);
        Parts {
            role: bytes[3],
            states: bytes[4],
            start: bytes[5],
            finish: bytes[6],
            letters: bytes[7],
            rows: rows.map(|row| row.try_into().unwrap()).collect(),
        }
    }
}
