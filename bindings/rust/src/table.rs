//! A table: loaded, kept in a file, tested.

use crate::slices::{self, Lent, LentMut};
use crate::{Answer, LOADED, MAPPINGS, RECORD, STATES};
use std::fmt;

/// A table's memory, in the order of the C struct.
#[derive(Clone, PartialEq, Eq)]
struct Memory {
    record: [u32; RECORD],
    states: [u16; STATES],
    codes: [u32; MAPPINGS],
    infos: [u32; MAPPINGS],
    order: [u32; MAPPINGS],
}

impl Memory {
    fn new() -> Box<Memory> {
        let (codes, infos, order) = ([0; MAPPINGS], [0; MAPPINGS], [0; MAPPINGS]);
        Box::new(Memory { record: [0; RECORD], states: [0; STATES], codes, infos, order })
    }
}

/// A table, which some text was accepted as. Its memory has one place on the
/// heap, of 32,796 bytes.
#[derive(Clone, PartialEq, Eq)]
pub struct Table(Box<Memory>);

/// A text that is no table.
#[derive(Clone, Copy, PartialEq, Eq, Debug)]
pub struct Refused {
    /// Why.
    pub answer: Answer,
    /// The line, counted from 1; 0 with [`Answer::TextTooLong`].
    pub line: u64,
}

impl fmt::Display for Refused {
    fn fmt(&self, f: &mut fmt::Formatter) -> fmt::Result {
        match self.line {
            0 => write!(f, "{}", self.answer),
            line => write!(f, "line {line}: {}", self.answer),
        }
    }
}

impl std::error::Error for Refused {}

impl fmt::Debug for Table {
    fn fmt(&self, f: &mut fmt::Formatter) -> fmt::Result {
        let [rows, mappings, ..] = self.0.record;
        f.debug_struct("Table").field("rows", &rows).field("mappings", &mappings).finish_non_exhaustive()
    }
}

impl Table {
    /// How many bytes [`to_bytes`](Table::to_bytes) gives.
    pub const BYTES: usize = 4 * RECORD + 2 * STATES + 3 * 4 * MAPPINGS;

    /// Loads a table's text, in `.ucm` form.
    ///
    /// ```
    /// use oboepond::{Answer, Table};
    /// let refused = Table::load(b"<mb_cur_min> 1\nhello\n").unwrap_err();
    /// assert_eq!((refused.answer, refused.line), (Answer::NoForm, 2));
    /// assert!(refused.to_string().starts_with("line 2: This line has no form"));
    /// ```
    pub fn load(text: &[u8]) -> Result<Table, Refused> {
        let mut memory = Memory::new();
        let Memory { record, states, codes, infos, order } = &mut *memory;
        let mut result = [0; LOADED];
        let number = slices::load(text, LentMut { record, states, codes, infos, order }, &mut result);
        match Answer::given(number) {
            Answer::Ok => Ok(Table(memory)),
            answer => Err(Refused { answer, line: result[0] }),
        }
    }

    /// The table's bytes, to be kept in a file: those of the struct of
    /// `include/oboepond_table.h`, in little-endian order.
    ///
    /// ```
    /// # let text = std::fs::read("../../crates/oboepond/data/table.ucm").unwrap();
    /// # let table = oboepond::Table::load(&text).unwrap();
    /// use oboepond::{Answer, Table};
    /// let mut bytes = table.to_bytes();
    /// assert_eq!(bytes.len(), Table::BYTES);
    /// assert_eq!(Table::from_bytes(&bytes).unwrap(), table);
    /// bytes[4] += 1;
    /// assert_eq!(Table::from_bytes(&bytes), Err(Answer::BadTable));
    /// ```
    pub fn to_bytes(&self) -> Vec<u8> {
        let Memory { record, states, codes, infos, order } = &*self.0;
        let mut bytes = Vec::with_capacity(Table::BYTES);
        bytes.extend(record.iter().flat_map(|number| number.to_le_bytes()));
        bytes.extend(states.iter().flat_map(|number| number.to_le_bytes()));
        for numbers in [codes, infos, order] {
            bytes.extend(numbers.iter().flat_map(|number| number.to_le_bytes()));
        }
        bytes
    }

    /// The table that these bytes keep. Another number of bytes, and bytes that are
    /// not as an accepted text leaves them, are refused with [`Answer::BadTable`].
    pub fn from_bytes(bytes: &[u8]) -> Result<Table, Answer> {
        if bytes.len() != Table::BYTES {
            return Err(Answer::BadTable);
        }
        let mut memory = Memory::new();
        let Memory { record, states, codes, infos, order } = &mut *memory;
        let mut rest = fill(record, bytes, u32::from_le_bytes);
        rest = fill(states, rest, u16::from_le_bytes);
        for numbers in [codes, infos, order] {
            rest = fill(numbers, rest, u32::from_le_bytes);
        }
        let table = Table(memory);
        table.check().map(|()| table)
    }

    /// Tests the table's memory, as every other call does too. A `Table` passes,
    /// unless something wrote to memory that is not its own.
    pub fn check(&self) -> Result<(), Answer> {
        match Answer::given(slices::check(self.lent())) {
            Answer::Ok => Ok(()),
            answer => Err(answer),
        }
    }

    /// How many mappings the table has.
    pub fn mappings(&self) -> usize {
        self.0.record[1] as usize
    }

    /// The table's slices, for the calls of [`slices`].
    pub fn lent(&self) -> Lent<'_> {
        let Memory { record, states, codes, infos, order } = &*self.0;
        Lent { record, states, codes, infos, order }
    }
}

/// Numbers of `W` bytes each, read from the front; the rest of the bytes.
fn fill<'a, const W: usize, T>(numbers: &mut [T], bytes: &'a [u8], read: fn([u8; W]) -> T) -> &'a [u8] {
    let (front, rest) = bytes.split_at(W * numbers.len());
    for (number, bytes) in numbers.iter_mut().zip(front.chunks_exact(W)) {
        *number = read(bytes.try_into().expect("W bytes"));
    }
    rest
}
