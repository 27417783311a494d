//! The audit: codes that do not round-trip.

use crate::slices;
use crate::{Answer, Table, AUDITED};
use std::fmt;

/// A place in the audit: a code's bits, the first byte on top, and its length.
/// The default is the beginning.
#[derive(Clone, Copy, PartialEq, Eq, Hash, Debug, Default)]
pub struct Position {
    /// The code's bits.
    pub bits: u32,
    /// The code's length in bytes.
    pub length: u32,
}

/// What an audit call did.
#[derive(Clone, Copy, PartialEq, Eq, Debug)]
pub struct Audited {
    /// [`Answer::Ok`], or why the call was refused.
    pub answer: Answer,
    /// Entries that were written.
    pub written: usize,
    /// Go on from here.
    pub position: Position,
    /// No code follows.
    pub finished: bool,
    /// Codes looked at.
    pub count: u64,
}

/// Why a code is listed.
#[derive(Clone, Copy, PartialEq, Eq, Hash, Debug)]
#[repr(u32)]
pub enum Cause {
    /// The table marks the code as unassigned: it is ended by `u`.
    Marked = 1,
    /// No line reads it.
    NotRead = 2,
    /// It reads, but is written as another code.
    OtherCode = 3,
    /// It reads, but is not written.
    NotWritten = 4,
}

impl Cause {
    /// All causes, by rising number.
    pub const ALL: [Cause; 4] = [Cause::Marked, Cause::NotRead, Cause::OtherCode, Cause::NotWritten];

    /// The number of the cause.
    pub const fn number(self) -> u32 {
        self as u32
    }
}

/// A code: one to four bytes. Shown in hexadecimal digits, as in `817C`.
#[derive(Clone, Copy, PartialEq, Eq, Hash)]
pub struct Code {
    bytes: [u8; 4],
    length: usize,
}

impl Code {
    /// The bytes of the code.
    pub fn as_slice(&self) -> &[u8] {
        &self.bytes[..self.length]
    }
}

impl fmt::Display for Code {
    fn fmt(&self, f: &mut fmt::Formatter) -> fmt::Result {
        self.as_slice().iter().try_for_each(|byte| write!(f, "{byte:02X}"))
    }
}

impl fmt::Debug for Code {
    fn fmt(&self, f: &mut fmt::Formatter) -> fmt::Result {
        fmt::Display::fmt(self, f)
    }
}

/// A code that does not round-trip: it does not read as a code point which is
/// written as the same code.
#[derive(Clone, Copy, PartialEq, Eq, Hash, Debug)]
pub struct Finding {
    /// The code.
    pub code: Code,
    /// Why it is listed; of several causes the lowest.
    pub cause: Cause,
}

impl Finding {
    /// The finding of an entry that [`Table::audit`] wrote; none of another number.
    pub fn from_entry(entry: u64) -> Option<Finding> {
        let [top, cause, length] = [entry >> 48, entry >> 40 & 0xff, entry >> 32 & 0xff];
        let cause = Cause::ALL.into_iter().find(|c| top == 0 && u64::from(c.number()) == cause)?;
        let code = Code { bytes: (entry as u32).to_be_bytes(), length: length as usize };
        (1..=4).contains(&code.length).then_some(Finding { code, cause })
    }
}

impl Table {
    /// One call of the audit from a position on: at most `allowance` codes are
    /// looked at, in byte order, and an entry is written for each that does not
    /// round-trip under this fallback setting. [`Finding::from_entry`] takes an
    /// entry apart.
    ///
    /// ```
    /// # let text = std::fs::read("../../crates/oboepond/data/table.ucm").unwrap();
    /// # let table = oboepond::Table::load(&text).unwrap();
    /// use oboepond::{Finding, Position};
    /// let mut entries = [0; 2];
    /// let first = table.audit(false, Position::default(), u64::MAX, &mut entries);
    /// assert_eq!((first.written, first.finished), (2, false));
    /// assert_eq!(Finding::from_entry(entries[1]).unwrap().code.as_slice(), b"\x81\x7d");
    /// let next = table.audit(false, first.position, u64::MAX, &mut entries);
    /// assert_eq!((next.written, next.finished, first.count + next.count), (1, true, 7));
    /// ```
    pub fn audit(&self, fallback: bool, position: Position, allowance: u64, entries: &mut [u64]) -> Audited {
        let Position { bits, length } = position;
        let mut result = [0; AUDITED];
        let number = slices::audit(self.lent(), fallback.into(), bits, length, allowance, entries, &mut result);
        let [written, bits, length, finished, count] = result;
        Audited {
            answer: Answer::given(number),
            written: written as usize,
            position: Position { bits: bits as u32, length: length as u32 },
            finished: finished != 0,
            count,
        }
    }

    /// All codes that do not round-trip under this fallback setting, in byte order.
    ///
    /// ```
    /// # let text = std::fs::read("../../crates/oboepond/data/table.ucm").unwrap();
    /// # let table = oboepond::Table::load(&text).unwrap();
    /// use oboepond::Cause;
    /// let found: Vec<_> = table.findings(false).map(|f| (f.code.to_string(), f.cause)).collect();
    /// let wanted = [("3F", Cause::NotRead), ("817D", Cause::OtherCode), ("8180", Cause::Marked)];
    /// assert_eq!(found, wanted.map(|(code, cause)| (code.to_string(), cause)));
    /// ```
    pub fn findings(&self, fallback: bool) -> Findings<'_> {
        let position = Position::default();
        Findings { table: self, fallback, position, page: [0; PAGE], at: 0, written: 0, finished: false }
    }
}

/// Entries of one page.
const PAGE: usize = 64;

/// The findings of a table, which are looked for page by page.
#[derive(Clone, Debug)]
pub struct Findings<'t> {
    table: &'t Table,
    fallback: bool,
    position: Position,
    page: [u64; PAGE],
    /// Entries of the page that were handed out, and that were written.
    at: usize,
    written: usize,
    finished: bool,
}

impl Findings<'_> {
    /// Goes on to the next page.
    fn turn(&mut self) {
        let audited = self.table.audit(self.fallback, self.position, u64::MAX, &mut self.page);
        assert_eq!(audited.answer, Answer::Ok, "the position is one of the table's own");
        (self.at, self.written) = (0, audited.written);
        (self.position, self.finished) = (audited.position, audited.finished);
    }
}

impl Iterator for Findings<'_> {
    type Item = Finding;

    fn next(&mut self) -> Option<Finding> {
        while self.at == self.written {
            if self.finished {
                return None;
            }
            self.turn();
        }
        self.at += 1;
        Some(Finding::from_entry(self.page[self.at - 1]).expect("the library writes entries"))
    }
}
