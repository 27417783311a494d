//! What is tested: the oracle and the library behind one set of calls.

use crate::oracle::{self, Audited, Kept, Lines, Loaded, Memory, Pipe, Piped, Record, Scheme, Settings, Table};
use std::cell::RefCell;
use std::rc::Rc;

pub trait Subject {
    fn name(&self) -> &'static str;

    fn load(&self, text: &[u8], memory: &mut Memory) -> Loaded;

    /// 0 or 60.
    fn check(&self, record: &Record, memory: &Memory) -> u32;

    fn to_unicode(
        &self,
        record: &Record,
        memory: &Memory,
        input: &[u8],
        output: &mut [u8],
        scheme: Scheme,
        settings: Settings,
    ) -> Piped;

    fn from_unicode(
        &self,
        record: &Record,
        memory: &Memory,
        input: &[u8],
        output: &mut [u8],
        scheme: Scheme,
        settings: Settings,
    ) -> Piped;

    /// One call of a conversion in pieces; no piece is the closing call.
    fn piece(
        &self,
        record: &Record,
        memory: &Memory,
        pipe: Pipe,
        kept: &mut Kept,
        piece: Option<&[u8]>,
        output: &mut [u8],
    ) -> Piped;

    #[allow(clippy::too_many_arguments)]
    fn audit(
        &self,
        record: &Record,
        memory: &Memory,
        fallback: bool,
        bits: u32,
        len: u32,
        allowance: u64,
        space: &mut [u64],
    ) -> Audited;
}

pub struct Oracle;

/// 60: nothing read or written.
pub const PIPE_REFUSED: Piped = Piped { number: 60, read: 0, written: 0, length: 0 };

/// What record and memory hold: nothing where the answer is 60.
type Meaning = Option<Rc<(Table, Lines)>>;

thread_local! {
    /// The last one, since most calls ask for the same table again.
    static LAST: RefCell<Option<(Record, Memory, Meaning)>> = const { RefCell::new(None) };
}

fn meaning(record: &Record, memory: &Memory) -> Meaning {
    LAST.with_borrow_mut(|last| match last {
        Some((r, m, meaning)) if r == record && m == memory => meaning.clone(),
        _ => {
            let table = oracle::meaning_of(record, memory);
            let meaning = table.map(|table| {
                let lines = Lines::of(&table);
                Rc::new((table, lines))
            });
            *last = Some((*record, memory.clone(), meaning.clone()));
            meaning
        }
    })
}

impl Subject for Oracle {
    fn name(&self) -> &'static str {
        "oracle"
    }

    fn load(&self, text: &[u8], memory: &mut Memory) -> Loaded {
        oracle::load(text, memory)
    }

    fn check(&self, record: &Record, memory: &Memory) -> u32 {
        match oracle::meaning_of(record, memory) {
            Some(_) => 0,
            None => 60,
        }
    }

    fn to_unicode(
        &self,
        record: &Record,
        memory: &Memory,
        input: &[u8],
        output: &mut [u8],
        scheme: Scheme,
        settings: Settings,
    ) -> Piped {
        match meaning(record, memory).as_deref() {
            Some((table, lines)) => oracle::to_unicode(table, lines, input, output, scheme, settings),
            None => PIPE_REFUSED,
        }
    }

    fn from_unicode(
        &self,
        record: &Record,
        memory: &Memory,
        input: &[u8],
        output: &mut [u8],
        scheme: Scheme,
        settings: Settings,
    ) -> Piped {
        match meaning(record, memory).as_deref() {
            Some((table, lines)) => oracle::from_unicode(table, lines, input, output, scheme, settings),
            None => PIPE_REFUSED,
        }
    }

    fn piece(
        &self,
        record: &Record,
        memory: &Memory,
        pipe: Pipe,
        kept: &mut Kept,
        piece: Option<&[u8]>,
        output: &mut [u8],
    ) -> Piped {
        match (meaning(record, memory).as_deref(), piece) {
            (Some((table, lines)), Some(piece)) => oracle::piece(table, lines, pipe, kept, piece, output),
            (Some((table, _)), None) => oracle::close(table, pipe, kept, output),
            (None, _) => PIPE_REFUSED,
        }
    }

    fn audit(
        &self,
        record: &Record,
        memory: &Memory,
        fallback: bool,
        bits: u32,
        len: u32,
        allowance: u64,
        space: &mut [u64],
    ) -> Audited {
        match oracle::meaning_of(record, memory) {
            Some(table) => oracle::audit(&table, fallback, bits, len, allowance, space),
            None => oracle::audit_refused(60, bits, len),
        }
    }
}
