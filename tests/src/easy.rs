//! The crate's easy layer as a test subject. A table is made of record and memory
//! by the bytes that keep it, so what is no table is refused there, with 60.

use crate::oracle::{Audited, Kept, Loaded, Memory, Pipe, Piped, Record, Scheme, Settings, Way};
use crate::oracle::{MAPPING_PLACES, STATE_PLACES};
use crate::subject::{Subject, PIPE_REFUSED};
use oboepond::{Answer, Done, Pieces, Position, Table};
use std::cell::RefCell;
use std::rc::Rc;

pub struct Easy;

/// Record and memory, and the table that they are, if any.
type Made = (Record, Memory, Option<Rc<Table>>);

thread_local! {
    /// The last table, since most calls ask for the same one again.
    static LAST: RefCell<Option<Made>> = const { RefCell::new(None) };
}

/// The bytes of the needed places, as the C struct has them.
pub fn bytes_of(record: &Record, memory: &Memory) -> Vec<u8> {
    let mut bytes: Vec<u8> = record.iter().flat_map(|n| n.to_le_bytes()).collect();
    bytes.extend(memory.states[..STATE_PLACES].iter().flat_map(|n| n.to_le_bytes()));
    for numbers in [&memory.codes, &memory.infos, &memory.order] {
        bytes.extend(numbers[..MAPPING_PLACES].iter().flat_map(|n| n.to_le_bytes()));
    }
    bytes
}

/// Record and memory that such bytes stand for.
pub fn form_of(bytes: &[u8]) -> (Record, Memory) {
    let (record, rest) = bytes.split_at(4 * 7);
    let (states, rest) = rest.split_at(2 * STATE_PLACES);
    let states = states.chunks(2).map(|n| u16::from_le_bytes([n[0], n[1]])).collect();
    let numbers =
        |bytes: &[u8]| -> Vec<u32> { bytes.chunks(4).map(|n| u32::from_le_bytes([n[0], n[1], n[2], n[3]])).collect() };
    let [codes, infos, order] = [0, 1, 2].map(|i| numbers(&rest[4 * MAPPING_PLACES * i..][..4 * MAPPING_PLACES]));
    (numbers(record).try_into().expect("seven numbers"), Memory { states, codes, infos, order })
}

/// The table of record and memory; a table's memory is never too small.
fn table(record: &Record, memory: &Memory) -> Option<Rc<Table>> {
    LAST.with_borrow_mut(|last| match last {
        Some((r, m, table)) if r == record && m == memory => table.clone(),
        _ => {
            let bytes = (!memory.is_too_small()).then(|| bytes_of(record, memory));
            let table = bytes.and_then(|bytes| match Table::from_bytes(&bytes) {
                Ok(table) => Some(Rc::new(table)),
                Err(answer) => {
                    assert_eq!(answer, Answer::BadTable, "bytes that are no table");
                    None
                }
            });
            *last = Some((*record, memory.clone(), table.clone()));
            table
        }
    })
}

pub fn settings_of(scheme: Scheme, settings: Settings) -> oboepond::Settings {
    let Settings { fallback, substitute, skip } = settings;
    let scheme = match scheme {
        Scheme::Utf8 => oboepond::Scheme::Utf8,
        Scheme::Utf32Be => oboepond::Scheme::Utf32Be,
        Scheme::Utf32Le => oboepond::Scheme::Utf32Le,
        Scheme::Utf32 => oboepond::Scheme::Utf32,
    };
    oboepond::Settings { scheme, fallback, substitute, skip }
}

pub fn piped(done: Done) -> Piped {
    let Done { answer, read, written, illegal } = done;
    Piped { number: answer.number(), read: read as u64, written: written as u64, length: illegal as u64 }
}

impl Subject for Easy {
    fn name(&self) -> &'static str {
        "crate"
    }

    /// Memory that is too small, and what a refused text leaves in it, is no affair
    /// of a table; it is answered here.
    fn load(&self, text: &[u8], memory: &mut Memory) -> Loaded {
        let loaded = |number, line, record| Loaded { number, line, record };
        if memory.is_too_small() {
            return loaded(1, 0, [0; 7]);
        }
        match Table::load(text) {
            Ok(table) => {
                let (record, form) = form_of(&table.to_bytes());
                assert_eq!(table.mappings(), record[1] as usize, "mappings");
                memory.set_needed(&form);
                loaded(0, 0, record)
            }
            Err(refused) => {
                if refused.answer != Answer::TextTooLong {
                    memory.set_needed(&Memory::zeros());
                }
                loaded(refused.answer.number(), refused.line, [0; 7])
            }
        }
    }

    fn check(&self, record: &Record, memory: &Memory) -> u32 {
        match table(record, memory) {
            Some(table) => table.check().map_or_else(Answer::number, |()| 0),
            None => 60,
        }
    }

    fn to_unicode(
        &self,
        record: &Record,
        memory: &Memory,
        input: &[u8],
        output: &mut [u8],
        scheme: Scheme,
        settings: Settings,
    ) -> Piped {
        let table = table(record, memory);
        table.map_or(PIPE_REFUSED, |table| piped(table.to_unicode(input, output, settings_of(scheme, settings))))
    }

    fn from_unicode(
        &self,
        record: &Record,
        memory: &Memory,
        input: &[u8],
        output: &mut [u8],
        scheme: Scheme,
        settings: Settings,
    ) -> Piped {
        let table = table(record, memory);
        table.map_or(PIPE_REFUSED, |table| piped(table.from_unicode(input, output, settings_of(scheme, settings))))
    }

    fn piece(
        &self,
        record: &Record,
        memory: &Memory,
        pipe: Pipe,
        kept: &mut Kept,
        piece: Option<&[u8]>,
        output: &mut [u8],
    ) -> Piped {
        let Some(table) = table(record, memory) else { return PIPE_REFUSED };
        let settings = settings_of(pipe.scheme, pipe.settings);
        let fresh = match pipe.way {
            Way::To => Pieces::to_unicode(&table, settings),
            Way::From => Pieces::from_unicode(&table, settings),
        };
        let mut pieces = if *kept == [0; 5] { fresh } else { fresh.with_kept(*kept) };
        let done = match piece {
            Some(input) => pieces.piece(input, output),
            None => pieces.close(output),
        };
        *kept = pieces.kept();
        assert_eq!(pieces.kept_bytes(), kept[1] as usize, "kept bytes");
        piped(done)
    }

    fn audit(
        &self,
        record: &Record,
        memory: &Memory,
        fallback: bool,
        bits: u32,
        len: u32,
        allowance: u64,
        space: &mut [u64],
    ) -> Audited {
        let Some(table) = table(record, memory) else { return crate::oracle::audit_refused(60, bits, len) };
        let oboepond::Audited { answer, written, position, finished, count } =
            table.audit(fallback, Position { bits, length: len }, allowance, space);
        let Position { bits, length: len } = position;
        Audited { number: answer.number(), entries: written as u64, bits, len, finished, count }
    }
}
