//! Skipping as a caller does it with the setting off: after a 52 it writes what
//! stands for the sequence, passes over as many bytes as the length says, and
//! goes on. One call with the setting on must give the same. And how the panel's
//! sequences break, by the stored states alone.

use crate::cases::{equal, old_bytes};
use crate::gen::{character, LITTLE_MARK};
use crate::oracle::{code_of, Memory, Piped, Record, Scheme, Settings};
use crate::subject::Subject;

/// Several calls joined to one.
pub struct Joined {
    pub answer: Piped,
    pub output: Vec<u8>,
    /// Place and length of each sequence that was passed over.
    pub skipped: Vec<(usize, usize)>,
    /// The answer is 50 because what stands for an illegal sequence does not fit.
    pub full: bool,
}

/// A call converts the rest of the input into the rest of the space; it is told
/// whether it is the first.
fn joined(
    input: &[u8],
    space: usize,
    instead: &[u8],
    call: impl Fn(&[u8], &mut [u8], bool) -> Piped,
) -> Result<Joined, String> {
    let (mut output, mut skipped) = (old_bytes(space), Vec::new());
    let (mut read, mut written) = (0, 0);
    loop {
        let got = call(&input[read..], &mut output[written..], skipped.is_empty());
        read += got.read as usize;
        written += got.written as usize;
        let full = got.number == 52 && instead.len() > space - written;
        if got.number != 52 || full {
            let (number, length) = if full { (50, 0) } else { (got.number, got.length) };
            let answer = Piped { number, read: read as u64, written: written as u64, length };
            return Ok(Joined { answer, output, skipped, full });
        }
        let length = got.length as usize;
        if !(1..=input.len() - read).contains(&length) {
            return Err(format!("52 at {read} of {} bytes with length {length}", input.len()));
        }
        output[written..written + instead.len()].copy_from_slice(instead);
        written += instead.len();
        skipped.push((read, length));
        read += length;
    }
}

pub fn to_unicode(
    s: &dyn Subject,
    record: &Record,
    memory: &Memory,
    input: &[u8],
    space: usize,
    scheme: Scheme,
    settings: Settings,
) -> Result<Joined, String> {
    let settings = Settings { skip: false, ..settings };
    // The first call has written the mark.
    let behind = if scheme == Scheme::Utf32 { Scheme::Utf32Be } else { scheme };
    joined(input, space, &character(scheme, 0xfffd), |rest, output, first| {
        s.to_unicode(record, memory, rest, output, if first { scheme } else { behind }, settings)
    })
}

pub fn from_unicode(
    s: &dyn Subject,
    record: &Record,
    memory: &Memory,
    input: &[u8],
    space: usize,
    scheme: Scheme,
    settings: Settings,
) -> Result<Joined, String> {
    let settings = Settings { skip: false, ..settings };
    let subchar = code_of(record[4], record[5]).unwrap_or_default();
    // Four bytes at least are behind: the order is settled, and a mark is text.
    let behind = match scheme {
        Scheme::Utf32 if input.starts_with(&LITTLE_MARK) => Scheme::Utf32Le,
        Scheme::Utf32 => Scheme::Utf32Be,
        _ => scheme,
    };
    joined(input, space, &subchar, |rest, output, first| {
        s.from_unicode(record, memory, rest, output, if first { scheme } else { behind }, settings)
    })
}

/// What the byte that broke a sequence would be as a first one.
#[derive(Clone, Copy)]
pub enum First {
    Illegal,
    /// An end: 1 without a letter, 2 `p`, 3 `u`.
    Ends(u16),
    Leads,
    LeadsToEmptyRow,
}

/// How an illegal sequence at the front of a frame came to its end, by the
/// stored states of a valid table; its length must be the one told.
pub fn broken(states: &[u16], frame: &[u8], length: usize) -> Result<First, String> {
    const LEAD: u16 = 16;
    let row = |n: u16| &states[256 * n as usize..][..256];
    let (mut at, mut here) = (0, row(0));
    let breaking = loop {
        let byte = *frame.get(at).ok_or("illegal, though each byte leads on")? as usize;
        match here[byte] {
            0 => break byte,
            entry if entry >= LEAD => here = row(entry - LEAD),
            entry => return Err(format!("illegal, though byte {at} is an end of kind {entry}")),
        }
        at += 1;
    };
    let first = match row(0)[breaking] {
        0 => First::Illegal,
        entry if entry < LEAD => First::Ends(entry),
        entry if row(entry - LEAD).iter().all(|&e| e == 0) => First::LeadsToEmptyRow,
        _ => First::Leads,
    };
    // The breaking byte belongs to the sequence only where it could begin none.
    let want = if matches!(first, First::Illegal) { at + 1 } else { at };
    equal("length of an illegal sequence", length, want)?;
    Ok(first)
}
