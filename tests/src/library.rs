//! The library as a test subject.

use crate::cases::{equal, equal_slices};
use crate::lending::{lent, lent_mut};
use crate::oracle::{Audited, Kept, Loaded, Memory, Pipe, Piped, Record, Scheme, Settings, Way};
use crate::subject::Subject;
use oboepond::slices;

/// Each slice for a result, or for what is kept, is three places longer than
/// needed; a change behind the needed places is a failure at once.
pub struct Library;

const CANARY: u64 = 0xdead_beef_5a5a_a5a5;
const SMALL_CANARY: u32 = 0xa55a_5aa5;

fn checked<const N: usize>(result: &[u64]) -> [u64; N] {
    assert!(result[N..].iter().all(|&v| v == CANARY), "result slice: places behind were changed");
    result[..N].try_into().expect("N places")
}

fn narrow(value: u64, what: &str) -> u32 {
    u32::try_from(value).unwrap_or_else(|_| panic!("{what} does not fit 32 bits: {value}"))
}

/// The scheme's number in the C header.
fn number_of(scheme: Scheme) -> u32 {
    match scheme {
        Scheme::Utf8 => 0,
        Scheme::Utf32Be => 1,
        Scheme::Utf32Le => 2,
        Scheme::Utf32 => 3,
    }
}

/// The answer of a conversion, given the slice for its result.
fn piped(call: impl FnOnce(&mut [u64]) -> u32) -> Piped {
    let mut result = [CANARY; 6];
    let number = call(&mut result);
    let [read, written, length] = checked(&result);
    Piped { number, read, written, length }
}

/// Answer and output of the call over the scheme and of the call for UTF-8
/// alone, which must do the same.
fn same_for_utf8(got: (Piped, &[u8]), alone: (Piped, &[u8])) {
    let answers = equal("answer over the scheme and for UTF-8 alone", got.0, alone.0);
    let outputs = equal_slices("output over the scheme and for UTF-8 alone", got.1, alone.1);
    if let Err(why) = answers.and(outputs) {
        panic!("{why}");
    }
}

impl Subject for Library {
    fn name(&self) -> &'static str {
        "library"
    }

    fn load(&self, text: &[u8], memory: &mut Memory) -> Loaded {
        let (mut record, mut result) = ([SMALL_CANARY; 10], [CANARY; 4]);
        let number = slices::load(text, lent_mut(&mut record, memory), &mut result);
        let [line] = checked(&result);
        assert!(record[7..] == [SMALL_CANARY; 3], "record slice: places behind were changed");
        Loaded { number, line, record: record[..7].try_into().expect("seven places") }
    }

    fn check(&self, record: &Record, memory: &Memory) -> u32 {
        slices::check(lent(record, memory))
    }

    fn to_unicode(
        &self,
        record: &Record,
        memory: &Memory,
        input: &[u8],
        output: &mut [u8],
        scheme: Scheme,
        settings: Settings,
    ) -> Piped {
        let (number, substitute, skip) = (number_of(scheme), settings.substitute as u32, settings.skip as u32);
        let mut other = output.to_vec();
        let table = lent(record, memory);
        let got = piped(|result| slices::to_unicode(table, input, output, number, substitute, skip, result));
        if scheme == Scheme::Utf8 {
            let alone = piped(|result| slices::to_utf8(table, input, &mut other, substitute, skip, result));
            same_for_utf8((got, output), (alone, &other));
        }
        got
    }

    fn from_unicode(
        &self,
        record: &Record,
        memory: &Memory,
        input: &[u8],
        output: &mut [u8],
        scheme: Scheme,
        settings: Settings,
    ) -> Piped {
        let number = number_of(scheme);
        let (fallback, substitute, skip) = (settings.fallback as u32, settings.substitute as u32, settings.skip as u32);
        let mut other = output.to_vec();
        let table = lent(record, memory);
        let got =
            piped(|result| slices::from_unicode(table, input, output, number, fallback, substitute, skip, result));
        if scheme == Scheme::Utf8 {
            let alone = piped(|result| slices::from_utf8(table, input, &mut other, fallback, substitute, skip, result));
            same_for_utf8((got, output), (alone, &other));
        }
        got
    }

    fn piece(
        &self,
        record: &Record,
        memory: &Memory,
        pipe: Pipe,
        kept: &mut Kept,
        piece: Option<&[u8]>,
        output: &mut [u8],
    ) -> Piped {
        let (table, scheme) = (lent(record, memory), number_of(pipe.scheme));
        let (f, s) = (pipe.settings.fallback as u32, pipe.settings.substitute as u32);
        let skip = pipe.settings.skip as u32;
        let mut k = [SMALL_CANARY; 8];
        k[..5].copy_from_slice(kept);
        let got = piped(|result| match (pipe.way, piece) {
            (Way::To, Some(input)) => slices::to_unicode_piece(table, &mut k, input, output, scheme, s, skip, result),
            (Way::From, Some(input)) => {
                slices::from_unicode_piece(table, &mut k, input, output, scheme, f, s, skip, result)
            }
            (Way::To, None) => slices::to_unicode_close(table, &mut k, output, scheme, s, skip, result),
            (Way::From, None) => slices::from_unicode_close(table, &mut k, output, scheme, f, s, skip, result),
        });
        assert!(k[5..] == [SMALL_CANARY; 3], "kept slice: places behind were changed");
        kept.copy_from_slice(&k[..5]);
        got
    }

    fn audit(
        &self,
        record: &Record,
        memory: &Memory,
        fallback: bool,
        bits: u32,
        len: u32,
        allowance: u64,
        space: &mut [u64],
    ) -> Audited {
        let mut result = [CANARY; 8];
        let number = slices::audit(lent(record, memory), fallback as u32, bits, len, allowance, space, &mut result);
        let [entries, bits, len, finished, count] = checked(&result);
        assert!(finished <= 1, "finished is neither 0 nor 1: {finished}");
        Audited {
            number,
            entries,
            bits: narrow(bits, "position bits"),
            len: narrow(len, "position length"),
            finished: finished == 1,
            count,
        }
    }
}
