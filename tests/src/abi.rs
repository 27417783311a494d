//! Cases of the C calls alone: slices for record, kept and result that are too short
//! (70, nothing else happens) or longer than needed, numbers that are no scheme
//! (71, nothing else happens), settings other than 1.

use crate::cases::{equal, equal_memory, equal_slices, junk, k_void, old_bytes, old_entries, K};
use crate::lending::{lent, lent_mut};
use crate::oracle::{self, Memory};
use oboepond::slices;

const OLD: u64 = 0x1122_3344_5566_7788;
const OLD_SMALL: u32 = 0x1122_3344;

/// Values of a setting: off, and what else is on.
const OFF_AND_ON: [u32; 5] = [0, 1, 2, 256, u32::MAX];

pub type AbiCase = (&'static str, fn() -> Result<(), String>);

pub const CASES: &[AbiCase] = &[
    ("load with a short record or result: 70", load_short),
    ("load with a record and result of any length that is enough", load_long),
    ("load with a short record or result goes before 1 and 2: 70", load_short_first),
    ("load, refused: the record is zeros, with 1 and 2 too", load_refused),
    ("check with a short record: 70", check_short),
    ("check with a long record", check_long),
    ("to UTF-8 with a short record or result: 70", to_short),
    ("to UTF-8 with long record and result, any setting but 0", to_long),
    ("from UTF-8 with a short record or result: 70", from_short),
    ("from UTF-8 with long record and result, any setting but 0", from_long),
    ("to Unicode with a short record or result: 70", to_unicode_short),
    ("to Unicode with long record and result, any setting but 0", to_unicode_long),
    ("from Unicode with a short record or result: 70", from_unicode_short),
    ("from Unicode with long record and result, any setting but 0", from_unicode_long),
    ("to Unicode with a number that is no scheme: 71", to_no_scheme),
    ("from Unicode with a number that is no scheme: 71", from_no_scheme),
    ("70 goes before 71, 71 before 60, 60 before the mark", order_of_refusals),
    ("to Unicode, skipping: any setting but 0, a long result", to_skipping),
    ("from Unicode, skipping: any setting but 0, a long result", from_skipping),
    ("the length stands with 52 alone, over an old value", lengths),
    ("skip is a setting of its own, behind the others", order_of_settings),
    ("in pieces with a short record, kept or result: 70", pieces_short),
    ("in pieces with long record, kept and result, any setting but 0", pieces_long),
    ("in pieces with a number that is no scheme: 71", pieces_no_scheme),
    ("in pieces 70 goes before 71, 71 before 60, 60 before 42", pieces_order),
    ("in pieces each setting has its place", pieces_settings),
    ("in pieces the length stands with 52 alone, over an old value", pieces_lengths),
    ("audit with a short record or result: 70", audit_short),
    ("audit with long record and result, any setting but 0", audit_long),
    ("70 goes before 60", short_before_60),
];

fn k() -> ([u32; 7], Memory) {
    let (mut record, mut memory) = ([OLD_SMALL; 7], junk(1));
    let number = slices::load(K.as_bytes(), lent_mut(&mut record, &mut memory), &mut [OLD]);
    assert_eq!(number, 0, "K is accepted");
    (record, memory)
}

/// A text with its number, line and record.
type ToLoad = (Vec<u8>, u32, u64, [u32; 7]);

fn to_load() -> [ToLoad; 4] {
    [
        (K.into(), 0, 0, [2, 6, 1, 2, 0x3f00_0000, 1, 0]),
        (b"x".into(), 10, 1, [0; 7]),
        (b"".into(), 27, 1, [0; 7]),
        (k_void(), 28, 15, [0; 7]),
    ]
}

/// The text and memory for 2, and those for 1: each slice one short in turn.
fn to_refuse() -> Vec<(Vec<u8>, Memory, u32)> {
    let mut short = [junk(1), junk(0), junk(0), junk(0), junk(0)];
    short[1].states.pop();
    short[2].codes.pop();
    short[3].infos.pop();
    short[4].order.pop();
    let long = vec![b'#'; 1_048_577];
    let [enough, short @ ..] = short;
    let ones = short.into_iter().chain([Memory::default()]).map(|memory| (K.into(), memory, 1));
    ones.chain([(long, enough, 2)]).collect()
}

/// Lengths of record and result around the needed ones.
fn load_lengths() -> impl Iterator<Item = (usize, usize)> {
    (0..=8).chain([20]).flat_map(|n| [0, 1, 2, 9].map(|m| (n, m)))
}

fn is_enough((n, m): &(usize, usize)) -> bool {
    *n >= 7 && *m >= 1
}

/// 70: nothing is written anywhere.
fn refused_for_length(text: &[u8], memory: &Memory, (n, m): (usize, usize)) -> Result<(), String> {
    let (mut record, mut after, mut result) = (vec![OLD_SMALL; n], memory.clone(), vec![OLD; m]);
    let number = slices::load(text, lent_mut(&mut record, &mut after), &mut result);
    equal(&format!("lengths {n} {m}"), number, 70)?;
    equal_slices("record", &record, &vec![OLD_SMALL; n])?;
    equal_slices("result", &result, &vec![OLD; m])?;
    equal_memory(&after, memory)
}

/// The answer in the needed places, and old values behind them; the memory is
/// the oracle's.
fn loads_as(to_load: &ToLoad, memory: &Memory, (n, m): (usize, usize)) -> Result<(), String> {
    let (text, number, line, told) = to_load;
    let (mut record, mut after, mut result) = (vec![OLD_SMALL; n], memory.clone(), vec![OLD; m]);
    let got = slices::load(text, lent_mut(&mut record, &mut after), &mut result);
    equal(&format!("lengths {n} {m}"), (got, result[0]), (*number, *line))?;
    equal_slices("record", &record[..7], told)?;
    equal_slices("record behind", &record[7..], &vec![OLD_SMALL; n - 7])?;
    equal_slices("result behind", &result[1..], &vec![OLD; m - 1])?;
    let mut want = memory.clone();
    oracle::load(text, &mut want);
    equal_memory(&after, &want)
}

fn load_short() -> Result<(), String> {
    for lengths in load_lengths().filter(|lengths| !is_enough(lengths)) {
        for (text, ..) in to_load() {
            refused_for_length(&text, &junk(1), lengths)?;
        }
    }
    Ok(())
}

fn load_long() -> Result<(), String> {
    for lengths in load_lengths().filter(is_enough) {
        for to_load in to_load() {
            loads_as(&to_load, &junk(1), lengths)?;
        }
    }
    Ok(())
}

fn load_short_first() -> Result<(), String> {
    for (text, memory, _) in to_refuse() {
        for lengths in load_lengths().filter(|lengths| !is_enough(lengths)) {
            refused_for_length(&text, &memory, lengths)?;
        }
    }
    Ok(())
}

fn load_refused() -> Result<(), String> {
    for (text, memory, number) in to_refuse() {
        for lengths in load_lengths().filter(is_enough) {
            loads_as(&(text.clone(), number, 0, [0; 7]), &memory, lengths)?;
        }
    }
    Ok(())
}

fn check_short() -> Result<(), String> {
    let (record, memory) = k();
    for n in 0..7 {
        equal("number", slices::check(lent(&record[..n], &memory)), 70)?;
    }
    Ok(())
}

fn check_long() -> Result<(), String> {
    let (record, memory) = k();
    let long = [&record[..], &[1, 2, 3]].concat();
    equal("number", slices::check(lent(&long, &memory)), 0)?;
    let long = [&[0; 7][..], &record[..]].concat();
    equal("number", slices::check(lent(&long, &memory)), 60)
}

fn to_short() -> Result<(), String> {
    let (record, memory) = k();
    for (n, m, skip) in short_and_not() {
        let mut output = old_bytes(9);
        let mut result = vec![OLD; m];
        let got = slices::to_utf8(lent(&record[..n], &memory), b"\x81\x7c3", &mut output, 1, skip, &mut result);
        if n < 7 || m < 3 {
            equal("number", got, 70)?;
            equal_slices("result", &result, &vec![OLD; m])?;
            equal_slices("output", &output, &old_bytes(9))?;
        } else {
            equal("number", got, 0)?;
            equal_slices("result", &result, &[3, 4, 0])?;
        }
    }
    Ok(())
}

/// Lengths of record and result up to the needed ones, and both settings of skip.
fn short_and_not() -> impl Iterator<Item = (usize, usize, u32)> {
    (0..=7).flat_map(|n| (0..=3).flat_map(move |m| [(n, m, 0), (n, m, 1)]))
}

fn to_long() -> Result<(), String> {
    let (record, memory) = k();
    let long = [&record[..], &[9; 5]].concat();
    for (substitute, skip) in OFF_AND_ON.into_iter().flat_map(|substitute| OFF_AND_ON.map(|skip| (substitute, skip))) {
        let (number, first) = if substitute == 0 { (53, [0, 0, 0]) } else { (0, [1, 3, 0]) };
        let mut output = old_bytes(9);
        let mut result = vec![OLD; 7];
        let got = slices::to_utf8(lent(&long, &memory), b"\x3f", &mut output, substitute, skip, &mut result);
        equal("number", got, number)?;
        equal_slices("result", &result[..3], &first)?;
        equal_slices("result behind", &result[3..], &[OLD; 4])?;
    }
    Ok(())
}

fn from_short() -> Result<(), String> {
    let (record, memory) = k();
    for (n, m, skip) in short_and_not() {
        let mut output = old_bytes(9);
        let mut result = vec![OLD; m];
        let got = slices::from_utf8(lent(&record[..n], &memory), b"33", &mut output, 1, 1, skip, &mut result);
        if n < 7 || m < 3 {
            equal("number", got, 70)?;
            equal_slices("result", &result, &vec![OLD; m])?;
            equal_slices("output", &output, &old_bytes(9))?;
        } else {
            equal("number", got, 0)?;
            equal_slices("result", &result, &[2, 2, 0])?;
        }
    }
    Ok(())
}

fn from_long() -> Result<(), String> {
    let (record, memory) = k();
    let long = [&record[..], &[9; 5]].concat();
    let input = b"\xef\xbc\x8d";
    for fallback in OFF_AND_ON {
        for (substitute, skip) in OFF_AND_ON.into_iter().flat_map(|s| [(s, 0), (s, 1)]) {
            let mut output = old_bytes(9);
            let mut result = vec![OLD; 7];
            let got =
                slices::from_utf8(lent(&long, &memory), input, &mut output, fallback, substitute, skip, &mut result);
            let (number, first, out): (u32, [u64; 3], &[u8]) = match (fallback, substitute) {
                (0, 0) => (53, [0, 0, 0], b""),
                (0, _) => (0, [3, 1, 0], b"\x3f"),
                _ => (0, [3, 2, 0], b"\x81\x7c"),
            };
            equal("number", got, number)?;
            equal_slices("result", &result[..3], &first)?;
            equal_slices("result behind", &result[3..], &[OLD; 4])?;
            equal_slices("output", &output[..out.len()], out)?;
        }
    }
    Ok(())
}

/// K's frame 81 7C 33 in each scheme, by the scheme's number.
const SCHEMES: [(u32, &[u8]); 4] = [
    (0, b"\xe2\x88\x923"),
    (1, b"\x00\x00\x22\x12\x00\x00\x003"),
    (2, b"\x12\x22\x00\x003\x00\x00\x00"),
    (3, b"\x00\x00\xfe\xff\x00\x00\x22\x12\x00\x00\x003"),
];

/// Numbers that are no scheme.
const NO_SCHEMES: [u32; 11] = [4, 5, 7, 8, 32, 255, 256, 257, 1 << 16, 1 << 31, u32::MAX];

fn to_unicode_short() -> Result<(), String> {
    let (record, memory) = k();
    for (scheme, chars) in SCHEMES {
        for (n, m, skip) in short_and_not() {
            let mut output = old_bytes(15);
            let mut result = vec![OLD; m];
            let input = b"\x81\x7c3";
            let got = slices::to_unicode(lent(&record[..n], &memory), input, &mut output, scheme, 1, skip, &mut result);
            if n < 7 || m < 3 {
                equal("number", got, 70)?;
                equal_slices("result", &result, &vec![OLD; m])?;
                equal_slices("output", &output, &old_bytes(15))?;
            } else {
                equal("number", got, 0)?;
                equal_slices("result", &result, &[3, chars.len() as u64, 0])?;
                equal_slices("output", &output[..chars.len()], chars)?;
            }
        }
    }
    Ok(())
}

/// By the scheme's number: the mark that is written, and U+FFFD.
const REPLACEMENTS: [(u32, &[u8], &[u8]); 4] = [
    (0, b"", b"\xef\xbf\xbd"),
    (1, b"", b"\x00\x00\xff\xfd"),
    (2, b"", b"\xfd\xff\x00\x00"),
    (3, b"\x00\x00\xfe\xff", b"\x00\x00\xff\xfd"),
];

fn to_unicode_long() -> Result<(), String> {
    let (record, memory) = k();
    let long = [&record[..], &[9; 5]].concat();
    for (scheme, mark, substituted) in REPLACEMENTS {
        for (substitute, skip) in OFF_AND_ON.into_iter().flat_map(|s| [(s, 0), (s, 1)]) {
            let mut output = old_bytes(9);
            let mut result = vec![OLD; 7];
            let got =
                slices::to_unicode(lent(&long, &memory), b"\x3f", &mut output, scheme, substitute, skip, &mut result);
            let (number, read, out) = match substitute {
                0 => (53, 0, mark.to_vec()),
                _ => (0, 1, [mark, substituted].concat()),
            };
            equal("number", got, number)?;
            equal_slices("result", &result[..3], &[read, out.len() as u64, 0])?;
            equal_slices("result behind", &result[3..], &[OLD; 4])?;
            equal_slices("output", &output[..out.len()], &out)?;
            equal_slices("output behind", &output[out.len()..], &old_bytes(9)[out.len()..])?;
        }
    }
    Ok(())
}

fn from_unicode_short() -> Result<(), String> {
    let (record, memory) = k();
    for (scheme, chars) in SCHEMES {
        for (n, m, skip) in short_and_not() {
            let mut output = old_bytes(9);
            let mut result = vec![OLD; m];
            let got =
                slices::from_unicode(lent(&record[..n], &memory), chars, &mut output, scheme, 1, 1, skip, &mut result);
            if n < 7 || m < 3 {
                equal("number", got, 70)?;
                equal_slices("result", &result, &vec![OLD; m])?;
                equal_slices("output", &output, &old_bytes(9))?;
            } else {
                equal("number", got, 0)?;
                equal_slices("result", &result, &[chars.len() as u64, 3, 0])?;
                equal_slices("output", &output[..3], b"\x81\x7c3")?;
            }
        }
    }
    Ok(())
}

fn from_unicode_long() -> Result<(), String> {
    let (record, memory) = k();
    let long = [&record[..], &[9; 5]].concat();
    // U+FF0D, behind a mark in plain UTF-32.
    let inputs: [(u32, &[u8], u64); 5] = [
        (0, b"\xef\xbc\x8d", 0),
        (1, b"\x00\x00\xff\x0d", 0),
        (2, b"\x0d\xff\x00\x00", 0),
        (3, b"\x00\x00\xfe\xff\x00\x00\xff\x0d", 4),
        (3, b"\xff\xfe\x00\x00\x0d\xff\x00\x00", 4),
    ];
    for (scheme, input, mark) in inputs {
        for fallback in OFF_AND_ON {
            for (substitute, skip) in OFF_AND_ON.into_iter().flat_map(|s| [(s, 0), (s, 1)]) {
                let (mut output, mut result) = (old_bytes(9), vec![OLD; 7]);
                let (f, s) = (fallback, substitute);
                let got =
                    slices::from_unicode(lent(&long, &memory), input, &mut output, scheme, f, s, skip, &mut result);
                let all = input.len() as u64;
                let (number, first, out): (u32, [u64; 3], &[u8]) = match (fallback, substitute) {
                    (0, 0) => (53, [mark, 0, 0], b""),
                    (0, _) => (0, [all, 1, 0], b"\x3f"),
                    _ => (0, [all, 2, 0], b"\x81\x7c"),
                };
                equal("number", got, number)?;
                equal_slices("result", &result[..3], &first)?;
                equal_slices("result behind", &result[3..], &[OLD; 4])?;
                equal_slices("output", &output[..out.len()], out)?;
            }
        }
    }
    Ok(())
}

/// Nothing happens: result and output keep their values, whatever the table,
/// the input, the space and skip.
fn to_no_scheme() -> Result<(), String> {
    let (record, memory) = k();
    for (scheme, skip) in NO_SCHEMES.into_iter().flat_map(|scheme| [(scheme, 0), (scheme, 1)]) {
        for (record, memory) in [(record, &memory), ([0; 7], &memory), (record, &Memory::default())] {
            for (input, space) in [(&b"\x81\x7c3"[..], 15), (b"\x81\x7c3", 3), (b"", 9), (b"", 0), (b"\xff", 9)] {
                let (mut output, mut result) = (old_bytes(space), [OLD; 4]);
                let got = slices::to_unicode(lent(&record, memory), input, &mut output, scheme, 1, skip, &mut result);
                equal(&format!("number for {scheme}"), got, 71)?;
                equal_slices("result", &result, &[OLD; 4])?;
                equal_slices("output", &output, &old_bytes(space))?;
            }
        }
    }
    Ok(())
}

fn from_no_scheme() -> Result<(), String> {
    let (record, memory) = k();
    for (scheme, skip) in NO_SCHEMES.into_iter().flat_map(|scheme| [(scheme, 0), (scheme, 1)]) {
        for (record, memory) in [(record, &memory), ([0; 7], &memory), (record, &Memory::default())] {
            for (input, space) in [(&b"33"[..], 9), (b"\x00\x00\x003", 9), (b"33", 0), (b"", 0), (b"\xff", 9)] {
                let (mut output, mut result) = (old_bytes(space), [OLD; 4]);
                let got =
                    slices::from_unicode(lent(&record, memory), input, &mut output, scheme, 1, 1, skip, &mut result);
                equal(&format!("number for {scheme}"), got, 71)?;
                equal_slices("result", &result, &[OLD; 4])?;
                equal_slices("output", &output, &old_bytes(space))?;
            }
        }
    }
    Ok(())
}

fn order_of_refusals() -> Result<(), String> {
    let none = Memory::default();
    for (scheme, skip) in NO_SCHEMES.into_iter().flat_map(|scheme| [(scheme, 0), (scheme, 1)]) {
        for (record, m) in [(&[0; 6][..], 3), (&[0; 7], 2), (&[0; 7], 1), (&[0; 7], 0), (&[], 3)] {
            let mut result = vec![OLD; m];
            let got = slices::to_unicode(lent(record, &none), b"3", &mut [], scheme, 0, skip, &mut result);
            equal("to Unicode", got, 70)?;
            let got = slices::from_unicode(lent(record, &none), b"3", &mut [], scheme, 0, 0, skip, &mut result);
            equal("from Unicode", got, 70)?;
            equal_slices("result", &result, &vec![OLD; m])?;
        }
        let got = slices::to_unicode(lent(&[0; 7], &none), b"3", &mut [], scheme, 0, skip, &mut [OLD; 3]);
        equal("to Unicode", got, 71)?;
        let got = slices::from_unicode(lent(&[0; 7], &none), b"3", &mut [], scheme, 0, 0, skip, &mut [OLD; 3]);
        equal("from Unicode", got, 71)?;
    }
    for (scheme, skip) in (0..4).flat_map(|scheme| [(scheme, 0), (scheme, 1)]) {
        for space in [0, 3, 9] {
            let (mut output, mut result) = (old_bytes(space), [OLD; 3]);
            let got = slices::to_unicode(lent(&[0; 7], &none), b"\xff", &mut output, scheme, 0, skip, &mut result);
            equal("to Unicode", got, 60)?;
            equal_slices("result", &result, &[0, 0, 0])?;
            result = [OLD; 3];
            let mark = b"\x00\x00\xfe\xff";
            let got = slices::from_unicode(lent(&[0; 7], &none), mark, &mut output, scheme, 0, 0, skip, &mut result);
            equal("from Unicode", got, 60)?;
            equal_slices("result", &result, &[0, 0, 0])?;
            equal_slices("output", &output, &old_bytes(space))?;
        }
    }
    Ok(())
}

/// A stray 81 before -3, strict: 52 with its length, or skipped.
fn to_skipping() -> Result<(), String> {
    let (record, memory) = k();
    let input = b"\x81\x2d\x33";
    for (scheme, mark, replacement) in REPLACEMENTS {
        let rest: &[u8] = match scheme {
            0 => b"-3",
            2 => b"-\x00\x00\x003\x00\x00\x00",
            _ => b"\x00\x00\x00-\x00\x00\x003",
        };
        for skip in OFF_AND_ON {
            let (number, first, out) = match skip {
                0 => (52, [0, mark.len() as u64, 1], mark.to_vec()),
                _ => {
                    let out = [mark, replacement, rest].concat();
                    (0, [3, out.len() as u64, 0], out)
                }
            };
            let mut want = old_bytes(20);
            want[..out.len()].copy_from_slice(&out);
            let (mut output, mut result) = (old_bytes(20), vec![OLD; 7]);
            let got = slices::to_unicode(lent(&record, &memory), input, &mut output, scheme, 0, skip, &mut result);
            equal(&format!("number, scheme {scheme}, skip {skip}"), got, number)?;
            equal_slices("result", &result[..3], &first)?;
            equal_slices("result behind", &result[3..], &[OLD; 4])?;
            equal_slices("output", &output, &want)?;
            if scheme == 0 {
                let (mut output, mut result) = (old_bytes(20), vec![OLD; 7]);
                let got = slices::to_utf8(lent(&record, &memory), input, &mut output, 0, skip, &mut result);
                equal(&format!("number to UTF-8, skip {skip}"), got, number)?;
                equal_slices("result", &result[..3], &first)?;
                equal_slices("result behind", &result[3..], &[OLD; 4])?;
                equal_slices("output", &output, &want)?;
            }
        }
    }
    Ok(())
}

/// An illegal byte or surrogate before 3, strict.
fn from_skipping() -> Result<(), String> {
    let (record, memory) = k();
    let inputs: [(u32, &[u8], u64, u64); 5] = [
        (0, b"\xff3", 0, 1),
        (1, b"\x00\x00\xd8\x00\x00\x00\x003", 0, 4),
        (2, b"\x00\xd8\x00\x003\x00\x00\x00", 0, 4),
        (3, b"\x00\x00\xfe\xff\x00\x00\xd8\x00\x00\x00\x003", 4, 4),
        (3, b"\xff\xfe\x00\x00\x00\xd8\x00\x003\x00\x00\x00", 4, 4),
    ];
    for (scheme, input, mark, length) in inputs {
        for skip in OFF_AND_ON {
            let (number, first, out): (u32, [u64; 3], &[u8]) = match skip {
                0 => (52, [mark, 0, length], b""),
                _ => (0, [input.len() as u64, 2, 0], b"?3"),
            };
            let mut want = old_bytes(9);
            want[..out.len()].copy_from_slice(out);
            let (mut output, mut result) = (old_bytes(9), vec![OLD; 7]);
            let got = slices::from_unicode(lent(&record, &memory), input, &mut output, scheme, 0, 0, skip, &mut result);
            equal(&format!("number, scheme {scheme}, skip {skip}"), got, number)?;
            equal_slices("result", &result[..3], &first)?;
            equal_slices("result behind", &result[3..], &[OLD; 4])?;
            equal_slices("output", &output, &want)?;
            if scheme == 0 {
                let (mut output, mut result) = (old_bytes(9), vec![OLD; 7]);
                let got = slices::from_utf8(lent(&record, &memory), input, &mut output, 0, 0, skip, &mut result);
                equal(&format!("number from UTF-8, skip {skip}"), got, number)?;
                equal_slices("result", &result[..3], &first)?;
                equal_slices("result behind", &result[3..], &[OLD; 4])?;
                equal_slices("output", &output, &want)?;
            }
        }
    }
    Ok(())
}

/// Input, space, skip; then the number and the whole result.
type Told = (&'static [u8], usize, u32, u32, [u64; 3]);

/// Each number with a result that holds old values: the third is always written.
fn lengths() -> Result<(), String> {
    let (record, memory) = k();
    let frames: [Told; 9] = [
        (b"3", 9, 0, 0, [1, 1, 0]),
        (b"", 9, 0, 0, [0, 0, 0]),
        (b"3", 0, 0, 50, [0, 0, 0]),
        (b"3\x81", 9, 0, 51, [1, 1, 0]),
        (b"3\x81-", 9, 0, 52, [1, 1, 1]),
        (b"3\x81\xff", 9, 0, 52, [1, 1, 2]),
        (b"3\x81\x80", 9, 0, 53, [1, 1, 0]),
        (b"3\xff", 3, 1, 50, [1, 1, 0]),
        (b"\x81\x81", 9, 1, 51, [1, 3, 0]),
    ];
    for (frame, space, skip, number, want) in frames {
        let mut result = [OLD; 3];
        let got = slices::to_utf8(lent(&record, &memory), frame, &mut old_bytes(space), 0, skip, &mut result);
        equal(&format!("to UTF-8, {frame:02x?}"), (got, result), (number, want))?;
    }
    let texts: [Told; 7] = [
        (b"3", 9, 0, 0, [1, 1, 0]),
        (b"3", 0, 0, 50, [0, 0, 0]),
        (b"3\xe2\x88", 9, 0, 51, [1, 1, 0]),
        (b"3\xe2\x883", 9, 0, 52, [1, 1, 1]),
        (b"3A", 9, 0, 53, [1, 1, 0]),
        (b"3\xff", 1, 1, 50, [1, 1, 0]),
        (b"\xff\xe2\x88", 9, 1, 51, [1, 1, 0]),
    ];
    for (text, space, skip, number, want) in texts {
        let mut result = [OLD; 3];
        let got = slices::from_utf8(lent(&record, &memory), text, &mut old_bytes(space), 0, 0, skip, &mut result);
        equal(&format!("from UTF-8, {text:02x?}"), (got, result), (number, want))?;
    }
    Ok(())
}

/// Of several settings just one on: what it does shows which one it is.
fn order_of_settings() -> Result<(), String> {
    let (record, memory) = k();
    for (substitute, skip) in [(0, 0), (0, 1), (1, 0), (1, 1)] {
        // An unassigned code, then an illegal byte.
        for (frame, on, off) in [(b"\x3f", substitute, 53), (b"\xff", skip, 52)] {
            let number = if on == 1 { 0 } else { off };
            let mut result = [OLD; 3];
            let got = slices::to_utf8(lent(&record, &memory), frame, &mut old_bytes(9), substitute, skip, &mut result);
            equal(&format!("to UTF-8, {frame:02x?}, {substitute} {skip}"), got, number)?;
            for scheme in 0..4 {
                let mut output = old_bytes(9);
                let got = slices::to_unicode(
                    lent(&record, &memory),
                    frame,
                    &mut output,
                    scheme,
                    substitute,
                    skip,
                    &mut result,
                );
                equal(&format!("to Unicode, {frame:02x?}, {substitute} {skip}"), got, number)?;
            }
        }
    }
    for bits in 0..8u32 {
        let (fallback, substitute, skip) = (bits & 1, bits >> 1 & 1, bits >> 2 & 1);
        // U+FF0D, which a fallback has; U+0041, which no line has; an illegal byte.
        let wide: &[u8] = if fallback == 1 { b"\x81\x7c" } else { b"?" };
        let texts: [(&[u8], u32, u32, &[u8]); 3] = [
            (b"\xef\xbc\x8d", fallback | substitute, 53, wide),
            (b"A", substitute, 53, b"?"),
            (b"\xff", skip, 52, b"?"),
        ];
        for (text, on, off, out) in texts {
            let number = if on == 1 { 0 } else { off };
            let what = format!("{text:02x?}, {fallback} {substitute} {skip}");
            let (mut output, mut result) = (old_bytes(9), [OLD; 3]);
            let got =
                slices::from_utf8(lent(&record, &memory), text, &mut output, fallback, substitute, skip, &mut result);
            equal(&format!("from UTF-8, {what}"), got, number)?;
            let (mut other, mut second) = (old_bytes(9), [OLD; 3]);
            let (f, s) = (fallback, substitute);
            let same = slices::from_unicode(lent(&record, &memory), text, &mut other, 0, f, s, skip, &mut second);
            equal(&format!("from Unicode, {what}"), (same, second, &other), (got, result, &output))?;
            if number == 0 {
                equal_slices(&what, &output[..out.len()], out)?;
                equal(&what, result[1], out.len() as u64)?;
            }
        }
    }
    Ok(())
}

/// The four calls in pieces behind one form. The closing ones have no input, and
/// towards Unicode there is no fallback.
type InPieces = fn(&[u32], &Memory, &mut [u32], &[u8], &mut [u8], [u32; 4], &mut [u64]) -> u32;

const IN_PIECES: [(&str, InPieces); 4] = [
    ("to Unicode, a piece", |r, m, k, i, o, [scheme, _, s, skip], result| {
        slices::to_unicode_piece(lent(r, m), k, i, o, scheme, s, skip, result)
    }),
    ("from Unicode, a piece", |r, m, k, i, o, [scheme, f, s, skip], result| {
        slices::from_unicode_piece(lent(r, m), k, i, o, scheme, f, s, skip, result)
    }),
    ("to Unicode, close", |r, m, k, _, o, [scheme, _, s, skip], result| {
        slices::to_unicode_close(lent(r, m), k, o, scheme, s, skip, result)
    }),
    ("from Unicode, close", |r, m, k, _, o, [scheme, f, s, skip], result| {
        slices::from_unicode_close(lent(r, m), k, o, scheme, f, s, skip, result)
    }),
];

/// Nothing happens where one of the three is too short, whatever the values.
fn pieces_short() -> Result<(), String> {
    let (record, memory) = k();
    let lengths = (0..=7).flat_map(|n| (0..=5).flat_map(move |k| (0..=3).map(move |m| (n, k, m))));
    for ((n, k, m), (name, call)) in lengths.flat_map(|lengths| IN_PIECES.map(|call| (lengths, call))) {
        for (scheme, old) in [(0, 0), (0, OLD_SMALL), (1, 0), (3, 0), (4, 0)] {
            let (mut kept, mut output, mut result) = (vec![old; k], old_bytes(9), vec![OLD; m]);
            let got = call(&record[..n], &memory, &mut kept, b"", &mut output, [scheme, 0, 0, 0], &mut result);
            let what = format!("{name}, lengths {n} {k} {m}");
            if n < 7 || k < 5 || m < 3 {
                equal(&what, got, 70)?;
                equal_slices(&what, &kept, &vec![old; k])?;
                equal_slices(&what, &result, &vec![OLD; m])?;
                equal_slices(&what, &output, &old_bytes(9))?;
            } else {
                equal(&what, got, if scheme == 4 { 71 } else { 42 * (old != 0) as u32 })?;
            }
        }
    }
    Ok(())
}

/// A frame in two pieces and a close, with slices longer than needed.
fn pieces_long() -> Result<(), String> {
    let (record, memory) = k();
    let long = [&record[..], &[9; 5]].concat();
    let [(_, to), (_, from), (_, to_close), (_, from_close)] = IN_PIECES;
    for (substitute, skip) in OFF_AND_ON.into_iter().flat_map(|substitute| OFF_AND_ON.map(|skip| (substitute, skip))) {
        // 3F is unassigned, 81 FF is illegal.
        let sub = if substitute == 0 { (53, [0, 0, 0]) } else { (0, [1, 3, 0]) };
        let bad = if skip == 0 { (52, [0, 0, 2]) } else { (0, [1, 3, 0]) };
        for (first, second, want) in [(&b""[..], b"\x3f", sub), (b"\x81", b"\xff", bad)] {
            let set = [0, 0, substitute, skip];
            let mut kept = [[0; 5].as_slice(), &[OLD_SMALL; 3]].concat();
            let (mut output, mut result) = (old_bytes(9), vec![OLD; 7]);
            to(&long, &memory, &mut kept, first, &mut output, set, &mut result);
            let got = to(&long, &memory, &mut kept, second, &mut output, set, &mut result);
            equal(&format!("{second:02x?}, {set:?}"), (got, &result[..3]), (want.0, &want.1[..]))?;
            let got = to_close(&long, &memory, &mut kept, b"", &mut output, set, &mut result);
            equal("close", (got, result[2]), (want.0, want.1[2]))?;
            equal_slices("result behind", &result[3..], &[OLD; 4])?;
            equal_slices("kept behind", &kept[5..], &[OLD_SMALL; 3])?;
        }
    }
    let settings = (0..125).map(|i| [OFF_AND_ON[i / 25], OFF_AND_ON[i / 5 % 5], OFF_AND_ON[i % 5]]);
    for [fallback, substitute, skip] in settings {
        // U+FF0D has a fallback, U+00E9 has no line, E2 88 FF has three illegal bytes.
        let wide = match (fallback, substitute) {
            (0, 0) => (53, [0, 0, 0]),
            (0, _) => (0, [1, 1, 0]),
            _ => (0, [1, 2, 0]),
        };
        let none = if substitute == 0 { (53, [0, 0, 0]) } else { (0, [1, 1, 0]) };
        let bad = if skip == 0 { (52, [0, 0, 1]) } else { (0, [1, 3, 0]) };
        for (first, second, want) in
            [(&b"\xef\xbc"[..], b"\x8d", wide), (b"\xc3", b"\xa9", none), (b"\xe2\x88", b"\xff", bad)]
        {
            let set = [0, fallback, substitute, skip];
            let mut kept = [[0; 5].as_slice(), &[OLD_SMALL; 3]].concat();
            let (mut output, mut result) = (old_bytes(9), vec![OLD; 7]);
            from(&long, &memory, &mut kept, first, &mut output, set, &mut result);
            let got = from(&long, &memory, &mut kept, second, &mut output, set, &mut result);
            equal(&format!("{second:02x?}, {set:?}"), (got, &result[..3]), (want.0, &want.1[..]))?;
            let got = from_close(&long, &memory, &mut kept, b"", &mut output, set, &mut result);
            equal("close", (got, result[2]), (want.0, want.1[2]))?;
            equal_slices("result behind", &result[3..], &[OLD; 4])?;
            equal_slices("kept behind", &kept[5..], &[OLD_SMALL; 3])?;
        }
    }
    Ok(())
}

/// Nothing happens, whatever table, state, piece and space.
fn pieces_no_scheme() -> Result<(), String> {
    let (record, memory) = k();
    for (scheme, (name, call)) in NO_SCHEMES.into_iter().flat_map(|scheme| IN_PIECES.map(|call| (scheme, call))) {
        for (record, memory) in [(record, &memory), ([0; 7], &memory), (record, &Memory::default())] {
            for (old, input, space) in [(0, &b"33"[..], 9), (OLD_SMALL, b"33", 9), (0, b"", 0), (OLD_SMALL, b"\xff", 0)]
            {
                let (mut kept, mut output, mut result) = ([old; 6], old_bytes(space), [OLD; 4]);
                let got = call(&record, memory, &mut kept, input, &mut output, [scheme, 1, 1, 1], &mut result);
                equal(&format!("{name}, number for {scheme}"), got, 71)?;
                equal_slices("result", &result, &[OLD; 4])?;
                equal_slices("kept", &kept, &[old; 6])?;
                equal_slices("output", &output, &old_bytes(space))?;
            }
        }
    }
    Ok(())
}

fn pieces_order() -> Result<(), String> {
    let ((record, memory), none) = (k(), Memory::default());
    for (name, call) in IN_PIECES {
        // Each has what the next would be refused for.
        let refused: [(&[u32], &Memory, usize, u32, usize, u32); 7] = [
            (&[0; 6], &none, 5, 4, 3, 70),
            (&[0; 7], &none, 4, 4, 3, 70),
            (&[0; 7], &none, 5, 4, 2, 70),
            (&record, &memory, 4, 0, 3, 70),
            (&[0; 7], &none, 5, 4, 3, 71),
            (&[0; 7], &none, 5, 3, 3, 60),
            (&record, &memory, 5, 3, 3, 42),
        ];
        for (record, memory, k, scheme, m, number) in refused {
            let (mut kept, mut output, mut result) = (vec![OLD_SMALL; k], old_bytes(9), vec![OLD; m]);
            let got = call(record, memory, &mut kept, b"3", &mut output, [scheme, 0, 0, 0], &mut result);
            equal(name, got, number)?;
            let result_of = if number < 70 { 0 } else { OLD };
            equal_slices(&format!("{name}, {number}, result"), &result, &vec![result_of; m])?;
            equal_slices(&format!("{name}, {number}, kept"), &kept, &vec![OLD_SMALL; k])?;
            equal_slices(&format!("{name}, {number}, output"), &output, &old_bytes(9))?;
        }
    }
    Ok(())
}

/// Of several settings just one on: what it does shows which one it is. At a
/// close only skip is asked: trail bytes may be kept.
fn pieces_settings() -> Result<(), String> {
    let (record, memory) = k();
    let [(_, to), (_, from), (_, to_close), (_, from_close)] = IN_PIECES;
    for bits in 0..8u32 {
        let [fallback, substitute, skip] = [bits & 1, bits >> 1 & 1, bits >> 2 & 1];
        let set = [0, fallback, substitute, skip];
        let number = |on: u32, off: u32| if on == 1 { 0 } else { off };
        for (call, input, want) in [
            (to, &b"\x3f"[..], number(substitute, 53)),
            (to, b"\xff", number(skip, 52)),
            (from, b"\xef\xbc\x8d", number(fallback | substitute, 53)),
            (from, b"A", number(substitute, 53)),
            (from, b"\xff", number(skip, 52)),
        ] {
            let got = call(&record, &memory, &mut [0; 5], input, &mut old_bytes(9), set, &mut [OLD; 3]);
            equal(&format!("{input:02x?}, {set:?}"), got, want)?;
        }
        let trail = [0x8800_0000, 1, 0, 0, 0];
        for (name, call, want) in [
            ("to Unicode", to, 42),
            ("from Unicode", from, number(skip, 42)),
            ("to Unicode, close", to_close, 42),
            ("from Unicode, close", from_close, if skip == 1 { 51 } else { 42 }),
        ] {
            let got = call(&record, &memory, &mut trail.clone(), b"", &mut old_bytes(9), set, &mut [OLD; 3]);
            equal(&format!("88 kept, {name}, {set:?}"), got, want)?;
        }
    }
    Ok(())
}

/// Input, space, what was kept; then number, the whole result and what is kept.
type ToldPiece = (&'static [u8], usize, [u32; 5], u32, [u64; 3], [u32; 5]);

/// Each number over old values in the result: all three are always written.
fn pieces_lengths() -> Result<(), String> {
    let (record, memory) = k();
    let [(_, to), (_, from), (_, to_close), (_, from_close)] = IN_PIECES;
    let (fresh, lead, byte) = ([0; 5], [0x8100_0000, 1, 0, 0, 0], [0xe200_0000, 1, 0, 0, 0]);
    let told: [(InPieces, ToldPiece); 14] = [
        (to, (b"3", 9, fresh, 0, [1, 1, 0], fresh)),
        (to, (b"3", 0, fresh, 50, [0, 0, 0], fresh)),
        (to, (b"3\x81", 9, fresh, 0, [2, 1, 0], lead)),
        (to, (b"-", 9, lead, 52, [0, 0, 1], [0x8100_0000, 1, 0, 52, 1])),
        (to, (b"\x80", 9, lead, 53, [0, 0, 0], [0x8100_0000, 1, 0, 53, 0])),
        (to, (b"3", 9, [0, 0, 0, 52, 4], 52, [0, 0, 4], [0, 0, 0, 52, 4])),
        (to_close, (b"", 9, lead, 51, [0, 0, 0], [0x8100_0000, 1, 0, 51, 0])),
        (to_close, (b"", 9, [0, 0, 0, 52, 3], 52, [0, 0, 3], [0, 0, 0, 52, 3])),
        (to_close, (b"", 9, fresh, 0, [0, 0, 0], fresh)),
        (from, (b"3\xe2", 9, fresh, 0, [2, 1, 0], byte)),
        (from, (b"3", 9, byte, 52, [0, 0, 1], [0xe200_0000, 1, 0, 52, 1])),
        (from_close, (b"", 9, byte, 51, [0, 0, 0], [0xe200_0000, 1, 0, 51, 0])),
        (from_close, (b"", 9, [0, 0, 0, 52, 1], 52, [0, 0, 1], [0, 0, 0, 52, 1])),
        (from_close, (b"", 0, fresh, 0, [0, 0, 0], fresh)),
    ];
    for (call, (input, space, mut kept, number, want, left)) in told {
        let (mut output, mut result) = (old_bytes(space), [OLD; 3]);
        let got = call(&record, &memory, &mut kept, input, &mut output, [0; 4], &mut result);
        equal(&format!("{input:02x?}"), (got, result, kept), (number, want, left))?;
    }
    Ok(())
}

fn audit_short() -> Result<(), String> {
    let (record, memory) = k();
    for n in 0..=7 {
        for m in 0..=5 {
            let mut entries = old_entries(9);
            let mut result = vec![OLD; m];
            let got = slices::audit(lent(&record[..n], &memory), 0, 0, 0, 99, &mut entries, &mut result);
            if n < 7 || m < 5 {
                equal("number", got, 70)?;
                equal_slices("result", &result, &vec![OLD; m])?;
                equal_slices("entries", &entries, &old_entries(9))?;
            } else {
                equal("number", got, 0)?;
            }
        }
    }
    Ok(())
}

fn audit_long() -> Result<(), String> {
    // 35 comes home only with fallback on.
    let text = b"<code_set_name> \"t\"\n<mb_cur_min> 1\n<mb_cur_max> 1\n<uconv_class> \"MBCS\"\n\
        <subchar> \\x35\n<icu:state> 35\nCHARMAP\n<U0035> \\x35 |3\n<U0035> \\x35 |1\nEND CHARMAP\n";
    let (mut record, mut memory) = ([9; 12], junk(1));
    equal("load", slices::load(text, lent_mut(&mut record, &mut memory), &mut [OLD]), 0)?;
    for (fallback, first) in [
        (0, [1, 0x3500_0000, 1, 1, 1]),
        (1, [0, 0x3500_0000, 1, 1, 1]),
        (2, [0, 0x3500_0000, 1, 1, 1]),
        (u32::MAX, [0, 0x3500_0000, 1, 1, 1]),
    ] {
        let mut entries = old_entries(3);
        let mut result = vec![OLD; 9];
        let got = slices::audit(lent(&record, &memory), fallback, 0, 0, 9, &mut entries, &mut result);
        equal("number", got, 0)?;
        equal_slices("result", &result[..5], &first)?;
        equal_slices("result behind", &result[5..], &[OLD; 4])?;
    }
    Ok(())
}

fn short_before_60() -> Result<(), String> {
    let none = Memory::default();
    equal("check", slices::check(lent(&[0; 6], &none)), 70)?;
    for skip in [0, 1] {
        let got = slices::to_utf8(lent(&[0; 7], &none), b"", &mut [], 0, skip, &mut [OLD; 2]);
        equal("to UTF-8", got, 70)?;
        let got = slices::from_utf8(lent(&[0; 6], &none), b"", &mut [], 0, 0, skip, &mut [OLD; 3]);
        equal("from UTF-8", got, 70)?;
        for scheme in 0..4 {
            let got = slices::to_unicode(lent(&[0; 6], &none), b"", &mut [], scheme, 0, skip, &mut [OLD; 3]);
            equal("to Unicode", got, 70)?;
            let got = slices::from_unicode(lent(&[0; 7], &none), b"", &mut [], scheme, 0, 0, skip, &mut [OLD; 2]);
            equal("from Unicode", got, 70)?;
        }
    }
    equal("audit", slices::audit(lent(&[0; 7], &none), 0, 9, 9, 0, &mut [], &mut [OLD; 4]), 70)
}
