//! A straightforward Rust converter over the same table: what a careful
//! programmer would write without proofs. It keeps its table in its own types,
//! so it needs no test before each call.

use std::collections::HashMap;

pub const ILLEGAL: u16 = 0;
pub const UNASSIGNED: u16 = 3;
pub const LEAD: u16 = 16;

/// How codes and code points are looked up.
#[derive(Clone, Copy)]
pub enum Search {
    /// Halving in sorted arrays.
    Sorted,
    Hashed,
    /// A place for every code of up to two bytes and for every code point up to
    /// U+FFFF; halving for the others.
    Direct,
}

impl Search {
    pub const ALL: [Search; 3] = [Search::Sorted, Search::Hashed, Search::Direct];

    pub fn name(self) -> &'static str {
        match self {
            Search::Sorted => "plain, sorted arrays",
            Search::Hashed => "plain, hash maps",
            Search::Direct => "plain, direct arrays",
        }
    }
}

/// Code bits, length, indicator.
type Written = (u32, u8, u8);

/// What a search has beside the sorted arrays, for reading and for writing.
enum Index {
    Nothing,
    Maps(HashMap<u32, u32>, HashMap<u32, Written>),
    /// By the upper half of the code bits, the lower half being 0, and by the
    /// code point.
    Direct(Places<u32>, Places<Written>),
}

const PLACES: usize = 1 << 16;
type Places<T> = Box<[T; PLACES]>;
/// In the place of a code that no line reads.
const NO_POINT: u32 = u32::MAX;
/// In the place of a code point that no line writes: no code has length 0.
const NO_CODE: Written = (0, 0, 0);

impl Index {
    fn of(search: Search, read: &[(u32, u32)], write: &[(u32, Written)]) -> Index {
        match search {
            Search::Sorted => Index::Nothing,
            Search::Hashed => Index::Maps(read.iter().copied().collect(), write.iter().copied().collect()),
            Search::Direct => {
                let short = read.iter().filter(|e| e.0 as u16 == 0).map(|e| (e.0 >> 16, e.1));
                Index::Direct(places(NO_POINT, short), places(NO_CODE, write.iter().copied()))
            }
        }
    }
}

/// The values in the places of their keys; a key beyond the last place has none.
fn places<T: Copy>(none: T, entries: impl Iterator<Item = (u32, T)>) -> Places<T> {
    let mut places = vec![none; PLACES];
    for (key, value) in entries {
        if let Some(place) = places.get_mut(key as usize) {
            *place = value;
        }
    }
    places.try_into().unwrap_or_else(|_| unreachable!("it has that length"))
}

/// Halving in a sorted array.
fn found<T: Copy>(sorted: &[(u32, T)], key: u32) -> Option<T> {
    let i = sorted.binary_search_by_key(&key, |e| e.0).ok()?;
    Some(sorted[i].1)
}

pub struct Plain {
    pub search: Search,
    pub rows: Vec<[u16; 256]>,
    pub mappings: usize,
    subchar: Vec<u8>,
    subchar1: Option<u8>,
    /// Code bits to code point, for `|0` and `|3`; sorted.
    read: Vec<(u32, u32)>,
    /// Code point to code, for `|0`, `|1`, `|2`; sorted.
    write: Vec<(u32, Written)>,
    index: Index,
}

pub fn bits(code: &[u8]) -> u32 {
    let mut four = [0; 4];
    four[..code.len()].copy_from_slice(code);
    u32::from_be_bytes(four)
}

/// Copies a code; a short one without a call of `memcpy`.
fn put(code: &[u8], place: &mut [u8]) {
    match (code, place) {
        ([a], [x]) => *x = *a,
        ([a, b], [x, y]) => (*x, *y) = (*a, *b),
        (code, place) => place.copy_from_slice(code),
    }
}

/// Writes a character at the front of a space: its length, if it fits.
#[inline]
fn put_utf8(c: char, space: &mut [u8]) -> Option<usize> {
    let length = c.len_utf8();
    c.encode_utf8(space.get_mut(..length)?);
    Some(length)
}

#[inline]
fn put_utf32be(c: char, space: &mut [u8]) -> Option<usize> {
    *space.first_chunk_mut()? = (c as u32).to_be_bytes();
    Some(4)
}

fn code_bytes(text: &str) -> Option<Vec<u8>> {
    let mut code = Vec::new();
    for part in text.split("\\x").skip(1) {
        code.push(u8::from_str_radix(part.trim().get(..2)?, 16).ok()?);
    }
    (!code.is_empty()).then_some(code)
}

fn row(text: &str) -> Option<[u16; 256]> {
    let mut row = [ILLEGAL; 256];
    for entry in text.split(',').map(str::trim).filter(|e| !e.is_empty()) {
        let (front, letter) = match entry.split_once('.') {
            Some((f, l)) => (f, Some(l)),
            None => (entry, None),
        };
        let (range, next) = match front.split_once(':') {
            Some((r, n)) => (r, Some(u16::from_str_radix(n, 16).ok()?)),
            None => (front, None),
        };
        let (from, to) = range.split_once('-').unwrap_or((range, range));
        let cell = match (next, letter) {
            (Some(n), None) => LEAD + n,
            (_, Some("p")) => 2,
            (_, Some("u")) => UNASSIGNED,
            (_, Some("i")) => ILLEGAL,
            _ => 1,
        };
        let from = usize::from_str_radix(from, 16).ok()?;
        let to = usize::from_str_radix(to, 16).ok()?;
        row.get_mut(from..=to)?.fill(cell);
    }
    Some(row)
}

impl Plain {
    /// One for each search.
    pub fn all(text: &[u8]) -> [Plain; 3] {
        Search::ALL.map(|search| Plain::load(text, search).expect("plain load"))
    }

    /// Reads a .ucm text, refuses what it does not understand, lines that meet
    /// and fallbacks to a code that no line reads, sorts for search.
    pub fn load(text: &[u8], search: Search) -> Option<Plain> {
        let text = std::str::from_utf8(text).ok()?;
        let mut t = Plain {
            search,
            rows: Vec::new(),
            mappings: 0,
            subchar: Vec::new(),
            subchar1: None,
            read: Vec::new(),
            write: Vec::new(),
            index: Index::Nothing,
        };
        let mut body = false;
        for line in text.lines() {
            let line = line.split('#').next().unwrap_or("").trim();
            if line.is_empty() {
                continue;
            }
            if line == "CHARMAP" {
                body = true;
            } else if line == "END CHARMAP" {
                break;
            } else if !body {
                let (key, value) = line.strip_prefix('<')?.split_once('>')?;
                match key {
                    "subchar" => t.subchar = code_bytes(value)?,
                    "subchar1" => t.subchar1 = Some(code_bytes(value)?[0]),
                    "icu:state" => t.rows.push(row(value.trim())?),
                    _ => {}
                }
            } else {
                let (cp, rest) = line.strip_prefix("<U")?.split_once('>')?;
                let cp = u32::from_str_radix(cp, 16).ok()?;
                let (code, kind) = match rest.split_once('|') {
                    Some((code, kind)) => (code, kind.parse::<u8>().ok()?),
                    None => (rest, 0),
                };
                let code = code_bytes(code)?;
                if !t.is_complete(&code) {
                    return None;
                }
                t.mappings += 1;
                if kind == 0 || kind == 3 {
                    t.read.push((bits(&code), cp));
                }
                if kind != 3 {
                    t.write.push((cp, (bits(&code), code.len() as u8, kind)));
                }
            }
        }
        t.read.sort_unstable();
        t.write.sort_unstable();
        let meet = t.read.windows(2).any(|w| w[0].0 == w[1].0) || t.write.windows(2).any(|w| w[0].0 == w[1].0);
        let void = t.write.iter().any(|&(_, (code, _, kind))| kind == 1 && found(&t.read, code).is_none());
        if meet || void {
            return None;
        }
        t.index = Index::of(search, &t.read, &t.write);
        Some(t)
    }

    fn is_complete(&self, code: &[u8]) -> bool {
        let mut row = 0;
        for (i, &b) in code.iter().enumerate() {
            let Some(cells) = self.rows.get(row) else { return false };
            match cells[b as usize] {
                ILLEGAL => return false,
                s if s >= LEAD => row = (s - LEAD) as usize,
                _ => return i + 1 == code.len(),
            }
        }
        false
    }

    #[inline]
    fn reads(&self, code: u32) -> Option<u32> {
        match &self.index {
            Index::Maps(read, _) => read.get(&code).copied(),
            Index::Direct(read, _) if code as u16 == 0 => Some(read[(code >> 16) as usize]).filter(|&p| p != NO_POINT),
            _ => found(&self.read, code),
        }
    }

    #[inline]
    fn writes(&self, cp: u32) -> Option<Written> {
        match &self.index {
            Index::Maps(_, write) => write.get(&cp).copied(),
            Index::Direct(_, write) if cp < PLACES as u32 => Some(write[cp as usize]).filter(|w| w.1 > 0),
            _ => found(&self.write, cp),
        }
    }

    /// Number, bytes read, bytes written.
    pub fn to_utf8(&self, input: &[u8], output: &mut [u8], substitute: bool, skip: bool) -> (u32, usize, usize) {
        self.read_all(input, output, substitute, skip, put_utf8)
    }

    pub fn to_utf32be(&self, input: &[u8], output: &mut [u8], substitute: bool) -> (u32, usize, usize) {
        self.read_all(input, output, substitute, false, put_utf32be)
    }

    /// With a way to write a character.
    #[inline]
    fn read_all(
        &self,
        input: &[u8],
        output: &mut [u8],
        substitute: bool,
        skip: bool,
        put: impl Fn(char, &mut [u8]) -> Option<usize>,
    ) -> (u32, usize, usize) {
        let (mut at, mut out) = (0, 0);
        'sequences: while at < input.len() {
            let (mut row, mut code, mut n) = (0, 0u32, 0);
            loop {
                let Some(&b) = input.get(at + n) else { return (51, at, out) };
                let cell = self.rows[row][b as usize];
                code |= (b as u32) << (24 - 8 * n);
                n += 1;
                if cell >= LEAD {
                    row = (cell - LEAD) as usize;
                } else if cell == ILLEGAL {
                    if !skip {
                        return (52, at, out);
                    }
                    let Some(length) = put('\u{fffd}', &mut output[out..]) else { return (50, at, out) };
                    // What could begin a sequence is no part of the one that it breaks.
                    let begins = n > 1 && self.rows[0][b as usize] != ILLEGAL;
                    at += if begins { n - 1 } else { n };
                    out += length;
                    continue 'sequences;
                } else {
                    break;
                }
            }
            let cp = match self.reads(code) {
                Some(cp) => cp,
                None if !substitute => return (53, at, out),
                None if n == 1 && self.subchar1.is_some() => 0x1a,
                None => 0xfffd,
            };
            let Some(c) = char::from_u32(cp) else { return (53, at, out) };
            let Some(length) = put(c, &mut output[out..]) else { return (50, at, out) };
            at += n;
            out += length;
        }
        (0, at, out)
    }

    pub fn from_utf8(
        &self,
        input: &[u8],
        output: &mut [u8],
        fallback: bool,
        substitute: bool,
        skip: bool,
    ) -> (u32, usize, usize) {
        let (mut at, mut out) = (0, 0);
        loop {
            let (good, bad) = match std::str::from_utf8(&input[at..]) {
                Ok(good) => (good, Some(0)),
                Err(e) => (std::str::from_utf8(&input[at..at + e.valid_up_to()]).unwrap_or(""), e.error_len()),
            };
            match self.write_all(good.char_indices(), &mut output[out..], fallback, substitute) {
                Ok(written) => (at, out) = (at + good.len(), out + written),
                Err((number, read, written)) => return (number, at + read, out + written),
            }
            match bad {
                Some(0) => return (0, at, out),
                None => return (51, at, out),
                Some(_) if !skip => return (52, at, out),
                // One for each byte.
                Some(bad) => {
                    for _ in 0..bad {
                        let end = out + self.subchar.len();
                        let Some(place) = output.get_mut(out..end) else { return (50, at, out) };
                        put(&self.subchar, place);
                        (at, out) = (at + 1, end);
                    }
                }
            }
        }
    }

    pub fn from_utf32be(
        &self,
        input: &[u8],
        output: &mut [u8],
        fallback: bool,
        substitute: bool,
    ) -> (u32, usize, usize) {
        let mut read = 0;
        let characters = input.chunks_exact(4).map_while(|four| {
            let c = char::from_u32(u32::from_be_bytes(four.try_into().ok()?))?;
            read += 4;
            Some((read - 4, c))
        });
        match self.write_all(characters, output, fallback, substitute) {
            Ok(out) => {
                let number = match input.len() - read {
                    0 => 0,
                    1..=3 => 51,
                    _ => 52,
                };
                (number, read, out)
            }
            Err(stopped) => stopped,
        }
    }

    /// Characters with their places: bytes written, or what stopped it.
    #[inline]
    fn write_all(
        &self,
        characters: impl Iterator<Item = (usize, char)>,
        output: &mut [u8],
        fallback: bool,
        substitute: bool,
    ) -> Result<usize, (u32, usize, usize)> {
        let mut out = 0;
        for (at, c) in characters {
            let four;
            let one;
            let code: &[u8] = match self.writes(c as u32) {
                Some((bits, length, kind)) if kind == 0 || (kind == 1 && fallback) => {
                    four = bits.to_be_bytes();
                    &four[..length as usize]
                }
                _ if !substitute => return Err((53, at, out)),
                Some((_, _, 2)) => {
                    one = [self.subchar1.unwrap_or(0)];
                    &one
                }
                _ => &self.subchar,
            };
            let Some(place) = output.get_mut(out..out + code.len()) else { return Err((50, at, out)) };
            put(code, place);
            out += code.len();
        }
        Ok(out)
    }

    /// Entries (code bits, length, cause) of the whole audit and the count.
    pub fn audit(&self, fallback: bool, entries: &mut Vec<(u32, u8, u8)>) -> u64 {
        entries.clear();
        let mut count = 0;
        self.walk(0, 0, 0, fallback, entries, &mut count);
        count
    }

    fn walk(&self, row: usize, bits: u32, n: u8, fallback: bool, entries: &mut Vec<(u32, u8, u8)>, count: &mut u64) {
        for b in 0..256usize {
            let cell = self.rows[row][b];
            if cell == ILLEGAL {
                continue;
            }
            let code = bits | (b as u32) << (24 - 8 * n);
            if cell >= LEAD {
                self.walk((cell - LEAD) as usize, code, n + 1, fallback, entries, count);
                continue;
            }
            *count += 1;
            let cause = if cell == UNASSIGNED {
                1
            } else if let Some(cp) = self.reads(code) {
                match self.writes(cp) {
                    Some((back, length, kind)) if kind == 0 || (kind == 1 && fallback) => {
                        if back == code && length == n + 1 {
                            continue;
                        }
                        3
                    }
                    _ => 4,
                }
            } else {
                2
            };
            entries.push((code, n + 1, cause));
        }
    }
}

/// The test of record and memory as plain Rust over the same numbers.
pub fn check(record: &[u32; 7], states: &[u16], codes: &[u32], infos: &[u32], order: &[u32]) -> bool {
    let [rows, mappings, min, max, sub_bits, sub_length, sub1] = *record;
    let (rows, n) = (rows as usize, mappings as usize);
    if states.len() < 4096 || codes.len() < 2048 || infos.len() < 2048 || order.len() < 2048 {
        return false;
    }
    if !(1..=16).contains(&rows) || n > 2048 || min < 1 || min > max || max > 4 || sub1 > 256 {
        return false;
    }
    let good = |s: u16| s <= 3 || (s > LEAD && (s - LEAD) < rows as u16);
    if !states[..rows * 256].iter().all(|&s| good(s)) || states[rows * 256..4096].iter().any(|&s| s != 0) {
        return false;
    }
    // T3 by the set of rows reached after each lead.
    let mut here = 1u32;
    for _ in 0..max {
        let mut next = 0u32;
        for r in 0..rows {
            if here >> r & 1 == 1 {
                for &s in &states[r * 256..r * 256 + 256] {
                    if s >= LEAD {
                        next |= 1 << (s - LEAD);
                    }
                }
            }
        }
        here = next;
    }
    if here != 0 {
        return false;
    }
    let end = |bits: u32, length: u32| -> u16 {
        if !(1..=4).contains(&length) || (length < 4 && bits << (8 * length) != 0) {
            return ILLEGAL;
        }
        let mut row = 0;
        for (i, b) in bits.to_be_bytes().into_iter().enumerate().take(length as usize) {
            let s = states[row * 256 + b as usize];
            if i + 1 == length as usize {
                return if s >= LEAD { ILLEGAL } else { s };
            }
            if s < LEAD {
                return ILLEGAL;
            }
            row = (s - LEAD) as usize;
        }
        ILLEGAL
    };
    if end(sub_bits, sub_length) == ILLEGAL || (sub1 > 0 && end((sub1 - 1) << 24, 1) == ILLEGAL) {
        return false;
    }
    for i in 0..n {
        let (code, info) = (codes[i], infos[i]);
        let (cp, rank, length) = (info & 0x1f_ffff, info >> 21 & 7, (info >> 24) + 1);
        if cp > 0x10_ffff || (0xd800..0xe000).contains(&cp) || !matches!(rank, 0 | 1 | 2 | 4) || length > 4 {
            return false;
        }
        if rank == 4 {
            if sub1 == 0 || length != 1 || code != (sub1 - 1) << 24 {
                return false;
            }
        } else {
            let e = end(code, length);
            if (e != 1 && e != 2) || (cp > 0xffff && e != 2) || length < min || length > max {
                return false;
            }
            if rank != 1 && length > 1 && code >> 24 == 0 {
                return false;
            }
        }
        // A fallback stands behind a line of its code.
        if rank == 2 && (i == 0 || codes[i - 1] != code || infos[i - 1] >> 24 != info >> 24) {
            return false;
        }
        if i > 0 {
            if (codes[i - 1], infos[i - 1]) >= (code, info) {
                return false;
            }
            // Two readers of one code are neighbours.
            if codes[i - 1] == code && rank <= 1 && (infos[i - 1] >> 21 & 7) <= 1 {
                return false;
            }
        }
    }
    let key = |i: usize| {
        let (code, info) = (codes[i], infos[i]);
        (info & 0x1f_ffff, info >> 21 & 7 == 1, code, info)
    };
    for i in 0..n {
        if order[i] as usize >= n {
            return false;
        }
        if i > 0 {
            let (a, b) = (key(order[i - 1] as usize), key(order[i] as usize));
            if a >= b || (a.0 == b.0 && !a.1 && !b.1) {
                return false;
            }
        }
    }
    codes[n..2048].iter().chain(&infos[n..2048]).chain(&order[n..2048]).all(|&v| v == 0)
}
