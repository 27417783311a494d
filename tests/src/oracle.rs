//! Documents 01 and 02 in plain Rust, written from the documents alone: the
//! second opinion that the library is compared with. It may be slow; it has to
//! be easy to hold against the documents, rule by rule and number by number.
//!
//! The text is first turned into its meaning, a `Table`. All rules (T1 to T10),
//! both pipes, whole and in pieces, and the audit are functions of that meaning. `form` turns a
//! meaning into the fixed numbers of record and memory, `meaning_of` goes back.

pub use crate::memory::Memory;
use std::cmp::Ordering;
use std::collections::{HashMap, HashSet};

/// Needed places: 16 rows of 256 states.
pub const STATE_PLACES: usize = 4_096;
/// Needed places in each slice for mappings.
pub const MAPPING_PLACES: usize = 2_048;
/// The longest text.
pub const MAX_TEXT: usize = 1_048_576;
/// T1.
pub const MAX_ROWS: usize = 16;
/// T1.
pub const MAX_LINES: usize = 2_048;

// ---------------------------------------------------------------------------
// The meaning of a text
// ---------------------------------------------------------------------------

/// What one byte does in one row.
#[derive(Clone, Copy, PartialEq, Eq, Debug)]
pub enum Cell {
    /// `i`, or not named.
    Illegal,
    /// Ends the code, assigned up to U+FFFF.
    Bmp,
    /// `p`: ends the code, any code point.
    Any,
    /// `u`: ends the code, legal but unassigned.
    Unassigned,
    /// `:n` without a point: leads on to row n.
    Lead(u16),
}

/// 256 cells.
pub type Row = Vec<Cell>;

/// The indicator of a mapping.
#[derive(Clone, Copy, PartialEq, Eq, Hash, Debug)]
pub enum Kind {
    /// `|0`: both ways.
    Both,
    /// `|1`: only from Unicode (fallback).
    FromUnicode,
    /// `|2`: not mappable, substituted by subchar1.
    Sub1,
    /// `|3`: only to Unicode.
    ToUnicode,
}

/// One mapping line.
#[derive(Clone, PartialEq, Eq, Hash, Debug)]
pub struct Line {
    pub cp: u32,
    pub code: Vec<u8>,
    pub kind: Kind,
}

#[derive(Clone, PartialEq, Eq, Debug)]
pub struct Table {
    pub rows: Vec<Row>,
    /// In the order of the text.
    pub lines: Vec<Line>,
    pub min: u32,
    pub max: u32,
    pub subchar: Vec<u8>,
    pub subchar1: Option<u8>,
}

/// A refused text: number and line.
#[derive(Clone, Copy, PartialEq, Eq, Debug)]
pub struct Refused {
    pub number: u32,
    pub line: u64,
}

// ---------------------------------------------------------------------------
// Lines and tokens
// ---------------------------------------------------------------------------

/// Lines end in LF or CR LF; the last may lack an end. Bytes behind the last
/// LF are a line, no bytes there are none (R7). Only the CR right before an LF
/// belongs to the line's end (R6).
pub fn lines_of(text: &[u8]) -> Vec<&[u8]> {
    let mut lines = Vec::new();
    let mut rest = text;
    while let Some(end) = rest.iter().position(|&b| b == b'\n') {
        let line = &rest[..end];
        lines.push(line.strip_suffix(b"\r").unwrap_or(line));
        rest = &rest[end + 1..];
    }
    if !rest.is_empty() {
        lines.push(rest);
    }
    lines
}

fn is_blank(b: u8) -> bool {
    b == b' ' || b == b'\t'
}

/// Reads tokens from the front. Blanks and tabs may stand around tokens, none
/// inside one (R14).
struct Scan<'a> {
    rest: &'a [u8],
}

impl<'a> Scan<'a> {
    fn blanks(&mut self) {
        while self.rest.first().is_some_and(|&b| is_blank(b)) {
            self.rest = &self.rest[1..];
        }
    }

    /// Nothing but blanks is left.
    fn end(&mut self) -> bool {
        self.blanks();
        self.rest.is_empty()
    }

    /// Takes this sign if it is next.
    fn sign(&mut self, sign: u8) -> bool {
        self.blanks();
        let there = self.rest.first() == Some(&sign);
        if there {
            self.rest = &self.rest[1..];
        }
        there
    }

    /// Takes a run of letters and digits, maybe an empty one.
    fn word(&mut self) -> &'a [u8] {
        self.blanks();
        let all = self.rest;
        let n = all.iter().take_while(|b| b.is_ascii_alphanumeric()).count();
        self.rest = &all[n..];
        &all[..n]
    }

    /// A number in a state row: one or two hexadecimal digits.
    fn number(&mut self) -> Option<u32> {
        let word = self.word();
        if word.is_empty() || word.len() > 2 {
            return None;
        }
        hexadecimal(word)
    }

    /// Takes `\xhh`.
    fn byte(&mut self) -> Option<u8> {
        self.blanks();
        let r = self.rest;
        if r.len() < 4 || r[0] != b'\\' || r[1] != b'x' {
            return None;
        }
        let value = hexadecimal(&r[2..4])?;
        self.rest = &r[4..];
        Some(value as u8)
    }

    /// Takes `<U`, 1 to 6 hexadecimal digits, `>`.
    fn code_point(&mut self) -> Option<u32> {
        self.blanks();
        let inner = self.rest.strip_prefix(b"<U")?;
        let n = inner.iter().position(|&b| b == b'>')?;
        if !(1..=6).contains(&n) {
            return None;
        }
        let value = hexadecimal(&inner[..n])?;
        self.rest = &inner[n + 1..];
        Some(value)
    }
}

/// Hexadecimal digits in either case.
fn hexadecimal(digits: &[u8]) -> Option<u32> {
    let mut value = 0;
    for &d in digits {
        value = value * 16 + (d as char).to_digit(16)?;
    }
    Some(value)
}

/// The line up to a comment, for lines that begin with no key. A quote in such
/// a line leaves it without form wherever its `#` stand, so none is looked for.
fn before_comment(line: &[u8]) -> &[u8] {
    let end = line.iter().position(|&b| b == b'#').unwrap_or(line.len());
    &line[..end]
}

/// A blank line or a comment line.
fn is_empty_line(line: &[u8]) -> bool {
    before_comment(line).iter().all(|&b| is_blank(b))
}

/// `CHARMAP` alone (R9).
fn is_charmap(line: &[u8]) -> bool {
    let mut scan = Scan { rest: before_comment(line) };
    scan.word() == b"CHARMAP" && scan.end()
}

/// `END CHARMAP` alone (R9). Two words run together are one word.
fn is_end_charmap(line: &[u8]) -> bool {
    let mut scan = Scan { rest: before_comment(line) };
    scan.word() == b"END" && scan.word() == b"CHARMAP" && scan.end()
}

/// `<key> value`: the key and all that follows it on the line. A key is a run
/// of bytes 21 to 7E without `<`, `>`, `#`, one at least (R5).
fn key_line(line: &[u8]) -> Option<(&[u8], &[u8])> {
    let mut scan = Scan { rest: line };
    if !scan.sign(b'<') {
        return None;
    }
    let n = scan.rest.iter().position(|&b| b == b'>')?;
    let key = &scan.rest[..n];
    let fits = |b: &u8| (0x21..=0x7e).contains(b) && !b"<>#".contains(b);
    if key.is_empty() || !key.iter().all(fits) {
        return None;
    }
    Some((key, &scan.rest[n + 1..]))
}

/// What follows a key up to a comment; quotes are looked for behind the key
/// (R3), an open one ends with its line (R1). None when a byte from 80 up or a
/// CR stands outside quotes and comment (R4).
fn value_of(rest: &[u8]) -> Option<&[u8]> {
    let mut quoted = false;
    for (i, &b) in rest.iter().enumerate() {
        match b {
            b'"' => quoted = !quoted,
            b'#' if !quoted => return Some(&rest[..i]),
            b'\r' | 0x80..=0xff if !quoted => return None,
            _ => {}
        }
    }
    Some(rest)
}

// ---------------------------------------------------------------------------
// Values of known keys: None is number 12
// ---------------------------------------------------------------------------

/// A quoted value and nothing else; an open quote runs to the line's end (R1).
fn quoted_value(value: &[u8]) -> Option<&[u8]> {
    let mut scan = Scan { rest: value };
    if !scan.sign(b'"') {
        return None;
    }
    let inner = scan.rest;
    match inner.iter().position(|&b| b == b'"') {
        None => Some(inner),
        Some(n) => {
            let mut behind = Scan { rest: &inner[n + 1..] };
            behind.end().then_some(&inner[..n])
        }
    }
}

/// A digit 1 to 4.
fn digit_value(value: &[u8]) -> Option<u32> {
    let mut scan = Scan { rest: value };
    let word = scan.word();
    if word.len() != 1 || !(b'1'..=b'4').contains(&word[0]) || !scan.end() {
        return None;
    }
    Some((word[0] - b'0') as u32)
}

/// Bytes as `\xhh`, between 1 and `most`.
fn bytes_value(value: &[u8], most: usize) -> Option<Vec<u8>> {
    let mut scan = Scan { rest: value };
    let mut bytes = Vec::new();
    while let Some(b) = scan.byte() {
        bytes.push(b);
    }
    (scan.end() && (1..=most).contains(&bytes.len())).then_some(bytes)
}

#[derive(Clone, Copy, PartialEq)]
enum Opener {
    None,
    Initial,
    Surrogates,
}

/// One entry of a state row as it stands in the text.
struct Entry {
    from: u32,
    to: u32,
    next: Option<u32>,
    /// A point stands there, with its letter if it has one.
    point: Option<Option<u8>>,
}

/// A state row by its grammar (source document 004).
fn row_value(value: &[u8]) -> Option<(Opener, Vec<Entry>)> {
    let mut scan = Scan { rest: value };
    if scan.end() {
        return Some((Opener::None, Vec::new()));
    }
    let mut opener = Opener::None;
    let start = scan.rest;
    match scan.word() {
        b"initial" => opener = Opener::Initial,
        b"surrogates" => opener = Opener::Surrogates,
        _ => scan.rest = start,
    }
    // The opening word is followed by a comma and an entry (R15).
    if opener != Opener::None && !scan.sign(b',') {
        return None;
    }
    let mut entries = Vec::new();
    loop {
        entries.push(entry(&mut scan)?);
        if !scan.sign(b',') {
            break;
        }
    }
    scan.end().then_some((opener, entries))
}

/// A byte or byte range, optionally `:` next row, optionally `.` and a letter
/// or nothing.
fn entry(scan: &mut Scan) -> Option<Entry> {
    let from = scan.number()?;
    let to = if scan.sign(b'-') { scan.number()? } else { from };
    let next = if scan.sign(b':') { Some(scan.number()?) } else { None };
    let mut point = None;
    if scan.sign(b'.') {
        point = match scan.word() {
            b"" => Some(None),
            [letter @ (b'u' | b's' | b'p' | b'i')] => Some(Some(*letter)),
            _ => return None,
        };
    }
    Some(Entry { from, to, next, point })
}

// ---------------------------------------------------------------------------
// From text to meaning
// ---------------------------------------------------------------------------

#[derive(Clone, Copy, PartialEq)]
enum Class {
    Sbcs,
    Mbcs,
}

#[derive(Default)]
struct Header {
    named: bool,
    min: Option<u32>,
    max: Option<u32>,
    class: Option<Class>,
    subchar: Option<Vec<u8>>,
    subchar1: Option<u8>,
    rows: Vec<Row>,
}

/// The meaning of a text, or the first line at which a condition holds with
/// the lowest number that holds there. (Numbers 1 and 2 are not about lines:
/// see `load`.)
pub fn meaning_of_text(text: &[u8]) -> Result<Table, Refused> {
    let lines = lines_of(text);
    let mut header = Header::default();
    let mut body: Option<Body> = None;
    let mut ended = false;
    for (i, line) in lines.iter().enumerate() {
        let refused = |number| Refused { number, line: i as u64 + 1 };
        // Blank and comment lines stand anywhere.
        if is_empty_line(line) {
            continue;
        }
        if ended {
            // After END CHARMAP nothing else: 10; a CHARMAP line 14 (R8).
            return Err(refused(if is_charmap(line) { 14 } else { 10 }));
        }
        match &mut body {
            None => {
                if is_charmap(line) {
                    body = Some(Body::new(at_charmap(&header).map_err(refused)?));
                } else {
                    header_line(line, &mut header).map_err(refused)?;
                }
            }
            Some(body) => {
                if is_charmap(line) {
                    return Err(refused(14)); // second CHARMAP
                } else if is_end_charmap(line) {
                    // 28 stands alone here; what is wrong behind this line comes later (S15).
                    if !keeps_t10(&body.table) {
                        return Err(refused(28));
                    }
                    ended = true;
                } else {
                    body.mapping_line(line).map_err(refused)?;
                }
            }
        }
    }
    match body {
        Some(body) if ended => Ok(body.table),
        // END CHARMAP never came: the line count plus 1.
        _ => Err(Refused { number: 27, line: lines.len() as u64 + 1 }),
    }
}

/// A line before CHARMAP, neither blank nor comment nor CHARMAP itself.
fn header_line(line: &[u8], h: &mut Header) -> Result<(), u32> {
    // 10: of no form, also by a byte that may not stand there (R4).
    let (key, rest) = key_line(line).ok_or(10u32)?;
    let value = value_of(rest).ok_or(10u32)?;

    // 11: a once-only key again, before its value is looked at.
    let again = match key {
        b"code_set_name" => h.named,
        b"mb_cur_min" => h.min.is_some(),
        b"mb_cur_max" => h.max.is_some(),
        b"uconv_class" => h.class.is_some(),
        b"subchar" => h.subchar.is_some(),
        b"subchar1" => h.subchar1.is_some(),
        _ => false,
    };
    if again {
        return Err(11);
    }

    // 12: a known key, its value not of the form; then 14 and 15.
    match key {
        b"code_set_name" => {
            let name = quoted_value(value).ok_or(12u32)?;
            if name.is_empty() {
                return Err(12);
            }
            h.named = true;
        }
        b"mb_cur_min" => h.min = Some(digit_value(value).ok_or(12u32)?),
        b"mb_cur_max" => h.max = Some(digit_value(value).ok_or(12u32)?),
        b"uconv_class" => match quoted_value(value).ok_or(12u32)? {
            b"SBCS" => h.class = Some(Class::Sbcs),
            b"MBCS" => h.class = Some(Class::Mbcs),
            b"DBCS" | b"EBCDIC_STATEFUL" => return Err(14),
            _ => return Err(12),
        },
        b"subchar" => h.subchar = Some(bytes_value(value, 4).ok_or(12u32)?),
        b"subchar1" => h.subchar1 = Some(bytes_value(value, 1).ok_or(12u32)?[0]),
        b"icu:state" => {
            let row = state_row(value, h.rows.len())?;
            h.rows.push(row);
        }
        b"icu:base" => return Err(14), // with any value or none (R17)
        _ => {}                        // another key, ignored with what follows
    }
    Ok(())
}

/// The row numbered `number`.
fn state_row(value: &[u8], number: usize) -> Result<Row, u32> {
    let (opener, entries) = row_value(value).ok_or(12u32)?;

    // 14: `surrogates`; `initial` off row 0; letter `s`; an end with a next row
    // other than 0 (the letter `i` too, R18).
    let mut not_built = opener == Opener::Surrogates;
    not_built |= opener == Opener::Initial && number != 0;
    for e in &entries {
        not_built |= e.point == Some(Some(b's'));
        not_built |= e.point.is_some() && e.next.unwrap_or(0) != 0;
    }
    if not_built {
        return Err(14);
    }

    // 15: falling range, next row over 7f, or 17th row.
    let falling = entries.iter().any(|e| e.to < e.from);
    let far = entries.iter().any(|e| e.next.unwrap_or(0) > 0x7f);
    if falling || far || number >= MAX_ROWS {
        return Err(15);
    }

    // Later entries overwrite earlier; bytes not named are illegal.
    let mut row = vec![Cell::Illegal; 256];
    for e in &entries {
        let cell = match (e.next, e.point) {
            (Some(n), None) => Cell::Lead(n as u16),
            (_, None) | (_, Some(None)) => Cell::Bmp,
            (_, Some(Some(b'p'))) => Cell::Any,
            (_, Some(Some(b'u'))) => Cell::Unassigned,
            (_, Some(Some(_))) => Cell::Illegal, // `i`
        };
        for b in e.from..=e.to {
            row[b as usize] = cell;
        }
    }
    Ok(row)
}

/// At CHARMAP: 13, then 16 (R27). The table without lines.
fn at_charmap(h: &Header) -> Result<Table, u32> {
    let (Some(min), Some(max), Some(class), Some(subchar), true) = (h.min, h.max, h.class, h.subchar.clone(), h.named)
    else {
        return Err(13);
    };
    let mut rows = h.rows.clone();
    if rows.is_empty() {
        match class {
            Class::Mbcs => return Err(13),                    // MBCS needs a row
            Class::Sbcs => rows = vec![vec![Cell::Bmp; 256]], // `0-ff`
        }
    }
    let table = Table { rows, lines: Vec::new(), min, max, subchar, subchar1: h.subchar1 };
    if min <= max && keeps_t2(&table) && keeps_t3(&table) && keeps_t4(&table) {
        Ok(table)
    } else {
        Err(16)
    }
}

/// After CHARMAP.
struct Body {
    table: Table,
    /// Bytes of the `|0` and `|3` lines so far.
    read: HashSet<Vec<u8>>,
    /// Code points of the `|0`, `|1` and `|2` lines so far.
    written: HashSet<u32>,
}

impl Body {
    fn new(table: Table) -> Body {
        Body { table, read: HashSet::new(), written: HashSet::new() }
    }

    fn mapping_line(&mut self, text: &[u8]) -> Result<(), u32> {
        let line = mapping(text)?;
        let t = &self.table;
        if !keeps_t6(&line) {
            return Err(20);
        }
        if !keeps_t5(t, &line) {
            return Err(21);
        }
        if !keeps_t7(&line) {
            return Err(22);
        }
        if !keeps_t8(t, &line) {
            return Err(23);
        }
        if is_read(line.kind) && self.read.contains(&line.code) {
            return Err(24);
        }
        if is_of_code_points(line.kind) && self.written.contains(&line.cp) {
            return Err(25);
        }
        if t.lines.len() == MAX_LINES {
            return Err(26);
        }
        if is_read(line.kind) {
            self.read.insert(line.code.clone());
        }
        if is_of_code_points(line.kind) {
            self.written.insert(line.cp);
        }
        self.table.lines.push(line);
        Ok(())
    }
}

/// A line after CHARMAP by its form: 10 if it has none, 14 for indicator 4,
/// several code points or a `+`. A `+` stands between two code points or two
/// bytes (R12); any number of bytes (R11); no indicator reads as `|0`.
fn mapping(text: &[u8]) -> Result<Line, u32> {
    let mut scan = Scan { rest: before_comment(text) };
    let mut not_built = false;

    let cp = scan.code_point().ok_or(10u32)?;
    loop {
        let plus = scan.sign(b'+');
        if scan.code_point().is_some() {
            not_built = true;
        } else if plus {
            return Err(10);
        } else {
            break;
        }
    }

    let mut code = vec![scan.byte().ok_or(10u32)?];
    loop {
        let plus = scan.sign(b'+');
        if let Some(b) = scan.byte() {
            code.push(b);
            not_built |= plus;
        } else if plus {
            return Err(10);
        } else {
            break;
        }
    }

    let mut kind = Kind::Both;
    if scan.sign(b'|') {
        // No blank inside the token `|n`.
        match scan.rest.first() {
            Some(b'0') => kind = Kind::Both,
            Some(b'1') => kind = Kind::FromUnicode,
            Some(b'2') => kind = Kind::Sub1,
            Some(b'3') => kind = Kind::ToUnicode,
            Some(b'4') => not_built = true,
            _ => return Err(10),
        }
        scan.rest = &scan.rest[1..];
    }
    if !scan.end() {
        return Err(10);
    }
    if not_built {
        return Err(14);
    }
    Ok(Line { cp, code, kind })
}

// ---------------------------------------------------------------------------
// What every table keeps
// ---------------------------------------------------------------------------

/// A complete code leads on at every byte but the last and ends there without
/// being illegal. Gives the cell that ends it.
pub fn complete(rows: &[Row], code: &[u8]) -> Option<Cell> {
    let (&last, leads) = code.split_last()?;
    let mut row = rows.first()?;
    for &b in leads {
        match row[b as usize] {
            Cell::Lead(n) => row = rows.get(n as usize)?,
            _ => return None,
        }
    }
    match row[last as usize] {
        Cell::Illegal | Cell::Lead(_) => None,
        cell => Some(cell),
    }
}

/// `|0` and `|3` read.
pub fn is_read(kind: Kind) -> bool {
    matches!(kind, Kind::Both | Kind::ToUnicode)
}

/// `|0`, `|1` and `|2` speak of their code point from Unicode.
pub fn is_of_code_points(kind: Kind) -> bool {
    matches!(kind, Kind::Both | Kind::FromUnicode | Kind::Sub1)
}

pub fn keeps_t1(t: &Table) -> bool {
    (1..=MAX_ROWS).contains(&t.rows.len())
        && t.lines.len() <= MAX_LINES
        && (1..=4).contains(&t.min)
        && (1..=4).contains(&t.max)
        && t.min <= t.max
}

/// Of every row, reached or not (R21).
pub fn keeps_t2(t: &Table) -> bool {
    t.rows.iter().flatten().all(|cell| match cell {
        Cell::Lead(n) => *n != 0 && (*n as usize) < t.rows.len(),
        _ => true,
    })
}

/// The rows that can stand after leading on 0, 1, 2 ... times: after
/// mb_cur_max times there must be none.
pub fn keeps_t3(t: &Table) -> bool {
    let mut here: HashSet<usize> = HashSet::from([0]);
    for _ in 0..t.max {
        let mut next = HashSet::new();
        for r in here {
            for cell in t.rows.get(r).into_iter().flatten() {
                if let Cell::Lead(n) = cell {
                    next.insert(*n as usize);
                }
            }
        }
        here = next;
    }
    here.is_empty()
}

/// Either may end in `u` and be shorter than mb_cur_min (R25).
pub fn keeps_t4(t: &Table) -> bool {
    complete(&t.rows, &t.subchar).is_some() && t.subchar1.is_none_or(|b| complete(&t.rows, &[b]).is_some())
}

pub fn keeps_t5(t: &Table, line: &Line) -> bool {
    if line.kind == Kind::Sub1 {
        return true;
    }
    let length = line.code.len() as u32;
    if length < t.min || length > t.max {
        return false;
    }
    match complete(&t.rows, &line.code) {
        Some(Cell::Any) => true,
        Some(Cell::Bmp) => line.cp <= 0xffff,
        _ => false,
    }
}

pub fn keeps_t6(line: &Line) -> bool {
    line.cp <= 0x10ffff && !(0xd800..=0xdfff).contains(&line.cp)
}

pub fn keeps_t7(line: &Line) -> bool {
    let from_unicode = matches!(line.kind, Kind::Both | Kind::FromUnicode);
    !(from_unicode && line.code.len() >= 2 && line.code[0] == 0)
}

pub fn keeps_t8(t: &Table, line: &Line) -> bool {
    line.kind != Kind::Sub1 || (line.code.len() == 1 && Some(line.code[0]) == t.subchar1)
}

pub fn keeps_t9(t: &Table) -> bool {
    let mut read = HashSet::new();
    let mut written = HashSet::new();
    t.lines
        .iter()
        .all(|l| (!is_read(l.kind) || read.insert(&l.code)) && (!is_of_code_points(l.kind) || written.insert(l.cp)))
}

/// The bytes of every `|1` line are in some `|0` or `|3` line. A `|2` line is
/// neither asked nor does it read (S15).
pub fn keeps_t10(t: &Table) -> bool {
    let read: HashSet<&[u8]> = t.lines.iter().filter(|l| is_read(l.kind)).map(|l| l.code.as_slice()).collect();
    t.lines.iter().all(|l| l.kind != Kind::FromUnicode || read.contains(l.code.as_slice()))
}

pub fn keeps_all(t: &Table) -> bool {
    keeps_t1_to_t9(t) && keeps_t10(t)
}

pub fn keeps_t1_to_t9(t: &Table) -> bool {
    keeps_t1(t)
        && keeps_t2(t)
        && keeps_t3(t)
        && keeps_t4(t)
        && t.lines.iter().all(|l| keeps_t5(t, l) && keeps_t6(l) && keeps_t7(l) && keeps_t8(t, l))
        && keeps_t9(t)
}

// ---------------------------------------------------------------------------
// The fixed form
// ---------------------------------------------------------------------------

/// Rows, mappings, mb_cur_min, mb_cur_max, subchar bits, subchar length,
/// subchar1 (0 none, else 1 + byte).
pub type Record = [u32; 7];

impl Memory {
    /// Exactly the needed places, all zero.
    pub fn zeros() -> Memory {
        Memory {
            states: vec![0; STATE_PLACES],
            codes: vec![0; MAPPING_PLACES],
            infos: vec![0; MAPPING_PLACES],
            order: vec![0; MAPPING_PLACES],
        }
    }

    pub fn is_too_small(&self) -> bool {
        self.states.len() < STATE_PLACES
            || self.codes.len() < MAPPING_PLACES
            || self.infos.len() < MAPPING_PLACES
            || self.order.len() < MAPPING_PLACES
    }

    /// Overwrites the needed places; numbers past them are never touched.
    pub fn set_needed(&mut self, form: &Memory) {
        self.states[..STATE_PLACES].copy_from_slice(&form.states);
        self.codes[..MAPPING_PLACES].copy_from_slice(&form.codes);
        self.infos[..MAPPING_PLACES].copy_from_slice(&form.infos);
        self.order[..MAPPING_PLACES].copy_from_slice(&form.order);
    }

    fn needed_equals(&self, form: &Memory) -> bool {
        self.states[..STATE_PLACES] == form.states[..]
            && self.codes[..MAPPING_PLACES] == form.codes[..]
            && self.infos[..MAPPING_PLACES] == form.infos[..]
            && self.order[..MAPPING_PLACES] == form.order[..]
    }
}

/// A code's bytes, first byte highest of 32, padded with zero bits.
pub fn bits_of(code: &[u8]) -> u32 {
    let mut four = [0; 4];
    four[..code.len()].copy_from_slice(code);
    u32::from_be_bytes(four)
}

/// The first `len` bytes, provided the unused bits are zero.
pub fn code_of(bits: u32, len: u32) -> Option<Vec<u8>> {
    if len > 4 {
        return None;
    }
    let code = bits.to_be_bytes()[..len as usize].to_vec();
    (bits_of(&code) == bits).then_some(code)
}

fn state_number(cell: Cell) -> u16 {
    match cell {
        Cell::Illegal => 0,
        Cell::Bmp => 1,
        Cell::Any => 2,
        Cell::Unassigned => 3,
        Cell::Lead(n) => 16 + n,
    }
}

fn rank(kind: Kind) -> u32 {
    match kind {
        Kind::Both => 0,
        Kind::ToUnicode => 1,
        Kind::FromUnicode => 2,
        Kind::Sub1 => 4,
    }
}

pub fn info_of(line: &Line) -> u32 {
    line.cp + (rank(line.kind) << 21) + ((line.code.len() as u32 - 1) << 24)
}

/// The record and exactly the needed memory of a table (of 1 to 16 rows, up to
/// 2,048 lines and codes of 1 to 4 bytes; other rules may be broken).
pub fn form(t: &Table) -> (Record, Memory) {
    let mut memory = Memory::zeros();
    for (r, row) in t.rows.iter().enumerate() {
        for (b, &cell) in row.iter().enumerate() {
            memory.states[r * 256 + b] = state_number(cell);
        }
    }

    // Entries rising by (codes, infos).
    let mut lines: Vec<&Line> = t.lines.iter().collect();
    lines.sort_by_key(|l| (bits_of(&l.code), info_of(l)));
    for (i, l) in lines.iter().enumerate() {
        memory.codes[i] = bits_of(&l.code);
        memory.infos[i] = info_of(l);
    }

    // Their indices, rising by (code point, `|3` behind the others, codes, infos).
    let mut order: Vec<usize> = (0..lines.len()).collect();
    order.sort_by_key(|&i| {
        let l = lines[i];
        (l.cp, l.kind == Kind::ToUnicode, bits_of(&l.code), info_of(l))
    });
    for (i, &index) in order.iter().enumerate() {
        memory.order[i] = index as u32;
    }

    let record = [
        t.rows.len() as u32,
        t.lines.len() as u32,
        t.min,
        t.max,
        bits_of(&t.subchar),
        t.subchar.len() as u32,
        t.subchar1.map_or(0, |b| 1 + b as u32),
    ];
    (record, memory)
}

/// The test behind 60: the table that keeps T1 to T10 and has this record and
/// memory as its form, if there is one.
pub fn meaning_of(record: &Record, memory: &Memory) -> Option<Table> {
    if memory.is_too_small() {
        return None;
    }
    let [rows, lines, min, max, subchar_bits, subchar_length, subchar1] = *record;
    // T1, first of all because the numbers below are read by these counts.
    if !(1..=MAX_ROWS as u32).contains(&rows) || lines > MAX_LINES as u32 {
        return None;
    }

    let mut table = Table {
        rows: Vec::new(),
        lines: Vec::new(),
        min,
        max,
        subchar: code_of(subchar_bits, subchar_length)?,
        subchar1: match subchar1 {
            0 => None,
            1..=256 => Some((subchar1 - 1) as u8),
            _ => return None,
        },
    };
    for r in 0..rows as usize {
        let mut row = Vec::new();
        for &state in &memory.states[r * 256..r * 256 + 256] {
            row.push(match state {
                0 => Cell::Illegal,
                1 => Cell::Bmp,
                2 => Cell::Any,
                3 => Cell::Unassigned,
                16.. => Cell::Lead(state - 16),
                _ => return None,
            });
        }
        table.rows.push(row);
    }
    for i in 0..lines as usize {
        let info = memory.infos[i];
        table.lines.push(Line {
            cp: info & 0x1f_ffff,
            code: code_of(memory.codes[i], (info >> 24) + 1)?,
            kind: match info >> 21 & 7 {
                0 => Kind::Both,
                1 => Kind::ToUnicode,
                2 => Kind::FromUnicode,
                4 => Kind::Sub1,
                _ => return None,
            },
        });
    }
    if !keeps_all(&table) {
        return None;
    }
    // Sorted, `order` right, zeros in the unused places: it is the form.
    let (its_record, its_memory) = form(&table);
    (its_record == *record && memory.needed_equals(&its_memory)).then_some(table)
}

// ---------------------------------------------------------------------------
// Load
// ---------------------------------------------------------------------------

#[derive(Clone, Copy, PartialEq, Eq, Debug)]
pub struct Loaded {
    pub number: u32,
    pub line: u64,
    pub record: Record,
}

pub fn load(text: &[u8], memory: &mut Memory) -> Loaded {
    let refused = |number, line| Loaded { number, line, record: [0; 7] };
    // 1 goes before 2, both with line 0 and memory untouched.
    if memory.is_too_small() {
        return refused(1, 0);
    }
    if text.len() > MAX_TEXT {
        return refused(2, 0);
    }
    match meaning_of_text(text) {
        Ok(table) => {
            let (record, form) = form(&table);
            memory.set_needed(&form);
            Loaded { number: 0, line: 0, record }
        }
        Err(r) => {
            memory.set_needed(&Memory::zeros());
            refused(r.number, r.line)
        }
    }
}

// ---------------------------------------------------------------------------
// The two pipes
// ---------------------------------------------------------------------------

#[derive(Clone, Copy, PartialEq, Eq, Debug)]
pub struct Piped {
    pub number: u32,
    pub read: u64,
    pub written: u64,
    /// Of the illegal sequence for 52, else 0.
    pub length: u64,
}

/// The settings of a conversion. Towards Unicode there is no fallback.
#[derive(Clone, Copy, PartialEq, Eq, Debug)]
pub struct Settings {
    pub fallback: bool,
    pub substitute: bool,
    /// Illegal sequences are passed over.
    pub skip: bool,
}

/// What the lines say, for quick look-up.
pub struct Lines {
    /// Bytes of `|0` and `|3` lines.
    read: HashMap<Vec<u8>, u32>,
    /// Code points of `|0` lines.
    both: HashMap<u32, Vec<u8>>,
    /// Code points of `|1` lines.
    fallback: HashMap<u32, Vec<u8>>,
    /// Code points of `|2` lines.
    sub1: HashSet<u32>,
}

impl Lines {
    pub fn of(t: &Table) -> Lines {
        let mut lines =
            Lines { read: HashMap::new(), both: HashMap::new(), fallback: HashMap::new(), sub1: HashSet::new() };
        for l in &t.lines {
            match l.kind {
                Kind::Both => {
                    lines.read.insert(l.code.clone(), l.cp);
                    lines.both.insert(l.cp, l.code.clone());
                }
                Kind::FromUnicode => {
                    lines.fallback.insert(l.cp, l.code.clone());
                }
                Kind::Sub1 => {
                    lines.sub1.insert(l.cp);
                }
                Kind::ToUnicode => {
                    lines.read.insert(l.code.clone(), l.cp);
                }
            }
        }
        lines
    }

    pub fn reads(&self, code: &[u8]) -> Option<u32> {
        self.read.get(code).copied()
    }

    /// `|0` always writes, `|1` only with fallback on.
    pub fn writes(&self, cp: u32, fallback: bool) -> Option<&[u8]> {
        let code = self.both.get(&cp).or(if fallback { self.fallback.get(&cp) } else { None });
        code.map(|c| c.as_slice())
    }
}

/// The front of an input.
enum Sequence<T> {
    /// A whole sequence of this length.
    Whole(T, usize),
    CutShort,
    /// An illegal sequence of this length.
    Illegal(usize),
}

/// One sequence cut by the states. Its length is that of the complete code.
fn cut_code(rows: &[Row], input: &[u8]) -> Sequence<()> {
    let mut row = 0;
    for (i, &b) in input.iter().enumerate() {
        match rows[row][b as usize] {
            Cell::Lead(n) => row = n as usize,
            Cell::Illegal => return Sequence::Illegal(if ends_before(rows, i, b) { i } else { i + 1 }),
            _ => return Sequence::Whole((), i + 1),
        }
    }
    Sequence::CutShort // each byte led on
}

/// Where the breaking byte is not the sequence's first, and would not be illegal
/// as a first byte in row 0, the sequence ends before it. (S5: an end of any kind
/// but `i`, or leading on, if only to an empty row.)
fn ends_before(rows: &[Row], place: usize, breaking: u8) -> bool {
    let is_first = place == 0;
    let illegal_as_first = rows[0][breaking as usize] == Cell::Illegal;
    !is_first && !illegal_as_first
}

/// One sequence of UTF-8 by RFC 3629's table. Towards the panel the length of
/// an illegal one is 1, however many bytes were looked at.
fn cut_utf8(input: &[u8]) -> Sequence<u32> {
    let lead = input[0];
    // Length, and the bounds of the second byte.
    let (length, low, high) = match lead {
        0x00..=0x7f => (1, 0x80, 0xbf),
        0xc2..=0xdf => (2, 0x80, 0xbf),
        0xe0 => (3, 0xa0, 0xbf),
        0xe1..=0xec | 0xee..=0xef => (3, 0x80, 0xbf),
        0xed => (3, 0x80, 0x9f),
        0xf0 => (4, 0x90, 0xbf),
        0xf1..=0xf3 => (4, 0x80, 0xbf),
        0xf4 => (4, 0x80, 0x8f),
        _ => return Sequence::Illegal(1),
    };
    let mut cp = match length {
        1 => lead as u32,
        2 => lead as u32 - 0xc0,
        3 => lead as u32 - 0xe0,
        _ => lead as u32 - 0xf0,
    };
    for i in 1..length {
        let Some(&b) = input.get(i) else {
            return Sequence::CutShort;
        };
        let (low, high) = if i == 1 { (low, high) } else { (0x80, 0xbf) };
        if b < low || b > high {
            return Sequence::Illegal(1);
        }
        cp = cp * 64 + (b as u32 - 0x80);
    }
    Sequence::Whole(cp, length)
}

/// How a Unicode text stands in bytes: RFC 3629, or one of the three schemes of
/// source document 002.
#[derive(Clone, Copy, PartialEq, Eq, Debug)]
pub enum Scheme {
    Utf8,
    Utf32Be,
    Utf32Le,
    /// Plain UTF-32: a byte order mark chooses the order.
    Utf32,
}

impl Scheme {
    pub const ALL: [Scheme; 4] = [Scheme::Utf8, Scheme::Utf32Be, Scheme::Utf32Le, Scheme::Utf32];

    pub fn name(self) -> &'static str {
        match self {
            Scheme::Utf8 => "UTF-8",
            Scheme::Utf32Be => "UTF-32BE",
            Scheme::Utf32Le => "UTF-32LE",
            Scheme::Utf32 => "UTF-32",
        }
    }
}

/// One sequence of UTF-32. A number over 10FFFF, and each half of a surrogate pair,
/// are illegal; fewer than four bytes are cut short, whatever they are.
fn cut_utf32(input: &[u8], value_of: fn([u8; 4]) -> u32) -> Sequence<u32> {
    let Some(four) = input.first_chunk() else {
        return Sequence::CutShort;
    };
    match value_of(*four) {
        value @ (0..=0xd7ff | 0xe000..=0x10_ffff) => Sequence::Whole(value, 4),
        _ => Sequence::Illegal(4),
    }
}

/// One sequence of a text. Plain UTF-32 is big-endian where no mark says
/// otherwise.
fn cut_character(scheme: Scheme, input: &[u8]) -> Sequence<u32> {
    match scheme {
        Scheme::Utf8 => cut_utf8(input),
        Scheme::Utf32Be | Scheme::Utf32 => cut_utf32(input, u32::from_be_bytes),
        Scheme::Utf32Le => cut_utf32(input, u32::from_le_bytes),
    }
}

/// The bytes of a code point. Plain UTF-32 is written big-endian.
fn character(scheme: Scheme, cp: u32) -> Vec<u8> {
    let c = char::from_u32(cp).expect("T6");
    match scheme {
        Scheme::Utf8 => c.to_string().into_bytes(),
        Scheme::Utf32Be | Scheme::Utf32 => cp.to_be_bytes().to_vec(),
        Scheme::Utf32Le => cp.to_le_bytes().to_vec(),
    }
}

/// What is written before any byte of the input is looked at.
fn mark_to_write(scheme: Scheme) -> Vec<u8> {
    match scheme {
        Scheme::Utf32 => vec![0x00, 0x00, 0xfe, 0xff],
        _ => Vec::new(),
    }
}

/// The scheme behind the front of a text, and how many bytes its mark has. In
/// all but plain UTF-32 an initial FEFF is text.
fn mark_read(scheme: Scheme, input: &[u8]) -> (Scheme, usize) {
    match (scheme, input) {
        (Scheme::Utf32, [0x00, 0x00, 0xfe, 0xff, ..]) => (Scheme::Utf32Be, 4),
        (Scheme::Utf32, [0xff, 0xfe, 0x00, 0x00, ..]) => (Scheme::Utf32Le, 4),
        _ => (scheme, 0),
    }
}

/// Bytes read and what they give.
type Step = (usize, Vec<u8>);

/// Why a conversion does not go on at a sequence.
enum Stop {
    CutShort,
    /// Of this length.
    Illegal(usize),
    Unassigned,
}

/// Goes through the input. `mark` is the first step, no sequence of the text;
/// `one` gives the step of the first sequence in what is left, or what stops
/// there. `skipped` is what is written for an illegal sequence with skipping on.
fn pipe(
    input: &[u8],
    output: &mut [u8],
    mark: Step,
    skipped: Option<Vec<u8>>,
    one: impl Fn(&[u8]) -> Result<Step, Stop>,
) -> Piped {
    let (mut read, mut written) = (0, 0);
    let mut step = mark;
    let (number, illegal) = loop {
        let (length, out) = step;
        if out.len() > output.len() - written {
            break (50, 0);
        }
        output[written..written + out.len()].copy_from_slice(&out);
        read += length;
        written += out.len();
        if read == input.len() {
            break (0, 0);
        }
        step = match (one(&input[read..]), &skipped) {
            (Ok(step), _) => step,
            // It is passed over by its length, and the conversion goes on.
            (Err(Stop::Illegal(length)), Some(instead)) => (length, instead.clone()),
            (Err(Stop::Illegal(length)), None) => break (52, length),
            (Err(Stop::CutShort), _) => break (51, 0),
            (Err(Stop::Unassigned), _) => break (53, 0),
        };
    };
    Piped { number, read: read as u64, written: written as u64, length: illegal as u64 }
}

/// The step of the first code in a frame, or what stops there.
fn one_code(t: &Table, lines: &Lines, rest: &[u8], scheme: Scheme, settings: Settings) -> Result<Step, Stop> {
    match cut_code(&t.rows, rest) {
        Sequence::CutShort => Err(Stop::CutShort),
        Sequence::Illegal(length) => Err(Stop::Illegal(length)),
        Sequence::Whole((), length) => match lines.reads(&rest[..length]) {
            Some(cp) => Ok((length, character(scheme, cp))),
            None if !settings.substitute => Err(Stop::Unassigned),
            None if length == 1 && t.subchar1.is_some() => Ok((length, character(scheme, 0x1a))),
            None => Ok((length, character(scheme, 0xfffd))),
        },
    }
}

/// The same for the first character in a text.
fn one_character(t: &Table, lines: &Lines, rest: &[u8], scheme: Scheme, settings: Settings) -> Result<Step, Stop> {
    match cut_character(scheme, rest) {
        Sequence::CutShort => Err(Stop::CutShort),
        Sequence::Illegal(length) => Err(Stop::Illegal(length)),
        Sequence::Whole(cp, length) => match lines.writes(cp, settings.fallback) {
            Some(code) => Ok((length, code.to_vec())),
            None if !settings.substitute => Err(Stop::Unassigned),
            None if lines.sub1.contains(&cp) => Ok((length, vec![t.subchar1.expect("T8")])),
            None => Ok((length, t.subchar.clone())),
        },
    }
}

/// With the table's lines at hand, for many frames.
pub fn to_unicode(
    t: &Table,
    lines: &Lines,
    input: &[u8],
    output: &mut [u8],
    scheme: Scheme,
    settings: Settings,
) -> Piped {
    let mark = (0, mark_to_write(scheme));
    // U+FFFD, never U+001A (S7).
    let skipped = settings.skip.then(|| character(scheme, 0xfffd));
    pipe(input, output, mark, skipped, |rest| one_code(t, lines, rest, scheme, settings))
}

pub fn from_unicode(
    t: &Table,
    lines: &Lines,
    input: &[u8],
    output: &mut [u8],
    scheme: Scheme,
    settings: Settings,
) -> Piped {
    let (scheme, length) = mark_read(scheme, input);
    let mark = (length, Vec::new());
    // subchar, never subchar1 (S7).
    let skipped = settings.skip.then(|| t.subchar.clone());
    pipe(input, output, mark, skipped, |rest| one_character(t, lines, rest, scheme, settings))
}

// ---------------------------------------------------------------------------
// Reading in pieces
// ---------------------------------------------------------------------------

#[derive(Clone, Copy, PartialEq, Eq, Debug)]
pub enum Way {
    /// From the table's bytes to Unicode.
    To,
    From,
}

/// A conversion, the same in all calls of one text.
#[derive(Clone, Copy, PartialEq, Eq, Debug)]
pub struct Pipe {
    pub way: Way,
    pub scheme: Scheme,
    pub settings: Settings,
}

impl Pipe {
    fn writes_mark(self) -> bool {
        self.way == Way::To && self.scheme == Scheme::Utf32
    }

    fn reads_mark(self) -> bool {
        self.way == Way::From && self.scheme == Scheme::Utf32
    }
}

/// What is kept between calls: bytes (as a code's bits), their count, the mark, the
/// standing answer, and the length that goes with a standing 52.
pub type Kept = [u32; 5];

pub const FRESH: Kept = [0; 5];

// Values of the mark. Only plain UTF-32 has one that is ever behind.
const AHEAD: u32 = 0;
const BIG: u32 = 1;
const LITTLE: u32 = 2;

/// The kept numbers by their meaning.
struct Held {
    bytes: Vec<u8>,
    mark: u32,
    standing: u32,
    length: u32,
}

impl Held {
    /// None is 42.
    fn of(t: &Table, pipe: Pipe, kept: &Kept) -> Option<Held> {
        let [bits, count, mark, standing, length] = *kept;
        let held = Held { bytes: code_of(bits, count)?, mark, standing, length };
        let fits = held.bytes_fit(t, pipe) && held.mark_fits(pipe) && held.standing_fits(pipe);
        fits.then_some(held)
    }

    fn numbers(&self) -> Kept {
        [bits_of(&self.bytes), self.bytes.len() as u32, self.mark, self.standing, self.length]
    }

    /// At most three bytes, an unfinished sequence; or, while skipping in UTF-8, one
    /// or two trail bytes. In UTF-32 any bytes are unfinished.
    fn bytes_fit(&self, t: &Table, pipe: Pipe) -> bool {
        let bytes = &self.bytes;
        let unfinished = bytes.is_empty()
            || match pipe.way {
                Way::To => matches!(cut_code(&t.rows, bytes), Sequence::CutShort),
                Way::From => matches!(cut_character(pipe.scheme, bytes), Sequence::CutShort),
            };
        let skips_utf8 = pipe.way == Way::From && pipe.scheme == Scheme::Utf8 && pipe.settings.skip;
        let trails = bytes.len() <= 2 && bytes.iter().all(|b| (0x80..=0xbf).contains(b));
        bytes.len() <= 3 && (unfinished || skips_utf8 && trails)
    }

    /// The first call that is not 50 writes the mark, so nothing is kept before it.
    fn mark_fits(&self, pipe: Pipe) -> bool {
        match self.mark {
            AHEAD => !pipe.writes_mark() || self.bytes.is_empty() && self.standing == 0,
            BIG => pipe.writes_mark() || pipe.reads_mark(),
            LITTLE => pipe.reads_mark(),
            _ => false,
        }
    }

    /// 51 stands for bytes that are kept. An illegal sequence has at least those,
    /// and towards the panel the length of a code unit.
    fn standing_fits(&self, pipe: Pipe) -> bool {
        match (self.standing, pipe.way) {
            (0 | 53, _) => self.length == 0,
            (51, _) => self.length == 0 && !self.bytes.is_empty(),
            (52, Way::To) => (1..=4).contains(&self.length) && self.bytes.len() <= self.length as usize,
            (52, Way::From) => self.length == if pipe.scheme == Scheme::Utf8 { 1 } else { 4 },
            _ => false,
        }
    }

    /// The standing answer: nothing read, written or changed.
    fn stands(&self) -> Option<Piped> {
        (self.standing != 0).then(|| nothing_done(self.standing, self.length as usize))
    }

    /// Writes the mark if it is ahead. Gives how much is written; None where it does
    /// not fit.
    fn begin(&mut self, pipe: Pipe, output: &mut [u8]) -> Option<usize> {
        if !pipe.writes_mark() || self.mark != AHEAD {
            return Some(0);
        }
        let mark = mark_to_write(pipe.scheme);
        output.get_mut(..mark.len())?.copy_from_slice(&mark);
        self.mark = BIG;
        Some(mark.len())
    }
}

fn nothing_done(number: u32, length: usize) -> Piped {
    Piped { number, read: 0, written: 0, length: length as u64 }
}

/// The step for the bytes at hand, and the mark behind it. Cut short means that
/// another byte is needed.
fn next_step(t: &Table, lines: &Lines, pipe: Pipe, mark: u32, hand: &[u8]) -> Result<(Step, u32), Stop> {
    if hand.is_empty() {
        return Err(Stop::CutShort);
    }
    if pipe.way == Way::To {
        let step = one_code(t, lines, hand, pipe.scheme, pipe.settings);
        return skipped(pipe, step, || character(pipe.scheme, 0xfffd)).map(|step| (step, mark));
    }
    if pipe.reads_mark() && mark == AHEAD {
        match mark_read(pipe.scheme, hand) {
            (_, 0) => {}
            (order, length) => return Ok(((length, Vec::new()), if order == Scheme::Utf32Le { LITTLE } else { BIG })),
        }
    }
    let scheme = if mark == LITTLE { Scheme::Utf32Le } else { pipe.scheme };
    // Plain UTF-32 is big-endian once four bytes without a mark are through.
    let behind = if pipe.reads_mark() { mark.max(BIG) } else { mark };
    let step = one_character(t, lines, hand, scheme, pipe.settings);
    skipped(pipe, step, || t.subchar.clone()).map(|step| (step, behind))
}

/// With skipping on, an illegal sequence gives what is written instead.
fn skipped(pipe: Pipe, step: Result<Step, Stop>, instead: impl Fn() -> Vec<u8>) -> Result<Step, Stop> {
    match step {
        Err(Stop::Illegal(length)) if pipe.settings.skip => Ok((length, instead())),
        step => step,
    }
}

/// One call with a piece, byte by byte.
pub fn piece(t: &Table, lines: &Lines, pipe: Pipe, kept: &mut Kept, piece: &[u8], output: &mut [u8]) -> Piped {
    let Some(mut held) = Held::of(t, pipe, kept) else {
        return nothing_done(42, 0);
    };
    if let Some(answer) = held.stands() {
        return answer;
    }
    let Some(mut written) = held.begin(pipe, output) else {
        return nothing_done(50, 0);
    };
    // Bytes at hand are not yet through; so many of the piece were taken.
    let (mut hand, mut taken) = (held.bytes.clone(), 0);
    let (number, length) = loop {
        match next_step(t, lines, pipe, held.mark, &hand) {
            Ok(((length, out), mark)) => {
                let Some(place) = output.get_mut(written..written + out.len()) else {
                    break (50, 0);
                };
                place.copy_from_slice(&out);
                written += out.len();
                hand.drain(..length);
                held.mark = mark;
            }
            Err(Stop::CutShort) if taken < piece.len() => {
                hand.push(piece[taken]);
                taken += 1;
            }
            Err(Stop::CutShort) => break (0, 0),
            Err(Stop::Illegal(length)) => break (52, length),
            Err(Stop::Unassigned) => break (53, 0),
        }
    };
    let mut read = taken;
    if number != 0 {
        // Those of the piece are given back; those of earlier calls stay kept.
        let back = taken.min(hand.len());
        read -= back;
        hand.truncate(hand.len() - back);
    }
    held.bytes = hand;
    if number != 50 {
        (held.standing, held.length) = (number, length as u32);
    }
    *kept = held.numbers();
    Piped { number, read: read as u64, written: written as u64, length: length as u64 }
}

/// The closing call: 51 if bytes are kept; else a fresh start, the mark being
/// written if no call has done so.
pub fn close(t: &Table, pipe: Pipe, kept: &mut Kept, output: &mut [u8]) -> Piped {
    let Some(mut held) = Held::of(t, pipe, kept) else {
        return nothing_done(42, 0);
    };
    if let Some(answer) = held.stands() {
        return answer;
    }
    if !held.bytes.is_empty() {
        held.standing = 51;
        *kept = held.numbers();
        return nothing_done(51, 0);
    }
    let Some(written) = held.begin(pipe, output) else {
        return nothing_done(50, 0);
    };
    *kept = FRESH;
    Piped { number: 0, read: 0, written: written as u64, length: 0 }
}

// ---------------------------------------------------------------------------
// The audit of codes
// ---------------------------------------------------------------------------

#[derive(Clone, Copy, PartialEq, Eq, Debug)]
pub struct Audited {
    pub number: u32,
    pub entries: u64,
    pub bits: u32,
    pub len: u32,
    pub finished: bool,
    pub count: u64,
}

/// bits + 2^32 * length + 2^40 * cause.
pub fn entry_number(code: &[u8], cause: u64) -> u64 {
    bits_of(code) as u64 + ((code.len() as u64) << 32) + (cause << 40)
}

/// None if the code comes home, else the lowest cause that holds.
pub fn cause(t: &Table, lines: &Lines, code: &[u8], fallback: bool) -> Option<u64> {
    if complete(&t.rows, code) == Some(Cell::Unassigned) {
        return Some(1);
    }
    let Some(cp) = lines.reads(code) else {
        return Some(2);
    };
    match lines.writes(cp, fallback) {
        Some(back) if back == code => None,
        Some(_) => Some(3),
        None => Some(4),
    }
}

/// The complete codes of a table in byte order.
pub struct Codes<'a> {
    rows: &'a [Row],
    /// For rows already asked: the first way from there to an end.
    first: HashMap<usize, Option<Vec<u8>>>,
}

impl<'a> Codes<'a> {
    pub fn of(t: &'a Table) -> Codes<'a> {
        Codes { rows: &t.rows, first: HashMap::new() }
    }

    /// The first way from a row to an end. T3 keeps this from running in a
    /// circle when it starts at row 0.
    fn first_from(&mut self, row: usize) -> Option<Vec<u8>> {
        if let Some(known) = self.first.get(&row) {
            return known.clone();
        }
        let found = (0..=255).find_map(|b| self.first_with(row, b));
        self.first.insert(row, found.clone());
        found
    }

    /// The same among those that begin with byte `b`.
    fn first_with(&mut self, row: usize, b: u8) -> Option<Vec<u8>> {
        match self.rows[row][b as usize] {
            Cell::Illegal => None,
            Cell::Lead(n) => {
                let rest = self.first_from(n as usize)?;
                Some([&[b], rest.as_slice()].concat())
            }
            _ => Some(vec![b]),
        }
    }

    /// The first way behind `code`.
    fn behind(&mut self, row: usize, code: &[u8]) -> Option<Vec<u8>> {
        let (&b, rest) = code.split_first()?;
        if let (Cell::Lead(n), false) = (self.rows[row][b as usize], rest.is_empty()) {
            if let Some(way) = self.behind(n as usize, rest) {
                return Some([&[b], way.as_slice()].concat());
            }
        }
        (b as usize + 1..256).find_map(|c| self.first_with(row, c as u8))
    }

    /// The next complete code after a position: no bytes are the beginning.
    pub fn after(&mut self, position: &[u8]) -> Option<Vec<u8>> {
        if position.is_empty() {
            self.first_from(0)
        } else {
            self.behind(0, position)
        }
    }
}

/// A position: the beginning (no bytes), or a complete code.
fn position_of(t: &Table, bits: u32, len: u32) -> Option<Vec<u8>> {
    let code = code_of(bits, len)?;
    (code.is_empty() || complete(&t.rows, &code).is_some()).then_some(code)
}

pub fn audit(t: &Table, fallback: bool, bits: u32, len: u32, allowance: u64, space: &mut [u64]) -> Audited {
    let Some(mut position) = position_of(t, bits, len) else {
        return audit_refused(40, bits, len);
    };
    let lines = Lines::of(t);
    let mut codes = Codes::of(t);
    let (mut entries, mut count) = (0, 0);
    let mut next = codes.after(&position);
    while count < allowance {
        let Some(code) = next.clone() else { break };
        if let Some(cause) = cause(t, &lines, &code, fallback) {
            if entries == space.len() {
                break;
            }
            space[entries] = entry_number(&code, cause);
            entries += 1;
        }
        count += 1;
        next = codes.after(&code);
        position = code;
    }
    Audited {
        number: 0,
        entries: entries as u64,
        bits: bits_of(&position),
        len: position.len() as u32,
        finished: next.is_none(),
        count,
    }
}

/// A refusal: no entries, count 0, the position as it came, not finished.
pub fn audit_refused(number: u32, bits: u32, len: u32) -> Audited {
    Audited { number, entries: 0, bits, len, finished: false, count: 0 }
}

/// Every complete code by plain enumeration, or None if that takes more than
/// `most` rows to walk. Used to check the walk above.
pub fn all_codes(t: &Table, most: usize) -> Option<Vec<Vec<u8>>> {
    let mut found = Vec::new();
    let mut ways: Vec<(usize, Vec<u8>)> = vec![(0, Vec::new())];
    let mut walked = 0;
    while let Some((row, way)) = ways.pop() {
        walked += 1;
        if walked > most {
            return None;
        }
        for b in 0..=255u8 {
            let longer = [way.as_slice(), &[b]].concat();
            match t.rows[row][b as usize] {
                Cell::Illegal => {}
                Cell::Lead(n) => ways.push((n as usize, longer)),
                _ => found.push(longer),
            }
        }
    }
    found.sort_by(|a, b| byte_order(a, b));
    Some(found)
}

/// The first differing byte decides.
pub fn byte_order(a: &[u8], b: &[u8]) -> Ordering {
    for (x, y) in a.iter().zip(b) {
        if x != y {
            return x.cmp(y);
        }
    }
    a.len().cmp(&b.len())
}
