//! Seeded generators: tables, their texts in many dresses, damaged and hostile
//! texts, memories, frames, UTF-8 and UTF-32.

use crate::oracle::{self, complete, form, Cell, Kept, Kind, Line, Memory, Pipe, Record, Row, Scheme, Table, Way};
use std::collections::HashSet;

// ---------------------------------------------------------------------------
// Random numbers: splitmix64
// ---------------------------------------------------------------------------

pub struct Rng(u64);

impl Rng {
    pub fn new(seed: u64) -> Rng {
        Rng(seed)
    }

    pub fn next(&mut self) -> u64 {
        self.0 = self.0.wrapping_add(0x9e37_79b9_7f4a_7c15);
        let mut z = self.0;
        z = (z ^ (z >> 30)).wrapping_mul(0xbf58_476d_1ce4_e5b9);
        z = (z ^ (z >> 27)).wrapping_mul(0x94d0_49bb_1331_11eb);
        z ^ (z >> 31)
    }

    /// 0 to n - 1.
    pub fn below(&mut self, n: usize) -> usize {
        (self.next() % n as u64) as usize
    }

    /// a to b, both included.
    pub fn range(&mut self, a: usize, b: usize) -> usize {
        a + self.below(b - a + 1)
    }

    /// True once in n times.
    pub fn one_in(&mut self, n: usize) -> bool {
        self.below(n) == 0
    }

    pub fn byte(&mut self) -> u8 {
        self.next() as u8
    }

    pub fn pick<'a, T>(&mut self, from: &'a [T]) -> &'a T {
        &from[self.below(from.len())]
    }

    pub fn shuffle<T>(&mut self, what: &mut [T]) {
        for i in (1..what.len()).rev() {
            what.swap(i, self.below(i + 1));
        }
    }
}

// ---------------------------------------------------------------------------
// Tables
// ---------------------------------------------------------------------------

/// One entry of a row as it will be written.
#[derive(Clone, Debug)]
pub struct Entry {
    pub from: u8,
    pub to: u8,
    pub cell: Cell,
}

/// A table and how its rows are written.
#[derive(Clone, Debug)]
pub struct Made {
    pub table: Table,
    pub rows: Vec<Vec<Entry>>,
    pub sbcs: bool,
    /// SBCS without any row.
    pub implied: bool,
}

pub fn cells(entries: &[Entry]) -> Row {
    let mut row = vec![Cell::Illegal; 256];
    for e in entries {
        for b in e.from..=e.to {
            row[b as usize] = e.cell;
        }
    }
    row
}

fn random_range(rng: &mut Rng) -> (u8, u8) {
    match rng.below(6) {
        0 | 1 => {
            let b = rng.byte();
            (b, b)
        }
        2 | 3 => {
            let b = rng.byte();
            (b, b.saturating_add(rng.below(9) as u8))
        }
        4 => {
            let (a, b) = (rng.byte(), rng.byte());
            (a.min(b), a.max(b))
        }
        _ => *rng.pick(&[(0, 255), (0, 127), (128, 255), (0, 0), (255, 255), (0x40, 0x7e)]),
    }
}

/// Rows that keep T2, and T3 for `max`: each row that is reached has a depth,
/// and leads only to deeper ones. Rows without depth are never reached and may
/// run in circles.
fn random_rows(rng: &mut Rng, n: usize, max: usize) -> Vec<Vec<Entry>> {
    let depth: Vec<Option<usize>> = (0..n)
        .map(|r| match r {
            0 => Some(0),
            _ if max == 1 || rng.one_in(6) => None,
            _ if r < max => Some(r), // a chain as deep as max allows
            _ => Some(rng.range(1, max - 1)),
        })
        .collect();
    let mut rows = Vec::new();
    for r in 0..n {
        let targets: Vec<u16> = (1..n)
            .filter(|&t| match (depth[r], depth[t]) {
                (None, _) => true,
                (Some(_), None) => false,
                (Some(a), Some(b)) => b > a,
            })
            .map(|t| t as u16)
            .collect();
        let mut entries = Vec::new();
        if r == 0 || !rng.one_in(8) {
            for _ in 0..rng.range(1, 7) {
                let (from, to) = random_range(rng);
                let cell = match rng.below(12) {
                    0..=3 => Cell::Bmp,
                    4 | 5 => Cell::Any,
                    6 => Cell::Unassigned,
                    7 => Cell::Illegal,
                    _ if targets.is_empty() => Cell::Bmp,
                    _ => Cell::Lead(*rng.pick(&targets)),
                };
                entries.push(Entry { from, to, cell });
            }
        }
        rows.push(entries);
    }
    rows
}

/// A random walk to a complete code.
pub fn random_code(rng: &mut Rng, rows: &[Row]) -> Option<Vec<u8>> {
    'tries: for _ in 0..30 {
        let mut code = Vec::new();
        let mut row = 0;
        loop {
            let start = rng.below(256);
            let found = (0..256).map(|i| (start + i) % 256).find(|&b| rows[row][b] != Cell::Illegal);
            let Some(b) = found else { continue 'tries };
            code.push(b as u8);
            match rows[row][b] {
                Cell::Lead(n) if code.len() < 5 && (n as usize) < rows.len() => row = n as usize,
                Cell::Lead(_) => continue 'tries,
                _ => return Some(code),
            }
        }
    }
    None
}

/// A code point that keeps T6.
pub fn random_cp(rng: &mut Rng, above_ffff: bool) -> u32 {
    loop {
        let cp = match rng.below(if above_ffff { 8 } else { 6 }) {
            0 => rng.below(0x80),
            1 => rng.below(0x800),
            2 => rng.range(0x2200, 0x2220),
            3 => rng.below(0x1_0000),
            4 => *rng.pick(&[0, 0x1a, 0x7f, 0x80, 0x7ff, 0x800, 0xd7ff, 0xe000, 0xfeff, 0xfffd, 0xfffe, 0xffff]),
            5 => rng.range(0xe000, 0xe020),
            6 => rng.range(0x1_0000, 0x10_ffff),
            _ => *rng.pick(&[0x1_0000, 0x1_ffff, 0xf_ffff, 0x10_0000, 0x10_fffe, 0x10_ffff]),
        } as u32;
        if !(0xd800..=0xdfff).contains(&cp) {
            return cp;
        }
    }
}

/// Tries to put a line into the table without breaking a rule.
pub struct Filler {
    read: HashSet<Vec<u8>>,
    written: HashSet<u32>,
}

impl Filler {
    pub fn new() -> Filler {
        Filler { read: HashSet::new(), written: HashSet::new() }
    }

    /// Whether no line so far reads the same code or writes the same code point;
    /// if so, this one now does.
    pub fn take(&mut self, line: &Line) -> bool {
        let (reads, writes) = (oracle::is_read(line.kind), oracle::is_of_code_points(line.kind));
        if reads && self.read.contains(&line.code) || writes && self.written.contains(&line.cp) {
            return false;
        }
        if reads {
            self.read.insert(line.code.clone());
        }
        if writes {
            self.written.insert(line.cp);
        }
        true
    }

    /// A `|1` line is taken only behind a line that reads its code.
    fn add(&mut self, t: &mut Table, line: Line) -> bool {
        let fits = oracle::keeps_t5(t, &line)
            && oracle::keeps_t6(&line)
            && oracle::keeps_t7(&line)
            && oracle::keeps_t8(t, &line)
            && (line.kind != Kind::FromUnicode || self.read.contains(&line.code))
            && t.lines.len() < oracle::MAX_LINES
            && self.take(&line);
        if fits {
            t.lines.push(line);
        }
        fits
    }
}

/// Lines of all indicators, in `tries` tries up to `most`; code points and codes
/// meet often. A `|1` line has the code of another one, and at times the code
/// point of a third.
pub fn random_lines(rng: &mut Rng, t: &mut Table, tries: usize, most: usize) {
    let mut filler = Filler::new();
    let rows = t.rows.clone();
    for _ in 0..tries {
        if t.lines.len() == most {
            break;
        }
        let old = if t.lines.is_empty() { None } else { Some(rng.pick(&t.lines).clone()) };
        let kind = *rng.pick(&[Kind::Both, Kind::Both, Kind::Both, Kind::FromUnicode, Kind::ToUnicode, Kind::Sub1]);
        let code = match (kind, t.subchar1, &old) {
            (Kind::Sub1, Some(b), _) => vec![b],
            (Kind::FromUnicode, _, Some(_)) => rng.pick(&t.lines).code.clone(),
            (_, _, Some(old)) if rng.one_in(4) => old.code.clone(),
            _ => match random_code(rng, &rows) {
                Some(code) => code,
                None => continue,
            },
        };
        let above = complete(&rows, &code) == Some(Cell::Any) || kind == Kind::Sub1;
        let cp = match &old {
            Some(old) if rng.one_in(3) => old.cp,
            _ => random_cp(rng, above),
        };
        filler.add(t, Line { cp, code, kind });
    }
    rng.shuffle(&mut t.lines);
}

/// A valid table of any shape, with up to about `lines` lines.
pub fn random_table(rng: &mut Rng, lines: usize) -> Made {
    let shape = rng.below(12);
    let max = match shape {
        0..=2 => 1,
        3..=6 => 2,
        7 | 8 => 3,
        _ => 4,
    };
    let implied = shape == 0;
    let sbcs = implied || shape == 1 || rng.one_in(8);
    let n = if implied {
        1
    } else if rng.one_in(8) {
        16
    } else {
        rng.range(1, 6).max(if rng.one_in(2) { max } else { 1 })
    };
    let mut rows =
        if implied { vec![vec![Entry { from: 0, to: 255, cell: Cell::Bmp }]] } else { random_rows(rng, n, max) };
    let mut meant: Vec<Row> = rows.iter().map(|r| cells(r)).collect();
    let mut subchar = random_code(rng, &meant);
    if subchar.is_none() {
        let b = rng.byte();
        rows[0].push(Entry { from: b, to: b, cell: Cell::Bmp });
        meant[0] = cells(&rows[0]);
        subchar = Some(vec![b]);
    }
    // mb_cur_max may be larger than the rows need.
    let stated = if rng.one_in(5) { rng.range(max, 4) } else { max };
    let one_byte: Vec<u8> = (0..=255).filter(|&b| complete(&meant, &[b]).is_some()).collect();
    let subchar1 = if one_byte.is_empty() || rng.one_in(2) { None } else { Some(*rng.pick(&one_byte)) };
    let mut table = Table {
        rows: meant,
        lines: Vec::new(),
        min: if rng.one_in(4) { rng.range(1, stated) } else { 1 } as u32,
        max: stated as u32,
        subchar: subchar.expect("set above"),
        subchar1,
    };
    let tries = if rng.one_in(10) { 0 } else { rng.below(lines + 1) };
    random_lines(rng, &mut table, tries, oracle::MAX_LINES);
    Made { table, rows, sbcs, implied }
}

/// A table of two-byte codes with exactly `n` lines.
pub fn full_table(rng: &mut Rng, n: usize) -> Made {
    let rows = vec![
        vec![Entry { from: 0x00, to: 0x7f, cell: Cell::Bmp }, Entry { from: 0x80, to: 0xff, cell: Cell::Lead(1) }],
        vec![Entry { from: 0, to: 255, cell: Cell::Any }],
    ];
    let mut table = Table {
        rows: rows.iter().map(|r| cells(r)).collect(),
        lines: Vec::new(),
        min: 1,
        max: 2,
        subchar: vec![0x80, 0x80],
        subchar1: Some(0x1a),
    };
    let mut filler = Filler::new();
    while table.lines.len() < n {
        let kind = *rng.pick(&[Kind::Both, Kind::Both, Kind::FromUnicode, Kind::ToUnicode]);
        let code = match kind == Kind::FromUnicode && !table.lines.is_empty() {
            true => rng.pick(&table.lines).code.clone(),
            false => random_code(rng, &table.rows).expect("there are many"),
        };
        let above = code.len() == 2;
        let cp = if above { rng.range(0x1_0000, 0x10_ffff) as u32 } else { random_cp(rng, false) };
        filler.add(&mut table, Line { cp, code, kind });
    }
    match rng.below(3) {
        0 => table.lines.sort_by_key(|l| (l.code.clone(), l.cp)),
        1 => table.lines.sort_by_key(|l| std::cmp::Reverse(l.cp)),
        _ => rng.shuffle(&mut table.lines),
    }
    Made { table, rows, sbcs: false, implied: false }
}

/// A table of a dozen bytes and codes of up to `max`, two or more: row 0 has every
/// kind of cell, and what breaks a sequence can often begin one.
pub fn narrow_table(rng: &mut Rng, max: usize) -> Made {
    let mut bytes: Vec<u8> = (0..=255).collect();
    rng.shuffle(&mut bytes);
    let few = &bytes[..12];
    // Each row leads to the next one or to the last, which is empty.
    let empty = Cell::Lead(max as u16);
    let mut rows = Vec::new();
    for r in 0..max {
        let next = if r + 1 < max { Cell::Lead(r as u16 + 1) } else { Cell::Illegal };
        let mut kinds = vec![Cell::Bmp, Cell::Any, Cell::Unassigned, next, Cell::Illegal];
        if r + 1 < max {
            kinds.push(empty);
        }
        let cell = |i: usize, rng: &mut Rng| match (r, i) {
            (0, _) if i < kinds.len() => kinds[i],
            _ if rng.one_in(3) => next,
            _ => *rng.pick(&kinds),
        };
        rows.push(few.iter().enumerate().map(|(i, &b)| Entry { from: b, to: b, cell: cell(i, rng) }).collect());
    }
    rows.push(Vec::new());
    let meant: Vec<Row> = rows.iter().map(|r: &Vec<Entry>| cells(r)).collect();
    let subchar = random_code(rng, &meant).unwrap_or(vec![few[0]]);
    let subchar1 = if rng.one_in(2) { Some(few[1]) } else { None };
    let mut table = Table { rows: meant, lines: Vec::new(), min: 1, max: max as u32, subchar, subchar1 };
    random_lines(rng, &mut table, 30, oracle::MAX_LINES);
    Made { table, rows, sbcs: false, implied: false }
}

/// Whether some line reads the code.
fn is_read_in(t: &Table, code: &[u8]) -> bool {
    t.lines.iter().any(|l| oracle::is_read(l.kind) && l.code == code)
}

/// The table changed so that some `|1` line's code is read by no line, all other
/// rules being kept; None where this one does not serve.
pub fn with_void(rng: &mut Rng, table: &Table) -> Option<Table> {
    let mut t = table.clone();
    let places = |kind: fn(Kind) -> bool| -> Vec<usize> {
        (0..table.lines.len()).filter(|&i| kind(table.lines[i].kind)).collect()
    };
    let fallbacks = places(|kind| kind == Kind::FromUnicode);
    let code = match rng.below(5) {
        0 if !fallbacks.is_empty() => {
            // The line that reads a fallback's code is left out.
            let code = table.lines[*rng.pick(&fallbacks)].code.clone();
            t.lines.retain(|l| !oracle::is_read(l.kind) || l.code != code);
            code
        }
        1 if !fallbacks.is_empty() => {
            // A fallback goes elsewhere.
            let i = *rng.pick(&fallbacks);
            t.lines[i].code = random_code(rng, &t.rows)?;
            t.lines[i].code.clone()
        }
        2 | 3 => {
            // A line that reads becomes a fallback, a fallback's reader or another.
            let readers = places(oracle::is_read);
            let i = *readers.get(rng.below(readers.len().max(1)))?;
            t.lines[i].kind = Kind::FromUnicode;
            t.lines[i].code.clone()
        }
        _ => {
            // One fallback more, at times to the code of `|2` lines.
            let code = match t.subchar1 {
                Some(b) if rng.one_in(3) => vec![b],
                _ => random_code(rng, &t.rows)?,
            };
            let above = complete(&t.rows, &code) == Some(Cell::Any);
            let line = Line { cp: random_cp(rng, above), code: code.clone(), kind: Kind::FromUnicode };
            t.lines.insert(rng.below(t.lines.len() + 1), line);
            code
        }
    };
    (!is_read_in(&t, &code) && oracle::keeps_t1_to_t9(&t)).then_some(t)
}

// ---------------------------------------------------------------------------
// Texts
// ---------------------------------------------------------------------------

/// What a line of a document is there for.
#[derive(Clone, Copy, PartialEq, Debug)]
pub enum Tag {
    Name,
    Min,
    Max,
    Class,
    Subchar,
    Subchar1,
    State(usize),
    Charmap,
    Mapping(usize),
    End,
    /// Blank, comment, ignored key.
    Noise,
}

/// A text line by line, without line ends.
#[derive(Clone)]
pub struct Doc {
    pub lines: Vec<(Tag, Vec<u8>)>,
    ends: u8,
    last_end: bool,
}

struct Style {
    blanks: u8,
    case: u8,
    comments: usize,
}

impl Style {
    fn random(rng: &mut Rng) -> Style {
        Style { blanks: rng.below(3) as u8, case: rng.below(3) as u8, comments: *rng.pick(&[2, 6, 1000]) }
    }

    /// Blanks where they may stand.
    fn gap(&self, rng: &mut Rng) -> &'static str {
        match self.blanks {
            0 => "",
            1 => " ",
            _ => *rng.pick(&["", " ", "\t", "  ", " \t ", "\t\t"]),
        }
    }

    /// A hexadecimal number of at least `width` digits.
    fn hex(&self, rng: &mut Rng, value: u32, width: usize) -> String {
        let digits = format!("{value:0width$x}");
        match self.case {
            0 => digits,
            1 => digits.to_uppercase(),
            _ => digits.chars().map(|c| if rng.one_in(2) { c.to_ascii_uppercase() } else { c }).collect(),
        }
    }

    fn bytes(&self, rng: &mut Rng, code: &[u8]) -> String {
        let mut out = String::new();
        for &b in code {
            out += &format!("{}\\x{}", self.gap(rng), self.hex(rng, b as u32, 2));
        }
        out
    }

    fn number(&self, rng: &mut Rng, value: u32) -> String {
        let width = rng.range(1, 2);
        self.hex(rng, value, width)
    }

    fn row(&self, rng: &mut Rng, entries: &[Entry], may_open: bool) -> String {
        let mut out = String::new();
        if may_open && !entries.is_empty() && rng.one_in(4) {
            out += &format!("{}initial{},", self.gap(rng), self.gap(rng));
        }
        for (i, e) in entries.iter().enumerate() {
            let mut tokens: Vec<String> = Vec::new();
            if i > 0 {
                tokens.push(",".into());
            }
            tokens.push(self.number(rng, e.from as u32));
            if e.from != e.to || rng.one_in(8) {
                tokens.push("-".into());
                tokens.push(self.number(rng, e.to as u32));
            }
            let mut end = |rng: &mut Rng, letter: &str| {
                if rng.one_in(4) {
                    tokens.push(":".into());
                    tokens.push(rng.pick(&["0", "00"]).to_string());
                }
                tokens.push(".".into());
                if !letter.is_empty() {
                    tokens.push(letter.into());
                }
            };
            match e.cell {
                Cell::Bmp if rng.one_in(3) => end(rng, ""),
                Cell::Bmp => {}
                Cell::Any => end(rng, "p"),
                Cell::Unassigned => end(rng, "u"),
                Cell::Illegal => end(rng, "i"),
                Cell::Lead(n) => {
                    tokens.push(":".into());
                    tokens.push(self.number(rng, n as u32));
                }
            }
            for token in tokens {
                out += self.gap(rng);
                out += &token;
            }
        }
        out
    }

    fn mapping(&self, rng: &mut Rng, line: &Line) -> String {
        let least = format!("{:x}", line.cp).len();
        let width = rng.range(least, 6);
        let mut out = format!("<U{}>", self.hex(rng, line.cp, width));
        out += &self.bytes(rng, &line.code);
        let indicator = match line.kind {
            Kind::Both if rng.one_in(4) => "",
            Kind::Both => "|0",
            Kind::FromUnicode => "|1",
            Kind::Sub1 => "|2",
            Kind::ToUnicode => "|3",
        };
        out + self.gap(rng) + indicator
    }
}

/// Bytes that may stand in a comment.
fn comment(rng: &mut Rng) -> Vec<u8> {
    let mut out = vec![b'#'];
    for _ in 0..rng.below(9) {
        let b = match rng.below(4) {
            0 => rng.byte(),
            1 => *rng.pick(b"\"#\\<>\r\t |"),
            _ => rng.range(0x20, 0x7e) as u8,
        };
        out.push(if b == b'\n' { b'x' } else { b });
    }
    out
}

fn ignored_key(rng: &mut Rng) -> Vec<u8> {
    rng.pick(&[
        &b"<a> b"[..],
        b"<char_name_mask> \"AXXXX\"",
        b"<icu:charsetFamily> \"ASCII\" x",
        b"<U0041> \\x41 |0",
        b"<U0041>+<U0042> \\x41 |4",
        b"<a\"b> c",
        b"<a> \"x # \xff\" y",
        b"<a> \x01\x7f\x00",
        b"<MB_CUR_MAX> 9",
        b"<subchar2>",
        b"<x>CHARMAP",
        b"<!> <code_set_name> \"x\"",
    ])
    .to_vec()
}

/// The document of a table in a random dress.
pub fn document(rng: &mut Rng, made: &Made) -> Doc {
    let style = Style::random(rng);
    let t = &made.table;
    // (tag, content, open): an open quote takes no blanks or comment behind.
    let mut keys: Vec<(Tag, Vec<u8>, bool)> = Vec::new();
    let line = |key: &str, gap: &str, value: &[u8]| [b"<", key.as_bytes(), b">", gap.as_bytes(), value].concat();

    let name: &[u8] = *rng.pick(&[&b"t"[..], b"kettle-1", b" ", b"#", b"a # b", b"\xe4\r\x80x", b"<U0041>", b"\x01"]);
    let open = rng.one_in(5);
    let value = if open { [b"\"", name].concat() } else { [b"\"", name, b"\""].concat() };
    keys.push((Tag::Name, line("code_set_name", style.gap(rng), &value), open));
    let digit = |n: u32| vec![b'0' + n as u8];
    keys.push((Tag::Min, line("mb_cur_min", style.gap(rng), &digit(t.min)), false));
    keys.push((Tag::Max, line("mb_cur_max", style.gap(rng), &digit(t.max)), false));
    let class: &[u8] = if made.sbcs { b"SBCS" } else { b"MBCS" };
    let open = rng.one_in(5);
    let value = if open { [b"\"", class].concat() } else { [b"\"", class, b"\""].concat() };
    keys.push((Tag::Class, line("uconv_class", style.gap(rng), &value), open));
    let value = style.bytes(rng, &t.subchar);
    keys.push((Tag::Subchar, line("subchar", style.gap(rng), value.as_bytes()), false));
    if let Some(b) = t.subchar1 {
        let value = style.bytes(rng, &[b]);
        keys.push((Tag::Subchar1, line("subchar1", style.gap(rng), value.as_bytes()), false));
    }
    if rng.one_in(2) {
        rng.shuffle(&mut keys);
    }
    // Rows among the keys, in their own order.
    if !made.implied {
        let mut at = keys.len();
        for (r, entries) in made.rows.iter().enumerate().rev() {
            if rng.one_in(3) {
                at = rng.below(at + 1);
            }
            let row = style.row(rng, entries, r == 0);
            keys.insert(at, (Tag::State(r), line("icu:state", style.gap(rng), row.as_bytes()), false));
        }
    }

    let mut plan: Vec<(Tag, Vec<u8>, bool)> = Vec::new();
    for key in keys {
        if rng.one_in(style.comments * 3) {
            plan.push((Tag::Noise, ignored_key(rng), false));
        }
        plan.push(key);
    }
    plan.push((Tag::Charmap, b"CHARMAP".to_vec(), false));
    for (i, l) in t.lines.iter().enumerate() {
        plan.push((Tag::Mapping(i), style.mapping(rng, l).into_bytes(), false));
    }
    let end = [&b"END"[..], *rng.pick(&[&b" "[..], b"\t", b"  ", b" \t"]), b"CHARMAP"].concat();
    plan.push((Tag::End, end, false));

    let mut lines = Vec::new();
    for (tag, content, open) in plan {
        while rng.one_in(style.comments) {
            let noise = if rng.one_in(2) { comment(rng) } else { Vec::new() };
            lines.push((Tag::Noise, [style.gap(rng).as_bytes(), &noise].concat()));
        }
        let mut full = [style.gap(rng).as_bytes(), &content].concat();
        if !open {
            full.extend(style.gap(rng).bytes());
            if rng.one_in(style.comments) {
                full.extend(comment(rng));
            }
        }
        lines.push((tag, full));
    }
    if rng.one_in(3) {
        lines.push((Tag::Noise, comment(rng)));
    }
    Doc { lines, ends: rng.below(3) as u8, last_end: !rng.one_in(3) }
}

impl Doc {
    pub fn text(&self, rng: &mut Rng) -> Vec<u8> {
        let mut out = Vec::new();
        for (i, (_, line)) in self.lines.iter().enumerate() {
            out.extend(line);
            let last = i + 1 == self.lines.len();
            if last && !self.last_end && !line.is_empty() {
                break;
            }
            let cr_lf = match self.ends {
                0 => false,
                1 => true,
                _ => rng.one_in(2),
            };
            out.extend(if cr_lf { &b"\r\n"[..] } else { b"\n" });
        }
        out
    }

    fn find(&self, tag: Tag) -> usize {
        self.lines.iter().position(|l| l.0 == tag).expect("the line is there")
    }

    fn insert(&mut self, at: usize, line: impl Into<Vec<u8>>) {
        self.lines.insert(at, (Tag::Noise, line.into()));
    }

    fn replace(&mut self, at: usize, line: impl Into<Vec<u8>>) {
        self.lines[at].1 = line.into();
    }
}

pub fn text_of(rng: &mut Rng, made: &Made) -> Vec<u8> {
    document(rng, made).text(rng)
}

// ---------------------------------------------------------------------------
// Texts for a given number
// ---------------------------------------------------------------------------

pub const TEXT_NUMBERS: [u32; 16] = [10, 11, 12, 13, 14, 15, 16, 20, 21, 22, 23, 24, 25, 26, 27, 28];

/// A text that is refused with this number at this line, by construction.
pub fn text_for(rng: &mut Rng, number: u32) -> (Vec<u8>, u64) {
    loop {
        if let Some((doc, at)) = try_text_for(rng, number) {
            let line = at as u64 + 1;
            return (doc.text(rng), line);
        }
    }
}

fn mapping_text(cp: u32, code: &[u8], indicator: &str) -> Vec<u8> {
    let bytes: String = code.iter().map(|b| format!("\\x{b:02x}")).collect();
    format!("<U{cp:X}> {bytes} {indicator}").into_bytes()
}

/// The document and the index of the line refused; None where this table does
/// not serve.
fn try_text_for(rng: &mut Rng, number: u32) -> Option<(Doc, usize)> {
    if number == 26 {
        let made = full_table(rng, 2048);
        let mut doc = document(rng, &made);
        let at = doc.find(Tag::End);
        // Only the count is wrong: |1 with a code point no line has, of any line's code.
        let used: HashSet<u32> = made.table.lines.iter().map(|l| l.cp).collect();
        let cp = (0x100..).find(|cp| !used.contains(cp))?;
        doc.insert(at, mapping_text(cp, &rng.pick(&made.table.lines).code, "|1"));
        return Some((doc, at));
    }
    if number == 28 {
        let made = if rng.one_in(60) { full_table(rng, 2047) } else { random_table(rng, 12) };
        let made = Made { table: with_void(rng, &made.table)?, ..made };
        let mut doc = document(rng, &made);
        let at = doc.find(Tag::End);
        // What is wrong behind END CHARMAP comes later.
        if rng.one_in(2) {
            for _ in 0..rng.range(1, 3) {
                let line = wrong_behind_end(rng, &made.table);
                let place = rng.range(at + 1, doc.lines.len());
                doc.insert(place, line);
            }
        }
        return Some((doc, at));
    }

    let mut made = random_table(rng, 12);
    if number == 22 {
        // A row 0 in which 00 leads on to an end.
        let rows = made.rows.len();
        if made.table.max == 1 || made.implied || rows > 15 {
            return None;
        }
        made.rows[0].push(Entry { from: 0, to: 0, cell: Cell::Lead(rows as u16) });
        made.rows.push(vec![Entry { from: 0, to: 255, cell: Cell::Bmp }]);
        made.table.rows = made.rows.iter().map(|r| cells(r)).collect();
        if !oracle::keeps_all(&made.table) || made.table.min > 2 {
            return None;
        }
    }
    let t = made.table.clone();
    let mut doc = document(rng, &made);
    let charmap = doc.find(Tag::Charmap);
    let end = doc.find(Tag::End);
    let keys = [Tag::Name, Tag::Min, Tag::Max, Tag::Class, Tag::Subchar];
    let rows: Vec<usize> = (0..charmap).filter(|&i| matches!(doc.lines[i].0, Tag::State(_))).collect();
    let in_header = rng.below(charmap + 1);
    let in_body = rng.range(charmap + 1, end);
    // A free code point and codes for lines that break one rule only.
    let used: HashSet<u32> = t.lines.iter().map(|l| l.cp).collect();
    let free = loop {
        let cp = random_cp(rng, false);
        if !used.contains(&cp) {
            break cp;
        }
    };
    let any_indicator = *rng.pick(&["|0", "|1", "|3", ""]);

    match number {
        10 => {
            let at = rng.below(doc.lines.len() + 1);
            let bad: &[u8] = *rng.pick(&[
                &b"x"[..],
                b"<",
                b"<>",
                b"CHARMAP x",
                b"END",
                b"ENDCHARMAP",
                b"\xff",
                b"\x00",
                b"\"",
                b"<a\x7f> b",
                b"<a b> c",
                b"\\x41",
                b"|0",
                b"<a> \xe4",
                b"<mb_cur_max> \xff",
                b"<icu:base> \xff",
                b"charmap",
                b"\r <a>",
                b"+",
            ]);
            doc.insert(at, bad);
            Some((doc, at))
        }
        11 => {
            let tag = *rng.pick(&keys);
            let first = doc.find(tag);
            let at = rng.range(first + 1, charmap);
            let name = match tag {
                Tag::Name => "code_set_name",
                Tag::Min => "mb_cur_min",
                Tag::Max => "mb_cur_max",
                Tag::Class => "uconv_class",
                _ => "subchar",
            };
            let value = *rng.pick(&["", "1", "\"MBCS\"", "\"DBCS\"", "\\x41", "zz", "\"", "# x"]);
            doc.insert(at, format!("<{name}>{value}"));
            Some((doc, at))
        }
        12 => {
            let (tag, line): (Tag, &str) = *rng.pick(&[
                (Tag::Name, "<code_set_name>"),
                (Tag::Name, "<code_set_name> \""),
                (Tag::Name, "<code_set_name> \"\" # x"),
                (Tag::Name, "<code_set_name> x"),
                (Tag::Min, "<mb_cur_min> 0"),
                (Tag::Min, "<mb_cur_min> 5"),
                (Tag::Max, "<mb_cur_max> 22"),
                (Tag::Max, "<mb_cur_max> \"2\""),
                (Tag::Class, "<uconv_class> MBCS"),
                (Tag::Class, "<uconv_class> \"MBCS # x"),
                (Tag::Class, "<uconv_class> \"UTF-8\""),
                (Tag::Subchar, "<subchar>"),
                (Tag::Subchar, "<subchar> \\x1\\x2"),
                (Tag::Subchar, "<subchar> \\x01\\x02\\x03\\x04\\x05"),
                (Tag::Subchar, "<subchar> \\x01+\\x02"),
                (Tag::Subchar, "<subchar> 1"),
            ]);
            if !rows.is_empty() && rng.one_in(2) {
                let at = *rng.pick(&rows);
                let row = *rng.pick(&[
                    "<icu:state> 30,",
                    "<icu:state> 3 0",
                    "<icu:state> 300",
                    "<icu:state> 30.x",
                    "<icu:state> 30:100",
                    "<icu:state> initial",
                    "<icu:state> surrogates, 30.s, 7d-7c:99, 40:1., ",
                    "<icu:state> \"30\"",
                    "<icu:state> 30..",
                    "<icu:state> 30.u:0",
                ]);
                doc.replace(at, row);
                return Some((doc, at));
            }
            let at = doc.find(tag);
            doc.replace(at, line);
            Some((doc, at))
        }
        13 => {
            if !made.implied && !made.sbcs && rng.one_in(3) {
                doc.lines.retain(|l| !matches!(l.0, Tag::State(_)));
            } else {
                let tag = *rng.pick(&keys);
                doc.lines.retain(|l| l.0 != tag);
            }
            let at = doc.find(Tag::Charmap);
            Some((doc, at))
        }
        14 => match rng.below(7) {
            0 => {
                let at = doc.find(Tag::Class);
                doc.replace(at, *rng.pick(&["<uconv_class>\"DBCS\"", "<uconv_class> \"EBCDIC_STATEFUL"]));
                Some((doc, at))
            }
            1 => {
                doc.insert(in_header, *rng.pick(&["<icu:base>", "<icu:base> \"x\"", "<icu:base> zz # y"]));
                Some((doc, in_header))
            }
            2 => {
                let at = rng.range(charmap + 1, doc.lines.len());
                doc.insert(at, *rng.pick(&["CHARMAP", " CHARMAP # x"]));
                Some((doc, at))
            }
            3 | 4 => {
                let at = *rows.first()?;
                let at = if rng.one_in(2) { at } else { *rng.pick(&rows) };
                let row = *rng.pick(&[
                    "<icu:state> surrogates, 30",
                    "<icu:state> 30.s",
                    "<icu:state> 30:1.",
                    "<icu:state> 30:80.u, 7d-7c",
                    "<icu:state> 30:1.i",
                    "<icu:state> 30:0.s",
                ]);
                doc.replace(at, row);
                if rows[0] != at && rng.one_in(3) {
                    doc.replace(at, "<icu:state> initial, 30");
                }
                Some((doc, at))
            }
            _ => {
                let line = *rng.pick(&[
                    "<U0041> \\x41 |4",
                    "<U0041><U0042> \\x41 |0",
                    "<U0041>+<U0042> \\x41",
                    "<U0041> \\x41+\\x42 |1",
                    "<UD800> + <U110000> \\x41+\\x42 |4",
                ]);
                doc.insert(in_body, line);
                Some((doc, in_body))
            }
        },
        15 => {
            if rng.one_in(3) {
                // Rows up to the 17th.
                let have = rows.len();
                let mut at = charmap;
                for _ in have..17 {
                    doc.insert(at, *rng.pick(&["<icu:state>", "<icu:state> 30", "<icu:state> 0-ff:7f"]));
                    at += 1;
                }
                return Some((doc, at - 1));
            }
            let at = *rows.first()?;
            let at = if rng.one_in(2) { at } else { *rng.pick(&rows) };
            let row = *rng.pick(&[
                "<icu:state> 7d-7c",
                "<icu:state> 30, 40:80",
                "<icu:state> 40:ff, 40",
                "<icu:state> 7d-7c:1, 0-ff",
                "<icu:state> 1-0.i",
            ]);
            doc.replace(at, row);
            Some((doc, at))
        }
        16 => {
            match rng.below(8) {
                6 | 7 => {
                    // One less than the depth of the rows.
                    let fits = |max| oracle::keeps_t3(&Table { max, lines: Vec::new(), ..t.clone() });
                    let need = (1..=4).find(|&max| fits(max))?;
                    if need == 1 {
                        return None;
                    }
                    let (min, max) = (doc.find(Tag::Min), doc.find(Tag::Max));
                    doc.replace(min, "<mb_cur_min> 1");
                    doc.replace(max, format!("<mb_cur_max> {}", need - 1));
                }
                0 => {
                    let (min, max) = (doc.find(Tag::Min), doc.find(Tag::Max));
                    doc.replace(min, "<mb_cur_min> 4");
                    doc.replace(max, *rng.pick(&["<mb_cur_max> 1", "<mb_cur_max> 3"]));
                }
                1 => {
                    let at = *rows.first()?;
                    let mut line = doc.lines[at].1.clone();
                    if line.contains(&b'#') || line.ends_with(b">") || made.rows[0].is_empty() {
                        return None;
                    }
                    line.extend(rng.pick(&[&b",0:0"[..], b", ff:7f", b",41:10"]).iter());
                    doc.replace(at, line);
                }
                2 => {
                    // A circle at row 0, by way of a new row.
                    let n = rows.len();
                    if n == 0 || n > 15 {
                        return None;
                    }
                    let at = rows[0];
                    doc.replace(at, format!("<icu:state> 0-fe:{n:x}, ff"));
                    doc.insert(charmap, format!("<icu:state> 0-ff:{n:x}"));
                }
                3 => {
                    let bad = (0..=255u8).find(|&b| complete(&t.rows, &[b]).is_none())?;
                    let at = doc.find(Tag::Subchar);
                    doc.replace(at, format!("<subchar> \\x{bad:02x}"));
                }
                4 => {
                    if t.subchar.len() == 4 {
                        return None;
                    }
                    let at = doc.find(Tag::Subchar);
                    let mut longer = t.subchar.clone();
                    longer.push(rng.byte());
                    let bytes: String = longer.iter().map(|b| format!("\\x{b:02x}")).collect();
                    doc.replace(at, format!("<subchar> {bytes}"));
                }
                _ => {
                    let bad = (0..=255u8).find(|&b| complete(&t.rows, &[b]).is_none())?;
                    doc.lines.retain(|l| l.0 != Tag::Subchar1);
                    let at = doc.find(Tag::Charmap);
                    doc.insert(at, format!("<subchar1> \\x{bad:02x}"));
                }
            }
            let at = doc.find(Tag::Charmap);
            Some((doc, at))
        }
        20 => {
            let cp = match rng.below(3) {
                0 => rng.range(0xd800, 0xdfff),
                1 => rng.range(0x11_0000, 0xff_ffff),
                _ => *rng.pick(&[0xd800, 0xdfff, 0x11_0000, 0xff_ffff]),
            };
            let code = if rng.one_in(2) { t.subchar.clone() } else { vec![rng.byte()] };
            doc.insert(in_body, mapping_text(cp as u32, &code, any_indicator));
            Some((doc, in_body))
        }
        21 => {
            let code: Vec<u8> = match rng.below(4) {
                0 => (0..rng.range(5, 9)).map(|_| rng.byte()).collect(),
                1 => (0..rng.range(1, 4)).map(|_| rng.byte()).collect(),
                2 => [t.subchar.as_slice(), &[rng.byte()]].concat(),
                _ => t.subchar.clone(),
            };
            let (cp, kind) = if rng.one_in(3) { (0x1_0000, Kind::ToUnicode) } else { (free, Kind::Both) };
            if oracle::keeps_t5(&t, &Line { cp, code: code.clone(), kind }) {
                return None;
            }
            let indicator = if kind == Kind::ToUnicode { "|3" } else { any_indicator };
            doc.insert(in_body, mapping_text(cp, &code, indicator));
            Some((doc, in_body))
        }
        22 => {
            let code = [0, rng.byte()];
            let indicator = *rng.pick(&["|0", "|1", ""]);
            doc.insert(in_body, mapping_text(free, &code, indicator));
            Some((doc, in_body))
        }
        23 => {
            let code = match rng.below(3) {
                0 => vec![rng.byte()],
                1 => vec![rng.byte(), rng.byte()],
                _ => vec![t.subchar1.unwrap_or(0x30); rng.range(2, 6)],
            };
            if code.len() == 1 && Some(code[0]) == t.subchar1 {
                return None;
            }
            doc.insert(in_body, mapping_text(free, &code, "|2"));
            Some((doc, in_body))
        }
        24 => {
            let i = (0..t.lines.len()).find(|&i| oracle::is_read(t.lines[i].kind))?;
            let code = &t.lines[i].code;
            let first = doc.find(Tag::Mapping(i));
            let at = rng.range(first + 1, end);
            // The |0 of a code that begins 00 is 22, so |3.
            let indicator = if code.len() > 1 && code[0] == 0 { "|3" } else { *rng.pick(&["|0", "|3", ""]) };
            let cp = if rng.one_in(2) { free } else { t.lines[i].cp };
            if cp > 0xffff && complete(&t.rows, code) != Some(Cell::Any) {
                return None;
            }
            doc.insert(at, mapping_text(cp, code, indicator));
            Some((doc, at))
        }
        25 => {
            let i = (0..t.lines.len()).find(|&i| oracle::is_of_code_points(t.lines[i].kind))?;
            let cp = t.lines[i].cp;
            let first = doc.find(Tag::Mapping(i));
            let at = rng.range(first + 1, end);
            let code = random_code(rng, &t.rows)?;
            let fits = |kind| {
                let line = Line { cp, code: code.clone(), kind };
                oracle::keeps_t5(&t, &line) && oracle::keeps_t7(&line)
            };
            match t.subchar1 {
                Some(b) if rng.one_in(3) => doc.insert(at, mapping_text(cp, &[b], "|2")),
                _ if fits(Kind::FromUnicode) => doc.insert(at, mapping_text(cp, &code, "|1")),
                _ => return None,
            }
            Some((doc, at))
        }
        27 => {
            if rng.one_in(3) {
                // Without END CHARMAP there is no 28.
                let table = with_void(rng, &t)?;
                doc = document(rng, &Made { table, ..made });
            }
            doc.lines.truncate(doc.find(Tag::End));
            doc.last_end = true;
            let at = doc.lines.len();
            Some((doc, at))
        }
        _ => unreachable!("no text for number {number}"),
    }
}

/// A line for behind END CHARMAP, mostly one that may not stand there; at times it
/// would read what no line before it reads.
fn wrong_behind_end(rng: &mut Rng, t: &Table) -> Vec<u8> {
    let void = t.lines.iter().find(|l| l.kind == Kind::FromUnicode && !is_read_in(t, &l.code));
    let reads = *rng.pick(&["|0", "|3"]);
    match (void, rng.below(6)) {
        (Some(void), 0) => mapping_text(void.cp, &void.code, reads),
        (_, 0..=2) => soup(rng),
        _ => rng.pick(&["x", "CHARMAP", "END CHARMAP", "<icu:base>", "\"", "<U0041> \\x41"]).as_bytes().to_vec(),
    }
}

// ---------------------------------------------------------------------------
// Damaged and hostile texts
// ---------------------------------------------------------------------------

const TOKENS: &[&[u8]] = &[
    b"<code_set_name>",
    b"<mb_cur_min>",
    b"<mb_cur_max>",
    b"<uconv_class>",
    b"<subchar>",
    b"<subchar1>",
    b"<icu:state>",
    b"<icu:base>",
    b"<a>",
    b"<>",
    b"<U0041>",
    b"<U42>",
    b"<UD800>",
    b"<U110000>",
    b"<U10FFFF>",
    b"<U>",
    b"<U0000041>",
    b"\\x41",
    b"\\x42",
    b"\\x1",
    b"\\x81",
    b"\\x7C",
    b"\\xff",
    b"|0",
    b"|1",
    b"|2",
    b"|3",
    b"|4",
    b"|5",
    b"|",
    b"+",
    b"\"MBCS\"",
    b"\"SBCS\"",
    b"\"DBCS\"",
    b"\"x\"",
    b"\"\"",
    b"\"",
    b"#",
    b"#\xff",
    b"CHARMAP",
    b"END",
    b"END CHARMAP",
    b"initial",
    b"surrogates",
    b",",
    b":",
    b".",
    b"-",
    b"1",
    b"2",
    b"4",
    b"0",
    b"0-ff",
    b"30",
    b"7d-7c",
    b"81:1",
    b"80.u",
    b"90.p",
    b"30.i",
    b"30.s",
    b"40:80",
    b":0.",
    b"2d",
    b"\xff",
    b"\x00",
    b"\r",
    b"\r\r",
    b"\x0b",
    b" ",
    b"\t",
    b"\n",
];

/// A line, or more, of tokens in no sense.
fn soup(rng: &mut Rng) -> Vec<u8> {
    let mut out = Vec::new();
    if rng.one_in(2) {
        // A sensible beginning.
        out.extend(*rng.pick(&[
            &b"<icu:state>"[..],
            b"<U0041> \\x41",
            b"<U0041>",
            b"<subchar1>",
            b"<icu:state> 30",
            b"<code_set_name> \"",
            b"CHARMAP",
            b"END CHARMAP",
        ]));
    }
    for _ in 0..rng.range(0, 6) {
        out.extend(rng.pick(&["", " ", "\t"]).as_bytes());
        out.extend(*rng.pick(TOKENS));
    }
    out
}

/// Lines of soup in and around a small sensible text, or soup alone.
pub fn hostile_text(rng: &mut Rng) -> Vec<u8> {
    if rng.one_in(10) {
        let n = rng.below(200);
        return (0..n)
            .map(|_| if rng.one_in(3) { rng.byte() } else { *rng.pick(b"<U041>\\x|0#\"\n\r \tCHARMP+:.,-") })
            .collect();
    }
    let made = random_table(rng, 4);
    let mut doc = document(rng, &made);
    for _ in 0..rng.range(1, 3) {
        let at = rng.below(doc.lines.len() + 1);
        let line = soup(rng);
        if at < doc.lines.len() && rng.one_in(2) {
            doc.replace(at, line);
        } else {
            doc.insert(at, line);
        }
    }
    doc.text(rng)
}

/// Lines that are nearly of a form: each part is right mostly and odd at times.
struct Near<'a> {
    rng: &'a mut Rng,
    /// One part in so many is odd.
    rate: usize,
    out: Vec<u8>,
}

impl Near<'_> {
    /// One of the right parts, or at times one of the odd ones.
    fn part(&mut self, right: &[&str], odd: &[&str]) {
        let from = if self.rng.one_in(self.rate) { odd } else { right };
        let part = *self.rng.pick(from);
        self.out.extend(part.bytes());
    }

    fn gap(&mut self) {
        if self.rng.one_in(60) {
            self.out.push(*self.rng.pick(b"\x0b\x0c\r\x00\x7f\xa0\x80\x85\xff\x1f\"#"));
        } else {
            let gap = *self.rng.pick(&["", "", " ", "\t", "  "]);
            self.out.extend(gap.bytes());
        }
    }

    fn digits(&mut self, value: u32, right: &[usize], odd: &[usize]) {
        let width = *if self.rng.one_in(self.rate) { self.rng.pick(odd) } else { self.rng.pick(right) };
        let mut digits = if width == 0 { String::new() } else { format!("{value:0width$x}") };
        if self.rng.one_in(3) {
            digits = digits.to_uppercase();
        }
        if self.rng.one_in(self.rate * 3) {
            digits += *self.rng.pick(&["g", "-", " ", "0", "x"]);
        }
        self.out.extend(digits.bytes());
    }

    fn byte(&mut self, b: u8) {
        self.part(&["\\x"], &["\\X", "x", "\\ x", "\\x ", "\\", "\\\\x"]);
        self.digits(b as u32, &[2], &[1, 3, 0]);
    }

    fn bytes(&mut self, code: &[u8]) {
        for (i, &b) in code.iter().enumerate() {
            self.gap();
            if i > 0 && self.rng.one_in(self.rate) {
                self.part(&["+"], &["++", ",", "-"]);
                self.gap();
            }
            self.byte(b);
        }
    }

    fn code(&mut self, t: &Table) -> Vec<u8> {
        let code = random_code(self.rng, &t.rows).unwrap_or_default();
        match self.rng.below(self.rate * 2) {
            0 => (0..self.rng.below(7)).map(|_| self.rng.byte()).collect(),
            1 => t.subchar.clone(),
            2 => t.subchar1.into_iter().collect(),
            _ => code,
        }
    }

    fn tail(&mut self) {
        self.gap();
        self.part(
            &["", "", "", "#", "# x", "#\"", "#\r"],
            &["x", "\"", "+", "|0", "<U41>", "\\x41", "1", ",", "\"x\"", "\r", "."],
        );
        self.gap();
    }

    fn mapping(&mut self, t: &Table) {
        self.gap();
        let n = if self.rng.one_in(self.rate) { self.rng.below(4) } else { 1 };
        for i in 0..n {
            if i > 0 {
                self.part(&["", "+"], &["++", "-", ",", " + "]);
                self.gap();
            }
            let cp = match self.rng.below(self.rate) {
                0 => *self.rng.pick(&[0xd7ff, 0xd800, 0xdfff, 0xe000, 0xffff, 0x1_0000, 0x10_ffff, 0x11_0000]),
                1 if !t.lines.is_empty() => self.rng.pick(&t.lines).cp,
                _ => random_cp(self.rng, self.rate > 9),
            };
            let least = format!("{cp:x}").len();
            self.part(&["<U"], &["<u", "U", "<", "< U", "<U ", "<U+", "<<U"]);
            self.digits(cp, &[least, 6.max(least)], &[0, 7, 8]);
            self.part(&[">"], &["", " >", ">>"]);
            self.gap();
        }
        self.part(&[""], &["+", "-", ","]);
        let code = self.code(t);
        self.bytes(&code);
        self.gap();
        self.part(&["|0", "|1", "|2", "|3", ""], &["|4", "|5", "|", "| 0", "|00", "||0", "0", "|0|0", "|a", "+"]);
        self.tail();
    }

    fn row(&mut self, t: &Table) {
        self.gap();
        let rows = t.rows.len() as u32;
        if self.rng.one_in(self.rate) {
            self.part(&["initial"], &["surrogates", "Initial", "initials", "initial, initial"]);
            self.gap();
            self.part(&[","], &["", ",,", ":"]);
            self.gap();
        }
        let n = self.rng.below(5);
        for i in 0..n {
            if i > 0 {
                self.part(&[","], &["", ",,", ";", " "]);
                self.gap();
            }
            let (from, to) = random_range(self.rng);
            self.digits(from as u32, &[1, 2], &[0, 3]);
            self.gap();
            if from != to || self.rng.one_in(self.rate) {
                self.part(&["-"], &["--", ".", ""]);
                self.gap();
                let to = if self.rng.one_in(self.rate) { self.rng.byte() } else { to };
                self.digits(to as u32, &[1, 2], &[0, 3]);
                self.gap();
            }
            if self.rng.one_in(3) {
                self.part(&[":"], &["::", ";"]);
                self.gap();
                let next = if self.rng.one_in(self.rate) {
                    *self.rng.pick(&[0, rows, 0x10, 0x7f, 0x80, 0xff, 0x100])
                } else {
                    self.rng.below(rows as usize) as u32
                };
                self.digits(next, &[1, 2], &[0, 3]);
                self.gap();
            } else if self.rng.one_in(2) {
                self.part(&["", ":0", ":00"], &[":1", ":7f", ":80"]);
                self.gap();
                self.part(&["."], &["..", ". .", ":"]);
                self.gap();
                self.part(&["", "u", "p", "i"], &["s", "U", "x", "up", "u u", "1", "e"]);
                self.gap();
            }
        }
        self.part(&[""], &[","]);
    }

    fn key(&mut self, name: &str) {
        self.gap();
        self.part(&["<"], &["", "< ", "<<"]);
        let mut name = name.to_string();
        if self.rng.one_in(self.rate * 2) {
            name = match self.rng.below(5) {
                0 => name.to_uppercase(),
                1 => name + "1",
                2 => name + " ",
                3 => name[1..].to_string(),
                _ => name + *self.rng.pick(&["\"", "#", "\x7f", "<", "~"]),
            };
        }
        self.out.extend(name.bytes());
        self.part(&[">"], &["", " >", ">>"]);
        self.gap();
    }

    fn quoted(&mut self, value: &str, odd: &[&str]) {
        self.part(&["\""], &["", "'", "\"\""]);
        self.part(&[value], odd);
        self.part(&["\""], &["", "'", "\"\"", "\" \""]);
    }

    fn header(&mut self, t: &Table, tag: Tag) {
        match tag {
            Tag::Name => {
                self.key("code_set_name");
                self.quoted("x", &["", " ", "#", "\u{e4}", "\r"]);
            }
            Tag::Min | Tag::Max => {
                self.key(if tag == Tag::Min { "mb_cur_min" } else { "mb_cur_max" });
                let digit = format!("{}", if tag == Tag::Min { t.min } else { t.max });
                self.part(&[&digit], &["0", "1", "2", "3", "4", "5", "01", "", "1 1", "\"1\"", "-1"]);
            }
            Tag::Class => {
                self.key("uconv_class");
                let class = *self.rng.pick(&["SBCS", "MBCS"]);
                self.quoted(class, &["DBCS", "EBCDIC_STATEFUL", "mbcs", "MBCS ", "", "MBCS#"]);
            }
            Tag::Subchar => {
                self.key("subchar");
                let code = self.code(t);
                self.bytes(&code);
            }
            Tag::Subchar1 => {
                self.key("subchar1");
                let code = if self.rng.one_in(self.rate) { self.code(t) } else { vec![t.subchar1.unwrap_or(0x1a)] };
                self.bytes(&code);
            }
            Tag::State(_) => {
                self.key("icu:state");
                self.row(t);
            }
            _ => {
                let name = *self.rng.pick(&["a", "icu:base", "U0041", "!", "icu:bas", "~"]);
                self.key(name);
                self.part(
                    &["", "x", "\"x\"", "\"x # y\"", "\"x\" \"y\""],
                    &["\"", "\u{e4}", "\"\u{e4}\"", "\x01", "\r"],
                );
            }
        }
        self.tail();
    }

    fn word(&mut self, end: bool) {
        self.gap();
        if end {
            self.part(&["END"], &["", "end", "END END", "CHARMAP"]);
            self.part(&[" ", "\t", "  "], &["", "#", "\x0c", "\r"]);
        }
        self.part(&["CHARMAP"], &["charmap", "CHARMAPS", "CHARMAP CHARMAP", "END", "CHAR MAP", ""]);
        self.tail();
    }
}

/// A document some of whose lines are only nearly right.
pub fn near_text(rng: &mut Rng) -> Vec<u8> {
    let made = random_table(rng, 6);
    let mut doc = document(rng, &made);
    let rate = *rng.pick(&[8, 16, 40]);
    for _ in 0..rng.range(1, 4) {
        let at = rng.below(doc.lines.len());
        let tag = doc.lines[at].0;
        let mut near = Near { rng, rate, out: Vec::new() };
        match tag {
            Tag::Charmap => near.word(false),
            Tag::End => near.word(true),
            Tag::Mapping(_) => near.mapping(&made.table),
            Tag::Noise if near.rng.one_in(3) => near.mapping(&made.table),
            tag => near.header(&made.table, tag),
        }
        let line = near.out;
        if tag == Tag::Noise || rng.one_in(4) {
            doc.insert(at, line);
        } else {
            doc.replace(at, line);
        }
    }
    // More mapping lines of every kind.
    if rng.one_in(2) {
        if let Some(end) = doc.lines.iter().position(|l| l.0 == Tag::End) {
            for _ in 0..rng.below(4) {
                let mut near = Near { rng, rate: rate * 2, out: Vec::new() };
                near.mapping(&made.table);
                let line = near.out;
                doc.insert(end, line);
            }
        }
    }
    let mut text = doc.text(rng);
    if rng.one_in(12) {
        // The very end: an LF less, a CR more, a line more.
        match rng.below(4) {
            0 => {
                text.pop();
            }
            1 => text.push(b'\r'),
            2 => text.extend(b"\r\r\n"),
            _ => text.extend(b"\n \n#"),
        }
    }
    text
}

/// A mapping line that breaks any of its rules at once, in a valid document.
pub fn several_text(rng: &mut Rng) -> Vec<u8> {
    let full = rng.one_in(60);
    let made = if full { full_table(rng, 2048) } else { random_table(rng, 10) };
    let t = &made.table;
    let mut doc = document(rng, &made);
    let used = |rng: &mut Rng| t.lines.get(rng.below(t.lines.len().max(1))).cloned();
    for _ in 0..rng.range(1, 3) {
        let cp = match rng.below(6) {
            0 => *rng.pick(&[0xd800, 0xdfff, 0x11_0000, 0xff_ffff]),
            1 | 2 => used(rng).map_or(0x41, |l| l.cp),
            3 => *rng.pick(&[0xd7ff, 0xe000, 0xffff, 0x1_0000, 0x10_ffff]),
            _ => random_cp(rng, true),
        };
        let code = match rng.below(7) {
            0 | 1 => used(rng).map_or(vec![0x41], |l| l.code),
            2 => t.subchar1.map_or(vec![0], |b| vec![b]),
            3 => vec![0, rng.byte()],
            4 => (0..rng.range(1, 5)).map(|_| rng.byte()).collect(),
            _ => random_code(rng, &t.rows).unwrap_or(vec![0x41]),
        };
        let indicator = *rng.pick(&["|0", "", "|1", "|2", "|3", "|0", "|1", "|2", "|3", "|4", "|5"]);
        let mut line = mapping_text(cp, &code, indicator);
        if rng.one_in(20) {
            line.splice(0..0, b"<U42>".iter().copied());
        }
        let (charmap, end) = (doc.find(Tag::Charmap), doc.find(Tag::End));
        let at = if full { end } else { rng.range(charmap + 1, end) };
        doc.insert(at, line);
    }
    doc.text(rng)
}

/// Damages a text in one to four ways.
pub fn mutate(rng: &mut Rng, text: &[u8]) -> Vec<u8> {
    let mut t = text.to_vec();
    // Half of the time only in ways that mostly leave lines their form.
    let mild = rng.one_in(2);
    for _ in 0..rng.range(1, 4) {
        let way = if mild { *rng.pick(&[6, 6, 6, 8, 9, 10, 13, 13, 14, 14]) } else { rng.below(15) };
        match way {
            _ if t.is_empty() => t.extend(*rng.pick(TOKENS)),
            0 => {
                let i = rng.below(t.len());
                t[i] = rng.byte();
            }
            1 => {
                let i = rng.below(t.len());
                t[i] ^= 1 << rng.below(8);
            }
            2 => {
                let i = rng.below(t.len());
                t.remove(i);
            }
            3 => {
                let i = rng.below(t.len() + 1);
                t.insert(i, *rng.pick(b"#\"\r\n \t<>\\x|+,:.-0129afFuUpisCE\xff\x80\x00"));
            }
            4 => {
                let i = rng.below(t.len() + 1);
                let token = *rng.pick(TOKENS);
                t.splice(i..i, token.iter().copied());
            }
            5 => {
                let n = rng.below(t.len() + 1);
                t.truncate(n);
            }
            6 => {
                // Another digit: indicators, code points, bytes, rows.
                let digits: Vec<usize> = (0..t.len()).filter(|&i| t[i].is_ascii_hexdigit()).collect();
                if !digits.is_empty() {
                    let i = *rng.pick(&digits);
                    t[i] = *rng.pick(b"0123456789abcdefABCDEF");
                }
            }
            7 => {
                let signs: Vec<usize> = (0..t.len()).filter(|&i| b"<>|\\,:.-+\"#".contains(&t[i])).collect();
                if !signs.is_empty() {
                    let i = *rng.pick(&signs);
                    t[i] = *rng.pick(b"<>|\\,:.-+\"# ");
                }
            }
            14 => {
                // Another indicator, mostly that of a fallback.
                let bars: Vec<usize> = (1..t.len()).filter(|&i| t[i - 1] == b'|').collect();
                if !bars.is_empty() {
                    let i = *rng.pick(&bars);
                    t[i] = *rng.pick(b"11110234");
                }
            }
            way => {
                let mut lines: Vec<Vec<u8>> = t.split_inclusive(|&b| b == b'\n').map(|l| l.to_vec()).collect();
                let i = rng.below(lines.len());
                let j = rng.below(lines.len());
                match way {
                    8 => {
                        lines.remove(i);
                    }
                    9 => {
                        let line = lines[i].clone();
                        lines.insert(j, line);
                    }
                    10 => lines.swap(i, j),
                    11 => {
                        let mut line = soup(rng);
                        line.push(b'\n');
                        lines.insert(i, line);
                    }
                    12 => {
                        // Two lines joined.
                        while lines[i].last().is_some_and(|b| b"\r\n".contains(b)) {
                            lines[i].pop();
                        }
                    }
                    _ => {
                        // A line repeated with one hexadecimal digit changed.
                        let mut line = lines[i].clone();
                        let digits: Vec<usize> = (0..line.len()).filter(|&k| line[k].is_ascii_hexdigit()).collect();
                        if !digits.is_empty() {
                            let k = *rng.pick(&digits);
                            line[k] = *rng.pick(b"0123456789abcdef");
                        }
                        lines.insert(i + 1, line);
                    }
                }
                t = lines.concat();
            }
        }
    }
    t
}

// ---------------------------------------------------------------------------
// Memories
// ---------------------------------------------------------------------------

/// One number changed in record or memory.
#[derive(Clone, Copy, Debug, PartialEq)]
pub enum Change {
    Record(usize, u32),
    State(usize, u16),
    Code(usize, u32),
    Info(usize, u32),
    Order(usize, u32),
}

pub fn apply(changes: &[Change], record: &mut Record, memory: &mut Memory) {
    for &change in changes {
        match change {
            Change::Record(i, v) => record[i] = v,
            Change::State(i, v) => memory.states[i] = v,
            Change::Code(i, v) => memory.codes[i] = v,
            Change::Info(i, v) => memory.infos[i] = v,
            Change::Order(i, v) => memory.order[i] = v,
        }
    }
}

/// What leads from one form to another.
pub fn changes_between(from: &(Record, Memory), to: &(Record, Memory)) -> Vec<Change> {
    let mut out = Vec::new();
    for i in 0..7 {
        if from.0[i] != to.0[i] {
            out.push(Change::Record(i, to.0[i]));
        }
    }
    for i in 0..to.1.states.len() {
        if from.1.states[i] != to.1.states[i] {
            out.push(Change::State(i, to.1.states[i]));
        }
    }
    for i in 0..to.1.codes.len() {
        if from.1.codes[i] != to.1.codes[i] {
            out.push(Change::Code(i, to.1.codes[i]));
        }
        if from.1.infos[i] != to.1.infos[i] {
            out.push(Change::Info(i, to.1.infos[i]));
        }
        if from.1.order[i] != to.1.order[i] {
            out.push(Change::Order(i, to.1.order[i]));
        }
    }
    out
}

/// One number of a valid form changed; half of the time only slightly.
pub fn one_change(rng: &mut Rng, table: &Table) -> Change {
    let (record, memory) = form(table);
    let n = table.lines.len();
    let rows = table.rows.len();
    // A used place mostly, else one of the unused.
    let place = |rng: &mut Rng, used: usize, all: usize| match rng.below(8) {
        0 => rng.below(all),
        1 => used.min(all - 1),
        2 => all - 1,
        _ if used == 0 => 0,
        _ => rng.below(used),
    };
    let near = |rng: &mut Rng, old: u32| match rng.below(7) {
        0 => old.wrapping_add(1),
        1 => old.wrapping_sub(1),
        2 => old ^ (1 << rng.below(32)),
        3 => rng.next() as u32,
        4 => *rng.pick(&[0, 1, 2, 3, 4, 5, 15, 16, 17, 255, 256, 257, 2047, 2048, 2049, u32::MAX]),
        5 => old.wrapping_add(1 << 24),
        _ => old.wrapping_add(1 << (21 + rng.below(3))),
    };
    match rng.below(5) {
        0 => {
            let i = rng.below(7);
            Change::Record(i, near(rng, record[i]))
        }
        1 => {
            let i = place(rng, rows * 256, 4096);
            let v = match rng.below(4) {
                0 => memory.states[i] ^ (1 << rng.below(16)),
                1 => rng.next() as u16,
                2 => 16 + rng.below(rows + 2) as u16,
                _ => rng.below(19) as u16,
            };
            Change::State(i, v)
        }
        2 => {
            let i = place(rng, n, 2048);
            Change::Code(i, near(rng, memory.codes[i]))
        }
        3 => {
            let i = place(rng, n, 2048);
            Change::Info(i, near(rng, memory.infos[i]))
        }
        _ => {
            let i = place(rng, n, 2048);
            let v = if rng.one_in(2) && n > 0 { rng.below(n) as u32 } else { near(rng, memory.order[i]) };
            Change::Order(i, v)
        }
    }
}

/// A table changed in its meaning, rules broken or not, in the fixed form.
pub fn break_table(rng: &mut Rng, table: &Table) -> Table {
    let mut t = table.clone();
    for _ in 0..rng.range(1, 2) {
        let n = t.lines.len();
        let rows = t.rows.len();
        match rng.below(19) {
            0 => t.min = rng.below(6) as u32,
            1 => t.max = rng.below(6) as u32,
            16 | 17 => {
                // An illegal byte leads on: mostly too deep, or in a circle.
                let r = rng.below(rows);
                let free: Vec<usize> = (0..256).filter(|&b| t.rows[r][b] == Cell::Illegal).collect();
                if !free.is_empty() && rows > 1 {
                    t.rows[r][*rng.pick(&free)] = Cell::Lead(rng.range(1, rows - 1) as u16);
                }
            }
            18 => t.max = t.max.saturating_sub(1),
            2 => t.subchar = (0..rng.range(1, 4)).map(|_| rng.byte()).collect(),
            3 => t.subchar1 = Some(rng.byte()),
            4 => t.subchar1 = None,
            5 => {
                let (r, b) = (rng.below(rows), rng.below(256));
                t.rows[r][b] = Cell::Lead(rng.below(rows + 2) as u16);
            }
            6 => {
                let (r, b) = (rng.below(rows), rng.below(256));
                t.rows[r][b] = *rng.pick(&[Cell::Illegal, Cell::Bmp, Cell::Any, Cell::Unassigned]);
            }
            7 if rows < 16 => t.rows.push(vec![Cell::Illegal; 256]),
            8 if rows > 1 => {
                t.rows.pop();
            }
            9 if n > 0 => {
                let i = rng.below(n);
                t.lines[i].cp = match rng.below(4) {
                    0 => rng.range(0xd7ff, 0xe000) as u32,
                    1 => rng.range(0x10_ffff, 0x1f_ffff) as u32,
                    2 => t.lines[rng.below(n)].cp,
                    _ => random_cp(rng, true),
                };
            }
            10 if n > 0 => {
                let i = rng.below(n);
                t.lines[i].kind = *rng.pick(&[Kind::Both, Kind::FromUnicode, Kind::Sub1, Kind::ToUnicode]);
            }
            11 if n > 0 => {
                let i = rng.below(n);
                t.lines[i].code = t.lines[rng.below(n)].code.clone();
            }
            12 if n > 0 => {
                let i = rng.below(n);
                t.lines[i].code = (0..rng.range(1, 4)).map(|_| rng.byte()).collect();
            }
            13 if n > 0 && n < 2048 => {
                let line = t.lines[rng.below(n)].clone();
                t.lines.push(line);
            }
            14 if n > 0 => {
                // The byte of a used code ends otherwise.
                let code = t.lines[rng.below(n)].code.clone();
                let mut row = 0;
                for &b in &code {
                    match t.rows[row][b as usize] {
                        Cell::Lead(next) if (next as usize) < rows => row = next as usize,
                        _ => {
                            t.rows[row][b as usize] =
                                *rng.pick(&[Cell::Illegal, Cell::Bmp, Cell::Any, Cell::Unassigned]);
                            break;
                        }
                    }
                }
            }
            _ => {
                if let Some(code) = random_code(rng, &t.rows).filter(|c| c.len() <= 4) {
                    if n < 2048 {
                        let kind = *rng.pick(&[Kind::Both, Kind::FromUnicode, Kind::Sub1, Kind::ToUnicode]);
                        t.lines.push(Line { cp: random_cp(rng, true), code, kind });
                    }
                }
            }
        }
    }
    t
}

/// Changes of the sorted places that keep their numbers: swaps and rotations.
pub fn disorder(rng: &mut Rng, table: &Table) -> Vec<Change> {
    let before = form(table);
    let (record, mut memory) = before.clone();
    let n = table.lines.len();
    if n >= 2 {
        let (i, j) = (rng.below(n), rng.below(n));
        let k = rng.below(n - 1);
        match rng.below(6) {
            0 => memory.order.swap(i, j),
            1 => memory.order.swap(k, k + 1),
            2 => {
                memory.codes.swap(i, j);
                memory.infos.swap(i, j);
            }
            3 => {
                // Entries swapped and the order mended.
                memory.codes.swap(k, k + 1);
                memory.infos.swap(k, k + 1);
                for o in memory.order[..n].iter_mut() {
                    if *o == k as u32 {
                        *o += 1;
                    } else if *o == k as u32 + 1 {
                        *o -= 1;
                    }
                }
            }
            4 => memory.infos.swap(i, j),
            _ => memory.order[i] = memory.order[j],
        }
    }
    changes_between(&before, &(record, memory))
}

/// Numbers anywhere.
pub fn scatter(rng: &mut Rng) -> Vec<Change> {
    let small = |rng: &mut Rng| match rng.below(3) {
        0 => rng.below(20) as u32,
        1 => rng.next() as u32,
        _ => (rng.byte() as u32) << 24,
    };
    let mut out = Vec::new();
    for i in 0..7 {
        if !rng.one_in(4) {
            let v = match i {
                0 | 2 | 3 | 5 => rng.below(6) as u32,
                1 => rng.below(4) as u32,
                _ => small(rng),
            };
            out.push(Change::Record(i, v));
        }
    }
    for _ in 0..rng.below(6) {
        let places = if rng.one_in(4) { 4096 } else { 512 };
        let i = rng.below(places);
        out.push(Change::State(i, rng.below(20) as u16));
    }
    for _ in 0..rng.below(4) {
        let places = if rng.one_in(4) { 2048 } else { 4 };
        let i = rng.below(places);
        let v = small(rng);
        out.push(match rng.below(3) {
            0 => Change::Code(i, v),
            1 => Change::Info(i, v),
            _ => Change::Order(i, v),
        });
    }
    out
}

// ---------------------------------------------------------------------------
// Frames, UTF-8 and UTF-32
// ---------------------------------------------------------------------------

/// The bytes of a value without a mark, made apart from the oracle. In UTF-8
/// the value must be a character.
pub fn character(scheme: Scheme, value: u32) -> Vec<u8> {
    let byte = |n: u32| (value >> (8 * n)) as u8;
    match scheme {
        Scheme::Utf8 => char::from_u32(value).expect("a character").to_string().into_bytes(),
        Scheme::Utf32Be | Scheme::Utf32 => vec![byte(3), byte(2), byte(1), byte(0)],
        Scheme::Utf32Le => vec![byte(0), byte(1), byte(2), byte(3)],
    }
}

/// The mark of big-endian text, and of little-endian text.
pub const MARK: [u8; 4] = [0x00, 0x00, 0xfe, 0xff];
pub const LITTLE_MARK: [u8; 4] = [0xff, 0xfe, 0x00, 0x00];

/// A front for a text, and how its characters have to stand behind it.
pub fn front(rng: &mut Rng, scheme: Scheme) -> (Vec<u8>, Scheme) {
    match (scheme, rng.below(3)) {
        (Scheme::Utf32, 0) => (MARK.to_vec(), Scheme::Utf32Be),
        (Scheme::Utf32, 1) => (LITTLE_MARK.to_vec(), Scheme::Utf32Le),
        (Scheme::Utf32, _) => (Vec::new(), Scheme::Utf32Be),
        _ => (Vec::new(), scheme),
    }
}

/// Bytes at which a frame must stop, with skipping too, and the number; 53 is for
/// the strict setting. None at times.
pub fn stop_in_frame(rng: &mut Rng, t: &Table) -> Option<(Vec<u8>, u32)> {
    let mut code = random_code(rng, &t.rows)?;
    match rng.below(5) {
        0 if code.len() > 1 => {
            code.truncate(rng.range(1, code.len() - 1));
            Some((code, 51))
        }
        1 => {
            let read = is_read_in(t, &code);
            (!read).then_some((code, 53))
        }
        _ => None,
    }
}

/// The same for a text in UTF-8, UTF-32BE or UTF-32LE.
pub fn stop_in_text(rng: &mut Rng, t: &Table, way: Scheme) -> Option<(Vec<u8>, u32)> {
    match rng.below(5) {
        0 => {
            let mut bytes = character(way, random_cp(rng, true));
            bytes.pop();
            (!bytes.is_empty()).then_some((bytes, 51))
        }
        1 => {
            let cp = random_cp(rng, true);
            let written = t.lines.iter().any(|l| matches!(l.kind, Kind::Both | Kind::FromUnicode) && l.cp == cp);
            (!written).then(|| (character(way, cp), 53))
        }
        _ => None,
    }
}

/// The bytes for which a cell is of some kind.
fn bytes_with(row: &Row, kind: impl Fn(Cell) -> bool) -> Vec<u8> {
    (0..=255).filter(|&b| kind(row[b as usize])).collect()
}

/// Bytes that lead on, one at least, and the row to which they lead.
fn leads(rng: &mut Rng, rows: &[Row]) -> Option<(Vec<u8>, usize)> {
    let (mut way, mut row) = (Vec::new(), 0);
    while way.is_empty() || !rng.one_in(3) {
        let leads = bytes_with(&rows[row], |cell| matches!(cell, Cell::Lead(_)));
        if leads.is_empty() {
            break;
        }
        let b = *rng.pick(&leads);
        way.push(b);
        if let Cell::Lead(n) = rows[row][b as usize] {
            row = n as usize;
        }
    }
    (!way.is_empty()).then_some((way, row))
}

/// An illegal sequence that ends in the byte that broke it, whatever follows:
/// that byte is illegal as a first one too.
pub fn illegal_in_frame(rng: &mut Rng, t: &Table) -> Option<Vec<u8>> {
    let (mut way, row) = if rng.one_in(3) { (Vec::new(), 0) } else { leads(rng, &t.rows).unwrap_or_default() };
    let never = bytes_with(&t.rows[0], |cell| cell == Cell::Illegal);
    let breaking: Vec<u8> = never.into_iter().filter(|&b| t.rows[row][b as usize] == Cell::Illegal).collect();
    if breaking.is_empty() {
        return None;
    }
    way.push(*rng.pick(&breaking));
    Some(way)
}

/// An illegal sequence that a code's first byte breaks, and that ends before it.
pub fn broken_by(rng: &mut Rng, t: &Table, first: u8) -> Option<Vec<u8>> {
    (0..5).find_map(|_| {
        let (way, row) = leads(rng, &t.rows)?;
        (t.rows[row][first as usize] == Cell::Illegal).then_some(way)
    })
}

/// Illegal sequences of a text, one after the other, whatever follows.
pub fn illegal_in_text(rng: &mut Rng, way: Scheme) -> Vec<Vec<u8>> {
    if way != Scheme::Utf8 {
        return vec![character(way, no_character(rng))];
    }
    let trail = |rng: &mut Rng, from, to| rng.range(from, to) as u8;
    let bytes = match rng.below(7) {
        0 => vec![trail(rng, 0x80, 0xc1)],
        1 => vec![trail(rng, 0xf5, 0xff)],
        2 => vec![*rng.pick(&[0xc0, 0xc1]), trail(rng, 0x80, 0xbf)],
        3 => vec![0xe0, trail(rng, 0x80, 0x9f), trail(rng, 0x80, 0xbf)],
        4 => vec![0xed, trail(rng, 0xa0, 0xbf), trail(rng, 0x80, 0xbf)],
        5 => vec![0xf0, trail(rng, 0x80, 0x8f), trail(rng, 0x80, 0xbf), trail(rng, 0x80, 0xbf)],
        _ => vec![0xf4, trail(rng, 0x90, 0xbf), trail(rng, 0x80, 0xbf), trail(rng, 0x80, 0xbf)],
    };
    // Each of them is a sequence.
    bytes.into_iter().map(|b| vec![b]).collect()
}

/// Illegal bytes of UTF-8, each a sequence: a character cut short before another.
pub fn cut_before_character(rng: &mut Rng) -> Vec<Vec<u8>> {
    let mut bytes = character(Scheme::Utf8, rng.range(0x80, 0xd7ff) as u32);
    if rng.one_in(3) {
        bytes = character(Scheme::Utf8, rng.range(0x1_0000, 0x10_ffff) as u32);
    }
    bytes.truncate(rng.range(1, bytes.len() - 1));
    bytes.into_iter().map(|b| vec![b]).collect()
}

/// What a bad line makes of some bytes: bytes lost, doubled, replaced, inserted,
/// swapped, and at times the end lost. Some new bytes are strays of the list.
pub fn damaged(rng: &mut Rng, bytes: &[u8], strays: &[u8]) -> Vec<u8> {
    let mut out = bytes.to_vec();
    let most = 1 + bytes.len() / 6;
    for _ in 0..rng.range(1, most) {
        if out.is_empty() {
            break;
        }
        let at = rng.below(out.len());
        let stray = match rng.below(3) {
            0 => rng.byte(),
            1 if !strays.is_empty() => *rng.pick(strays),
            _ => *rng.pick(&out),
        };
        match rng.below(5) {
            0 => {
                out.remove(at);
            }
            1 => out.insert(at, out[at]),
            2 => out[at] = stray,
            3 => out.insert(at, stray),
            _ => {
                let next = (at + 1) % out.len();
                out.swap(at, next);
            }
        }
    }
    if rng.one_in(6) && !out.is_empty() {
        out.truncate(rng.below(out.len()));
    }
    out
}

/// Codes of lines and others, damaged all over; at times nothing but strays. A
/// stray is a byte that is not illegal in some row.
pub fn damaged_frame(rng: &mut Rng, t: &Table, items: usize) -> Vec<u8> {
    let strays = bytes_with(rng.pick(&t.rows), |cell| cell != Cell::Illegal);
    let mut frame = Vec::new();
    for _ in 0..rng.range(1, items) {
        match t.lines.is_empty() || rng.one_in(4) {
            true => frame.extend(random_code(rng, &t.rows).unwrap_or_default()),
            false => frame.extend(&rng.pick(&t.lines).code),
        }
    }
    if rng.one_in(4) && !strays.is_empty() {
        frame.fill_with(|| *rng.pick(&strays));
    }
    damaged(rng, &frame, &strays)
}

/// Codes of lines and other complete codes; half of the time with damage, at
/// the end mostly.
pub fn random_frame(rng: &mut Rng, t: &Table, items: usize) -> Vec<u8> {
    let mut frame = Vec::new();
    let some_codes = |rng: &mut Rng, frame: &mut Vec<u8>, n: usize| {
        for _ in 0..n {
            if !t.lines.is_empty() && !rng.one_in(6) {
                frame.extend(&rng.pick(&t.lines).code);
            } else if let Some(code) = random_code(rng, &t.rows) {
                frame.extend(code);
            }
        }
    };
    let n = rng.below(items + 1);
    some_codes(rng, &mut frame, n);
    if rng.one_in(2) {
        let mut code = random_code(rng, &t.rows).unwrap_or_default();
        match rng.below(4) {
            0 => code = vec![rng.byte()],
            1 => {
                code.pop();
            }
            2 => {
                if let Some(last) = code.last_mut() {
                    *last = rng.byte();
                }
            }
            _ => {
                code.pop();
                code.push(rng.byte());
                code.push(rng.byte());
            }
        }
        frame.extend(code);
        if rng.one_in(3) {
            some_codes(rng, &mut frame, 2);
        }
    } else if rng.one_in(4) && !frame.is_empty() {
        let n = rng.below(frame.len());
        frame.truncate(n);
    }
    frame
}

/// UTF-8 damaged in every way.
fn damaged_utf8(rng: &mut Rng) -> Vec<u8> {
    match rng.below(8) {
        0 => vec![rng.byte()],
        1 => {
            // Cut short.
            let cp = random_cp(rng, true);
            let mut bytes = char::from_u32(cp).unwrap().to_string().into_bytes();
            bytes.pop();
            bytes
        }
        2 => {
            // One byte changed.
            let cp = random_cp(rng, true);
            let mut bytes = char::from_u32(cp).unwrap().to_string().into_bytes();
            let i = rng.below(bytes.len());
            bytes[i] = rng.byte();
            bytes
        }
        3 => {
            // Longer than needed.
            let v = rng.below(0x80) as u32;
            match rng.below(3) {
                0 => vec![0xc0 + (v >> 6) as u8, 0x80 + (v & 63) as u8],
                1 => vec![0xe0, 0x80 + (v >> 6) as u8, 0x80 + (v & 63) as u8],
                _ => vec![0xf0, 0x80, 0x80 + (v >> 6) as u8, 0x80 + (v & 63) as u8],
            }
        }
        4 => vec![0xed, *rng.pick(&[0x9f, 0xa0, 0xaf, 0xb0, 0xbf]), rng.range(0x80, 0xbf) as u8],
        5 => vec![0xf4, *rng.pick(&[0x8f, 0x90, 0x9f, 0xbf]), 0x80, 0x80],
        6 => {
            // Five and six octets of old.
            let mut bytes = vec![*rng.pick(&[0xf8, 0xfb, 0xfc, 0xfd, 0xfe, 0xff])];
            bytes.extend((0..5).map(|_| rng.range(0x80, 0xbf) as u8));
            bytes
        }
        _ => {
            // The bounds of the second byte.
            let lead = *rng.pick(&[0xc1, 0xc2, 0xdf, 0xe0, 0xe1, 0xec, 0xed, 0xee, 0xef, 0xf0, 0xf1, 0xf3, 0xf4, 0xf5]);
            let second = *rng.pick(&[0x7f, 0x80, 0x8f, 0x90, 0x9f, 0xa0, 0xbf, 0xc0]);
            let mut bytes = vec![lead, second];
            for _ in 0..rng.below(3) {
                bytes.push(*rng.pick(&[0x7f, 0x80, 0xbf, 0xc0]));
            }
            bytes
        }
    }
}

/// A value that is no character: a surrogate, or above 10FFFF.
fn no_character(rng: &mut Rng) -> u32 {
    match rng.below(5) {
        0 => *rng.pick(&[0xd800, 0xdbff, 0xdc00, 0xdfff]),
        1 => rng.range(0xd800, 0xdfff) as u32,
        2 => *rng.pick(&[0x11_0000, 0x1f_ffff, 0x20_0041, 0xff_ffff, 0x100_0041, 0x7fff_ffff, 0x8000_0041, u32::MAX]),
        3 => (rng.next() as u32).max(0x11_0000),
        _ => random_cp(rng, true) | 1 << rng.range(21, 31),
    }
}

fn other_order(way: Scheme) -> Scheme {
    if way == Scheme::Utf32Le {
        Scheme::Utf32Be
    } else {
        Scheme::Utf32Le
    }
}

/// UTF-32 damaged in every way.
fn damaged_utf32(rng: &mut Rng, way: Scheme) -> Vec<u8> {
    match rng.below(8) {
        0 | 1 => character(way, no_character(rng)),
        2 => {
            // A pair of surrogates.
            let (high, low) = (rng.range(0xd800, 0xdbff) as u32, rng.range(0xdc00, 0xdfff) as u32);
            [character(way, high), character(way, low)].concat()
        }
        3 => character(other_order(way), random_cp(rng, true)),
        4 => rng.pick(&[MARK, LITTLE_MARK]).to_vec(),
        5 => (0..rng.range(1, 5)).map(|_| rng.byte()).collect(),
        6 => {
            // One byte changed.
            let mut bytes = character(way, random_cp(rng, true));
            bytes[rng.below(4)] = rng.byte();
            bytes
        }
        _ => {
            // A byte too few or too many: what is behind it is moved.
            let mut bytes = character(way, random_cp(rng, true));
            match rng.one_in(2) {
                true => bytes.truncate(rng.range(1, 3)),
                false => bytes.insert(rng.below(5), rng.byte()),
            }
            bytes
        }
    }
}

/// Characters of lines and others; half of the time with damage, at the end
/// mostly. Marks of either order stand at the front of any scheme at times.
pub fn random_text(rng: &mut Rng, t: &Table, scheme: Scheme, items: usize) -> Vec<u8> {
    let (mut out, mut way) = front(rng, scheme);
    if scheme != Scheme::Utf8 && rng.one_in(8) {
        out.extend(rng.pick(&[MARK, LITTLE_MARK]));
    }
    if scheme != Scheme::Utf8 && rng.one_in(16) {
        way = other_order(way);
    }
    let some_chars = |rng: &mut Rng, out: &mut Vec<u8>, n: usize| {
        for _ in 0..n {
            let of_line = !t.lines.is_empty() && !rng.one_in(6);
            let cp = if of_line { rng.pick(&t.lines).cp } else { random_cp(rng, true) };
            out.extend(character(way, if rng.one_in(30) { 0xfeff } else { cp }));
        }
    };
    let n = rng.below(items + 1);
    some_chars(rng, &mut out, n);
    if rng.one_in(2) {
        let mut bytes = if scheme == Scheme::Utf8 { damaged_utf8(rng) } else { damaged_utf32(rng, way) };
        if rng.one_in(2) {
            let n = rng.range(1, bytes.len().max(1));
            bytes.truncate(n);
        }
        out.extend(bytes);
        if rng.one_in(3) {
            some_chars(rng, &mut out, 2);
        }
    } else if rng.one_in(4) && !out.is_empty() {
        let n = rng.below(out.len());
        out.truncate(n);
    }
    out
}

/// Characters of lines and others, damaged all over: bytes, and in UTF-32 whole
/// characters too.
pub fn damaged_text(rng: &mut Rng, t: &Table, scheme: Scheme, items: usize) -> Vec<u8> {
    let (mut out, way) = front(rng, scheme);
    for _ in 0..rng.range(1, items) {
        if rng.one_in(6) {
            out.extend(illegal_in_text(rng, way).concat());
        }
        let of_line = !t.lines.is_empty() && !rng.one_in(4);
        let cp = if of_line { rng.pick(&t.lines).cp } else { random_cp(rng, true) };
        out.extend(character(way, cp));
    }
    // In UTF-32 a byte lost or inserted moves all that follow.
    match scheme != Scheme::Utf8 && rng.one_in(2) {
        true => out,
        false => damaged(rng, &out, &[0x80, 0xbf, 0xc0, 0xc2, 0xe0, 0xe2, 0xed, 0xf0, 0xf4, 0xff]),
    }
}

/// A position: the beginning, a complete code, or something like one.
pub fn random_position(rng: &mut Rng, t: &Table) -> (u32, u32) {
    let code = random_code(rng, &t.rows).filter(|c| c.len() <= 4).unwrap_or_default();
    let (bits, len) = (oracle::bits_of(&code), code.len() as u32);
    match rng.below(12) {
        0..=3 => (0, 0),
        4..=7 => (bits, len),
        8 => (bits ^ (1 << rng.below(32)), len),
        9 => (bits, rng.below(7) as u32),
        10 => (rng.next() as u32, rng.below(6) as u32),
        _ => (bits, len.wrapping_add(*rng.pick(&[256, u32::MAX, 4, 0]))),
    }
}

/// Bytes such as a call keeps, and others.
fn bytes_to_keep(rng: &mut Rng, t: &Table, pipe: Pipe) -> Vec<u8> {
    let mut bytes = match (pipe.way, rng.below(5)) {
        (_, 0) => Vec::new(),
        (_, 1) => (0..rng.range(1, 4)).map(|_| rng.byte()).collect(),
        (Way::From, 2) => (0..rng.range(1, 3)).map(|_| rng.range(0x80, 0xbf) as u8).collect(),
        (Way::From, _) => character(pipe.scheme, random_cp(rng, true)),
        (Way::To, _) => leads(rng, &t.rows).map_or(Vec::new(), |(way, _)| way),
    };
    let most = if pipe.way == Way::To { 3 } else { bytes.len().saturating_sub(1).min(3) };
    bytes.truncate(if rng.one_in(8) { 4 } else { rng.range(most.min(1), most) });
    bytes
}

/// What is kept: as a call leaves it, or nearly so.
pub fn random_kept(rng: &mut Rng, t: &Table, pipe: Pipe) -> Kept {
    let bytes = bytes_to_keep(rng, t, pipe);
    let mark = if pipe.scheme == Scheme::Utf32 { rng.below(3) as u32 } else { 0 };
    let unit = if pipe.scheme == Scheme::Utf8 { 1 } else { 4 };
    let (standing, length) = match rng.below(8) {
        0 => (51, 0),
        1 if pipe.way == Way::To => (52, rng.range(1, 4) as u32),
        1 => (52, unit),
        2 => (53, 0),
        _ => (0, 0),
    };
    let mut kept = [oracle::bits_of(&bytes), bytes.len() as u32, mark, standing, length];
    match rng.below(12) {
        0 => kept[0] ^= 1 << rng.below(32),
        1 => kept[rng.range(1, 4)] = *rng.pick(&[0, 1, 2, 3, 4, 5, 50, 51, 52, 53, 54, 255, 256, 1 << 16, u32::MAX]),
        2 => kept.fill_with(|| rng.next() as u32),
        _ => {}
    }
    kept
}
