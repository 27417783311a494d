//! How many stored lines a look-up looks at, from either side: at most as many
//! as the count of lines has binary digits, 12 at 2,048, and one more with a
//! hint. A line is looked at when one of its two numbers is read; twice counts
//! once.
//!
//! `find_code` and `find_point` are copies of the library's searches that count.
//! What ties them to the library:
//! - They answer as the library does for every code and code point that is
//!   stored and for those between and around them, at every count around a power
//!   of two and at some between; and so does a plain search from the front.
//! - They answer as the library does in memory that is out of order. There the
//!   answer depends on which lines are looked at and in which order, and lines
//!   that fit alike differ in their other numbers, so that the answer tells
//!   where the search ended.
//! - Without any copy: if the library answers otherwise after one line was
//!   changed, it had looked at that line. There are never more such lines than
//!   the bound says, and the copy looked at each of them; for a code or code
//!   point that is found they are all the lines that the copy looked at, but at
//!   times not the first of them. A look on which no answer depends cannot be
//!   seen so.
//! - With a hint only the answers are held against the library, through
//!   conversions; the one look more is counted in the copy.

use crate::abi::AbiCase;
use crate::cases::{equal, equal_slices};
use crate::gen::{cells, full_table, random_code, random_cp, random_lines, text_of, Entry, Filler, Made, Rng};
use crate::lending::lent;
use crate::lookups;
use crate::memory::Memory;
use crate::oracle::{all_codes, bits_of, code_of, complete, form, Cell, Kind, Line, Record, Table, MAX_LINES};
use crate::stack::loaded;
use oboepond::slices;
use std::collections::BTreeSet;

pub const CASES: &[AbiCase] = &[
    ("the bound itself: 13 for 2,048 lines with a hint, one more for each doubling", doubling),
    ("looks: a code, at every count of lines", || within_bound(Side::Codes)),
    ("looks: a code point, at every count of lines", || within_bound(Side::Points)),
    ("looks: a code with a hint, right or wrong", || with_hints(Side::Codes)),
    ("looks: a code point with a hint, right or wrong", || with_hints(Side::Points)),
    ("look-ups: codes, the library, the copy and a plain search", || same_answers(Side::Codes)),
    ("look-ups: code points, the library, the copy and a plain search", || same_answers(Side::Points)),
    ("look-ups: codes in memory out of order", || out_of_order(Side::Codes)),
    ("look-ups: code points in memory out of order", || out_of_order(Side::Points)),
    ("looks: the lines on which the answer to a code depends", || dependence(Side::Codes)),
    ("looks: the lines on which the answer to a code point depends", || dependence(Side::Points)),
    ("look-ups: nothing in slices that are too short", short_slices),
    ("look-ups: to UTF-8, with hints and without", to_utf8),
    ("look-ups: from UTF-8, with hints and without", from_utf8),
];

/// The unit of what stands above the lower 32 bits.
const WORD: u64 = 1 << 32;
/// Before a line's rank and before its length less 1.
const RANK: u64 = 1 << 21;
const EXTRA: u64 = 1 << 24;

/// The bound: the binary digits of the count of lines.
fn looks_for(n: usize) -> usize {
    (usize::BITS - n.leading_zeros()) as usize
}

// ---------------------------------------------------------------------------
// The copies
// ---------------------------------------------------------------------------

/// The first n stored lines, all of them in the slices; each look is noted.
struct Lines<'a> {
    memory: &'a Memory,
    n: usize,
    seen: Vec<usize>,
}

impl Lines<'_> {
    /// The two numbers of a line.
    fn look(&mut self, at: usize) -> (u64, u64) {
        if !self.seen.contains(&at) {
            self.seen.push(at);
        }
        (self.memory.codes[at] as u64, self.memory.infos[at] as u64)
    }
}

/// Where a search by halving among n lines ends: the place of the first line
/// whose key is not less than the one sought, and by how much it is more. The
/// first look chooses between two windows of as many places as the largest
/// power of two has that is at most n; each look after it halves the window.
fn halved(n: usize, sought: u64, mut key: impl FnMut(usize) -> u64) -> (usize, u64) {
    let (mut base, mut size, mut gap) = (0, window(n), 2 * RANK);
    let mut next = n + 1 - size;
    while 0 < size {
        let here = key(base + size - 1);
        if here < sought {
            base = next;
        } else {
            gap = here - sought;
        }
        size /= 2;
        next = base + size;
    }
    (base, gap)
}

/// The largest power of two that is at most n.
fn window(n: usize) -> usize {
    (1 << looks_for(n)) / 2
}

fn find_code(lines: &mut Lines, wanted: u64) -> u64 {
    let (n, bits, len) = (lines.n, wanted % WORD, wanted / WORD);
    if !(1..=4).contains(&len) {
        return 0;
    }
    let key = |at| {
        let (code, info) = lines.look(at);
        code * WORD + info
    };
    let (_, gap) = halved(n, bits * WORD + (len - 1) * EXTRA, key);
    match gap / RANK {
        0 => gap + WORD,
        1 => gap % RANK + 4 * WORD,
        _ => 0,
    }
}

fn find_point(lines: &mut Lines, point: u64) -> u64 {
    let (n, order) = (lines.n, &lines.memory.order);
    if RANK <= point {
        return 0;
    }
    let key = |at: usize| match order[at] as usize {
        k if k < n => lines.look(k).1 % RANK,
        _ => RANK,
    };
    let (base, gap) = halved(n, point, key);
    if gap != 0 {
        return 0;
    }
    let (code, info) = lines.look(order[base] as usize);
    match info / RANK % 8 {
        1 => 0,
        _ => code + WORD * (info / EXTRA + 1),
    }
}

// ---------------------------------------------------------------------------
// Either side
// ---------------------------------------------------------------------------

/// What a line answers to a code that it reads.
fn reads((code, info): (u64, u64), wanted: u64) -> Option<u64> {
    let rank = info / RANK % 8;
    let fits = code == wanted % WORD && info / EXTRA + 1 == wanted / WORD && rank <= 1;
    fits.then(|| info % RANK + WORD * (1 + 3 * rank))
}

/// What a line answers to a code point of which it says what becomes.
fn writes((code, info): (u64, u64), point: u64) -> Option<u64> {
    let fits = info % RANK == point && info / RANK % 8 != 1;
    fits.then(|| code + WORD * (info / EXTRA + 1))
}

#[derive(Clone, Copy, PartialEq)]
enum Side {
    Codes,
    Points,
}

impl Side {
    fn find(self, lines: &mut Lines, wanted: u64) -> u64 {
        match self {
            Side::Codes => find_code(lines, wanted),
            Side::Points => find_point(lines, wanted),
        }
    }

    /// With one look at a place before the search.
    fn find_near(self, lines: &mut Lines, wanted: u64, at: usize) -> u64 {
        let near = if at < lines.n { self.fit(lines.look(at), wanted) } else { None };
        near.unwrap_or_else(|| self.find(lines, wanted))
    }

    fn fit(self, line: (u64, u64), wanted: u64) -> Option<u64> {
        match self {
            Side::Codes => reads(line, wanted),
            Side::Points => writes(line, wanted),
        }
    }

    fn show(self, wanted: u64) -> String {
        match self {
            Side::Codes => format!("code {:08X} of length {}", wanted % WORD, wanted / WORD),
            Side::Points => format!("code point {wanted:X}"),
        }
    }

    /// The numbers of a line that fits.
    fn fitting(self, wanted: u64) -> (u32, u32) {
        match self {
            Side::Codes => (wanted as u32, ((wanted / WORD).wrapping_sub(1) as u32) << 24 | 0x1234),
            Side::Points => (0x1234_5678, wanted as u32 % RANK as u32),
        }
    }
}

// ---------------------------------------------------------------------------
// Memories and what is wanted in them
// ---------------------------------------------------------------------------

/// Memory with n stored lines.
#[derive(Clone)]
struct Stored {
    n: usize,
    memory: Memory,
    name: &'static str,
}

impl Stored {
    fn lines(&self) -> Lines<'_> {
        Lines { memory: &self.memory, n: self.n, seen: Vec::new() }
    }

    /// The copy's answer, and which lines it looked at.
    fn looked_up(&self, side: Side, wanted: u64) -> (u64, Vec<usize>) {
        let mut lines = self.lines();
        (side.find(&mut lines, wanted), lines.seen)
    }

    /// The first line that fits and its answer, by a plain search.
    fn first(&self, side: Side, wanted: u64) -> Option<(usize, u64)> {
        let line = |k| (self.memory.codes[k] as u64, self.memory.infos[k] as u64);
        match side {
            Side::Codes => (0..self.n).find_map(|k| Some((k, reads(line(k), wanted)?))),
            Side::Points => (0..self.n).find_map(|k| Some((k, writes(line(k), wanted)?))),
        }
    }

    fn plain(&self, side: Side, wanted: u64) -> u64 {
        self.first(side, wanted).map_or(0, |(_, answer)| answer)
    }

    fn library(&self, side: Side, wanted: &[u64]) -> Vec<u64> {
        let mut found = vec![u64::MAX; wanted.len()];
        // The other numbers of the record are of no account.
        let record = [9, self.n as u32, 8, 7, u32::MAX, 6, 5];
        match side {
            Side::Codes => lookups::codes(&record, &self.memory, wanted, &mut found),
            Side::Points => {
                let points: Vec<u32> = wanted.iter().map(|&point| point as u32).collect();
                lookups::points(&record, &self.memory, &points, &mut found)
            }
        }
        found
    }

    fn set(&mut self, at: usize, (code, info): (u32, u32)) {
        self.memory.codes[at] = code;
        self.memory.infos[at] = info;
    }

    /// All that is there, what lies between neighbours, right beside them and
    /// before and behind them all. The first in order comes first.
    fn wanted(&self, side: Side) -> Vec<u64> {
        let (n, m) = (self.n, &self.memory);
        match side {
            Side::Codes => wanted_codes(&m.codes[..n]),
            Side::Points => {
                let points: Vec<u32> = m.order[..n].iter().map(|&k| m.infos[k as usize] % RANK as u32).collect();
                wanted_points(&points)
            }
        }
    }

    fn name(&self) -> String {
        format!("{}, {} lines", self.name, self.n)
    }

    /// The numbers that a test gives for all that is wanted; a failure says where
    /// it was.
    fn each(
        &self,
        side: Side,
        wanted: &[u64],
        mut test: impl FnMut(u64) -> Result<usize, String>,
    ) -> Result<Vec<usize>, String> {
        let at = |wanted, why| format!("{}, {}: {why}", self.name(), side.show(wanted));
        wanted.iter().map(|&wanted| test(wanted).map_err(|why| at(wanted, why))).collect()
    }

    /// The same, and the greatest of the numbers must be this.
    fn greatest(
        &self,
        side: Side,
        wanted: &[u64],
        want: usize,
        test: impl FnMut(u64) -> Result<usize, String>,
    ) -> Result<(), String> {
        let numbers = self.each(side, wanted, test)?;
        equal(&format!("{}, the most", self.name()), numbers.into_iter().max(), Some(want))
    }
}

/// Numbers right before and right behind each, and halfway to the next.
fn beside(sorted: &[u32]) -> Vec<u32> {
    let ends = sorted.iter().skip(1).chain([&u32::MAX]);
    let near = sorted.iter().zip(ends).flat_map(|(&a, &b)| [a.wrapping_sub(1), a.wrapping_add(1), a + (b - a) / 2]);
    near.chain([0, u32::MAX]).collect()
}

fn wanted_codes(codes: &[u32]) -> Vec<u64> {
    let there = codes.iter().flat_map(|&bits| (1..=4).map(move |len| (bits, len)));
    let gaps = beside(codes).into_iter().zip((1..=4).cycle());
    let ends = [0, u32::MAX].into_iter().flat_map(|bits| [0, 1, 4, 5, 256, u32::MAX as u64].map(|len| (bits, len)));
    there.chain(gaps).chain(ends).map(|(bits, len)| bits as u64 + WORD * len).collect()
}

fn wanted_points(points: &[u32]) -> Vec<u64> {
    let bounds = [RANK as u32 - 1, RANK as u32, RANK as u32 + 1];
    points.iter().copied().chain(beside(points)).chain(bounds).map(u64::from).collect()
}

/// 0 to 2, around every power of two, and some far from any.
fn counts() -> BTreeSet<usize> {
    let around = (0..=11).flat_map(|k| [(1 << k) - 1, 1 << k, (1 << k) + 1]);
    around.filter(|&n| n <= MAX_LINES).chain([6, 11, 22, 43, 100, 171, 200, 683, 1_000, 1_365]).collect()
}

/// Lines of all indicators. Many share a code point or a code, and many codes
/// differ in their length alone. The first line in either order is a `|0` line.
fn made_lines(rng: &mut Rng, n: usize) -> Vec<Line> {
    let kinds = [Kind::Both, Kind::ToUnicode, Kind::FromUnicode, Kind::ToUnicode, Kind::Both, Kind::Sub1];
    let mut filler = Filler::new();
    let mut lines = Vec::new();
    let mut next = Line { cp: 0x10, code: vec![0x10], kind: Kind::Both };
    while lines.len() < n {
        if filler.take(&next) {
            lines.push(next);
        }
        let old: &Line = rng.pick(&lines);
        let mut code: Vec<u8> = (0..rng.range(1, 4)).map(|_| rng.range(0x20, 0xff) as u8).collect();
        match rng.below(8) {
            0 => code.clone_from(&old.code),
            1 | 2 => code[1..].fill(0),
            _ => {}
        }
        let cp = if rng.one_in(4) { old.cp } else { rng.range(0x100, 0x10_ffff) as u32 };
        next = Line { cp, code, kind: kinds[lines.len() % kinds.len()] };
    }
    lines
}

/// Sound memory that no text need have; behind its lines stands anything.
fn made(rng: &mut Rng, n: usize) -> Stored {
    let lines = made_lines(rng, n);
    let table = Table { rows: Vec::new(), lines, min: 1, max: 4, subchar: vec![0x3f], subchar1: None };
    let (_, mut memory) = form(&table);
    for slice in [&mut memory.codes, &mut memory.infos, &mut memory.order] {
        slice[n..].fill_with(|| rng.next() as u32);
    }
    Stored { n, memory, name: "made" }
}

/// A table of codes of one to four bytes with exactly n lines, of all indicators.
fn deep_table(rng: &mut Rng, n: usize) -> Made {
    let ends = |to| Entry { from: 0, to, cell: Cell::Any };
    let leads = |row| vec![ends(0x7f), Entry { from: 0x80, to: 0xff, cell: Cell::Lead(row) }];
    let rows = vec![leads(1), leads(2), leads(3), vec![ends(0xff)]];
    let (meant, subchar) = (rows.iter().map(|row| cells(row)).collect(), vec![0x80, 0x3f]);
    let mut table = Table { rows: meant, lines: Vec::new(), min: 1, max: 4, subchar, subchar1: Some(0x1a) };
    random_lines(rng, &mut table, 100 + 8 * n, n);
    assert_eq!(table.lines.len(), n, "tries enough");
    Made { table, rows, sbcs: false, implied: false }
}

/// Tables that the library loaded from their texts.
fn loaded_tables() -> Vec<(Made, Record, Stored)> {
    let mut rng = Rng::new(21);
    let counts = [0, 1, 2, 3, 8, 100, 255, 256, 1_000, 1_025, 2_047, 2_048];
    let mut tables: Vec<Made> = counts.iter().map(|&n| deep_table(&mut rng, n)).collect();
    tables.push(full_table(&mut rng, MAX_LINES));
    let with_memory = |made: Made| {
        let (record, memory) = loaded(&text_of(&mut rng, &made));
        let n = made.table.lines.len();
        assert_eq!(record[1] as usize, n, "all lines are loaded");
        (made, record, Stored { n, memory, name: "loaded" })
    };
    tables.into_iter().map(with_memory).collect()
}

/// All sound memories.
fn sound() -> Vec<Stored> {
    let mut rng = Rng::new(20);
    let made = counts().into_iter().map(|n| made(&mut rng, n));
    made.chain(loaded_tables().into_iter().map(|(_, _, stored)| stored)).collect()
}

// ---------------------------------------------------------------------------
// How many looks
// ---------------------------------------------------------------------------

fn at_most(what: &str, got: usize, bound: usize) -> Result<(), String> {
    match got <= bound {
        true => Ok(()),
        false => Err(format!("{what}: {got}, more than {bound}")),
    }
}

fn doubling() -> Result<(), String> {
    at_most("2,048 lines with a hint", looks_for(MAX_LINES) + 1, 13)?;
    equal("no line", looks_for(0), 0)?;
    for n in 1..=MAX_LINES {
        equal(&format!("twice {n} lines"), looks_for(2 * n), looks_for(n) + 1)?;
    }
    Ok(())
}

/// The bound holds for every look-up and is reached by some.
fn within_bound(side: Side) -> Result<(), String> {
    for stored in sound() {
        let bound = looks_for(stored.n);
        stored.greatest(side, &stored.wanted(side), bound, |wanted| {
            let looks = stored.looked_up(side, wanted).1.len();
            at_most("looks", looks, bound)?;
            Ok(looks)
        })?;
    }
    Ok(())
}

/// How many lines the copy looks at with a hint. It must answer as without.
fn looks_near(stored: &Stored, side: Side, wanted: u64, hint: usize) -> Result<usize, String> {
    let mut lines = stored.lines();
    let answer = side.find_near(&mut lines, wanted, hint);
    equal("answer with a hint", answer, stored.looked_up(side, wanted).0)?;
    Ok(lines.seen.len())
}

/// One look where the hint is right, at most one more than the bound where it
/// is wrong, and no more than the bound where it is behind all lines.
fn with_hints(side: Side) -> Result<(), String> {
    let mut rng = Rng::new(22);
    for stored in sound() {
        let (n, bound) = (stored.n, looks_for(stored.n));
        stored.greatest(side, &stored.wanted(side), n.min(bound + 1), |wanted| {
            let right = stored.first(side, wanted).map(|(line, _)| line);
            if let Some(right) = right {
                equal("looks with the right hint", looks_near(&stored, side, wanted, right)?, 1)?;
            }
            at_most("looks with a hint behind all", looks_near(&stored, side, wanted, n)?, bound)?;
            // Any place, and one that the search does not look at.
            let looked = stored.looked_up(side, wanted).1;
            let unseen = (0..n).find(|line| !looked.contains(line));
            let mut most = 0;
            for wrong in unseen.into_iter().chain([rng.below(n + 1)]).filter(|&hint| Some(hint) != right) {
                let looks = looks_near(&stored, side, wanted, wrong)?;
                at_most("looks with a wrong hint", looks, bound + 1)?;
                most = most.max(looks);
            }
            Ok(most)
        })?;
    }
    Ok(())
}

// ---------------------------------------------------------------------------
// What ties the copies to the library
// ---------------------------------------------------------------------------

/// The library answers as the copy does. Gives how many are found elsewhere than
/// by the plain search.
fn as_copied(stored: &Stored, side: Side, wanted: &[u64]) -> Result<usize, String> {
    let mut answers = stored.library(side, wanted).into_iter();
    let elsewhere = stored.each(side, wanted, |wanted| {
        let answer = answers.next().expect("one for each");
        equal("library and copy", answer, stored.looked_up(side, wanted).0)?;
        Ok((answer != 0 && answer != stored.plain(side, wanted)) as usize)
    })?;
    Ok(elsewhere.into_iter().sum())
}

fn same_answers(side: Side) -> Result<(), String> {
    for stored in sound() {
        let wanted = stored.wanted(side);
        as_copied(&stored, side, &wanted)?;
        stored.each(side, &wanted, |wanted| {
            let answer = stored.looked_up(side, wanted).0;
            equal("copy and plain search", answer, stored.plain(side, wanted))?;
            Ok(0)
        })?;
    }
    Ok(())
}

/// A line of few codes, most of them of one length.
fn line_of_few_codes(rng: &mut Rng, first: u32, len: u32) -> (u32, u32) {
    let extra = if rng.one_in(8) { *rng.pick(&[0, 1, 2, 3, 4, 0x80, 0xff]) } else { len - 1 };
    (first + rng.below(3) as u32, rng.below(RANK as usize) as u32 + (any_rank(rng) << 21) + (extra << 24))
}

fn line_of_few_points(rng: &mut Rng, first: u32) -> (u32, u32) {
    (rng.next() as u32, first + rng.below(3) as u32 + (any_rank(rng) << 21) + ((rng.byte() as u32) << 24))
}

/// Often that of a line that reads and writes.
fn any_rank(rng: &mut Rng) -> u32 {
    rng.below(8) as u32 * rng.below(2) as u32
}

/// Indices in any order; at times some come twice, or are of no line.
fn any_order(rng: &mut Rng, n: usize) -> Vec<u32> {
    let mut order: Vec<u32> = (0..n as u32).collect();
    rng.shuffle(&mut order);
    match rng.below(4) {
        0 => order.fill_with(|| rng.below(n) as u32),
        1 => (0..1 + n / 20).for_each(|_| order[rng.below(n)] = *rng.pick(&[n as u32, n as u32 + 1, u32::MAX])),
        _ => {}
    }
    order
}

/// Lines in no order, many of which fit, and what to look up among them.
fn unsorted(rng: &mut Rng, side: Side, n: usize) -> (Stored, Vec<u64>) {
    let (first, len) = (rng.range(1, 1 << 20) as u32, rng.range(1, 4) as u32);
    let line = || match side {
        Side::Codes => line_of_few_codes(rng, first, len),
        Side::Points => line_of_few_points(rng, first),
    };
    let (codes, infos) = std::iter::repeat_with(line).take(n).unzip();
    let memory = Memory { states: Vec::new(), codes, infos, order: any_order(rng, n) };
    let near = first as u64 - 1..first as u64 + 4;
    let wanted = match side {
        Side::Codes => near.flat_map(|bits| (0..=5).map(move |len| bits + WORD * len)).collect(),
        Side::Points => near.collect(),
    };
    (Stored { n, memory, name: "out of order" }, wanted)
}

/// Sound memory whose lines or indices were then mixed, and what was to be found
/// in it before.
fn mixed(rng: &mut Rng, side: Side, n: usize) -> (Stored, Vec<u64>) {
    let mut stored = made(rng, n);
    let wanted = stored.wanted(side);
    for _ in 0..rng.range(1, 8) {
        let (a, b) = (rng.below(n), rng.below(n));
        stored.memory.codes.swap(a, b);
        stored.memory.infos.swap(a, b);
        stored.memory.order.swap(rng.below(n), rng.below(n));
    }
    stored.name = "mixed";
    (stored, wanted)
}

fn out_of_order(side: Side) -> Result<(), String> {
    let mut rng = Rng::new(23);
    let mut elsewhere = 0;
    for i in 0..10_000 {
        let n = if i % 200 == 0 { rng.range(1_000, MAX_LINES) } else { rng.range(1, 80) };
        let make = if i % 8 == 0 { mixed } else { unsorted };
        let (stored, wanted) = make(&mut rng, side, n);
        elsewhere += as_copied(&stored, side, &wanted)?;
    }
    // Answers that depend on the way the search takes; with few of them the
    // comparison would say little.
    let few = match side {
        Side::Codes => 4_000,
        Side::Points => 8_000,
    };
    match elsewhere < few {
        true => Err(format!("only {elsewhere} answers are not those of the plain search")),
        false => Ok(()),
    }
}

/// The lines on which the library's answer depends, as far as one change shows:
/// to the least numbers, to the greatest, to those of a line that fits.
fn depends_on(stored: &mut Stored, side: Side, wanted: u64) -> Vec<usize> {
    let (n, answer) = (stored.n, stored.library(side, &[wanted]));
    let depends = |&k: &usize| {
        let old = (stored.memory.codes[k], stored.memory.infos[k]);
        let other = [(0, 0), (u32::MAX, u32::MAX), side.fitting(wanted)].into_iter().any(|new| {
            stored.set(k, new);
            stored.library(side, &[wanted]) != answer
        });
        stored.set(k, old);
        other
    };
    (0..n).filter(depends).collect()
}

fn dependence(side: Side) -> Result<(), String> {
    let mut rng = Rng::new(24);
    for n in counts().into_iter().filter(|&n| n <= 256 || n == 1_365 || n == MAX_LINES) {
        let stored = made(&mut rng, n);
        let mut changed = stored.clone();
        let mut wanted = stored.wanted(side);
        if n > 256 {
            // The first stays: its search reaches the bound.
            rng.shuffle(&mut wanted[1..]);
            wanted.truncate(100);
        }
        stored.greatest(side, &wanted, looks_for(n), |wanted| {
            let lines = depends_on(&mut changed, side, wanted);
            at_most("lines on which the answer depends", lines.len(), looks_for(n))?;
            let (answer, looked) = stored.looked_up(side, wanted);
            // The first look does not matter where both of its windows hold the place.
            let matters = |line: &usize| lines.contains(line) || looked.first() == Some(line);
            match lines.iter().find(|line| !looked.contains(line)) {
                Some(line) => Err(format!("the answer depends on line {line}, the copy looked at {looked:?}")),
                None if answer != 0 && !looked.iter().all(matters) => {
                    Err(format!("found by {lines:?}, the copy looked at {looked:?}"))
                }
                None => Ok(lines.len()),
            }
        })?;
    }
    Ok(())
}

/// Slices that hold fewer lines than the count says: nothing is found. A code's
/// look-up does not read `order`.
fn short_slices() -> Result<(), String> {
    let whole = made(&mut Rng::new(25), 100);
    let slices: [fn(&mut Memory) -> &mut Vec<u32>; 3] = [|m| &mut m.codes, |m| &mut m.infos, |m| &mut m.order];
    for side in [Side::Codes, Side::Points] {
        let wanted = whole.wanted(side);
        let right = whole.library(side, &wanted);
        equal("something is found", right.iter().any(|&answer| answer != 0), true)?;
        for (slice, length) in (0..3).flat_map(|slice| [0, 1, 50, 99].map(|length| (slice, length))) {
            let mut short = whole.clone();
            slices[slice](&mut short.memory).truncate(length);
            let answers = short.library(side, &wanted);
            let want = match (side, slice) {
                (Side::Codes, 2) => right.clone(),
                _ => vec![0; right.len()],
            };
            equal_slices(&format!("slice {slice} cut to {length}"), &answers, &want)?;
        }
    }
    Ok(())
}

// ---------------------------------------------------------------------------
// Conversions
// ---------------------------------------------------------------------------

/// Pieces of this many characters have under 64 bytes: the search without hints.
const SHORT: usize = 15;

/// A code or a character, and what it must give.
type Step = (Vec<u8>, Vec<u8>);

/// All in one call, with hints; then in short pieces, without. Either with
/// skipping off and on, of which nothing shows.
fn converted(
    steps: &[Step],
    name: &str,
    call: impl Fn(&[u8], &mut [u8], u32, &mut [u64]) -> u32,
) -> Result<(), String> {
    let pieces = std::iter::once(steps).chain(steps.chunks(SHORT));
    for (piece, skip) in pieces.flat_map(|piece| [(piece, 0), (piece, 1)]) {
        let input: Vec<u8> = piece.iter().flat_map(|step| step.0.clone()).collect();
        let want: Vec<u8> = piece.iter().flat_map(|step| step.1.clone()).collect();
        let (mut output, mut result) = (vec![0; want.len()], [9; 3]);
        equal(&format!("{name}, number"), call(&input, &mut output, skip, &mut result), 0)?;
        equal_slices(&format!("{name}, result"), &result, &[input.len() as u64, want.len() as u64, 0])?;
        equal_slices(&format!("{name}, output"), &output, &want)?;
    }
    Ok(())
}

fn utf8(cp: u32) -> Option<Vec<u8>> {
    Some(char::from_u32(cp)?.to_string().into_bytes())
}

/// Every code of the table's rows if they are few, else those of its lines, such
/// as differ in the last byte by one, and some more.
fn codes_near(rng: &mut Rng, table: &Table) -> Vec<Vec<u8>> {
    let mut codes = all_codes(table, 1_000).unwrap_or_else(|| {
        let more = (0..500).map(|_| random_code(rng, &table.rows).expect("the rows have codes"));
        let lines = table.lines.iter().flat_map(|l| [0, 1, 255].map(|step| stepped(&l.code, step)));
        lines.chain(more).filter(|code| complete(&table.rows, code).is_some()).collect()
    });
    rng.shuffle(&mut codes);
    codes
}

fn stepped(code: &[u8], step: u8) -> Vec<u8> {
    let mut code = code.to_vec();
    let last = code.last_mut().expect("no code is empty");
    *last = last.wrapping_add(step);
    code
}

fn to_utf8() -> Result<(), String> {
    let mut rng = Rng::new(26);
    for (made, record, stored) in loaded_tables() {
        let step = |code: Vec<u8>| {
            let answer = stored.looked_up(Side::Codes, bits_of(&code) as u64 + WORD * code.len() as u64).0;
            let cp = match (answer, code.len()) {
                (0, 1) if made.table.subchar1.is_some() => 0x1a,
                (0, _) => 0xfffd,
                _ => answer as u32,
            };
            (code, utf8(cp).expect("a scalar value, by T6"))
        };
        let steps: Vec<Step> = codes_near(&mut rng, &made.table).into_iter().map(step).collect();
        let name = format!("{} lines to UTF-8", stored.n);
        converted(&steps, &name, |input, output, skip, result| {
            slices::to_utf8(lent(&record, &stored.memory), input, output, 1, skip, result)
        })?;
    }
    Ok(())
}

/// With fallback on, a line that says what becomes of a code point gives its own
/// code: that of a `|2` line is subchar1.
fn from_utf8() -> Result<(), String> {
    let mut rng = Rng::new(27);
    for (made, record, stored) in loaded_tables() {
        let near = made.table.lines.iter().flat_map(|l| [l.cp.saturating_sub(1), l.cp, l.cp + 1]);
        let mut points: Vec<u32> = near.chain((0..500).map(|_| random_cp(&mut rng, true))).collect();
        rng.shuffle(&mut points);
        let step = |cp: u32| {
            let code = match stored.looked_up(Side::Points, cp as u64).0 {
                0 => made.table.subchar.clone(),
                answer => code_of(answer as u32, (answer / WORD) as u32).expect("a stored code"),
            };
            Some((utf8(cp)?, code))
        };
        let steps: Vec<Step> = points.into_iter().filter_map(step).collect();
        let name = format!("{} lines from UTF-8", stored.n);
        converted(&steps, &name, |input, output, skip, result| {
            slices::from_utf8(lent(&record, &stored.memory), input, output, 1, 1, skip, result)
        })?;
    }
    Ok(())
}
