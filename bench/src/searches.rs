//! Look-ups without any conversion: the library's searches beside what Rust's
//! own library offers, over the same lines, with the same values wanted in one
//! call and the same numbers as answers.

use crate::library::{Lent, LINKED};
use crate::lookups;
use crate::plain::bits;
use crate::texts::{scattered, shuffle, table_text, Mapping, Rng, MAPPINGS};
use crate::timing::{nanoseconds, way};
use std::cell::RefCell;
use std::collections::HashMap;

/// Look-ups in one call.
const WANTED: usize = 8_192;
const COUNTS: [usize; 4] = [16, 256, 1_500, MAPPINGS];

/// The unit of what stands above the lower 32 bits.
const WORD: u64 = 1 << 32;
/// A stored line's second number holds the code point below this, and the length
/// less 1 from the other up.
const RANK: u32 = 1 << 21;
const EXTRA: u32 = 1 << 24;

/// Fills a slice with the answers to all that is wanted.
type Fill<'a> = Box<dyn Fn(&mut [u64]) + 'a>;
type Named<'a> = (&'static str, Fill<'a>);

pub fn run() {
    let (mapped, others) = both_scattered();
    println!("searches: least times for one of {WANTED} look-ups in one call, without any conversion");
    for count in COUNTS {
        let table = &mapped[..count];
        let lent = Lent::with(LINKED, &table_text(table));
        for (name, list, hit) in [("all in the table", table, true), ("none in the table", &others, false)] {
            let wanted: Vec<Line> = by_chance(list).map(Line::of).collect();
            let codes: Vec<u64> = wanted.iter().map(Line::code).collect();
            let points: Vec<u32> = wanted.iter().map(|line| line.point).collect();
            timed(&format!("codes, {count} lines, {name}"), hit, code_ways(&lent, table, &codes));
            timed(&format!("code points, {count} lines, {name}"), hit, point_ways(&lent, table, &points));
        }
    }
}

/// Two-byte codes by chance for tables, and the others; their code points do not
/// rise with the codes.
fn both_scattered() -> (Vec<Mapping>, Vec<Mapping>) {
    let (mut mapped, mut others) = scattered();
    let mut points: Vec<u32> = mapped.iter().chain(&others).map(|m| m.cp).collect();
    shuffle(&mut points);
    for (m, cp) in mapped.iter_mut().chain(&mut others).zip(points) {
        m.cp = cp;
    }
    (mapped, others)
}

fn by_chance(list: &[Mapping]) -> impl Iterator<Item = &Mapping> {
    let mut rng = Rng(11);
    std::iter::repeat_with(move || &list[rng.below(list.len())]).take(WANTED)
}

/// A line as a programmer would keep it.
struct Line {
    bits: u32,
    len: u32,
    point: u32,
    used: u8,
}

impl Line {
    fn of(m: &Mapping) -> Line {
        Line { bits: bits(&m.code), len: m.code.len() as u32, point: m.cp, used: m.kind }
    }

    /// A wanted code, and the answer to a code point.
    fn code(&self) -> u64 {
        self.bits as u64 + WORD * self.len as u64
    }

    /// The answer to a code.
    fn answer(&self) -> u64 {
        self.point as u64 + WORD * (1 + self.used as u64)
    }
}

/// Bits and length of a wanted code.
fn parts(wanted: u64) -> (u32, u32) {
    (wanted as u32, (wanted / WORD) as u32)
}

/// The lines rising by a key.
fn sorted<K: Ord>(table: &[Mapping], key: impl Fn(&Line) -> K) -> Vec<Line> {
    let mut lines: Vec<Line> = table.iter().map(Line::of).collect();
    lines.sort_by_key(key);
    lines
}

/// One look-up for each that is wanted.
fn each<'a, W: Copy>(wanted: &'a [W], find: impl Fn(W) -> Option<u64> + 'a) -> Fill<'a> {
    Box::new(move |found| {
        for (found, &wanted) in found.iter_mut().zip(wanted) {
            *found = find(wanted).unwrap_or(0);
        }
    })
}

fn code_ways<'a>(lent: &'a Lent, table: &[Mapping], wanted: &'a [u64]) -> Vec<Named<'a>> {
    let memory = &lent.memory;
    let lines = sorted(table, |line| (line.bits, line.len));
    // Bits before the length, so that they rise.
    let keys: Vec<u64> = lines.iter().map(|line| line.code().rotate_left(32)).collect();
    let values: Vec<u64> = lines.iter().map(Line::answer).collect();
    let map: HashMap<(u32, u32), Line> = table.iter().map(Line::of).map(|line| (parts(line.code()), line)).collect();
    let stored = memory.codes.iter().copied().zip(memory.infos.iter().copied());
    let pairs: Vec<(u32, u32)> = stored.take(table.len()).collect();

    let in_lines = move |code| {
        let i = lines.binary_search_by_key(&parts(code), |line| (line.bits, line.len)).ok()?;
        Some(lines[i].answer())
    };
    let in_keys = move |code: u64| Some(values[keys.binary_search(&code.rotate_left(32)).ok()?]);
    let in_pairs = move |code| {
        let (bits, len) = parts(code);
        let i = pairs.binary_search_by_key(&(bits, len - 1), |pair| (pair.0, pair.1 / EXTRA)).ok()?;
        // Every line is of `|0`.
        Some((pairs[i].1 % RANK) as u64 + WORD)
    };
    let in_map = move |code| Some(map.get(&parts(code))?.answer());
    vec![
        (LINKED.name, Box::new(move |found: &mut [u64]| lookups::codes(&lent.record, memory, wanted, found))),
        ("structs, binary_search_by_key", each(wanted, in_lines)),
        ("keys alone, binary_search", each(wanted, in_keys)),
        ("stored pairs, binary_search_by_key", each(wanted, in_pairs)),
        ("HashMap", each(wanted, in_map)),
    ]
}

fn point_ways<'a>(lent: &'a Lent, table: &[Mapping], wanted: &'a [u32]) -> Vec<Named<'a>> {
    let memory = &lent.memory;
    let lines = sorted(table, |line| line.point);
    let keys: Vec<u32> = lines.iter().map(|line| line.point).collect();
    let values: Vec<u64> = lines.iter().map(Line::code).collect();
    let map: HashMap<u32, Line> = table.iter().map(Line::of).map(|line| (line.point, line)).collect();
    let order = &memory.order[..table.len()];

    let in_lines = move |point| {
        let i = lines.binary_search_by_key(&point, |line| line.point).ok()?;
        Some(lines[i].code())
    };
    let in_keys = move |point| Some(values[keys.binary_search(&point).ok()?]);
    let in_order = move |point| {
        let i = order.binary_search_by_key(&point, |&k| memory.infos[k as usize] % RANK).ok()?;
        let k = order[i] as usize;
        Some(memory.codes[k] as u64 + WORD * (memory.infos[k] / EXTRA + 1) as u64)
    };
    let in_map = move |point| Some(map.get(&point)?.code());
    vec![
        (LINKED.name, Box::new(move |found: &mut [u64]| lookups::points(&lent.record, memory, wanted, found))),
        ("structs, binary_search_by_key", each(wanted, in_lines)),
        ("keys alone, binary_search", each(wanted, in_keys)),
        ("lent order, binary_search_by_key", each(wanted, in_order)),
        ("HashMap", each(wanted, in_map)),
    ]
}

/// Compares the answers of all ways with the library's, then times them.
fn timed(name: &str, hit: bool, ways: Vec<Named>) {
    let (mut first, mut other) = (vec![u64::MAX; WANTED], vec![u64::MAX; WANTED]);
    ways[0].1(&mut first);
    assert!(first.iter().all(|&answer| (answer != 0) == hit), "{name}: found or not, as it should be");
    for (way, fill) in &ways[1..] {
        other.fill(u64::MAX);
        fill(&mut other);
        assert!(first == other, "{name}: {way} finds something else than the library");
    }
    let found = RefCell::new(other);
    let ways = ways.iter().map(|(name, fill)| way(name, || fill(&mut found.borrow_mut())));
    nanoseconds(name, WANTED, ways.collect());
}
