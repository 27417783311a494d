//! The cable: frames of K's codes around 81 7C 33 in which one byte is lost,
//! doubled or replaced by any other, converted without skipping and with it; and
//! the same for texts on their way back. What must come out is said by walks of
//! their own, not by the oracle: for frames by the plain rules of K in `part_at`,
//! for texts by the standard library. Oracle and library are compared besides.

use crate::by_hand;
use crate::cases::{equal, equal_slices, junk, old_bytes, skipping, skips_as_std, Case, K, STRICT, SUBST};
use crate::oracle::{self, Lines, Memory, Piped, Record, Scheme, Settings, Table};
use crate::subject::Subject;
use std::collections::BTreeSet;

/// Where a sequence begins under K.
enum Part {
    /// A code of so many bytes and its character.
    Code(usize, char),
    /// A code of so many bytes that no line reads.
    Unassigned(usize),
    /// So many illegal bytes.
    Stray(usize),
    /// The frame ends inside a code.
    Cut,
}

/// 2D, 30, 33 and 3F are codes of one byte, 81 with 7C, 7D or 80 of two. A byte
/// behind 81 that could begin a code is left to it.
fn part_at(rest: &[u8]) -> Part {
    match rest {
        [b @ (0x2d | 0x30 | 0x33), ..] => Part::Code(1, *b as char),
        [0x3f, ..] => Part::Unassigned(1),
        [0x81, 0x7c | 0x7d, ..] => Part::Code(2, '\u{2212}'),
        [0x81, 0x80, ..] => Part::Unassigned(2),
        [0x81, 0x2d | 0x30 | 0x33 | 0x3f | 0x81, ..] => Part::Stray(1),
        [0x81, _, ..] => Part::Stray(2),
        [0x81] => Part::Cut,
        _ => Part::Stray(1),
    }
}

/// What a frame must give, with space enough.
#[derive(Default)]
struct Walked {
    number: u32,
    read: usize,
    length: usize,
    text: String,
    /// The place in the text of each 81 7C where a sequence begins.
    minuses: Vec<usize>,
    /// Minuses of one byte right behind a stray 81, which were once swallowed.
    saved: usize,
}

fn walk(frame: &[u8], set: Settings) -> Walked {
    let mut w = Walked::default();
    while w.read < frame.len() {
        let rest = &frame[w.read..];
        let (length, character) = match part_at(rest) {
            Part::Code(length, c) => (length, c),
            Part::Unassigned(length) if set.substitute => (length, '\u{fffd}'),
            Part::Stray(length) if set.skip => (length, '\u{fffd}'),
            Part::Cut => return Walked { number: 51, ..w },
            Part::Stray(length) => return Walked { number: 52, length, ..w },
            Part::Unassigned(_) => return Walked { number: 53, ..w },
        };
        if rest.starts_with(b"\x81\x7c") {
            w.minuses.push(w.text.len());
        }
        w.saved += rest.starts_with(b"\x81\x2d") as usize;
        w.text.push(character);
        w.read += length;
    }
    w
}

/// The text in a scheme, with the mark of plain UTF-32.
fn encoded(scheme: Scheme, text: &str) -> Vec<u8> {
    let values = text.chars().map(|c| c as u32);
    match scheme {
        Scheme::Utf8 => text.as_bytes().to_vec(),
        Scheme::Utf32Le => values.flat_map(u32::to_le_bytes).collect(),
        Scheme::Utf32Be => values.flat_map(u32::to_be_bytes).collect(),
        Scheme::Utf32 => std::iter::once(0xfeff).chain(values).flat_map(u32::to_be_bytes).collect(),
    }
}

/// U+2212, without a mark.
fn minus(scheme: Scheme) -> &'static [u8] {
    match scheme {
        Scheme::Utf8 => b"\xe2\x88\x92",
        Scheme::Utf32Le => b"\x12\x22\x00\x00",
        Scheme::Utf32Be | Scheme::Utf32 => b"\x00\x00\x22\x12",
    }
}

/// K in a subject's memory, and what was met with it.
struct Cable<'a> {
    s: &'a dyn Subject,
    record: Record,
    memory: Memory,
    table: Table,
    lines: Lines,
    /// Skipping or not, number and length.
    met: BTreeSet<(bool, u32, u64)>,
    minuses: usize,
    saved: usize,
}

impl<'a> Cable<'a> {
    fn new(s: &'a dyn Subject) -> Result<Cable<'a>, String> {
        let mut memory = junk(0);
        let loaded = s.load(K.as_bytes(), &mut memory);
        equal("K", loaded.number, 0)?;
        let table = oracle::meaning_of_text(K.as_bytes()).map_err(|r| format!("K: {r:?}"))?;
        let lines = Lines::of(&table);
        let met = BTreeSet::new();
        Ok(Cable { s, record: loaded.record, memory, table, lines, met, minuses: 0, saved: 0 })
    }

    /// A frame in a scheme, strict and substituted, without skipping and with it.
    fn carries(&mut self, frame: &[u8], scheme: Scheme) -> Result<(), String> {
        for set in [STRICT, SUBST, skipping(STRICT), skipping(SUBST)] {
            self.gives(frame, scheme, set)
                .map_err(|why| format!("{frame:02x?} to {}, {set:?}: {why}", scheme.name()))?;
        }
        Ok(())
    }

    fn gives(&mut self, frame: &[u8], scheme: Scheme, set: Settings) -> Result<(), String> {
        let want = walk(frame, set);
        let text = encoded(scheme, &want.text);
        let space = 4 * frame.len() + 4;
        let mut output = old_bytes(space);
        let got = self.s.to_unicode(&self.record, &self.memory, frame, &mut output, scheme, set);
        let answer = Piped {
            number: want.number,
            read: want.read as u64,
            written: text.len() as u64,
            length: want.length as u64,
        };
        equal("answer by the walk", got, answer)?;
        equal_slices("output by the walk", &output[..text.len()], &text)?;
        equal_slices("output behind", &output[text.len()..], &old_bytes(space)[text.len()..])?;
        // Every 81 7C where a sequence begins is there, at its place.
        for &before in &want.minuses {
            let place = encoded(scheme, &want.text[..before]).len();
            let minus = minus(scheme);
            equal_slices("the minus", &output[place..place + minus.len()], minus)?;
        }
        let mut other = old_bytes(space);
        let oracle = oracle::to_unicode(&self.table, &self.lines, frame, &mut other, scheme, set);
        equal("answer of the oracle", got, oracle)?;
        equal_slices("output of the oracle", &output, &other)?;
        if set.skip {
            let joined = by_hand::to_unicode(self.s, &self.record, &self.memory, frame, space, scheme, set)?;
            equal("answer by hand", got, joined.answer)?;
            equal_slices("output by hand", &output, &joined.output)?;
            self.minuses += want.minuses.len();
            self.saved += want.saved;
        }
        self.met.insert((set.skip, got.number, got.length));
        Ok(())
    }

    /// What must have been met, without skipping (with the lengths) and with it;
    /// minuses came through, and some were saved from a stray 81.
    fn has_met(&self, off: &[(u32, u64)], on: &[u32], saved: bool) -> Result<(), String> {
        let off = off.iter().map(|&(number, length)| (false, number, length));
        let want: BTreeSet<_> = off.chain(on.iter().map(|&number| (true, number, 0))).collect();
        equal("skipping, number, length: all that was met", &self.met, &want)?;
        equal("81 7C came through", self.minuses > 0, true)?;
        equal("a minus behind a stray 81", self.saved > 0, saved)
    }
}

const CODES: [&[u8]; 7] = [b"\x2d", b"\x30", b"\x33", b"\x3f", b"\x81\x7c", b"\x81\x7d", b"\x81\x80"];

/// 81 7C 33 with up to so many of K's codes on either side.
fn frames(most: usize) -> Vec<Vec<u8>> {
    let mut sides = vec![Vec::new()];
    for from in 0..most {
        let longest: Vec<_> = sides.iter().filter(|side| side.len() == from).cloned().collect();
        sides.extend(longest.iter().flat_map(|side| CODES.map(|code| [&side[..], &[code]].concat())));
    }
    let around =
        |before: &[&[u8]], after: &[&[u8]]| [before.concat(), b"\x81\x7c\x33".to_vec(), after.concat()].concat();
    sides.iter().flat_map(|before| sides.iter().map(move |after| around(before, after))).collect()
}

/// The same for texts: U+2212 and 3 among characters of one to four bytes.
fn texts() -> Vec<Vec<u8>> {
    let between = |before, after| format!("{before}\u{2212}3{after}").into_bytes();
    ["", "é", "😀"].into_iter().flat_map(|before| ["", "-", "\u{2212}"].map(|after| between(before, after))).collect()
}

fn lost(bytes: &[u8]) -> Vec<Vec<u8>> {
    (0..bytes.len()).map(|at| [&bytes[..at], &bytes[at + 1..]].concat()).collect()
}

fn doubled(bytes: &[u8]) -> Vec<Vec<u8>> {
    (0..bytes.len()).map(|at| [&bytes[..=at], &bytes[at..]].concat()).collect()
}

fn replaced(bytes: &[u8]) -> Vec<Vec<u8>> {
    let at = |at: usize| (0..=255).map(move |b| [&bytes[..at], &[b], &bytes[at + 1..]].concat());
    (0..bytes.len()).flat_map(at).collect()
}

type Damage = fn(&[u8]) -> Vec<Vec<u8>>;

fn over_frames(s: &dyn Subject, most: usize, damage: Damage) -> Result<Cable<'_>, String> {
    let mut cable = Cable::new(s)?;
    for frame in frames(most) {
        for frame in damage(&frame) {
            cable.carries(&frame, Scheme::Utf8)?;
        }
    }
    // In every scheme without neighbours.
    for frame in damage(b"\x81\x7c\x33") {
        for scheme in Scheme::ALL {
            cable.carries(&frame, scheme)?;
        }
    }
    Ok(cable)
}

/// Every frame of up to five bytes of one of each kind.
fn every_short_frame(s: &dyn Subject) -> Result<Cable<'_>, String> {
    let mut cable = Cable::new(s)?;
    let mut frames = vec![Vec::new()];
    for _ in 0..=5 {
        for frame in &frames {
            cable.carries(frame, Scheme::Utf8)?;
        }
        let longer = |frame: &Vec<u8>| [0x2d, 0x3f, 0x7c, 0x80, 0x81, 0xff].map(|b| [&frame[..], &[b]].concat());
        frames = frames.iter().flat_map(longer).collect();
    }
    Ok(cable)
}

/// Texts on their way back: as the standard library cuts them, as the oracle
/// has them, and as they are by hand.
fn over_texts(s: &dyn Subject, damage: Damage) -> Result<(), String> {
    let cable = Cable::new(s)?;
    let (record, memory) = (&cable.record, &cable.memory);
    for text in texts().iter().flat_map(|text| damage(text)) {
        skips_as_std(s, record, memory, &text)?;
        for set in [STRICT, SUBST, skipping(STRICT), skipping(SUBST)] {
            let what = format!("{text:02x?}, {set:?}");
            let (mut output, mut other) = (old_bytes(2 * text.len()), old_bytes(2 * text.len()));
            let got = s.from_unicode(record, memory, &text, &mut output, Scheme::Utf8, set);
            let want = oracle::from_unicode(&cable.table, &cable.lines, &text, &mut other, Scheme::Utf8, set);
            equal(&what, got, want)?;
            equal_slices(&what, &output, &other)?;
            if set.skip {
                let joined = by_hand::from_unicode(s, record, memory, &text, output.len(), Scheme::Utf8, set)?;
                equal(&format!("{what}, by hand"), got, joined.answer)?;
                equal_slices(&format!("{what}, by hand"), &output, &joined.output)?;
            }
        }
    }
    Ok(())
}

fn case(name: &str, run: impl Fn(&dyn Subject) -> Result<(), String> + 'static) -> Case {
    Case { name: format!("the cable, {name}"), run: Box::new(run) }
}

/// A byte that goes leaves none that could not begin a code behind 81; a byte
/// that comes twice leaves no 81 at the end.
pub fn cases() -> Vec<Case> {
    const ALL: [(u32, u64); 5] = [(0, 0), (51, 0), (52, 1), (52, 2), (53, 0)];
    vec![
        case("frames as they are", |s| {
            over_frames(s, 2, |frame| vec![frame.to_vec()])?.has_met(&[(0, 0), (53, 0)], &[0, 53], false)
        }),
        case("a byte lost", |s| {
            over_frames(s, 2, lost)?.has_met(&[(0, 0), (51, 0), (52, 1), (53, 0)], &[0, 51, 53], true)
        }),
        case("a byte doubled", |s| over_frames(s, 2, doubled)?.has_met(&[(0, 0), (52, 1), (53, 0)], &[0, 53], false)),
        case("a byte replaced", |s| over_frames(s, 1, replaced)?.has_met(&ALL, &[0, 51, 53], true)),
        case("every short frame", |s| every_short_frame(s)?.has_met(&ALL, &[0, 51, 53], true)),
        case("a byte of a text lost", |s| over_texts(s, lost)),
        case("a byte of a text doubled", |s| over_texts(s, doubled)),
        case("a byte of a text replaced", |s| over_texts(s, replaced)),
    ]
}
