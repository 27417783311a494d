//! Random cases in groups. A case is an `Input`; what is known of its answer by
//! construction is checked on every subject, and the library is compared with
//! the oracle in everything: answers, record, whole slices with the places
//! behind, whole outputs. Every conversion is made without skipping and with it.
//! A failing case is shrunk and printed.

use crate::bursts::{self, Caller, Plan};
use crate::by_hand::{self, First, Joined};
use crate::cases::{equal, equal_memory, equal_slices, junk, old_bytes, old_entries};
use crate::gen::{self, Change, Made, Rng};
use crate::oracle::{self, Cell, Kept, Kind, Lines, Memory, Pipe, Piped, Record, Scheme, Settings, Table, Way};
use crate::oracle::{FRESH, MAPPING_PLACES, STATE_PLACES};
use crate::subject::{Oracle, Subject};
use std::collections::BTreeMap;
use std::time::{Duration, Instant};

/// Lengths of states, codes, infos, order.
type Lengths = [usize; 4];
const NEEDED: Lengths = [STATE_PLACES, MAPPING_PLACES, MAPPING_PLACES, MAPPING_PLACES];

/// What is known of a load by construction.
#[derive(Clone)]
pub enum Known {
    Nothing,
    Accepted(Box<Table>),
    Refused(u32, u64),
}

/// What is known of a conversion by construction: where it stands after each
/// step, the mark's among them, what it writes, and the number at the end with
/// the length for 52.
#[derive(Clone)]
pub struct Outcome {
    /// Bytes read and written so far; (0, 0) first.
    steps: Vec<(usize, usize)>,
    output: Vec<u8>,
    number: u32,
    length: usize,
}

impl Outcome {
    fn new() -> Outcome {
        Outcome { steps: vec![(0, 0)], output: Vec::new(), number: 0, length: 0 }
    }

    /// One step more, up to this place of the input.
    fn step(&mut self, place: usize, out: &[u8]) {
        if self.number == 0 {
            self.output.extend(out);
            self.steps.push((place, self.output.len()));
        }
    }

    fn stop(&mut self, number: u32, length: usize) {
        if self.number == 0 {
            (self.number, self.length) = (number, length);
        }
    }

    /// The last step that fits into a space: 50 unless it is the last of all.
    fn with(&self, space: usize) -> Piped {
        let fits = self.steps.iter().take_while(|step| step.1 <= space).count();
        let (read, written) = self.steps[fits - 1];
        let (number, length) = if fits == self.steps.len() { (self.number, self.length) } else { (50, 0) };
        Piped { number, read: read as u64, written: written as u64, length: length as u64 }
    }

    fn check(&self, got: Piped, output: &[u8]) -> Result<(), String> {
        let space = output.len();
        let want = self.with(space);
        equal(&format!("known answer with space {space}"), got, want)?;
        let n = want.written as usize;
        equal_slices("known output", &output[..n], &self.output[..n])?;
        equal_slices("output behind", &output[n..], &old_bytes(space)[n..])
    }
}

/// An input put together from parts whose outcome is known.
struct Parts {
    input: Vec<u8>,
    /// Written for each illegal sequence with skipping on.
    instead: Vec<u8>,
    /// Without skipping, and with it.
    outcomes: [Outcome; 2],
}

impl Parts {
    fn new(instead: Vec<u8>) -> Parts {
        Parts { input: Vec::new(), instead, outcomes: [Outcome::new(), Outcome::new()] }
    }

    /// Bytes that give an output.
    fn gives(&mut self, bytes: &[u8], out: &[u8]) {
        self.input.extend(bytes);
        self.outcomes.iter_mut().for_each(|o| o.step(self.input.len(), out));
    }

    /// An illegal sequence.
    fn illegal(&mut self, bytes: &[u8]) {
        self.input.extend(bytes);
        let [off, on] = &mut self.outcomes;
        off.stop(52, bytes.len());
        on.step(self.input.len(), &self.instead);
    }

    /// Bytes at which it stops, skipping or not.
    fn stops(&mut self, bytes: &[u8], number: u32) {
        self.input.extend(bytes);
        self.outcomes.iter_mut().for_each(|o| o.stop(number, 0));
    }

    /// Spaces for both outcomes.
    fn spaces(&self, rng: &mut Rng) -> Vec<usize> {
        let [off, on] = self.outcomes.each_ref().map(|o| o.output.len());
        spaces(rng, off, on)
    }
}

#[derive(Clone)]
pub enum Act {
    Check {
        known: Option<u32>,
    },
    To {
        scheme: Scheme,
        input: Vec<u8>,
        spaces: Vec<usize>,
        substitute: bool,
        /// Without skipping, and with it.
        known: Option<[Outcome; 2]>,
    },
    From {
        scheme: Scheme,
        input: Vec<u8>,
        spaces: Vec<usize>,
        fallback: bool,
        substitute: bool,
        known: Option<[Outcome; 2]>,
    },
    /// A text read in pieces, by one plan after the other.
    Pieces {
        pipe: Pipe,
        input: Vec<u8>,
        plans: Vec<Plan>,
    },
    /// One call with what is kept by chance; no piece closes.
    Kept {
        pipe: Pipe,
        kept: Kept,
        piece: Option<Vec<u8>>,
        space: usize,
    },
    /// Pieces (allowance, space) from a position on, each from where the last
    /// one ended. `whole`: they end at the finish, and joined they are the
    /// plain list.
    Audit {
        fallback: bool,
        position: (u32, u32),
        pieces: Vec<(u64, usize)>,
        whole: bool,
    },
}

#[derive(Clone)]
pub enum Input {
    Load {
        text: Vec<u8>,
        lengths: Lengths,
        known: Known,
    },
    /// The form of a text, then changed, in slices of these lengths.
    Memory {
        base: Vec<u8>,
        changes: Vec<Change>,
        lengths: Lengths,
        act: Act,
    },
}

// ---------------------------------------------------------------------------
// Counting what was reached
// ---------------------------------------------------------------------------

/// How often each number was met, by kind of call.
#[derive(Default)]
pub struct Reached {
    pub counts: BTreeMap<(String, u32), u64>,
}

impl Reached {
    pub fn note(&mut self, what: &str, number: u32) {
        *self.counts.entry((what.to_string(), number)).or_insert(0) += 1;
    }
}

/// What a run of some thousand cases has to reach.
pub const TO_REACH: &[(&str, &[u32])] = &[
    ("load", &[0, 1, 2, 10, 11, 12, 13, 14, 15, 16, 20, 21, 22, 23, 24, 25, 26, 27, 28]),
    ("check", &[0, 60]),
    ("to UTF-8", PIPE_NUMBERS),
    ("to UTF-32BE", PIPE_NUMBERS),
    ("to UTF-32LE", PIPE_NUMBERS),
    ("to UTF-32", PIPE_NUMBERS),
    ("from UTF-8", PIPE_NUMBERS),
    ("from UTF-32BE", PIPE_NUMBERS),
    ("from UTF-32LE", PIPE_NUMBERS),
    ("from UTF-32", PIPE_NUMBERS),
    ("to UTF-8, skipping", SKIP_NUMBERS),
    ("to UTF-32BE, skipping", SKIP_NUMBERS),
    ("to UTF-32LE, skipping", SKIP_NUMBERS),
    ("to UTF-32, skipping", SKIP_NUMBERS),
    ("from UTF-8, skipping", SKIP_NUMBERS),
    ("from UTF-32BE, skipping", SKIP_NUMBERS),
    ("from UTF-32LE, skipping", SKIP_NUMBERS),
    ("from UTF-32, skipping", SKIP_NUMBERS),
    (FULL_TO, SCHEMES),
    (FULL_FROM, SCHEMES),
    (WITH_BREAKING, &[1, 2, 3, 4]),
    (BEFORE_BREAKING, &[1, 2, 3]),
    (BREAKING, &[1, 2, 3, 4, 5]),
    (BYTES_OF_TEXT, &[1, 4]),
    (MANY, &[2, 3, 4]),
    ("piece to UTF-8", PIECE_NUMBERS),
    ("piece to UTF-32BE", PIECE_NUMBERS),
    ("piece to UTF-32LE", PIECE_NUMBERS),
    ("piece to UTF-32", PIECE_NUMBERS),
    ("piece from UTF-8", PIECE_NUMBERS),
    ("piece from UTF-32BE", PIECE_NUMBERS),
    ("piece from UTF-32LE", PIECE_NUMBERS),
    ("piece from UTF-32", PIECE_NUMBERS),
    ("close to UTF-8", CLOSE_NUMBERS),
    ("close to UTF-32BE", CLOSE_NUMBERS),
    ("close to UTF-32LE", CLOSE_NUMBERS),
    ("close to UTF-32", PIECE_NUMBERS),
    ("close from UTF-8", CLOSE_NUMBERS),
    ("close from UTF-32BE", CLOSE_NUMBERS),
    ("close from UTF-32LE", CLOSE_NUMBERS),
    ("close from UTF-32", CLOSE_NUMBERS),
    ("piece to UTF-8, bytes kept", KEPT_COUNTS),
    ("piece to UTF-32, bytes kept", KEPT_COUNTS),
    ("piece from UTF-8, bytes kept", KEPT_COUNTS),
    ("piece from UTF-32BE, bytes kept", KEPT_COUNTS),
    ("piece from UTF-32LE, bytes kept", KEPT_COUNTS),
    ("piece from UTF-32, bytes kept", KEPT_COUNTS),
    ("close to UTF-8, bytes kept", KEPT_COUNTS),
    ("close from UTF-8, bytes kept", KEPT_COUNTS),
    ("close from UTF-32, bytes kept", KEPT_COUNTS),
    ("trail bytes kept", &[1, 2]),
    ("audit", &[0, 40, 60]),
    ("cause", &[1, 2, 3, 4]),
];

/// In pieces 51 is given by the close, and stands.
const PIECE_NUMBERS: &[u32] = &[0, 42, 50, 51, 52, 53, 60];
/// Only a mark that is to be written can find no space at the close.
const CLOSE_NUMBERS: &[u32] = &[0, 42, 51, 52, 53, 60];
const KEPT_COUNTS: &[u32] = &[1, 2, 3];

const PIPE_NUMBERS: &[u32] = &[0, 50, 51, 52, 53, 60];
/// With skipping on 52 is never given.
const SKIP_NUMBERS: &[u32] = &[0, 50, 51, 53, 60];
/// As `Scheme::ALL` has them.
const SCHEMES: &[u32] = &[0, 1, 2, 3];
/// Which scheme it was.
const FULL_TO: &str = "50 for a skipped sequence, to scheme";
const FULL_FROM: &str = "50 for a skipped sequence, from scheme";
/// How many bytes a skipped sequence had.
const WITH_BREAKING: &str = "skipped in a frame with the byte that broke it, bytes";
const BEFORE_BREAKING: &str = "skipped in a frame before the byte that broke it, bytes";
const BYTES_OF_TEXT: &str = "skipped in a text, bytes";
/// 1 to 3: an end without a letter, `p`, `u`; 4 leads on, 5 leads to an empty row.
const BREAKING: &str = "breaking byte as a first one";
/// Two, three, four or more sequences skipped in one input.
const MANY: &str = "sequences skipped in one input";

/// The kind of call, as it is counted.
fn call_name(way: &str, scheme: Scheme, skip: bool) -> String {
    format!("{way} {}{}", scheme.name(), if skip { ", skipping" } else { "" })
}

// ---------------------------------------------------------------------------
// One case
// ---------------------------------------------------------------------------

fn with_lengths(lengths: Lengths) -> Memory {
    let most = lengths.iter().zip(NEEDED).map(|(&l, n)| l.saturating_sub(n)).max().unwrap_or(0);
    let mut m = junk(most);
    m.states.truncate(lengths[0]);
    m.codes.truncate(lengths[1]);
    m.infos.truncate(lengths[2]);
    m.order.truncate(lengths[3]);
    m
}

/// Record and memory of a base text (zeros if it is refused) after changes.
fn prepare(base: &[u8], changes: &[Change], lengths: Lengths) -> (Record, Memory) {
    let (mut record, form) = match oracle::meaning_of_text(base) {
        Ok(table) => oracle::form(&table),
        Err(_) => ([0; 7], Memory::zeros()),
    };
    let most = lengths.iter().zip(NEEDED).map(|(&l, n)| l.saturating_sub(n)).max().unwrap_or(0);
    let mut memory = junk(most);
    memory.set_needed(&form);
    gen::apply(changes, &mut record, &mut memory);
    memory.states.truncate(lengths[0]);
    memory.codes.truncate(lengths[1]);
    memory.infos.truncate(lengths[2]);
    memory.order.truncate(lengths[3]);
    (record, memory)
}

/// Runs a case on a subject. With `compare`, everything is compared with the
/// oracle too.
pub fn run(s: &dyn Subject, input: &Input, compare: bool, reached: &mut Reached) -> Result<(), String> {
    match input {
        Input::Load { text, lengths, known } => {
            let mut memory = with_lengths(*lengths);
            let got = s.load(text, &mut memory);
            reached.note("load", got.number);
            match known {
                Known::Nothing => {}
                Known::Accepted(table) => {
                    let (record, form) = oracle::form(table);
                    equal("number and line", (got.number, got.line), (0, 0))?;
                    equal("record", got.record, record)?;
                    let mut want = with_lengths(*lengths);
                    want.set_needed(&form);
                    equal_memory(&memory, &want)?;
                    equal("check of the loaded memory", s.check(&got.record, &memory), 0)?;
                    reads_back(s, table, &got.record, &memory)?;
                }
                Known::Refused(number, line) => {
                    equal("number and line", (got.number, got.line), (*number, *line))?;
                    equal("record", got.record, [0; 7])?;
                    let mut want = with_lengths(*lengths);
                    if *number > 2 {
                        want.set_needed(&Memory::zeros());
                    }
                    equal_memory(&memory, &want)?;
                }
            }
            if compare {
                let mut other = with_lengths(*lengths);
                let want = Oracle.load(text, &mut other);
                equal("answer against the oracle", got, want)?;
                equal_memory(&memory, &other)?;
                let (a, b) = (s.check(&got.record, &memory), Oracle.check(&got.record, &memory));
                equal("check of the loaded memory", a, b)?;
            }
            Ok(())
        }
        Input::Memory { base, changes, lengths, act } => {
            let (record, memory) = prepare(base, changes, *lengths);
            let before = memory.clone();
            run_act(s, &record, &memory, act, compare, reached)?;
            equal_memory(&memory, &before)
        }
    }
}

/// What the `|0` and `|1` lines write is read by some line (T10).
fn reads_back(s: &dyn Subject, t: &Table, record: &Record, memory: &Memory) -> Result<(), String> {
    let writing = || t.lines.iter().filter(|l| matches!(l.kind, Kind::Both | Kind::FromUnicode));
    let text: Vec<u8> = writing().flat_map(|l| gen::character(Scheme::Utf8, l.cp)).collect();
    let codes: Vec<u8> = writing().flat_map(|l| l.code.clone()).collect();
    let strict = Settings { fallback: true, substitute: false, skip: false };
    let mut output = vec![0; codes.len()];
    let got = s.from_unicode(record, memory, &text, &mut output, Scheme::Utf8, strict);
    equal("all that is written", (got.number, got.read), (0, text.len() as u64))?;
    equal_slices("all codes that are written", &output, &codes)?;
    let got = s.to_unicode(record, memory, &codes, &mut vec![0; 4 * codes.len()], Scheme::Utf8, strict);
    equal("what is written reads back", (got.number, got.read), (0, codes.len() as u64))
}

fn run_act(
    s: &dyn Subject,
    record: &Record,
    memory: &Memory,
    act: &Act,
    compare: bool,
    reached: &mut Reached,
) -> Result<(), String> {
    match act {
        Act::Check { known } => {
            let got = s.check(record, memory);
            reached.note("check", got);
            if let Some(want) = known {
                equal("check", got, *want)?;
            }
            if compare {
                equal("check against the oracle", got, Oracle.check(record, memory))?;
            }
            Ok(())
        }
        Act::To { scheme, input, spaces, substitute, known } => {
            let set = |skip| Settings { fallback: false, substitute: *substitute, skip };
            let name = |skip| call_name("to", *scheme, skip);
            let convert = |s: &dyn Subject, output: &mut [u8], skip| {
                s.to_unicode(record, memory, input, output, *scheme, set(skip))
            };
            conversion(s, spaces, known, compare, reached, &name, &convert)?;
            let by_hand = |space| by_hand::to_unicode(s, record, memory, input, space, *scheme, set(false));
            let skipped = as_by_hand(s, *scheme, FULL_TO, spaces, reached, &by_hand, &convert)?;
            for (place, length) in skipped {
                let first = by_hand::broken(&memory.states, &input[place..], length)?;
                let (what, kind) = match first {
                    First::Illegal => (WITH_BREAKING, None),
                    First::Ends(end) => (BEFORE_BREAKING, Some(end as u32)),
                    First::Leads => (BEFORE_BREAKING, Some(4)),
                    First::LeadsToEmptyRow => (BEFORE_BREAKING, Some(5)),
                };
                reached.note(what, length as u32);
                kind.into_iter().for_each(|kind| reached.note(BREAKING, kind));
            }
            Ok(())
        }
        Act::From { scheme, input, spaces, fallback, substitute, known } => {
            let set = |skip| Settings { fallback: *fallback, substitute: *substitute, skip };
            let name = |skip| call_name("from", *scheme, skip);
            let convert = |s: &dyn Subject, output: &mut [u8], skip| {
                s.from_unicode(record, memory, input, output, *scheme, set(skip))
            };
            conversion(s, spaces, known, compare, reached, &name, &convert)?;
            let by_hand = |space| by_hand::from_unicode(s, record, memory, input, space, *scheme, set(false));
            for (_, length) in as_by_hand(s, *scheme, FULL_FROM, spaces, reached, &by_hand, &convert)? {
                equal("length of an illegal sequence", length, if *scheme == Scheme::Utf8 { 1 } else { 4 })?;
                reached.note(BYTES_OF_TEXT, length as u32);
            }
            Ok(())
        }
        Act::Pieces { pipe, input, plans } => {
            let mut caller = Caller { s, record, memory, pipe: *pipe, compare, kept: FRESH };
            for plan in plans {
                caller.text(input, plan, reached).map_err(|why| format!("{plan:?}: {why}"))?;
            }
            Ok(())
        }
        Act::Kept { pipe, kept, piece, space } => {
            let mut caller = Caller { s, record, memory, pipe: *pipe, compare, kept: *kept };
            let (got, _) = caller.call(piece.as_deref(), *space)?;
            caller.note(piece.is_some(), got.number, reached);
            if matches!(got.number, 42 | 60) {
                let nothing = Piped { number: got.number, read: 0, written: 0, length: 0 };
                equal("nothing is done", (got, caller.kept), (nothing, *kept))?;
            }
            Ok(())
        }
        Act::Audit { fallback, position, pieces, whole } => {
            let (mut bits, mut len) = *position;
            let mut joined = Vec::new();
            let mut count = 0;
            let mut finished = false;
            for (i, &(allowance, space)) in pieces.iter().enumerate() {
                let mut entries = old_entries(space);
                let got = s.audit(record, memory, *fallback, bits, len, allowance, &mut entries);
                reached.note("audit", got.number);
                if compare {
                    let mut other = old_entries(space);
                    let want = Oracle.audit(record, memory, *fallback, bits, len, allowance, &mut other);
                    equal(&format!("answer of piece {}", i + 1), got, want)?;
                    equal_slices(&format!("entries of piece {}", i + 1), &entries, &other)?;
                }
                if got.entries as usize > space {
                    return Err(format!("{} entries in a space of {space}", got.entries));
                }
                let listed = got.entries as usize;
                equal_slices("space left", &entries[listed..], &old_entries(space)[listed..])?;
                for e in &entries[..listed] {
                    reached.note("cause", (e >> 40) as u32);
                }
                joined.extend_from_slice(&entries[..listed]);
                count += got.count;
                finished = got.finished;
                (bits, len) = (got.bits, got.len);
            }
            if *whole {
                // One run with the same end, and the plain list.
                let table = oracle::meaning_of(record, memory).ok_or("the base is no table")?;
                let plain = plain_list(&table, *fallback).ok_or("too many codes for a plain list")?;
                let upto = plain.iter().position(|(code, _)| (oracle::bits_of(code), code.len() as u32) == (bits, len));
                let looked = upto.map_or(0, |i| i + 1);
                let want: Vec<u64> = plain[..looked]
                    .iter()
                    .filter_map(|(code, cause)| cause.map(|c| oracle::entry_number(code, c)))
                    .collect();
                equal_slices("joined entries and the plain list", &joined, &want)?;
                equal("summed counts", count, looked as u64)?;
                equal("finished", finished, looked == plain.len())?;
                let mut entries = old_entries(want.len());
                let got = s.audit(record, memory, *fallback, 0, 0, count, &mut entries);
                equal("count of one run", got.count, count)?;
                equal("position of one run", (got.bits, got.len), (bits, len))?;
                equal_slices("entries of one run", &entries, &want)?;
            }
            Ok(())
        }
    }
}

/// A subject's conversion into a space, skipping or not.
type Convert<'a> = &'a dyn Fn(&dyn Subject, &mut [u8], bool) -> Piped;

/// A conversion into every space, without skipping and with it.
fn conversion(
    s: &dyn Subject,
    spaces: &[usize],
    known: &Option<[Outcome; 2]>,
    compare: bool,
    reached: &mut Reached,
    name: &dyn Fn(bool) -> String,
    convert: Convert,
) -> Result<(), String> {
    for skip in [false, true] {
        let name = name(skip);
        for &space in spaces {
            let mut output = old_bytes(space);
            let got = convert(s, &mut output, skip);
            reached.note(&name, got.number);
            // A length stands with 52 alone, and with skipping on there is no 52.
            equal(&format!("{name}: a length"), got.length > 0, got.number == 52)?;
            equal(&format!("{name}: 52 while skipping"), skip && got.number == 52, false)?;
            if let Some(known) = known {
                known[skip as usize].check(got, &output).map_err(|why| format!("{name}: {why}"))?;
            }
            if compare {
                let mut other = old_bytes(space);
                let want = convert(&Oracle, &mut other, skip);
                equal(&format!("{name}, answer with space {space}"), got, want)?;
                equal_slices(&format!("{name}, output with space {space}"), &output, &other)?;
            }
        }
    }
    Ok(())
}

/// Skipping does what a caller does who goes on by hand; tried in some of the
/// spaces, the largest among them. Gives what is skipped there.
fn as_by_hand(
    s: &dyn Subject,
    scheme: Scheme,
    full: &str,
    spaces: &[usize],
    reached: &mut Reached,
    by_hand: &dyn Fn(usize) -> Result<Joined, String>,
    convert: Convert,
) -> Result<Vec<(usize, usize)>, String> {
    let largest = spaces.iter().max().copied().into_iter();
    let some = spaces.iter().copied().step_by(spaces.len().div_ceil(5).max(1));
    let mut skipped = Vec::new();
    for space in some.chain(largest) {
        let joined = by_hand(space)?;
        let mut output = old_bytes(space);
        equal(&format!("skipping and by hand, space {space}"), convert(s, &mut output, true), joined.answer)?;
        equal_slices(&format!("skipping and by hand, output with space {space}"), &output, &joined.output)?;
        if joined.full {
            let number = Scheme::ALL.iter().position(|&other| other == scheme);
            reached.note(full, number.expect("one of all") as u32);
        }
        skipped = joined.skipped;
    }
    if skipped.len() > 1 {
        reached.note(MANY, skipped.len().min(4) as u32);
    }
    Ok(skipped)
}

/// Document 01's plain list straight from the lines, without the oracle's walk
/// and look-up: every complete code in byte order with its cause, if any.
fn plain_list(t: &Table, fallback: bool) -> Option<Vec<(Vec<u8>, Option<u64>)>> {
    let codes = oracle::all_codes(t, 3_000)?;
    let mut list = Vec::new();
    for code in codes {
        let reads = t.lines.iter().find(|l| matches!(l.kind, Kind::Both | Kind::ToUnicode) && l.code == code);
        let cause = if oracle::complete(&t.rows, &code) == Some(Cell::Unassigned) {
            Some(1)
        } else if let Some(line) = reads {
            let writes = t
                .lines
                .iter()
                .find(|l| l.cp == line.cp && (l.kind == Kind::Both || (fallback && l.kind == Kind::FromUnicode)));
            match writes {
                Some(w) if w.code == code => None,
                Some(_) => Some(3),
                None => Some(4),
            }
        } else {
            Some(2)
        };
        list.push((code, cause));
    }
    Some(list)
}

// ---------------------------------------------------------------------------
// Groups
// ---------------------------------------------------------------------------

pub struct Group {
    pub name: &'static str,
    /// Share of the cases, in thousandths.
    pub share: u64,
    /// Something is known by construction, so that it tests the oracle too.
    pub on_oracle: bool,
    pub make: fn(&mut Rng) -> Input,
}

pub const GROUPS: &[Group] = &[
    Group { name: "load: valid tables in random dress", share: 80, on_oracle: true, make: load_valid },
    Group { name: "load: full tables", share: 3, on_oracle: true, make: load_full },
    Group { name: "load: a text for each number", share: 70, on_oracle: true, make: load_number },
    Group { name: "load: damaged texts", share: 80, on_oracle: false, make: load_damaged },
    Group { name: "load: nearly right lines", share: 120, on_oracle: false, make: load_near },
    Group { name: "load: several rules broken on a line", share: 50, on_oracle: false, make: load_several },
    Group { name: "load: hostile texts", share: 47, on_oracle: false, make: load_hostile },
    Group { name: "load: short and long slices", share: 20, on_oracle: false, make: load_slices },
    Group { name: "test behind 60: forms of valid tables", share: 30, on_oracle: true, make: check_valid },
    Group { name: "test behind 60: one number changed", share: 50, on_oracle: false, make: check_change },
    Group { name: "test behind 60: changed tables, disorder", share: 50, on_oracle: false, make: check_broken },
    Group { name: "test behind 60: a fallback that nothing reads", share: 15, on_oracle: true, make: check_void },
    Group { name: "test behind 60: random memories", share: 20, on_oracle: false, make: check_random },
    Group { name: "pipes: known texts and stops both ways", share: 60, on_oracle: true, make: pipe_known },
    Group { name: "to Unicode: valid, damaged, cut frames", share: 70, on_oracle: false, make: to_random },
    Group { name: "from Unicode: valid, damaged, cut", share: 80, on_oracle: false, make: from_random },
    Group { name: "to Unicode: frames damaged all over", share: 40, on_oracle: false, make: to_damaged },
    Group { name: "from Unicode: texts damaged all over", share: 40, on_oracle: false, make: from_damaged },
    Group { name: "pipes: long inputs over full tables", share: 10, on_oracle: false, make: pipe_full },
    Group { name: "pieces: known texts and stops, cut", share: 20, on_oracle: true, make: pieces_known },
    Group { name: "pieces: valid, damaged, cut texts", share: 40, on_oracle: true, make: pieces_random },
    Group { name: "pieces: texts damaged all over", share: 40, on_oracle: true, make: pieces_damaged },
    Group { name: "pieces: long inputs over full tables", share: 4, on_oracle: true, make: pieces_full },
    Group { name: "pieces: kept states by chance", share: 120, on_oracle: false, make: kept_random },
    Group { name: "pieces over changed memory", share: 50, on_oracle: false, make: kept_changed },
    Group { name: "pipes and audit over changed memory", share: 30, on_oracle: false, make: act_changed },
    Group { name: "audit: random calls", share: 30, on_oracle: false, make: audit_random },
    Group { name: "audit: pieces joined, one run, plain list", share: 20, on_oracle: true, make: audit_pieces },
];

/// The needed lengths and a few more places.
fn lengths(rng: &mut Rng) -> Lengths {
    NEEDED.map(|n| n + *rng.pick(&[0, 0, 1, 5]))
}

fn a_table(rng: &mut Rng) -> Made {
    if rng.one_in(200) {
        let n = *rng.pick(&[500, 2047, 2048]);
        gen::full_table(rng, n)
    } else {
        let lines = *rng.pick(&[4, 16, 60]);
        gen::random_table(rng, lines)
    }
}

fn load_valid(rng: &mut Rng) -> Input {
    let lines = *rng.pick(&[3, 20, 80]);
    let made = gen::random_table(rng, lines);
    let text = gen::text_of(rng, &made);
    Input::Load { text, lengths: lengths(rng), known: Known::Accepted(Box::new(made.table)) }
}

fn load_full(rng: &mut Rng) -> Input {
    let n = *rng.pick(&[1000, 2047, 2048, 2048]);
    let made = gen::full_table(rng, n);
    let text = gen::text_of(rng, &made);
    Input::Load { text, lengths: lengths(rng), known: Known::Accepted(Box::new(made.table)) }
}

fn load_number(rng: &mut Rng) -> Input {
    let number = if rng.one_in(20) { 26 } else { *rng.pick(&gen::TEXT_NUMBERS) };
    let number = if number == 26 && !rng.one_in(3) { 24 } else { number };
    let (text, line) = gen::text_for(rng, number);
    Input::Load { text, lengths: lengths(rng), known: Known::Refused(number, line) }
}

fn load_damaged(rng: &mut Rng) -> Input {
    let made = if rng.one_in(300) { gen::full_table(rng, 2048) } else { gen::random_table(rng, 12) };
    let text = gen::text_of(rng, &made);
    Input::Load { text: gen::mutate(rng, &text), lengths: lengths(rng), known: Known::Nothing }
}

fn load_near(rng: &mut Rng) -> Input {
    Input::Load { text: gen::near_text(rng), lengths: lengths(rng), known: Known::Nothing }
}

fn load_several(rng: &mut Rng) -> Input {
    Input::Load { text: gen::several_text(rng), lengths: lengths(rng), known: Known::Nothing }
}

fn load_hostile(rng: &mut Rng) -> Input {
    Input::Load { text: gen::hostile_text(rng), lengths: lengths(rng), known: Known::Nothing }
}

fn load_slices(rng: &mut Rng) -> Input {
    let mut text = match rng.below(3) {
        0 => {
            let made = gen::random_table(rng, 8);
            gen::text_of(rng, &made)
        }
        1 => gen::hostile_text(rng),
        _ => Vec::new(),
    };
    if rng.one_in(6) {
        // Around the longest text.
        let end = if text.ends_with(b"\n") || text.is_empty() { b'#' } else { b'x' };
        text.push(end);
        text.resize(oracle::MAX_TEXT - 2 + rng.below(5), b'x');
    }
    let lengths = NEEDED.map(|n| match rng.below(12) {
        0 => rng.below(n),
        1 => n - 1,
        2 => 0,
        3 => n + 300,
        _ => n + rng.below(3),
    });
    Input::Load { text, lengths, known: Known::Nothing }
}

fn check_valid(rng: &mut Rng) -> Input {
    let made = a_table(rng);
    Input::Memory {
        base: gen::text_of(rng, &made),
        changes: Vec::new(),
        lengths: lengths(rng),
        act: Act::Check { known: Some(0) },
    }
}

fn check_change(rng: &mut Rng) -> Input {
    let made = a_table(rng);
    let changes = vec![gen::one_change(rng, &made.table)];
    let mut lengths = lengths(rng);
    if rng.one_in(20) {
        let i = rng.below(4);
        lengths[i] = NEEDED[i] - 1;
    }
    // The change must lie in the slices: they are cut only at their end.
    Input::Memory { base: gen::text_of(rng, &made), changes, lengths, act: Act::Check { known: None } }
}

/// A changed table in the fixed form, or a form in disorder. At times T10 alone is
/// broken.
fn broken(rng: &mut Rng, made: &Made) -> Vec<Change> {
    if rng.one_in(4) {
        return gen::disorder(rng, &made.table);
    }
    let void = if rng.one_in(6) { gen::with_void(rng, &made.table) } else { None };
    let other = void.unwrap_or_else(|| gen::break_table(rng, &made.table));
    changes_to(made, &other)
}

fn changes_to(made: &Made, other: &Table) -> Vec<Change> {
    gen::changes_between(&oracle::form(&made.table), &oracle::form(other))
}

fn check_broken(rng: &mut Rng) -> Input {
    let made = a_table(rng);
    let changes = broken(rng, &made);
    Input::Memory { base: gen::text_of(rng, &made), changes, lengths: lengths(rng), act: Act::Check { known: None } }
}

/// T10 alone is broken.
fn check_void(rng: &mut Rng) -> Input {
    let (made, changes) = loop {
        let made = a_table(rng);
        if let Some(void) = gen::with_void(rng, &made.table) {
            let changes = changes_to(&made, &void);
            break (made, changes);
        }
    };
    let act = Act::Check { known: Some(60) };
    Input::Memory { base: gen::text_of(rng, &made), changes, lengths: lengths(rng), act }
}

fn check_random(rng: &mut Rng) -> Input {
    let changes = gen::scatter(rng);
    Input::Memory { base: Vec::new(), changes, lengths: lengths(rng), act: Act::Check { known: None } }
}

/// Every space from 0 to enough for short outputs, else a few around what is
/// enough without skipping and with it.
fn spaces(rng: &mut Rng, off: usize, on: usize) -> Vec<usize> {
    let most = off.max(on);
    if most <= 40 {
        return (0..=most + 2).collect();
    }
    let mut few = vec![0, rng.below(9), rng.below(most), rng.below(most), most - 1, most, most + 5];
    if off != on {
        let least = off.min(on);
        few.extend([least.saturating_sub(1), least, least + 1]);
    }
    few
}

/// UTF-8 as often as the others together.
fn a_scheme(rng: &mut Rng) -> Scheme {
    *rng.pick(&[Scheme::Utf8, Scheme::Utf8, Scheme::Utf8, Scheme::Utf32Be, Scheme::Utf32Le, Scheme::Utf32])
}

/// A conversion of characters that `|0` lines map, with illegal sequences
/// between them and a known stop behind them at times.
fn pipe_known(rng: &mut Rng) -> Input {
    let made = loop {
        let made = a_fragile_table(rng);
        if made.table.lines.iter().any(|l| l.kind == Kind::Both) {
            break made;
        }
    };
    let act = if rng.one_in(2) { to_known(rng, &made.table) } else { from_known(rng, &made.table) };
    Input::Memory { base: gen::text_of(rng, &made), changes: Vec::new(), lengths: lengths(rng), act }
}

/// Some lines of `|0`, one after the other.
fn both_ways<'a>(rng: &mut Rng, t: &'a Table) -> Vec<&'a oracle::Line> {
    let both: Vec<_> = t.lines.iter().filter(|l| l.kind == Kind::Both).collect();
    let most = *rng.pick(&[4, 60, 600]);
    (0..rng.below(most + 1)).map(|_| *rng.pick(&both)).collect()
}

fn to_known(rng: &mut Rng, t: &Table) -> Act {
    let scheme = a_scheme(rng);
    let mut parts = Parts::new(gen::character(scheme, 0xfffd));
    if scheme == Scheme::Utf32 {
        parts.gives(&[], &gen::MARK);
    }
    let damage = rng.one_in(2);
    for line in both_ways(rng, t) {
        if damage && rng.one_in(5) {
            gen::illegal_in_frame(rng, t).into_iter().for_each(|bytes| parts.illegal(&bytes));
        }
        if damage && rng.one_in(5) {
            // The code itself breaks it.
            gen::broken_by(rng, t, line.code[0]).into_iter().for_each(|bytes| parts.illegal(&bytes));
        }
        parts.gives(&line.code, &gen::character(scheme, line.cp));
    }
    if damage && rng.one_in(2) {
        gen::illegal_in_frame(rng, t).into_iter().for_each(|bytes| parts.illegal(&bytes));
    }
    let mut substitute = rng.one_in(2);
    if let Some((bytes, number)) = gen::stop_in_frame(rng, t) {
        parts.stops(&bytes, number);
        substitute &= number != 53;
    }
    let spaces = parts.spaces(rng);
    Act::To { scheme, input: parts.input, spaces, substitute, known: Some(parts.outcomes) }
}

fn from_known(rng: &mut Rng, t: &Table) -> Act {
    let scheme = a_scheme(rng);
    let (mark, way) = gen::front(rng, scheme);
    let mut parts = Parts::new(t.subchar.clone());
    parts.gives(&mark, &[]);
    // Without a mark, what comes first could be one.
    let may_be_mark = |parts: &Parts| scheme == Scheme::Utf32 && parts.input.is_empty();
    let damage = rng.one_in(2);
    for line in both_ways(rng, t) {
        if may_be_mark(&parts) && line.cp == 0xfeff {
            continue;
        }
        if damage && rng.one_in(5) && !may_be_mark(&parts) {
            gen::illegal_in_text(rng, way).iter().for_each(|bytes| parts.illegal(bytes));
        }
        if damage && rng.one_in(5) && way == Scheme::Utf8 {
            // The next character breaks it.
            gen::cut_before_character(rng).iter().for_each(|bytes| parts.illegal(bytes));
        }
        parts.gives(&gen::character(way, line.cp), &line.code);
    }
    if damage && rng.one_in(2) && !may_be_mark(&parts) {
        gen::illegal_in_text(rng, way).iter().for_each(|bytes| parts.illegal(bytes));
    }
    let (fallback, mut substitute) = (rng.one_in(2), rng.one_in(2));
    if let Some((bytes, number)) = gen::stop_in_text(rng, t, way) {
        if !may_be_mark(&parts) {
            parts.stops(&bytes, number);
            substitute &= number != 53;
        }
    }
    let spaces = parts.spaces(rng);
    Act::From { scheme, input: parts.input, spaces, fallback, substitute, known: Some(parts.outcomes) }
}

fn some_items(rng: &mut Rng) -> usize {
    *rng.pick(&[3, 8, 60])
}

fn to_act(rng: &mut Rng, t: &Table, scheme: Scheme, input: Vec<u8>) -> Act {
    let substitute = rng.one_in(2);
    let (lines, mut output) = (Lines::of(t), vec![0; 4 * input.len() + 4]);
    let [off, on] = [false, true].map(|skip| {
        let settings = Settings { fallback: false, substitute, skip };
        oracle::to_unicode(t, &lines, &input, &mut output, scheme, settings).written as usize
    });
    let spaces = spaces(rng, off, on);
    Act::To { scheme, input, spaces, substitute, known: None }
}

fn from_act(rng: &mut Rng, t: &Table, scheme: Scheme, input: Vec<u8>) -> Act {
    let (fallback, substitute) = (rng.one_in(2), rng.one_in(2));
    let (lines, mut output) = (Lines::of(t), vec![0; 4 * input.len()]);
    let [off, on] = [false, true].map(|skip| {
        let settings = Settings { fallback, substitute, skip };
        oracle::from_unicode(t, &lines, &input, &mut output, scheme, settings).written as usize
    });
    let spaces = spaces(rng, off, on);
    Act::From { scheme, input, spaces, fallback, substitute, known: None }
}

fn to_random_act(rng: &mut Rng, t: &Table, items: usize) -> Act {
    let scheme = a_scheme(rng);
    let input = gen::random_frame(rng, t, items);
    to_act(rng, t, scheme, input)
}

fn from_random_act(rng: &mut Rng, t: &Table, items: usize) -> Act {
    let scheme = a_scheme(rng);
    let input = gen::random_text(rng, t, scheme, items);
    from_act(rng, t, scheme, input)
}

fn to_random(rng: &mut Rng) -> Input {
    let made = a_table(rng);
    let items = some_items(rng);
    let act = to_random_act(rng, &made.table, items);
    Input::Memory { base: gen::text_of(rng, &made), changes: Vec::new(), lengths: lengths(rng), act }
}

fn from_random(rng: &mut Rng) -> Input {
    let made = a_table(rng);
    let items = some_items(rng);
    let act = from_random_act(rng, &made.table, items);
    Input::Memory { base: gen::text_of(rng, &made), changes: Vec::new(), lengths: lengths(rng), act }
}

/// Half of the time one in which much is illegal and codes are long.
fn a_fragile_table(rng: &mut Rng) -> Made {
    match rng.one_in(2) {
        true => a_table(rng),
        false => {
            let max = rng.range(2, 4);
            gen::narrow_table(rng, max)
        }
    }
}

fn to_damaged(rng: &mut Rng) -> Input {
    let (made, scheme, items) = (a_fragile_table(rng), a_scheme(rng), some_items(rng));
    let input = gen::damaged_frame(rng, &made.table, items);
    let act = to_act(rng, &made.table, scheme, input);
    Input::Memory { base: gen::text_of(rng, &made), changes: Vec::new(), lengths: lengths(rng), act }
}

fn from_damaged(rng: &mut Rng) -> Input {
    let (made, scheme, items) = (a_fragile_table(rng), a_scheme(rng), some_items(rng));
    let input = gen::damaged_text(rng, &made.table, scheme, items);
    let act = from_act(rng, &made.table, scheme, input);
    Input::Memory { base: gen::text_of(rng, &made), changes: Vec::new(), lengths: lengths(rng), act }
}

/// Long inputs over tables with many lines, where places of lines are kept at hand and several share one.
fn pipe_full(rng: &mut Rng) -> Input {
    let n = *rng.pick(&[500, 2047, 2048]);
    let made = gen::full_table(rng, n);
    let act = match rng.one_in(2) {
        true => to_random_act(rng, &made.table, 2000),
        false => from_random_act(rng, &made.table, 2000),
    };
    Input::Memory { base: gen::text_of(rng, &made), changes: Vec::new(), lengths: lengths(rng), act }
}

/// Any conversion in pieces.
fn a_pipe(rng: &mut Rng) -> Pipe {
    let settings = Settings { fallback: rng.one_in(2), substitute: rng.one_in(2), skip: rng.one_in(2) };
    Pipe { way: if rng.one_in(2) { Way::To } else { Way::From }, scheme: a_scheme(rng), settings }
}

fn in_pieces(rng: &mut Rng, made: &Made, pipe: Pipe, input: Vec<u8>) -> Input {
    let plans = bursts::plans(rng, input.len());
    let act = Act::Pieces { pipe, input, plans };
    Input::Memory { base: gen::text_of(rng, made), changes: Vec::new(), lengths: lengths(rng), act }
}

/// The inputs of the known conversions: the pieces are held against one of them.
fn pieces_known(rng: &mut Rng) -> Input {
    let Input::Memory { base, changes, lengths, act } = pipe_known(rng) else { unreachable!("a conversion") };
    let skip = rng.one_in(2);
    let (pipe, input) = match act {
        Act::To { scheme, input, substitute, .. } => {
            (Pipe { way: Way::To, scheme, settings: Settings { fallback: false, substitute, skip } }, input)
        }
        Act::From { scheme, input, fallback, substitute, .. } => {
            (Pipe { way: Way::From, scheme, settings: Settings { fallback, substitute, skip } }, input)
        }
        _ => unreachable!("a conversion"),
    };
    let plans = bursts::plans(rng, input.len());
    Input::Memory { base, changes, lengths, act: Act::Pieces { pipe, input, plans } }
}

/// Few characters mostly, which are cut everywhere.
fn few_items(rng: &mut Rng) -> usize {
    *rng.pick(&[1, 2, 2, 3, 8, 60])
}

fn pieces_random(rng: &mut Rng) -> Input {
    let (made, pipe, items) = (a_fragile_table(rng), a_pipe(rng), few_items(rng));
    let input = match pipe.way {
        Way::To => gen::random_frame(rng, &made.table, items),
        Way::From => gen::random_text(rng, &made.table, pipe.scheme, items),
    };
    in_pieces(rng, &made, pipe, input)
}

fn pieces_damaged(rng: &mut Rng) -> Input {
    let (made, pipe, items) = (a_fragile_table(rng), a_pipe(rng), few_items(rng));
    let input = match pipe.way {
        Way::To => gen::damaged_frame(rng, &made.table, items),
        Way::From => gen::damaged_text(rng, &made.table, pipe.scheme, items),
    };
    in_pieces(rng, &made, pipe, input)
}

fn pieces_full(rng: &mut Rng) -> Input {
    let n = *rng.pick(&[500, 2047, 2048]);
    let (made, pipe) = (gen::full_table(rng, n), a_pipe(rng));
    let input = match pipe.way {
        Way::To => gen::random_frame(rng, &made.table, 2000),
        Way::From => gen::random_text(rng, &made.table, pipe.scheme, 2000),
    };
    in_pieces(rng, &made, pipe, input)
}

/// A call with a state by chance, and a piece or none.
fn kept_act(rng: &mut Rng, t: &Table) -> Act {
    let pipe = a_pipe(rng);
    let kept = gen::random_kept(rng, t, pipe);
    let piece = match (rng.below(4), pipe.way) {
        (0, _) => None,
        (1, _) => Some(Vec::new()),
        (_, Way::To) => Some(gen::random_frame(rng, t, 3)),
        (_, Way::From) => Some(gen::random_text(rng, t, pipe.scheme, 3)),
    };
    Act::Kept { pipe, kept, piece, space: *rng.pick(&[0, 1, 3, 4, 9, 40]) }
}

fn kept_random(rng: &mut Rng) -> Input {
    let made = a_fragile_table(rng);
    let act = kept_act(rng, &made.table);
    Input::Memory { base: gen::text_of(rng, &made), changes: Vec::new(), lengths: lengths(rng), act }
}

fn kept_changed(rng: &mut Rng) -> Input {
    let made = a_table(rng);
    let changes = if rng.one_in(2) { vec![gen::one_change(rng, &made.table)] } else { broken(rng, &made) };
    let act = kept_act(rng, &made.table);
    Input::Memory { base: gen::text_of(rng, &made), changes, lengths: lengths(rng), act }
}

fn audit_act(rng: &mut Rng, t: &Table) -> Act {
    let pieces = (0..rng.range(1, 5))
        .map(|_| {
            let allowance = match rng.below(5) {
                0 => rng.below(3) as u64,
                4 => 2_000,
                _ => rng.below(80) as u64,
            };
            let space = match rng.below(4) {
                0 => rng.below(3),
                1 => 500,
                _ => rng.below(40),
            };
            (allowance, space)
        })
        .collect();
    let position = gen::random_position(rng, t);
    Act::Audit { fallback: rng.one_in(2), position, pieces, whole: false }
}

fn audit_random(rng: &mut Rng) -> Input {
    let made = a_table(rng);
    let act = audit_act(rng, &made.table);
    Input::Memory { base: gen::text_of(rng, &made), changes: Vec::new(), lengths: lengths(rng), act }
}

fn act_changed(rng: &mut Rng) -> Input {
    let made = a_table(rng);
    let changes = if rng.one_in(2) { vec![gen::one_change(rng, &made.table)] } else { broken(rng, &made) };
    let items = some_items(rng);
    let mut act = match rng.below(3) {
        0 => to_random_act(rng, &made.table, items),
        1 => from_random_act(rng, &made.table, items),
        _ => audit_act(rng, &made.table),
    };
    if let Act::To { spaces, .. } | Act::From { spaces, .. } = &mut act {
        spaces.truncate(6);
        spaces.push(300);
    }
    Input::Memory { base: gen::text_of(rng, &made), changes, lengths: lengths(rng), act }
}

fn audit_pieces(rng: &mut Rng) -> Input {
    loop {
        let made = gen::random_table(rng, 60);
        let Some(codes) = oracle::all_codes(&made.table, 60) else { continue };
        // Pieces of any size, one with neither allowance nor space at times,
        // and enough of them to finish, mostly.
        let mut left = codes.len() as i64;
        let mut pieces = Vec::new();
        let step = *rng.pick(&[3, 40, 1000]);
        while left > 0 && pieces.len() < 60 {
            let allowance = rng.below(step);
            let space = rng.below(step);
            pieces.push((allowance as u64, space));
            left -= allowance as i64;
        }
        if !rng.one_in(4) {
            pieces.push((u64::MAX, codes.len()));
        }
        let act = Act::Audit { fallback: rng.one_in(2), position: (0, 0), pieces, whole: true };
        let base = gen::text_of(rng, &made);
        return Input::Memory { base, changes: Vec::new(), lengths: lengths(rng), act };
    }
}

// ---------------------------------------------------------------------------
// Shrinking and printing
// ---------------------------------------------------------------------------

/// Smaller inputs of the same kind; what was known by construction is dropped.
fn smaller(input: &Input) -> Vec<Input> {
    let mut out = Vec::new();
    match input {
        Input::Load { text, lengths, .. } => {
            for text in smaller_text(text) {
                out.push(Input::Load { text, lengths: *lengths, known: Known::Nothing });
            }
            if *lengths != NEEDED {
                out.push(Input::Load { text: text.clone(), lengths: NEEDED, known: Known::Nothing });
            }
        }
        Input::Memory { base, changes, lengths, act } => {
            let with = |base: &[u8], changes: &[Change], lengths: Lengths, act: Act| Input::Memory {
                base: base.to_vec(),
                changes: changes.to_vec(),
                lengths,
                act,
            };
            if *lengths != NEEDED {
                out.push(with(base, changes, NEEDED, act.clone()));
            }
            for changes in fewer(changes) {
                out.push(with(base, &changes, *lengths, act.clone()));
            }
            for act in smaller_act(act) {
                out.push(with(base, changes, *lengths, act));
            }
            for base in smaller_text(base) {
                out.push(with(&base, changes, *lengths, act.clone()));
            }
        }
    }
    out
}

/// The list without a half, a quarter, ... a single element.
pub fn fewer<T: Clone>(list: &[T]) -> Vec<Vec<T>> {
    let mut out = Vec::new();
    let mut part = list.len().div_ceil(2);
    while part > 0 {
        let mut at = 0;
        while at < list.len() {
            let end = (at + part).min(list.len());
            out.push([&list[..at], &list[end..]].concat());
            at = end;
            if out.len() > 400 {
                return out;
            }
        }
        part /= 2;
    }
    out
}

pub fn smaller_text(text: &[u8]) -> Vec<Vec<u8>> {
    let lines: Vec<&[u8]> = text.split_inclusive(|&b| b == b'\n').collect();
    let mut out: Vec<Vec<u8>> = fewer(&lines).into_iter().map(|l| l.concat()).collect();
    // Comments and blanks inside a line, then single bytes of short texts.
    if text.len() <= 2_000 {
        for i in 0..text.len() {
            let mut t = text.to_vec();
            t.remove(i);
            out.push(t);
        }
    }
    out
}

fn smaller_act(act: &Act) -> Vec<Act> {
    let mut out = Vec::new();
    match act {
        Act::Check { known } => {
            if known.is_some() {
                out.push(Act::Check { known: None });
            }
        }
        Act::To { scheme, input, spaces, substitute, .. } => {
            let with = |input: Vec<u8>, spaces: Vec<usize>| Act::To {
                scheme: *scheme,
                input,
                spaces,
                substitute: *substitute,
                known: None,
            };
            for i in fewer(input) {
                out.push(with(i, spaces.clone()));
            }
            if spaces.len() > 1 {
                out.extend(spaces.iter().map(|&s| with(input.clone(), vec![s])));
            }
        }
        Act::From { scheme, input, spaces, fallback, substitute, .. } => {
            let with = |input: Vec<u8>, spaces: Vec<usize>| Act::From {
                scheme: *scheme,
                input,
                spaces,
                fallback: *fallback,
                substitute: *substitute,
                known: None,
            };
            if *scheme != Scheme::Utf8 {
                let fours: Vec<&[u8]> = input.chunks(4).collect();
                out.extend(fewer(&fours).into_iter().map(|i| with(i.concat(), spaces.clone())));
            }
            for i in fewer(input) {
                out.push(with(i, spaces.clone()));
            }
            if spaces.len() > 1 {
                out.extend(spaces.iter().map(|&s| with(input.clone(), vec![s])));
            }
        }
        Act::Pieces { pipe, input, plans } => {
            let with = |input: &[u8], plans: &[Plan]| Act::Pieces {
                pipe: *pipe,
                input: input.to_vec(),
                plans: plans.to_vec(),
            };
            out.extend(fewer(plans).iter().map(|plans| with(input, plans)));
            out.extend(fewer(input).iter().map(|input| with(input, plans)));
            if let [plan] = &plans[..] {
                let cuts = fewer(&plan.cuts).into_iter().map(|cuts| Plan { cuts, ..plan.clone() });
                let spaces = fewer(&plan.spaces).into_iter().map(|spaces| Plan { spaces, ..plan.clone() });
                out.extend(cuts.chain(spaces).map(|plan| with(input, &[plan])));
            }
        }
        Act::Kept { pipe, kept, piece, space } => {
            for piece in fewer(piece.as_deref().unwrap_or_default()) {
                out.push(Act::Kept { pipe: *pipe, kept: *kept, piece: Some(piece), space: *space });
            }
        }
        Act::Audit { fallback, position, pieces, .. } => {
            for pieces in fewer(pieces) {
                out.push(Act::Audit { fallback: *fallback, position: *position, pieces, whole: false });
            }
        }
    }
    out
}

/// Makes a failing input smaller while it goes on failing.
pub fn shrink(input: &Input, fails: &mut dyn FnMut(&Input) -> bool) -> Input {
    let mut best = input.clone();
    let start = Instant::now();
    'again: loop {
        for candidate in smaller(&best) {
            if start.elapsed() > Duration::from_secs(10) {
                return best;
            }
            if fails(&candidate) {
                best = candidate;
                continue 'again;
            }
        }
        return best;
    }
}

pub fn show_text(text: &[u8]) -> String {
    let mut out = String::new();
    for line in text.split_inclusive(|&b| b == b'\n') {
        out += &format!("    b\"{}\"\n", line.escape_ascii());
        if out.len() > 6_000 {
            out += &format!("    ... ({} bytes in all)\n", text.len());
            break;
        }
    }
    out
}

fn show_hex(bytes: &[u8]) -> String {
    if bytes.is_empty() {
        return "-".into();
    }
    bytes.iter().map(|b| format!("{b:02X}")).collect()
}

pub fn show(input: &Input) -> String {
    match input {
        Input::Load { text, lengths, .. } => {
            format!("  load, slices of {lengths:?} places, text of {} bytes:\n{}", text.len(), show_text(text))
        }
        Input::Memory { base, changes, lengths, act } => {
            let mut out = format!("  the form of this text (zeros if refused), slices of {lengths:?} places:\n");
            out += &show_text(base);
            for change in changes.iter().take(40) {
                out += &format!("    then {change:x?}\n");
            }
            if changes.len() > 40 {
                out += &format!("    ... ({} changes in all)\n", changes.len());
            }
            out += &match act {
                Act::Check { .. } => "  check\n".to_string(),
                Act::To { scheme, input, spaces, substitute, .. } => format!(
                    "  {}, substitute {substitute}, spaces {spaces:?}, input {}\n",
                    call_name("to", *scheme, false),
                    show_hex(input)
                ),
                Act::From { scheme, input, spaces, fallback, substitute, .. } => format!(
                    "  {}, fallback {fallback}, substitute {substitute}, spaces {spaces:?}, input {}\n",
                    call_name("from", *scheme, false),
                    show_hex(input)
                ),
                Act::Pieces { pipe, input, plans } => {
                    format!("  in pieces, {pipe:?}, plans {plans:?}, input {}\n", show_hex(input))
                }
                Act::Kept { pipe, kept, piece, space } => format!(
                    "  in pieces, {pipe:?}, kept {kept:x?}, space {space}, piece {}\n",
                    piece.as_ref().map_or("none, a close".into(), |piece| show_hex(piece))
                ),
                Act::Audit { fallback, position, pieces, .. } => format!(
                    "  audit, fallback {fallback}, position {:08X} length {}, (allowance, space) {pieces:?}\n",
                    position.0, position.1
                ),
            };
            out
        }
    }
}
