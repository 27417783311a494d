//! A text in pieces as a caller reads it: the unread rest again after a 50, and
//! a close. Each call is looked at by itself, and against the oracle; all joined
//! must be the one-piece conversion with space enough.

use crate::cases::{equal, equal_slices, old_bytes};
use crate::gen::{Rng, LITTLE_MARK};
use crate::oracle::{bits_of, Kept, Memory, Pipe, Piped, Record, Scheme, Way, FRESH};
use crate::random::Reached;
use crate::subject::{Oracle, Subject};

/// Space for one character or code, or for the mark: with that a call moves on.
const ENOUGH: usize = 4;
/// Up to this length what is kept is held against a conversion of what was read.
const SHORT: usize = 64;

/// How a text is read.
#[derive(Clone, Debug)]
pub struct Plan {
    /// Places at which it is cut, rising; none in an empty text is no piece at all.
    pub cuts: Vec<usize>,
    /// Spaces of the calls, one after the other and again from the first; one
    /// that is enough stands behind them.
    pub spaces: Vec<usize>,
    /// After a 50 only half of the rest is offered, and then the other half.
    pub halves: bool,
}

impl Plan {
    fn pieces<'a>(&self, input: &'a [u8]) -> Vec<&'a [u8]> {
        if input.is_empty() && self.cuts.is_empty() {
            return Vec::new();
        }
        let cuts: Vec<usize> = self.cuts.iter().map(|&cut| cut.min(input.len())).collect();
        let from = std::iter::once(0).chain(cuts.iter().copied());
        let to = cuts.iter().copied().chain(std::iter::once(input.len()));
        from.zip(to).map(|(from, to)| &input[from..to]).collect()
    }
}

/// All cuts of a short text into two and three pieces, empty ones among them; a
/// long one in pieces of a byte, and cut by chance. Spaces by chance.
pub fn plans(rng: &mut Rng, n: usize) -> Vec<Plan> {
    const FEW: usize = 10;
    let mut all = vec![Vec::new()];
    if n <= FEW {
        all.extend((0..=n).map(|cut| vec![cut]));
        all.extend((0..=n).flat_map(|a| (a..=n).map(move |b| vec![a, b])));
    } else {
        all.push((0..=n.min(300)).collect());
        for most in [2, 5, 40] {
            let mut cuts: Vec<usize> = (0..rng.range(1, most)).map(|_| rng.below(n + 1)).collect();
            cuts.sort();
            all.push(cuts);
        }
    }
    all.into_iter().map(|cuts| Plan { cuts, spaces: some_spaces(rng, n), halves: rng.one_in(3) }).collect()
}

/// Mostly small ones, so that 50 comes often; at times one that is enough for all.
fn some_spaces(rng: &mut Rng, n: usize) -> Vec<usize> {
    // A long text is not read in thousands of calls.
    let few = if n > 500 { n / 8 } else { 0 };
    let most = *rng.pick(&[few + 1, few + 3, few + 6, few + 12, 4 * n + 5]);
    match rng.below(4) {
        0 => vec![4 * n + 8],
        _ => (0..rng.range(1, 6)).map(|_| rng.below(most + 1)).collect(),
    }
}

/// The one-piece call.
pub fn whole(s: &dyn Subject, record: &Record, memory: &Memory, pipe: Pipe, input: &[u8], output: &mut [u8]) -> Piped {
    match pipe.way {
        Way::To => s.to_unicode(record, memory, input, output, pipe.scheme, pipe.settings),
        Way::From => s.from_unicode(record, memory, input, output, pipe.scheme, pipe.settings),
    }
}

/// Whoever reads a text, and what is kept.
pub struct Caller<'a> {
    pub s: &'a dyn Subject,
    pub record: &'a Record,
    pub memory: &'a Memory,
    pub pipe: Pipe,
    /// Every call is compared with the oracle.
    pub compare: bool,
    pub kept: Kept,
}

/// A text, what the one-piece conversion makes of it, and how far it is read.
struct Text<'a> {
    input: &'a [u8],
    answer: Piped,
    output: Vec<u8>,
    read: usize,
    written: usize,
    /// How far some call has seen it.
    seen: usize,
}

impl Caller<'_> {
    /// One call. Output past what is written keeps its values.
    pub fn call(&mut self, piece: Option<&[u8]>, space: usize) -> Result<(Piped, Vec<u8>), String> {
        let before = self.kept;
        let mut output = old_bytes(space);
        let got = self.s.piece(self.record, self.memory, self.pipe, &mut self.kept, piece, &mut output);
        if self.compare {
            let (mut kept, mut other) = (before, old_bytes(space));
            let want = Oracle.piece(self.record, self.memory, self.pipe, &mut kept, piece, &mut other);
            equal("answer against the oracle", got, want)?;
            equal("kept against the oracle", self.kept, kept)?;
            equal_slices("output against the oracle", &output, &other)?;
        }
        let offered = piece.map_or(0, <[u8]>::len);
        equal("no more read or written than there is", got.read as usize > offered, false)?;
        equal("no more read or written than there is", got.written as usize > space, false)?;
        equal_slices("output behind", &output[got.written as usize..], &old_bytes(space)[got.written as usize..])?;
        output.truncate(got.written as usize);
        Ok((got, output))
    }

    /// The call, and what follows from it for the text.
    fn reads(&mut self, text: &mut Text, piece: Option<&[u8]>, space: usize) -> Result<Piped, String> {
        let (got, output) = self.call(piece, space)?;
        text.seen = text.seen.max(text.read + piece.map_or(0, <[u8]>::len));
        text.read += got.read as usize;
        let further = text.written + output.len();
        equal("joined output is no longer than the whole", further > text.output.len(), false)?;
        equal_slices("joined output", &output, &text.output[text.written..further])?;
        text.written = further;
        if got.number == 0 {
            equal("all of a piece is read", got.read as usize, piece.map_or(0, <[u8]>::len))?;
        }
        if got.number == 50 && space >= ENOUGH {
            equal("a call with space enough moves on", got.written > 0, true)?;
        }
        let closed = piece.is_none() && got.number == 0;
        equal("kept", self.kept, if closed { FRESH } else { self.to_keep(text, got)? })?;
        Ok(got)
    }

    /// What must be kept, by the text and how far it is read: the last bytes that
    /// were read, the mark, the answer. Their count is looked at here.
    fn to_keep(&self, text: &Text, got: Piped) -> Result<Kept, String> {
        let count = self.kept[1] as usize;
        equal("bytes kept, at most three and no more than read", count > text.read.min(3), false)?;
        let place = text.read - count;
        if got.number == 0 && text.read == text.seen && text.input.len() <= SHORT {
            let mut output = old_bytes(4 * text.read + 4);
            let upto = whole(self.s, self.record, self.memory, self.pipe, &text.input[..text.read], &mut output);
            equal("place so far", place, upto.read as usize)?;
        }
        let stands = (51..=53).contains(&got.number);
        let bytes = &text.input[place..text.read];
        Ok([
            bits_of(bytes),
            count as u32,
            self.mark(text, place),
            if stands { got.number } else { 0 },
            got.length as u32,
        ])
    }

    /// Behind once it is written, or once four bytes are through.
    fn mark(&self, text: &Text, place: usize) -> u32 {
        match (self.pipe.way, self.pipe.scheme) {
            (Way::To, Scheme::Utf32) => (text.written > 0) as u32,
            (Way::From, Scheme::Utf32) if place >= 4 => 1 + text.input.starts_with(&LITTLE_MARK) as u32,
            _ => 0,
        }
    }

    /// Reads a text from a fresh start to its close. `kept` is a fresh start again
    /// behind it.
    pub fn text(&mut self, input: &[u8], plan: &Plan, reached: &mut Reached) -> Result<(), String> {
        let mut output = old_bytes(4 * input.len() + 4);
        let answer = whole(self.s, self.record, self.memory, self.pipe, input, &mut output);
        output.truncate(answer.written as usize);
        let mut text = Text { input, answer, output, read: 0, written: 0, seen: 0 };
        let pieces = plan.pieces(input);
        let turn = plan.spaces.len() + 1;
        let mut spaces = plan.spaces.iter().copied().chain([ENOUGH]).cycle();
        // In a turn of spaces a byte at least is read or written.
        let bytes = if plan.halves { input.len() + text.output.len() } else { text.output.len() };
        let mut left = pieces.len() + 1 + turn * (bytes + 1);
        for piece in pieces.into_iter().map(Some).chain([None]) {
            let (mut rest, mut full) = (piece, false);
            loop {
                equal("the calls come to an end", left > 0, true)?;
                left -= 1;
                let offer = rest.map(|rest| if plan.halves && full { &rest[..rest.len().div_ceil(2)] } else { rest });
                let got = self.reads(&mut text, offer, spaces.next().expect("without end"))?;
                self.note(offer.is_some(), got.number, reached);
                rest = rest.map(|rest| &rest[got.read as usize..]);
                full = got.number == 50;
                if !full && (piece.is_none() || got.number != 0) {
                    return self.ended(&text, got, reached);
                }
                if !full && rest.is_some_and(<[u8]>::is_empty) {
                    break;
                }
            }
        }
        Err("no close".into())
    }

    /// At the end: as the one-piece conversion; and what stands goes on standing.
    fn ended(&mut self, text: &Text, got: Piped, reached: &mut Reached) -> Result<(), String> {
        let place = text.read as u64 - self.kept[1] as u64;
        equal("last answer", (got.number, got.length), (text.answer.number, text.answer.length))?;
        equal("place", place, text.answer.read)?;
        equal("joined output, length", text.written, text.output.len())?;
        if got.number == 0 {
            return equal("a fresh start", self.kept, FRESH);
        }
        let stands = (self.kept, Piped { read: 0, written: 0, ..got });
        for (piece, space) in [(Some(text.input), 99), (Some(&b""[..]), 0), (None, 9), (Some(b"3"), 9), (None, 0)] {
            let (again, _) = self.call(piece, space)?;
            self.note(piece.is_some(), again.number, reached);
            equal("the answer stands", (self.kept, again), stands)?;
        }
        self.kept = FRESH;
        Ok(())
    }

    /// Counts an answer, and what is kept behind it.
    pub fn note(&self, piece: bool, number: u32, reached: &mut Reached) {
        let (way, call) = (if self.pipe.way == Way::To { "to" } else { "from" }, if piece { "piece" } else { "close" });
        reached.note(&format!("{call} {way} {}", self.pipe.scheme.name()), number);
        if self.kept[1] > 0 && number != 42 && number != 60 {
            reached.note(&format!("{call} {way} {}, bytes kept", self.pipe.scheme.name()), self.kept[1]);
        }
        let utf8 = self.pipe.way == Way::From && self.pipe.scheme == Scheme::Utf8;
        if utf8 && number == 50 && (0x80..=0xbf).contains(&(self.kept[0] >> 24)) {
            reached.note("trail bytes kept", self.kept[1]);
        }
    }
}
