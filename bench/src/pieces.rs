//! Text in pieces beside the one-piece call. The test behind 60 goes before every
//! call, so its time is measured in the same rounds and set apart.

use crate::library::{Lent, LINKED};
use crate::texts::{mappings, table_text, Scheme, Texts, MIXED, TEXT};
use crate::timing::{medians_and_leasts, way};
use std::cell::RefCell;

const SIZES: [usize; 4] = [1, 7, 64, 4_096];
/// Of short pieces only so many are taken, from the front of the text.
const MOST_PIECES: usize = 1 << 14;

/// A direction: the calls for a piece, for the close, and for a whole text.
struct Way {
    name: &'static str,
    piece: fn(&Lent, &mut [u32; 5], &[u8], &mut [u8]) -> usize,
    close: fn(&Lent, &mut [u32; 5]),
    whole: fn(&Lent, &[u8], &mut [u8]) -> (u32, usize, usize),
}

const TO: Way = Way {
    name: "to UTF-8",
    piece: Lent::to_utf8_piece,
    close: Lent::to_utf8_close,
    whole: |lent, text, output| lent.to_unicode(Scheme::Utf8, text, output, false),
};

const FROM: Way = Way {
    name: "from UTF-8",
    piece: Lent::from_utf8_piece,
    close: Lent::from_utf8_close,
    whole: |lent, text, output| lent.from_unicode(Scheme::Utf8, text, output, false),
};

impl Way {
    /// The whole text in pieces of a size, into one output. Bytes written.
    fn in_pieces(&self, lent: &Lent, text: &[u8], size: usize, output: &mut [u8]) -> usize {
        let (mut kept, mut written) = ([0; 5], 0);
        for piece in text.chunks(size) {
            written += (self.piece)(lent, &mut kept, piece, &mut output[written..]);
        }
        (self.close)(lent, &mut kept);
        written
    }

    fn in_one(&self, lent: &Lent, text: &[u8], output: &mut [u8]) -> usize {
        let (number, read, written) = (self.whole)(lent, text, output);
        assert_eq!((number, read), (0, text.len()), "the whole text is converted");
        written
    }
}

pub fn run() {
    let all = mappings();
    let lent = Lent::with(LINKED, &table_text(&all));
    let texts = Texts::in_frames(&all, MIXED).in_one_call();
    println!("pieces: mixed text in pieces and a close, beside one call; the test behind 60 goes before each call");
    for (way, text) in [(TO, &texts.codes[0]), (FROM, &texts.chars[0])] {
        for size in SIZES {
            figure(&lent, &way, part(text, size), size);
        }
    }
}

/// The front of the text, up to where a sequence ends: a space ends every frame, and
/// stands elsewhere too.
fn part(text: &[u8], size: usize) -> &[u8] {
    let front = &text[..text.len().min(size * MOST_PIECES)];
    let end = front.iter().rposition(|&b| b == b' ').map_or(front.len(), |at| at + 1);
    if front.len() == text.len() {
        front
    } else {
        &front[..end]
    }
}

fn figure(lent: &Lent, direction: &Way, text: &[u8], size: usize) {
    let (one, other) = (RefCell::new(vec![0; 4 * text.len()]), RefCell::new(vec![0; 4 * text.len()]));
    let in_one = || direction.in_one(lent, text, &mut one.borrow_mut());
    let in_pieces = || direction.in_pieces(lent, text, size, &mut other.borrow_mut());
    let (n, m) = (in_one(), in_pieces());
    assert!(one.borrow()[..n] == other.borrow()[..m], "{}: the same output in pieces", direction.name);
    let ways = vec![way("one call", in_one), way("pieces", in_pieces), way("test", || lent.check())];
    let (medians, leasts) = medians_and_leasts(ways);
    // The close is a call too.
    let calls = text.len().div_ceil(size) + 1;
    let part = if text.len() < TEXT { format!("the first {} bytes of 1 MiB", text.len()) } else { "1 MiB".into() };
    println!("{}, {part} in pieces of {size}, {calls} calls [buffers as left]", direction.name);
    shown(&medians, &leasts, calls as f64);
}

/// Pieces beside the one call, then the same with the tests taken out of both.
fn shown(medians: &[f64], leasts: &[f64], calls: f64) {
    let ratio = |t: &[f64]| t[1] / t[0];
    let without = |t: &[f64]| (t[1] - calls * t[2]) / (t[0] - t[2]);
    let [one, pieces, test] = [0, 1, 2].map(|i| medians[i] * 1e6);
    println!(
        "    one call {one:.1} us, pieces {pieces:.1} us   ratio {:.2}, of least times {:.2}",
        ratio(medians),
        ratio(leasts)
    );
    println!(
        "    test behind 60 {test:.2} us a call, {:.0} % of the pieces' time   ratio without it {:.2}, of least times {:.2}",
        100.0 * calls * test / pieces,
        without(medians),
        without(leasts)
    );
    println!("    a call without it {:.0} ns", (pieces - calls * test) / calls * 1e3);
}
