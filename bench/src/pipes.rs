//! The two conversions behind one set of calls: compared, then timed.

use crate::library::Lent;
use crate::plain::{self, Plain};
use crate::texts::{Scheme, Texts};
use crate::timing::{figure, nothing, way};
use std::cell::RefCell;

/// Each call converts the whole input or panics, and says how many bytes it
/// wrote.
pub trait Converter {
    fn name(&self) -> &str;
    fn to_unicode(&self, scheme: Scheme, input: &[u8], output: &mut [u8]) -> usize;
    fn from_unicode(&self, scheme: Scheme, input: &[u8], output: &mut [u8]) -> usize;
}

fn whole(input: &[u8], (number, read, written): (u32, usize, usize)) -> usize {
    assert_eq!((number, read), (0, input.len()), "the whole input is converted");
    written
}

impl Converter for Lent {
    fn name(&self) -> &str {
        self.build.name
    }

    fn to_unicode(&self, scheme: Scheme, input: &[u8], output: &mut [u8]) -> usize {
        whole(input, self.to_unicode(scheme, input, output, false))
    }

    fn from_unicode(&self, scheme: Scheme, input: &[u8], output: &mut [u8]) -> usize {
        whole(input, self.from_unicode(scheme, input, output, false))
    }
}

impl Converter for Plain {
    fn name(&self) -> &str {
        self.search.name()
    }

    fn to_unicode(&self, scheme: Scheme, input: &[u8], output: &mut [u8]) -> usize {
        let done = match scheme {
            Scheme::Utf8 => self.to_utf8(input, output, true, false),
            Scheme::Utf32Be => self.to_utf32be(input, output, true),
        };
        whole(input, done)
    }

    fn from_unicode(&self, scheme: Scheme, input: &[u8], output: &mut [u8]) -> usize {
        let done = match scheme {
            Scheme::Utf8 => self.from_utf8(input, output, false, true, false),
            Scheme::Utf32Be => self.from_utf32be(input, output, false, true),
        };
        whole(input, done)
    }
}

/// The library with skipping on.
pub struct Skipping<'a>(pub &'a Lent);

impl Converter for Skipping<'_> {
    fn name(&self) -> &str {
        self.0.build.name
    }

    fn to_unicode(&self, scheme: Scheme, input: &[u8], output: &mut [u8]) -> usize {
        whole(input, self.0.to_unicode(scheme, input, output, true))
    }

    fn from_unicode(&self, scheme: Scheme, input: &[u8], output: &mut [u8]) -> usize {
        whole(input, self.0.from_unicode(scheme, input, output, true))
    }
}

/// The plain converter with skipping on, in UTF-8.
pub struct PlainSkipping<'a>(pub &'a Plain);

impl Converter for PlainSkipping<'_> {
    fn name(&self) -> &str {
        self.0.search.name()
    }

    fn to_unicode(&self, _: Scheme, input: &[u8], output: &mut [u8]) -> usize {
        whole(input, self.0.to_utf8(input, output, true, true))
    }

    fn from_unicode(&self, _: Scheme, input: &[u8], output: &mut [u8]) -> usize {
        whole(input, self.0.from_utf8(input, output, false, true, true))
    }
}

/// The plain converter with the plain test of record and memory before each
/// call, as the library has to make it.
pub struct Tested<'a>(pub &'a Plain, pub &'a Lent);

pub fn tested(lent: &Lent) -> bool {
    let m = &lent.memory;
    plain::check(&lent.record, &m.states, &m.codes, &m.infos, &m.order)
}

impl Converter for Tested<'_> {
    fn name(&self) -> &str {
        "plain, sorted, tested"
    }

    fn to_unicode(&self, scheme: Scheme, input: &[u8], output: &mut [u8]) -> usize {
        assert!(tested(self.1), "the plain test of the memory");
        self.0.to_unicode(scheme, input, output)
    }

    fn from_unicode(&self, scheme: Scheme, input: &[u8], output: &mut [u8]) -> usize {
        assert!(tested(self.1), "the plain test of the memory");
        self.0.from_unicode(scheme, input, output)
    }
}

/// The library and the plain converters.
pub fn own<'a>(lent: &'a Lent, plains: &'a [Plain]) -> Vec<&'a dyn Converter> {
    let plains = plains.iter().map(|plain| plain as &dyn Converter);
    std::iter::once(lent as &dyn Converter).chain(plains).collect()
}

type Call = fn(&dyn Converter, Scheme, &[u8], &mut [u8]) -> usize;

const CALLS: [(&str, Call); 2] =
    [("to", |c, s, i, o| c.to_unicode(s, i, o)), ("from", |c, s, i, o| c.from_unicode(s, i, o))];

/// Compares the output of all converters byte by byte, then times them. The
/// library is the first.
pub fn both_ways(texts: &Texts, converters: &[&dyn Converter]) {
    let scheme = texts.scheme;
    for ((way_of, call), pieces) in CALLS.into_iter().zip([&texts.codes, &texts.chars]) {
        let name = format!("{way_of} {}, {}", scheme.name(), texts.name());
        compare(&name, scheme, call, pieces, converters);
        let output = RefCell::new(space(pieces));
        let ways = converters.iter().map(|c| {
            let output = &output;
            way(c.name(), move || {
                let mut output = output.borrow_mut();
                pieces.iter().map(|p| call(*c, scheme, p, &mut output)).sum::<usize>()
            })
        });
        figure(&name, "as left", Some(texts.amount), &mut nothing, ways.collect());
    }
}

/// Space enough for every piece: a byte gives at most four.
fn space(pieces: &[Vec<u8>]) -> Vec<u8> {
    vec![0; 4 * pieces.iter().map(Vec::len).max().unwrap_or(0)]
}

fn compare(name: &str, scheme: Scheme, call: Call, pieces: &[Vec<u8>], converters: &[&dyn Converter]) {
    let (mut first, mut other) = (space(pieces), space(pieces));
    for piece in pieces {
        let n = call(converters[0], scheme, piece, &mut first);
        for c in &converters[1..] {
            other.fill(0);
            let m = call(*c, scheme, piece, &mut other);
            assert!(first[..n] == other[..m], "{name}: {} gives other bytes than the library", c.name());
        }
    }
}
