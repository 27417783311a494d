//! Whole conversions.

use crate::slices;
use crate::{Answer, Table, DONE};
use std::fmt;

/// How Unicode text stands in bytes.
#[derive(Clone, Copy, PartialEq, Eq, Hash, Debug, Default)]
#[repr(u32)]
pub enum Scheme {
    /// UTF-8.
    #[default]
    Utf8 = 0,
    /// UTF-32 in big-endian order; an initial FEFF is text.
    Utf32Be = 1,
    /// UTF-32 in little-endian order; an initial FEFF is text.
    Utf32Le = 2,
    /// UTF-32 with a byte order mark. Where none is read, and where one is
    /// written, the order is big-endian.
    Utf32 = 3,
}

impl Scheme {
    /// All schemes, by rising number.
    pub const ALL: [Scheme; 4] = [Scheme::Utf8, Scheme::Utf32Be, Scheme::Utf32Le, Scheme::Utf32];

    /// The number of the scheme.
    pub const fn number(self) -> u32 {
        self as u32
    }
}

/// How to convert. By default the Unicode side is UTF-8, fallbacks are off, and
/// the first sequence that is unassigned or illegal stops the conversion.
#[derive(Clone, Copy, PartialEq, Eq, Hash, Debug, Default)]
pub struct Settings {
    /// How the Unicode side stands in bytes.
    pub scheme: Scheme,
    /// `|1` lines write too. Nothing towards Unicode asks for it.
    pub fallback: bool,
    /// Something is written for what is unassigned.
    pub substitute: bool,
    /// What is illegal is passed over, and something is written for it.
    pub skip: bool,
}

impl Settings {
    /// Scheme, fallback, substitute and skip as the library takes them.
    pub(crate) fn numbers(self) -> [u32; 4] {
        [self.scheme.number(), self.fallback.into(), self.substitute.into(), self.skip.into()]
    }
}

/// What a conversion did. Reading stops before the sequence that the answer is
/// about, and what was written before it stands.
#[derive(Clone, Copy, PartialEq, Eq, Debug)]
pub struct Done {
    /// [`Answer::Ok`], or why it stopped.
    pub answer: Answer,
    /// Bytes of the input that were read.
    pub read: usize,
    /// Bytes of the output that were written.
    pub written: usize,
    /// With [`Answer::Illegal`] the length of the sequence behind those read, else 0.
    pub illegal: usize,
}

impl Done {
    /// The answer and the counts of a call, which is given the slice for them.
    pub(crate) fn by(call: impl FnOnce(&mut [u64]) -> u32) -> Done {
        let mut result = [0; DONE];
        let answer = Answer::given(call(&mut result));
        let [read, written, illegal] = result.map(|n| n as usize);
        Done { answer, read, written, illegal }
    }
}

/// A conversion that stopped before all was read.
#[derive(Clone, PartialEq, Eq, Debug)]
pub struct Stopped {
    /// Why, and where.
    pub done: Done,
    /// What was written up to there.
    pub output: Vec<u8>,
}

impl fmt::Display for Stopped {
    fn fmt(&self, f: &mut fmt::Formatter) -> fmt::Result {
        write!(f, "at byte {}: {}", self.done.read, self.done.answer)
    }
}

impl std::error::Error for Stopped {}

/// Output that always suffices for a whole conversion of `n` bytes, either way,
/// in every scheme: four bytes for each, and four for a mark. Then the answer is
/// never [`Answer::Full`]. Where this is over `usize::MAX`, it is that number, of
/// which there is no such output.
///
/// ```
/// assert_eq!(oboepond::room(3), 16);
/// ```
pub const fn room(n: usize) -> usize {
    n.saturating_mul(4).saturating_add(4)
}

/// The same for a piece of `n` bytes ([`Pieces`](crate::Pieces)): four bytes more
/// for each of the three that may be kept.
///
/// ```
/// assert_eq!(oboepond::piece_room(3), 28);
/// ```
pub const fn piece_room(n: usize) -> usize {
    room(n.saturating_add(3))
}

/// The output of a conversion, which is given as much space as it may need.
fn owned(input: &[u8], convert: impl FnOnce(&mut [u8]) -> Done) -> Result<Vec<u8>, Stopped> {
    let mut output = vec![0; room(input.len())];
    let done = convert(&mut output);
    output.truncate(done.written);
    output.shrink_to_fit();
    match done.answer {
        Answer::Ok => Ok(output),
        _ => Err(Stopped { done, output }),
    }
}

impl Table {
    /// From the table's bytes to Unicode text. With an output of [`room`] bytes it
    /// is never full.
    ///
    /// ```
    /// # let text = std::fs::read("../../crates/oboepond/data/table.ucm").unwrap();
    /// # let table = oboepond::Table::load(&text).unwrap();
    /// use oboepond::{room, Answer, Settings};
    /// let input = b"\x81\x7c3\x81\x2d";
    /// let mut output = vec![0; room(input.len())];
    /// let done = table.to_unicode(input, &mut output, Settings::default());
    /// assert_eq!(&output[..done.written], "\u{2212}3".as_bytes());
    /// assert_eq!((done.answer, done.read, done.illegal), (Answer::Illegal, 3, 1));
    /// ```
    pub fn to_unicode(&self, input: &[u8], output: &mut [u8], settings: Settings) -> Done {
        let [scheme, _, substitute, skip] = settings.numbers();
        Done::by(|result| slices::to_unicode(self.lent(), input, output, scheme, substitute, skip, result))
    }

    /// From Unicode text to the table's bytes; the same goes for the output.
    ///
    /// ```
    /// # let text = std::fs::read("../../crates/oboepond/data/table.ucm").unwrap();
    /// # let table = oboepond::Table::load(&text).unwrap();
    /// use oboepond::{Answer, Settings};
    /// let mut output = [0; 2];
    /// let done = table.from_unicode("\u{2212}3".as_bytes(), &mut output, Settings::default());
    /// assert_eq!((done.answer, done.read, done.written), (Answer::Full, 3, 2));
    /// assert_eq!(&output, b"\x81\x7c");
    /// ```
    pub fn from_unicode(&self, input: &[u8], output: &mut [u8], settings: Settings) -> Done {
        let [scheme, fallback, substitute, skip] = settings.numbers();
        Done::by(|result| slices::from_unicode(self.lent(), input, output, scheme, fallback, substitute, skip, result))
    }

    /// From the table's bytes to Unicode text in the scheme of the settings, as a
    /// vector of its own.
    ///
    /// ```
    /// # let text = std::fs::read("../../crates/oboepond/data/table.ucm").unwrap();
    /// # let table = oboepond::Table::load(&text).unwrap();
    /// use oboepond::{Scheme, Settings};
    /// let settings = Settings { scheme: Scheme::Utf32Be, ..Settings::default() };
    /// assert_eq!(table.decode(b"\x81\x7c", settings).unwrap(), b"\x00\x00\x22\x12");
    /// assert_eq!(table.encode(b"\x00\x00\x22\x12", settings).unwrap(), b"\x81\x7c");
    /// ```
    pub fn decode(&self, input: &[u8], settings: Settings) -> Result<Vec<u8>, Stopped> {
        owned(input, |output| self.to_unicode(input, output, settings))
    }

    /// From Unicode text in the scheme of the settings to the table's bytes, as a
    /// vector of its own.
    pub fn encode(&self, input: &[u8], settings: Settings) -> Result<Vec<u8>, Stopped> {
        owned(input, |output| self.from_unicode(input, output, settings))
    }

    /// From the table's bytes to a string, whatever the scheme of the settings.
    ///
    /// ```
    /// # let text = std::fs::read("../../crates/oboepond/data/table.ucm").unwrap();
    /// # let table = oboepond::Table::load(&text).unwrap();
    /// use oboepond::Settings;
    /// assert_eq!(table.to_text(b"\x81\x7c3", Settings::default()).unwrap(), "\u{2212}3");
    /// let stopped = table.to_text(b"3\x81", Settings::default()).unwrap_err();
    /// assert_eq!((stopped.done.read, &stopped.output[..]), (1, &b"3"[..]));
    /// assert!(stopped.to_string().starts_with("at byte 1: The input ends inside a character."));
    /// ```
    pub fn to_text(&self, input: &[u8], settings: Settings) -> Result<String, Stopped> {
        let text = self.decode(input, Settings { scheme: Scheme::Utf8, ..settings })?;
        Ok(String::from_utf8(text).expect("the library writes UTF-8"))
    }

    /// From a string to the table's bytes, whatever the scheme of the settings.
    ///
    /// ```
    /// # let text = std::fs::read("../../crates/oboepond/data/table.ucm").unwrap();
    /// # let table = oboepond::Table::load(&text).unwrap();
    /// use oboepond::{Answer, Settings};
    /// assert_eq!(table.from_text("\u{2212}3", Settings::default()).unwrap(), b"\x81\x7c3");
    /// let stopped = table.from_text("\u{FF0D}", Settings::default()).unwrap_err();
    /// assert_eq!(stopped.done.answer, Answer::Unassigned);
    /// let fallback = Settings { fallback: true, ..Settings::default() };
    /// assert_eq!(table.from_text("\u{FF0D}", fallback).unwrap(), b"\x81\x7c");
    /// ```
    pub fn from_text(&self, text: &str, settings: Settings) -> Result<Vec<u8>, Stopped> {
        self.encode(text.as_bytes(), Settings { scheme: Scheme::Utf8, ..settings })
    }
}
