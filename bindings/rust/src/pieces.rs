//! Conversions in pieces.

use crate::slices;
use crate::{Done, Settings, Table, KEPT};

#[derive(Clone, Copy, PartialEq, Eq, Debug)]
enum Way {
    ToUnicode,
    FromUnicode,
}

/// A text that comes in pieces, cut anywhere: one call for each piece, in order,
/// and a close behind the last. The outputs joined, and the last answer, are
/// those of the whole text.
///
/// With an output of [`piece_room`](crate::piece_room) bytes it is never full.
/// After [`Full`](crate::Answer::Full) call again with the rest of the piece and
/// fresh space; an output of four bytes always suffices to go on. Any other
/// answer but [`Ok`](crate::Answer::Ok) is the text's end, and every further
/// call gives it again.
///
/// ```
/// # let text = std::fs::read("../../crates/oboepond/data/table.ucm").unwrap();
/// # let table = oboepond::Table::load(&text).unwrap();
/// use oboepond::{Answer, Pieces, Settings};
/// let mut pieces = Pieces::to_unicode(&table, Settings::default());
/// let mut output = [0; 64];
/// let mut text = Vec::new();
/// for piece in [&b"3\x81"[..], b"\x7c", b"3"] {
///     let done = pieces.piece(piece, &mut output);
///     assert_eq!(done.answer, Answer::Ok);
///     text.extend_from_slice(&output[..done.written]);
/// }
/// assert_eq!(pieces.close(&mut output).answer, Answer::Ok);
/// assert_eq!(text, "3\u{2212}3".as_bytes());
/// ```
#[derive(Clone, Debug)]
pub struct Pieces<'t> {
    table: &'t Table,
    way: Way,
    settings: Settings,
    kept: [u32; KEPT],
}

impl<'t> Pieces<'t> {
    /// A fresh start, from the table's bytes to Unicode text.
    pub fn to_unicode(table: &'t Table, settings: Settings) -> Pieces<'t> {
        Pieces { table, way: Way::ToUnicode, settings, kept: [0; KEPT] }
    }

    /// A fresh start, from Unicode text to the table's bytes.
    pub fn from_unicode(table: &'t Table, settings: Settings) -> Pieces<'t> {
        Pieces { table, way: Way::FromUnicode, settings, kept: [0; KEPT] }
    }

    /// Goes on with what was [`kept`](Pieces::kept) before, under the same table,
    /// way and settings. Numbers that no call keeps are refused by the next call
    /// with [`BadKept`](crate::Answer::BadKept).
    pub fn with_kept(self, kept: [u32; KEPT]) -> Pieces<'t> {
        Pieces { kept, ..self }
    }

    /// What is kept between two calls, as `include/oboepond.h` describes it.
    pub fn kept(&self) -> [u32; KEPT] {
        self.kept
    }

    /// How many bytes of a sequence that is not yet whole are kept. The place of
    /// the last answer in the whole text is the sum of all bytes read, less these.
    pub fn kept_bytes(&self) -> usize {
        self.kept[1] as usize
    }

    /// The next piece. If it ends inside a sequence, the bytes of that sequence
    /// are kept, and count as read.
    pub fn piece(&mut self, input: &[u8], output: &mut [u8]) -> Done {
        let [scheme, fallback, substitute, skip] = self.settings.numbers();
        let (table, kept) = (self.table.lent(), &mut self.kept);
        Done::by(|result| match self.way {
            Way::ToUnicode => slices::to_unicode_piece(table, kept, input, output, scheme, substitute, skip, result),
            Way::FromUnicode => {
                slices::from_unicode_piece(table, kept, input, output, scheme, fallback, substitute, skip, result)
            }
        })
    }

    /// The text's end. The output is for a mark that no piece has written. After
    /// [`Ok`](crate::Answer::Ok) the next text can begin.
    pub fn close(&mut self, output: &mut [u8]) -> Done {
        let [scheme, fallback, substitute, skip] = self.settings.numbers();
        let (table, kept) = (self.table.lent(), &mut self.kept);
        Done::by(|result| match self.way {
            Way::ToUnicode => slices::to_unicode_close(table, kept, output, scheme, substitute, skip, result),
            Way::FromUnicode => {
                slices::from_unicode_close(table, kept, output, scheme, fallback, substitute, skip, result)
            }
        })
    }
}
