//! The library over the lent memory.

use crate::calls::Calls;
use crate::lending::{lent, lent_mut};
use crate::memory::Memory;
use crate::texts::Scheme;
use crate::timing::{way, Way};
use oboepond::slices;
use std::cell::RefCell;
use std::hint::black_box;

/// One build of the library under its name.
#[derive(Clone, Copy)]
pub struct Build {
    pub name: &'static str,
    pub calls: Calls,
}

/// The static library that is linked.
pub const LINKED: Build = Build { name: "library", calls: Calls::Linked };

const UTF8: u32 = oboepond::Scheme::Utf8.number();
const UTF32BE: u32 = oboepond::Scheme::Utf32Be.number();

/// The lent memory and the record.
pub struct Lent {
    pub build: Build,
    pub memory: Memory,
    pub record: [u32; 7],
}

impl Lent {
    pub fn new(build: Build) -> Lent {
        let (states, codes) = (vec![0; 4096], vec![0; 2048]);
        let memory = Memory { states, infos: codes.clone(), order: codes.clone(), codes };
        Lent { build, memory, record: [0; 7] }
    }

    /// A table that the library accepts.
    pub fn with(build: Build, text: &[u8]) -> Lent {
        let mut lent = Lent::new(build);
        assert_eq!(lent.load(text), 0, "the library accepts the table");
        assert_eq!(lent.check(), 0, "and its memory");
        lent
    }

    pub fn clear(&mut self) {
        self.memory.states.fill(0);
        self.memory.codes.fill(0);
        self.memory.infos.fill(0);
        self.memory.order.fill(0);
    }

    pub fn load(&mut self, text: &[u8]) -> u32 {
        self.build.calls.load(text, lent_mut(&mut self.record, &mut self.memory), &mut [0])
    }

    fn lent(&self) -> slices::Lent<'_> {
        lent(&self.record, &self.memory)
    }

    pub fn check(&self) -> u32 {
        self.build.calls.check(self.lent())
    }

    /// Number, bytes read, bytes written. UTF-8 by the calls for it alone.
    pub fn to_unicode(&self, scheme: Scheme, input: &[u8], output: &mut [u8], skip: bool) -> (u32, usize, usize) {
        let (calls, table, skip) = (&self.build.calls, self.lent(), skip as u32);
        let mut result = [0; 3];
        let number = match scheme {
            Scheme::Utf8 => calls.to_utf8(table, input, output, 1, skip, &mut result),
            Scheme::Utf32Be => calls.to_unicode(table, input, output, UTF32BE, 1, skip, &mut result),
        };
        (number, result[0] as usize, result[1] as usize)
    }

    pub fn from_unicode(&self, scheme: Scheme, input: &[u8], output: &mut [u8], skip: bool) -> (u32, usize, usize) {
        let (calls, table, skip) = (&self.build.calls, self.lent(), skip as u32);
        let mut result = [0; 3];
        let number = match scheme {
            Scheme::Utf8 => calls.from_utf8(table, input, output, 0, 1, skip, &mut result),
            Scheme::Utf32Be => calls.from_unicode(table, input, output, UTF32BE, 0, 1, skip, &mut result),
        };
        (number, result[0] as usize, result[1] as usize)
    }

    /// One piece of UTF-8, settings as above; all of it must be read. Bytes written.
    /// Pieces and the audit are those of the linked build.
    pub fn to_utf8_piece(&self, kept: &mut [u32; 5], piece: &[u8], output: &mut [u8]) -> usize {
        let mut result = [0; 3];
        let number = slices::to_unicode_piece(self.lent(), kept, piece, output, UTF8, 1, 0, &mut result);
        assert_eq!((number, result[0] as usize), (0, piece.len()), "the piece is converted");
        result[1] as usize
    }

    pub fn from_utf8_piece(&self, kept: &mut [u32; 5], piece: &[u8], output: &mut [u8]) -> usize {
        let mut result = [0; 3];
        let number = slices::from_unicode_piece(self.lent(), kept, piece, output, UTF8, 0, 1, 0, &mut result);
        assert_eq!((number, result[0] as usize), (0, piece.len()), "the piece is converted");
        result[1] as usize
    }

    /// The closing calls; nothing may be kept.
    pub fn to_utf8_close(&self, kept: &mut [u32; 5]) {
        let number = slices::to_unicode_close(self.lent(), kept, &mut [], UTF8, 1, 0, &mut [0; 3]);
        assert_eq!(number, 0, "the text is whole");
    }

    pub fn from_utf8_close(&self, kept: &mut [u32; 5]) {
        let number = slices::from_unicode_close(self.lent(), kept, &mut [], UTF8, 0, 1, 0, &mut [0; 3]);
        assert_eq!(number, 0, "the text is whole");
    }

    /// Entries written and count of one piece from a position, which moves
    /// on; whether it is finished.
    pub fn audit(&self, position: &mut (u32, u32), allowance: u64, entries: &mut [u64]) -> (usize, u64, bool) {
        let mut result = [0; 5];
        let (bits, len) = *position;
        let number = slices::audit(self.lent(), 0, bits, len, allowance, entries, &mut result);
        assert_eq!(number, 0, "the audit goes on");
        *position = (result[1] as u32, result[2] as u32);
        (result[0] as usize, result[4], result[3] == 1)
    }
}

/// Loading the text again and again into the same memory.
pub fn loading<'a>(target: &'a RefCell<Lent>, text: &'a [u8]) -> Way<'a> {
    way(target.borrow().build.name, move || target.borrow_mut().load(black_box(text)))
}
