//! iconv of the C library, with its own table of Shift-JIS.

use crate::pipes::Converter;
use crate::texts::{codes, Mapping, Scheme, MAPPINGS};
use std::ffi::{c_char, c_int, c_void, CStr};
use std::ptr::null_mut;

extern "C" {
    fn iconv_open(to: *const c_char, from: *const c_char) -> *mut c_void;
    fn iconv(
        cd: *mut c_void,
        input: *mut *mut c_char,
        input_left: *mut usize,
        output: *mut *mut c_char,
        output_left: *mut usize,
    ) -> usize;
    fn iconv_close(cd: *mut c_void) -> c_int;
    fn gnu_get_libc_version() -> *const c_char;
}

const TABLE: &CStr = c"SHIFT_JIS";

/// One direction.
struct Direction(*mut c_void);

impl Direction {
    fn open(to: &CStr, from: &CStr) -> Option<Direction> {
        // SAFETY: both names end in NUL.
        let cd = unsafe { iconv_open(to.as_ptr(), from.as_ptr()) };
        (cd as isize != -1).then_some(Direction(cd))
    }

    /// Bytes written, if the whole input is converted and there is a way back
    /// for all of it.
    fn convert(&self, input: &[u8], output: &mut [u8]) -> Option<usize> {
        let mut from = input.as_ptr() as *mut c_char;
        let mut to = output.as_mut_ptr() as *mut c_char;
        let (mut from_left, mut to_left) = (input.len(), output.len());
        // SAFETY: each pointer comes with the length of its own slice; iconv
        // does not write the input. The first call sets the state back.
        let number = unsafe {
            iconv(self.0, null_mut(), null_mut(), null_mut(), null_mut());
            iconv(self.0, &mut from, &mut from_left, &mut to, &mut to_left)
        };
        (number == 0 && from_left == 0).then_some(output.len() - to_left)
    }
}

impl Drop for Direction {
    fn drop(&mut self) {
        // SAFETY: opened once, closed once.
        unsafe { iconv_close(self.0) };
    }
}

/// Both directions, for UTF-8 and for UTF-32BE.
pub struct Iconv {
    utf8: [Direction; 2],
    utf32be: [Direction; 2],
}

impl Iconv {
    pub fn open() -> Option<Iconv> {
        let both = |unicode| Some([Direction::open(unicode, TABLE)?, Direction::open(TABLE, unicode)?]);
        Some(Iconv { utf8: both(c"UTF-8")?, utf32be: both(c"UTF-32BE")? })
    }

    fn both(&self, scheme: Scheme) -> &[Direction; 2] {
        match scheme {
            Scheme::Utf8 => &self.utf8,
            Scheme::Utf32Be => &self.utf32be,
        }
    }

    pub fn version(&self) -> String {
        // SAFETY: the C library's own text.
        let version = unsafe { CStr::from_ptr(gnu_get_libc_version()) };
        format!("glibc {}", version.to_string_lossy())
    }

    /// The first 2,048 codes that come home, with the characters they stand for.
    pub fn mappings(&self) -> Vec<Mapping> {
        codes().filter_map(|code| self.mapping(code)).take(MAPPINGS).collect()
    }

    fn mapping(&self, code: Vec<u8>) -> Option<Mapping> {
        let (mut utf8, mut back) = ([0; 16], [0; 16]);
        let [to, from] = &self.utf8;
        let n = to.convert(&code, &mut utf8)?;
        let m = from.convert(&utf8[..n], &mut back)?;
        let mut chars = std::str::from_utf8(&utf8[..n]).ok()?.chars();
        let cp = chars.next()? as u32;
        (chars.next().is_none() && back[..m] == code[..]).then_some(Mapping { cp, code, kind: 0 })
    }
}

impl Converter for Iconv {
    fn name(&self) -> &str {
        "iconv, its own table"
    }

    fn to_unicode(&self, scheme: Scheme, input: &[u8], output: &mut [u8]) -> usize {
        self.both(scheme)[0].convert(input, output).expect("iconv converts the whole input")
    }

    fn from_unicode(&self, scheme: Scheme, input: &[u8], output: &mut [u8]) -> usize {
        self.both(scheme)[1].convert(input, output).expect("iconv converts the whole input")
    }
}
