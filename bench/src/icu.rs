//! ICU with the very same table: `makeconv` makes its binary table of the `.ucm`
//! text. ICU is opened at run time, so that the build does not want it.

use crate::dynamic::{c_text, Folder, Opened};
use crate::pipes::Converter;
use crate::texts::Scheme;
use std::ffi::{c_char, c_int, c_void, CStr};
use std::path::Path;
use std::process::{Command, Stdio};
use std::ptr::null_mut;

/// The name of the table and of its files.
const TABLE: &CStr = c"bench-sjis";

type Open = unsafe extern "C" fn(name: *const c_char, error: *mut c_int) -> *mut c_void;
type OpenPackage = unsafe extern "C" fn(folder: *const c_char, name: *const c_char, error: *mut c_int) -> *mut c_void;
type Close = unsafe extern "C" fn(converter: *mut c_void);
type GetVersion = unsafe extern "C" fn(version: *mut [u8; 4]);
type ConvertEx = unsafe extern "C" fn(
    target_converter: *mut c_void,
    source_converter: *mut c_void,
    target: *mut *mut c_char,
    target_limit: *const c_char,
    source: *mut *const c_char,
    source_limit: *const c_char,
    pivot_start: *mut u16,
    pivot_source: *mut *mut u16,
    pivot_target: *mut *mut u16,
    pivot_limit: *const u16,
    reset: i8,
    flush: i8,
    error: *mut c_int,
);

/// The calls of ICU that are used here.
struct Calls {
    open: Open,
    open_package: OpenPackage,
    close: Close,
    get_version: GetVersion,
    convert_ex: ConvertEx,
}

impl Calls {
    /// The newest ICU installed; the version is part of all names.
    fn find() -> Option<Calls> {
        (50..150).rev().find_map(|version| Calls::of(version).ok())
    }

    fn of(version: u32) -> Result<Calls, String> {
        let library = Opened::open(format!("libicuuc.so.{version}"))?;
        let named = |name: &str| format!("{name}_{version}");
        // SAFETY: the types are those of ICU's headers.
        unsafe {
            Ok(Calls {
                open: library.call(&named("ucnv_open"))?,
                open_package: library.call(&named("ucnv_openPackage"))?,
                close: library.call(&named("ucnv_close"))?,
                get_version: library.call(&named("u_getVersion"))?,
                convert_ex: library.call(&named("ucnv_convertEx"))?,
            })
        }
    }

    fn open_table(&self, folder: &Folder) -> Result<*mut c_void, String> {
        let mut error = 0;
        // SAFETY: the names end in NUL.
        let converter = unsafe { (self.open_package)(c_text(&folder.0).as_ptr(), TABLE.as_ptr(), &mut error) };
        opened(converter, error)
    }

    /// A converter of ICU's own.
    fn open_own(&self, name: &CStr) -> Result<*mut c_void, String> {
        let mut error = 0;
        // SAFETY: the name ends in NUL.
        let converter = unsafe { (self.open)(name.as_ptr(), &mut error) };
        opened(converter, error)
    }
}

fn opened(converter: *mut c_void, error: c_int) -> Result<*mut c_void, String> {
    match error <= 0 && !converter.is_null() {
        true => Ok(converter),
        false => Err(format!("a converter does not open: error {error}")),
    }
}

pub struct Icu {
    calls: Calls,
    folder: Folder,
    table: *mut c_void,
    utf8: *mut c_void,
    utf32be: *mut c_void,
}

impl Icu {
    /// ICU with this table, or why it cannot be had.
    pub fn with(text: &[u8]) -> Result<Icu, String> {
        let calls = Calls::find().ok_or("not installed (apt-get install libicu-dev)")?;
        let folder = Folder::make()?;
        std::fs::write(folder.0.join("bench-sjis.ucm"), text).map_err(|e| format!("table not written: {e}"))?;
        make_table(&folder.0)?;
        let table = calls.open_table(&folder)?;
        let (utf8, utf32be) = (calls.open_own(c"UTF-8")?, calls.open_own(c"UTF-32BE")?);
        Ok(Icu { calls, folder, table, utf8, utf32be })
    }

    fn unicode(&self, scheme: Scheme) -> *mut c_void {
        match scheme {
            Scheme::Utf8 => self.utf8,
            Scheme::Utf32Be => self.utf32be,
        }
    }

    pub fn version(&self) -> String {
        let mut version = [0; 4];
        // SAFETY: ICU writes four bytes.
        unsafe { (self.calls.get_version)(&mut version) };
        format!("ICU {}.{}", version[0], version[1])
    }

    /// The command that makes the binary table.
    pub fn make_table(&self) {
        make_table(&self.folder.0).expect("makeconv did it before");
    }

    /// Opens the file of the binary table again and closes the one before.
    pub fn open_again(&mut self) {
        let before = self.table;
        self.table = self.calls.open_table(&self.folder).expect("it was opened before");
        // SAFETY: it is not used any more.
        unsafe { (self.calls.close)(before) };
    }

    /// Bytes written. The whole input must be converted.
    fn convert(&self, to: *mut c_void, from: *mut c_void, input: &[u8], output: &mut [u8]) -> usize {
        let source_end = input.as_ptr_range().end as *const c_char;
        let mut source = input.as_ptr() as *const c_char;
        let target_start = output.as_mut_ptr() as *mut c_char;
        let target_end = output.as_mut_ptr_range().end as *const c_char;
        let mut target = target_start;
        let (none, mut error) = (null_mut(), 0);
        // SAFETY: each pointer comes with the end of its own slice; with no
        // pivot of ours ICU takes its own; both converters are open.
        let written = unsafe {
            (self.calls.convert_ex)(
                to,
                from,
                &mut target,
                target_end,
                &mut source,
                source_end,
                none,
                null_mut(),
                null_mut(),
                none,
                1,
                1,
                &mut error,
            );
            target.offset_from(target_start) as usize
        };
        assert!(error <= 0 && source == source_end, "ICU converts the whole input: error {error}");
        written
    }
}

impl Drop for Icu {
    fn drop(&mut self) {
        // SAFETY: opened once, closed once.
        unsafe {
            (self.calls.close)(self.table);
            (self.calls.close)(self.utf8);
            (self.calls.close)(self.utf32be);
        }
    }
}

fn make_table(folder: &Path) -> Result<(), String> {
    let made = Command::new("makeconv")
        .current_dir(folder)
        .arg("bench-sjis.ucm")
        .stdout(Stdio::null())
        .status()
        .map_err(|e| format!("no makeconv (apt-get install icu-devtools): {e}"))?;
    made.success().then_some(()).ok_or(format!("makeconv refuses the table: {made}"))
}

impl Converter for Icu {
    fn name(&self) -> &str {
        "ICU, same table"
    }

    fn to_unicode(&self, scheme: Scheme, input: &[u8], output: &mut [u8]) -> usize {
        self.convert(self.unicode(scheme), self.table, input, output)
    }

    fn from_unicode(&self, scheme: Scheme, input: &[u8], output: &mut [u8]) -> usize {
        self.convert(self.table, self.unicode(scheme), input, output)
    }
}
