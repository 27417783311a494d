//! Libraries opened at run time, and a folder for files that are made for them.

use std::ffi::{c_char, c_int, c_void, CStr, CString, OsStr};
use std::os::unix::ffi::OsStrExt;
use std::path::PathBuf;

extern "C" {
    fn dlopen(file: *const c_char, flags: c_int) -> *mut c_void;
    fn dlsym(library: *mut c_void, name: *const c_char) -> *mut c_void;
    fn dlerror() -> *const c_char;
}

const RTLD_NOW: c_int = 2;

/// A library that stays open to the end of the run.
pub struct Opened(*mut c_void);

impl Opened {
    /// By its path, or by its name alone where the system keeps its libraries.
    pub fn open(file: impl AsRef<OsStr>) -> Result<Opened, String> {
        // SAFETY: the name ends in NUL.
        got(unsafe { dlopen(c_text(file).as_ptr(), RTLD_NOW) }).map(Opened)
    }

    /// The call of this name.
    ///
    /// SAFETY: `T` must be the type of that call, a function pointer.
    pub unsafe fn call<T>(&self, name: &str) -> Result<T, String> {
        got(dlsym(self.0, c_text(name).as_ptr())).map(|place| std::mem::transmute_copy(&place))
    }
}

/// The pointer, or why there is none.
fn got(pointer: *mut c_void) -> Result<*mut c_void, String> {
    if !pointer.is_null() {
        return Ok(pointer);
    }
    // SAFETY: a text that ends in NUL, or null; it stands until the next call.
    unsafe {
        let why = dlerror();
        Err(if why.is_null() { "null".into() } else { CStr::from_ptr(why).to_string_lossy().into() })
    }
}

/// A name or path as C takes it.
pub fn c_text(text: impl AsRef<OsStr>) -> CString {
    CString::new(text.as_ref().as_bytes()).expect("no NUL inside")
}

/// A temporary folder, removed at the end.
pub struct Folder(pub PathBuf);

impl Folder {
    pub fn make() -> Result<Folder, String> {
        let path = std::env::temp_dir().join(format!("oboepond-bench-{}", std::process::id()));
        std::fs::create_dir_all(&path).map_err(|e| format!("no temporary folder: {e}"))?;
        Ok(Folder(path))
    }
}

impl Drop for Folder {
    fn drop(&mut self) {
        let _ = std::fs::remove_dir_all(&self.0);
    }
}
