//! Runs of the program: a folder with table.ucm, the program started there,
//! its input fed whole or in pieces, everything it writes collected.
//! OBOEPOND_PROGRAM names the program, else it is ../target/bin/oboepond
//! beside this crate.

use crate::program;
use std::ffi::{c_int, c_ulong};
use std::fs::{self, File, OpenOptions, Permissions};
use std::io::{Read, Write};
use std::os::fd::AsRawFd;
use std::os::unix::fs::{symlink, PermissionsExt};
use std::path::{Path, PathBuf};
use std::process::{Child, ChildStdin, Command, ExitStatus, Stdio};
use std::sync::atomic::{AtomicBool, AtomicU64, Ordering};
use std::thread::{self, JoinHandle};
use std::time::{Duration, Instant};

/// A run that takes longer has failed.
const LONGEST_RUN: Duration = Duration::from_secs(60);
/// After so many of them the program is not run any more.
const MOST_WITHOUT_END: u64 = 3;
/// A run that writes more has failed.
const MOST_OUTPUT: u64 = 64 << 20;

// ---------------------------------------------------------------------------
// The folder
// ---------------------------------------------------------------------------

/// What stands under the name table.ucm.
#[derive(Clone)]
pub enum Place {
    Missing,
    Text(Vec<u8>),
    /// A text without permission to read it.
    Locked(Vec<u8>),
    Folder,
    Link(&'static str),
    /// A text that comes through a named pipe in pieces.
    Pipe(Vec<u8>),
}

/// A folder of its own under the system's temporary one, gone at the end.
pub struct Scratch {
    pub path: PathBuf,
    /// Feeds the named pipe.
    writer: Option<JoinHandle<()>>,
}

impl Scratch {
    pub fn new(place: &Place) -> Result<Scratch, String> {
        static MADE: AtomicU64 = AtomicU64::new(0);
        let name = format!("oboepond-{}-{}", std::process::id(), MADE.fetch_add(1, Ordering::Relaxed));
        let mut scratch = Scratch { path: std::env::temp_dir().join(name), writer: None };
        scratch.make(place).map_err(|e| format!("the folder {} cannot be made: {e}", scratch.path.display()))?;
        Ok(scratch)
    }

    fn table(&self) -> PathBuf {
        self.path.join("table.ucm")
    }

    fn make(&mut self, place: &Place) -> std::io::Result<()> {
        fs::create_dir(&self.path)?;
        let table = self.table();
        match place {
            Place::Missing => Ok(()),
            Place::Text(text) => fs::write(table, text),
            Place::Locked(text) => {
                fs::write(&table, text)?;
                fs::set_permissions(&table, Permissions::from_mode(0o000))
            }
            Place::Folder => fs::create_dir(table),
            Place::Link(to) => symlink(to, table),
            Place::Pipe(text) => {
                Command::new("mkfifo").arg(&table).status()?;
                let text = text.clone();
                self.writer = Some(thread::spawn(move || write_slowly(&table, &text)));
                Ok(())
            }
        }
    }
}

impl Drop for Scratch {
    fn drop(&mut self) {
        if let Some(writer) = self.writer.take() {
            // Opened from both ends the pipe lets a writer go on that waits for a reader.
            let both = OpenOptions::new().read(true).write(true).open(self.table());
            let _ = writer.join();
            drop(both);
        }
        let _ = fs::remove_dir_all(&self.path);
    }
}

/// Whoever stopped reading is not waited for.
fn write_slowly(pipe: &Path, text: &[u8]) {
    let Ok(mut file) = OpenOptions::new().write(true).open(pipe) else { return };
    for piece in text.chunks(100) {
        if file.write_all(piece).is_err() {
            return;
        }
        thread::sleep(Duration::from_millis(1));
    }
}

/// True for a user to whom permissions do not matter.
pub fn reads_locked_files() -> bool {
    let scratch = Scratch::new(&Place::Locked(Vec::new())).expect("a folder");
    File::open(scratch.table()).is_ok()
}

// ---------------------------------------------------------------------------
// The input
// ---------------------------------------------------------------------------

/// How the input comes.
#[derive(Clone, Debug)]
pub enum Way {
    /// Standard input is a file.
    File,
    /// Standard input is a pipe; the input is cut at these places, and each
    /// piece is written when the program has taken the one before.
    Pieces(Vec<usize>),
}

impl Way {
    pub fn whole() -> Way {
        Way::Pieces(Vec::new())
    }

    /// Cut at those places that lie inside an input of this length.
    pub fn cut(length: usize, places: impl IntoIterator<Item = usize>) -> Way {
        let mut places: Vec<usize> = places.into_iter().filter(|p| (1..length).contains(p)).collect();
        places.sort_unstable();
        places.dedup();
        Way::Pieces(places)
    }

    fn name(&self) -> String {
        match self {
            Way::File => "input from a file".into(),
            Way::Pieces(cuts) if cuts.len() > 8 => format!("input in {} pieces", cuts.len() + 1),
            Way::Pieces(cuts) => format!("input through a pipe, cut at {cuts:?}"),
        }
    }
}

fn feed(mut pipe: ChildStdin, input: &[u8], cuts: &[usize], ended: &AtomicBool) {
    let mut from = 0;
    for to in cuts.iter().copied().chain([input.len()]) {
        // An error: the program has stopped reading.
        if pipe.write_all(&input[from..to]).is_err() {
            return;
        }
        if !cuts.is_empty() {
            let_it_take(&pipe, ended);
        }
        from = to;
    }
}

/// Waits until the program has taken all that is in the pipe.
fn let_it_take(pipe: &ChildStdin, ended: &AtomicBool) {
    let start = Instant::now();
    while !is_empty(pipe) && !ended.load(Ordering::Relaxed) && start.elapsed() < Duration::from_secs(5) {
        thread::sleep(Duration::from_micros(20));
    }
}

extern "C" {
    fn ioctl(file: c_int, request: c_ulong, ...) -> c_int;
}

/// Asks how many bytes are waiting.
const FIONREAD: c_ulong = 0x541b;

fn is_empty(pipe: &ChildStdin) -> bool {
    let mut waiting: c_int = 0;
    // SAFETY: the file is open, and the request writes one number.
    let answer = unsafe { ioctl(pipe.as_raw_fd(), FIONREAD, &mut waiting as *mut c_int) };
    assert_eq!(answer, 0, "the pipe does not tell how many bytes are waiting");
    waiting == 0
}

// ---------------------------------------------------------------------------
// The two programs
// ---------------------------------------------------------------------------

pub trait Program {
    fn name(&self) -> &'static str;

    /// How an input of this length is to come, one run for each.
    fn ways(&self, length: usize) -> Vec<Way>;

    /// What it writes in this folder for this input.
    fn run(&self, folder: &Path, input: &[u8], way: &Way) -> Result<Vec<u8>, String>;
}

pub struct StandIn;

impl Program for StandIn {
    fn name(&self) -> &'static str {
        "stand-in"
    }

    /// It gets its input at once.
    fn ways(&self, _: usize) -> Vec<Way> {
        vec![Way::whole()]
    }

    fn run(&self, folder: &Path, input: &[u8], _: &Way) -> Result<Vec<u8>, String> {
        Ok(program::answer(program::table_in(folder).as_deref(), input))
    }
}

pub struct Binary {
    path: PathBuf,
    /// Runs that had no end.
    without_end: AtomicU64,
}

impl Binary {
    pub fn new() -> Binary {
        let here = Path::new(env!("CARGO_MANIFEST_DIR"));
        let path = match std::env::var_os("OBOEPOND_PROGRAM") {
            // A relative path is taken from this crate.
            Some(path) => here.join(path),
            None => here.join("../target/bin/oboepond"),
        };
        Binary { path, without_end: AtomicU64::new(0) }
    }

    pub fn start(&self, folder: &Path, stdin: Stdio) -> Result<Child, String> {
        let path = self.path.canonicalize().map_err(|e| format!("no program {}: {e}", self.path.display()))?;
        Command::new(&path)
            .current_dir(folder)
            .stdin(stdin)
            .stdout(Stdio::piped())
            .stderr(Stdio::piped())
            .spawn()
            .map_err(|e| format!("{} does not start: {e}", path.display()))
    }
}

impl Program for Binary {
    fn name(&self) -> &'static str {
        "program"
    }

    /// A file, a pipe, single bytes of short inputs, long ones cut at several
    /// places, those around 65,536 among them.
    fn ways(&self, length: usize) -> Vec<Way> {
        let mut ways = vec![Way::whole(), Way::File];
        if length <= 100 {
            ways.push(Way::cut(length, 1..length));
        } else {
            ways.push(Way::cut(length, [1, length / 2, length - 1]));
            ways.push(Way::cut(length, (0..length).step_by(length / 7 + 1)));
        }
        if length > 65_537 {
            ways.extend([65_535, 65_536, 65_537].map(|first| Way::cut(length, [first])));
        }
        ways
    }

    fn run(&self, folder: &Path, input: &[u8], way: &Way) -> Result<Vec<u8>, String> {
        if self.without_end.load(Ordering::Relaxed) >= MOST_WITHOUT_END {
            return Err("not run: too many runs before had no end".into());
        }
        let (stdin, cuts) = match way {
            Way::File => (as_file(folder, input)?, &[][..]),
            Way::Pieces(cuts) => (Stdio::piped(), cuts.as_slice()),
        };
        let mut child = self.start(folder, stdin)?;
        let (pipe, stdout, stderr) = (child.stdin.take(), child.stdout.take(), child.stderr.take());
        let ended = &AtomicBool::new(false);
        let (status, out, err) = thread::scope(|s| {
            if let Some(pipe) = pipe {
                s.spawn(move || feed(pipe, input, cuts, ended));
            }
            let out = s.spawn(|| read_all(stdout));
            let err = s.spawn(|| read_all(stderr));
            let status = end_of(&mut child);
            ended.store(true, Ordering::Relaxed);
            (status, out.join().expect("a reader"), err.join().expect("a reader"))
        });
        let Some(status) = status else {
            self.without_end.fetch_add(1, Ordering::Relaxed);
            return Err(format!("no end within {} seconds", LONGEST_RUN.as_secs()));
        };
        if !status.success() || !err.is_empty() {
            let (out, err) = (shown(&out), shown(&err));
            return Err(format!("{status}, standard error \"{err}\", output so far \"{out}\""));
        }
        Ok(out)
    }
}

fn as_file(folder: &Path, input: &[u8]) -> Result<Stdio, String> {
    let path = folder.join("input");
    fs::write(&path, input).and_then(|()| File::open(&path)).map(Stdio::from).map_err(|e| format!("input file: {e}"))
}

fn read_all(from: Option<impl Read>) -> Vec<u8> {
    let mut bytes = Vec::new();
    if let Some(from) = from {
        let _ = from.take(MOST_OUTPUT).read_to_end(&mut bytes);
    }
    bytes
}

/// The exit status, or none if it had to be stopped.
fn end_of(child: &mut Child) -> Option<ExitStatus> {
    let start = Instant::now();
    while start.elapsed() < LONGEST_RUN {
        if let Some(status) = child.try_wait().expect("a child") {
            return Some(status);
        }
        thread::sleep(Duration::from_micros(200));
    }
    let _ = child.kill();
    let _ = child.wait();
    None
}

// ---------------------------------------------------------------------------
// Comparing
// ---------------------------------------------------------------------------

/// One run held against what is wanted.
pub fn gives(p: &dyn Program, place: &Place, input: &[u8], way: &Way, want: &[u8]) -> Result<(), String> {
    let scratch = Scratch::new(place)?;
    let got = p.run(&scratch.path, input, way).and_then(|got| equal_lines(&got, want));
    got.map_err(|why| format!("{}: {why}", way.name()))
}

/// Names the first line that differs.
fn equal_lines(got: &[u8], want: &[u8]) -> Result<(), String> {
    if got == want {
        return Ok(());
    }
    let mut left = got.split_inclusive(|&b| b == b'\n');
    let mut right = want.split_inclusive(|&b| b == b'\n');
    for number in 1.. {
        let (a, b) = (left.next(), right.next());
        if a != b {
            let line = |l: Option<&[u8]>| l.map_or("no line".into(), |l| format!("\"{}\"", shown(l)));
            return Err(format!("line {number}: got {}, want {}", line(a), line(b)));
        }
    }
    unreachable!("they differ in some line")
}

/// Printable, long ones by both ends and their length.
fn shown(bytes: &[u8]) -> String {
    if bytes.len() <= 160 {
        return bytes.escape_ascii().to_string();
    }
    let (front, back) = (&bytes[..70], &bytes[bytes.len() - 70..]);
    format!("{} .. ({} bytes) .. {}", front.escape_ascii(), bytes.len(), back.escape_ascii())
}
