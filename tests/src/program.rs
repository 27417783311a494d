//! The program in plain Rust, written from document 01: everything it writes
//! for a table file and an input. Built on the oracle; it reads all before it
//! writes anything.

use crate::oracle::{self, Codes, Lines, Scheme, Settings, Table};
use std::fs::File;
use std::io::{self, Read, Write};
use std::path::Path;

/// The longest table file.
pub const MAX_TABLE: usize = 32_768;
/// The longest frame in bytes.
pub const MAX_FRAME: usize = 4_096;
/// Substitute setting, fallback off; skipping stays off.
const SETTINGS: Settings = Settings { fallback: false, substitute: true, skip: false };

/// What is written on standard output; `None` is a table that cannot be read.
pub fn answer(table: Option<&[u8]>, input: &[u8]) -> Vec<u8> {
    let Some(text) = table else {
        return b"NO TABLE\n".to_vec();
    };
    if text.len() > MAX_TABLE {
        return b"TABLE TOO LONG\n".to_vec();
    }
    match oracle::meaning_of_text(text) {
        Err(r) => format!("TABLE REFUSED {} {}\n", r.number, r.line).into_bytes(),
        Ok(t) => {
            let mut out = format!("TABLE OK {}\n", t.lines.len());
            out += &frame_answers(&t, input);
            out += &audit_answers(&t);
            out.into_bytes()
        }
    }
}

/// One line for each line of the input.
pub fn frame_answers(t: &Table, input: &[u8]) -> String {
    let lines = Lines::of(t);
    let mut out = String::new();
    for line in lines_of(input) {
        match frame_of(line) {
            None => out += "BAD FRAME\n",
            Some(frame) => out += &converted(t, &lines, &frame),
        }
    }
    out
}

/// Lines end in LF; bytes behind the last LF are a line too.
fn lines_of(input: &[u8]) -> Vec<&[u8]> {
    let mut lines: Vec<&[u8]> = input.split(|&b| b == b'\n').collect();
    if lines.last().is_some_and(|l| l.is_empty()) {
        lines.pop();
    }
    lines
}

/// The bytes that a line stands for; `-` stands for none.
fn frame_of(line: &[u8]) -> Option<Vec<u8>> {
    if line == b"-" {
        return Some(Vec::new());
    }
    if line.is_empty() || line.len() % 2 == 1 || line.len() > 2 * MAX_FRAME {
        return None;
    }
    line.chunks(2).map(|pair| Some(digit(pair[0])? * 16 + digit(pair[1])?)).collect()
}

fn digit(b: u8) -> Option<u8> {
    (b as char).to_digit(16).map(|d| d as u8)
}

/// Number, bytes read, output.
fn converted(t: &Table, lines: &Lines, frame: &[u8]) -> String {
    let mut space = vec![0; 4 * frame.len()];
    let got = oracle::to_unicode(t, lines, frame, &mut space, Scheme::Utf8, SETTINGS);
    format!("{} {} {}\n", got.number, got.read, hex(&space[..got.written as usize]))
}

/// Capital digits; `-` for no bytes.
pub fn hex(bytes: &[u8]) -> String {
    if bytes.is_empty() {
        return "-".into();
    }
    bytes.iter().map(|b| format!("{b:02X}")).collect()
}

/// The findings and the last line.
fn audit_answers(t: &Table) -> String {
    let lines = Lines::of(t);
    let mut codes = Codes::of(t);
    let (mut looked, mut listed) = (0, 0);
    let mut out = String::new();
    let mut next = codes.after(&[]);
    while let Some(code) = next {
        looked += 1;
        if let Some(cause) = oracle::cause(t, &lines, &code, false) {
            listed += 1;
            out += &format!("{} {cause}\n", hex(&code));
        }
        next = codes.after(&code);
    }
    out + &format!("LOOKED {looked} LISTED {listed}\n")
}

/// The table file of a folder, no more of it than shows that it is too long.
pub fn table_in(folder: &Path) -> Option<Vec<u8>> {
    let mut text = Vec::new();
    let file = File::open(folder.join("table.ucm")).ok()?;
    file.take(MAX_TABLE as u64 + 1).read_to_end(&mut text).ok()?;
    Some(text)
}

/// Runs in the program's place: table.ucm of the current folder, standard
/// input, standard output.
pub fn stand_in() -> io::Result<()> {
    let table = table_in(Path::new("."));
    let mut input = Vec::new();
    io::stdin().read_to_end(&mut input)?;
    io::stdout().write_all(&answer(table.as_deref(), &input))
}
