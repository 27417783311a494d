//! Converts standard input, a text in a table's bytes, to UTF-8 on standard
//! output, in pieces as they come:
//!
//!     cargo run --example convert -- TABLE.ucm < panel.bin > text.utf8
//!
//! At the first sequence that is illegal or unassigned it stops, and says what
//! happened and at which byte, counted from 0.

use oboepond::{piece_room, Answer, Done, Pieces, Settings, Table};
use std::error::Error;
use std::io::{Read, Write};
use std::process::ExitCode;

/// The most bytes that are read at once.
const PIECE: usize = 64 * 1024;

fn main() -> ExitCode {
    match run() {
        Ok(()) => ExitCode::SUCCESS,
        Err(why) => {
            eprintln!("{why}");
            ExitCode::FAILURE
        }
    }
}

fn run() -> Result<(), Box<dyn Error>> {
    let path = std::env::args_os().nth(1).ok_or("usage: convert TABLE.ucm < INPUT > OUTPUT")?;
    let text = std::fs::read(&path).map_err(|why| format!("{}: {why}", path.to_string_lossy()))?;
    let table = Table::load(&text).map_err(|why| format!("{}, {why}", path.to_string_lossy()))?;
    convert(&table, &mut std::io::stdin().lock(), &mut std::io::stdout().lock())
}

fn convert(table: &Table, from: &mut dyn Read, to: &mut dyn Write) -> Result<(), Box<dyn Error>> {
    let mut pieces = Pieces::to_unicode(table, Settings::default());
    let (mut input, mut output) = (vec![0; PIECE], vec![0; piece_room(PIECE)]);
    let mut read = 0;
    loop {
        let n = from.read(&mut input)?;
        let mut rest = &input[..n];
        loop {
            let done = if n == 0 { pieces.close(&mut output) } else { pieces.piece(rest, &mut output) };
            to.write_all(&output[..done.written])?;
            read += done.read;
            rest = &rest[done.read..];
            match done.answer {
                Answer::Ok => break,
                Answer::Full => continue,
                _ => return Err(stopped(read - pieces.kept_bytes(), done)),
            }
        }
        to.flush()?;
        if n == 0 {
            return Ok(());
        }
    }
}

fn stopped(place: usize, done: Done) -> Box<dyn Error> {
    match done.illegal {
        0 => format!("at byte {place}: {}", done.answer).into(),
        length => format!("at byte {place}, length {length}: {}", done.answer).into(),
    }
}
