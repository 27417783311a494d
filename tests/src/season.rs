//! A long run by hand: `season N` feeds the program N MB of lines of each kind,
//! and prints for every 20 MB how fast they went and the program's peak memory
//! so far. What it writes is compared all along.

use crate::oracle;
use crate::program;
use crate::program_runs::{Binary, Place, Scratch};
use std::fs;
use std::io::{Read, Write};
use std::process::{ChildStdin, ChildStdout, Stdio};
use std::thread;
use std::time::Instant;

const MB: usize = 1_000_000;
const SLICE: usize = 20 * MB;

/// A block of lines that is fed again and again.
struct Kind {
    name: &'static str,
    block: Vec<u8>,
    /// An LF ends the input, the block has none.
    one_line: bool,
}

fn kinds() -> [Kind; 3] {
    // Two-byte codes of the table below, all with a mapping.
    let codes: Vec<String> = (0..2_048).map(|i| format!("{:02X}{:02X}", 1 + i / 256, i % 256)).collect();
    let short: String = codes.iter().map(|code| format!("{code}0100\n")).collect();
    let long = format!("{}\n", codes.concat());
    [
        Kind { name: "frames of 4 bytes", block: short.repeat(40).into_bytes(), one_line: false },
        Kind { name: "frames of 4,096 bytes", block: long.repeat(100).into_bytes(), one_line: false },
        Kind { name: "one line without end", block: b"33".repeat(500_000), one_line: true },
    ]
}

/// 2,048 mappings of two bytes.
fn table() -> Vec<u8> {
    let mut text = "<code_set_name>\"f\"\n<mb_cur_min>1\n<mb_cur_max>2\n<uconv_class>\"MBCS\"\n\
                    <subchar>\\x01\\x00\n<icu:state>1-8:1\n<icu:state>0-ff\nCHARMAP\n"
        .to_string();
    for i in 0..2_048 {
        text += &format!("<U{:X}>\\x{:02X}\\x{:02X}\n", 0x100 + i, 1 + i / 256, i % 256);
    }
    (text + "END CHARMAP\n").into_bytes()
}

/// N MB of each kind; true if everything written was right.
pub fn run(mb: usize) -> bool {
    let mut right = true;
    for kind in kinds() {
        println!("{}:", kind.name);
        match season(&kind, mb * MB) {
            Ok(()) => println!("  output as wanted"),
            Err(why) => {
                println!("  FAILED: {why}");
                right = false;
            }
        }
    }
    right
}

fn season(kind: &Kind, bytes: usize) -> Result<(), String> {
    let text = table();
    let meant = oracle::meaning_of_text(&text).expect("the table above");
    let blocks = bytes.div_ceil(kind.block.len());
    let answers = match kind.one_line {
        true => Answers { block: Vec::new(), blocks: 0, end: "BAD FRAME\nLOOKED 2048 LISTED 0\n" },
        false => {
            let block = program::frame_answers(&meant, &kind.block).into_bytes();
            Answers { block, blocks, end: "LOOKED 2048 LISTED 0\n" }
        }
    };
    let scratch = Scratch::new(&Place::Text(text))?;
    let mut child = Binary::new().start(&scratch.path, Stdio::piped())?;
    let pid = child.id();
    let (stdin, stdout) = (child.stdin.take().expect("piped"), child.stdout.take().expect("piped"));
    let outcome = thread::scope(|s| {
        s.spawn(move || feed(stdin, kind, blocks, pid));
        answers.compare(stdout)
    });
    let status = child.wait().map_err(|e| e.to_string())?;
    outcome.and(if status.success() { Ok(()) } else { Err(status.to_string()) })
}

/// What is wanted: the same block again and again between the first line and
/// the end.
struct Answers {
    block: Vec<u8>,
    blocks: usize,
    end: &'static str,
}

impl Answers {
    fn compare(&self, mut from: ChildStdout) -> Result<(), String> {
        expect(&mut from, b"TABLE OK 2048\n", "the first line")?;
        for n in 1..=self.blocks {
            expect(&mut from, &self.block, &format!("block {n}"))?;
        }
        expect(&mut from, self.end.as_bytes(), "the end")?;
        match from.read(&mut [0]) {
            Ok(0) => Ok(()),
            _ => Err("something behind the end".into()),
        }
    }
}

fn expect(from: &mut ChildStdout, want: &[u8], what: &str) -> Result<(), String> {
    let mut got = vec![0; want.len()];
    from.read_exact(&mut got).map_err(|e| format!("{what}: {e}"))?;
    if got == want {
        Ok(())
    } else {
        Err(format!("{what} is not as wanted"))
    }
}

fn feed(mut pipe: ChildStdin, kind: &Kind, blocks: usize, pid: u32) {
    // Bytes fed, and fed when the slice began.
    let (mut fed, mut before) = (0, 0);
    let mut start = Instant::now();
    for _ in 0..blocks {
        // An error: the program has stopped reading.
        if pipe.write_all(&kind.block).is_err() {
            return;
        }
        fed += kind.block.len();
        if fed / SLICE > before / SLICE {
            let speed = (fed - before) as f64 / MB as f64 / start.elapsed().as_secs_f64();
            println!("  {:4} MB: {speed:7.1} MB/s, peak memory {}", fed / MB, peak_memory(pid));
            (before, start) = (fed, Instant::now());
        }
    }
    if kind.one_line {
        let _ = pipe.write_all(b"\n");
    }
    println!("  {:4} MB in all, peak memory {}", fed / MB, peak_memory(pid));
}

/// VmHWM of a process.
fn peak_memory(pid: u32) -> String {
    let status = fs::read_to_string(format!("/proc/{pid}/status")).unwrap_or_default();
    let line = status.lines().find_map(|l| l.strip_prefix("VmHWM:"));
    line.map_or("unknown".into(), |l| l.trim().to_string())
}
