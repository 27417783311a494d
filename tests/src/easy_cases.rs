//! Cases of the crate's easy layer, beside what `easy` tests as a subject: outputs
//! that it owns, strings, findings, fresh pieces, the bytes that keep a table, and
//! what is shown of answers.

use crate::abi::AbiCase;
use crate::bursts;
use crate::cases::{equal, equal_slices, k_void, K};
use crate::easy::{bytes_of, form_of, piped, settings_of};
use crate::gen::{self, Rng};
use crate::oracle::{self, Lines, Pipe, Piped, Scheme, Settings, Way};
use crate::subject::{Oracle, Subject};
use oboepond::{room, Answer, Cause, Finding, Pieces, Refused, Stopped, Table};

pub const CASES: &[AbiCase] = &[
    ("crate: outputs of its own are the oracle's", owned),
    ("crate: strings are the oracle's", strings),
    ("crate: pieces from a fresh start give the whole text", pieces),
    ("crate: findings are the oracle's list", findings),
    ("crate: an entry that no audit writes is no finding", entries),
    ("crate: a table comes back from its bytes", bytes),
    ("crate: damaged bytes are refused as the oracle refuses them", damaged_bytes),
    ("crate: bytes of another length are refused", other_lengths),
    ("crate: the bytes of table K are those of the C struct", bytes_of_k),
    ("crate: room is four for each byte and four more", rooms),
    ("crate: numbers and answers", answers),
    ("crate: what is shown of a refusal and of a stop", shown),
];

/// Tables that each case goes through.
const TABLES: u64 = 200;
/// Findings of one table that are looked at; the page of the crate has fewer.
const MOST_FINDINGS: usize = 300;

/// A valid table of any shape: its meaning, and as the crate loads its text.
struct Sample {
    rng: Rng,
    meaning: oracle::Table,
    lines: Lines,
    table: Table,
}

fn samples(seed: u64) -> impl Iterator<Item = Sample> {
    (0..TABLES).map(move |i| {
        let mut rng = Rng::new(1_000 * seed + i);
        let made = gen::random_table(&mut rng, 60);
        let table = Table::load(&gen::text_of(&mut rng, &made)).expect("a valid table");
        Sample { rng, lines: Lines::of(&made.table), meaning: made.table, table }
    })
}

impl Sample {
    /// A way with settings, and an input for it, damaged half of the time.
    fn input(&mut self) -> (Pipe, Vec<u8>) {
        let rng = &mut self.rng;
        let [fallback, substitute, skip] = [2, 2, 2].map(|n| rng.one_in(n));
        let scheme = *rng.pick(&Scheme::ALL);
        let way = if rng.one_in(2) { Way::To } else { Way::From };
        let input = match (way, rng.one_in(2)) {
            (Way::To, false) => gen::random_frame(rng, &self.meaning, 20),
            (Way::To, true) => gen::damaged_frame(rng, &self.meaning, 20),
            (Way::From, false) => gen::random_text(rng, &self.meaning, scheme, 20),
            (Way::From, true) => gen::damaged_text(rng, &self.meaning, scheme, 20),
        };
        (Pipe { way, scheme, settings: Settings { fallback, substitute, skip } }, input)
    }

    /// What the oracle makes of it with space enough.
    fn told(&self, pipe: Pipe, input: &[u8]) -> (Piped, Vec<u8>) {
        let (record, memory) = oracle::form(&self.meaning);
        let mut output = vec![0; 4 * input.len() + 4];
        let answer = bursts::whole(&Oracle, &record, &memory, pipe, input, &mut output);
        output.truncate(answer.written as usize);
        (answer, output)
    }
}

/// An output of its own against what the oracle tells.
fn is_told(got: Result<Vec<u8>, Stopped>, (answer, output): (Piped, Vec<u8>)) -> Result<(), String> {
    match got {
        Ok(got) => {
            equal("number", 0, answer.number)?;
            equal_slices("output", &got, &output)
        }
        Err(stopped) => {
            equal("answer", piped(stopped.done), answer)?;
            equal("stopped", answer.number != 0, true)?;
            equal_slices("output", &stopped.output, &output)
        }
    }
}

fn owned() -> Result<(), String> {
    for mut sample in samples(1) {
        for _ in 0..8 {
            let (pipe, input) = sample.input();
            let settings = settings_of(pipe.scheme, pipe.settings);
            let got = match pipe.way {
                Way::To => sample.table.decode(&input, settings),
                Way::From => sample.table.encode(&input, settings),
            };
            is_told(got, sample.told(pipe, &input))?;
        }
    }
    Ok(())
}

/// The scheme of the settings does not matter.
fn strings() -> Result<(), String> {
    for mut sample in samples(2) {
        for _ in 0..8 {
            let (pipe, input) = sample.input();
            let settings = settings_of(pipe.scheme, pipe.settings);
            let pipe = Pipe { scheme: Scheme::Utf8, ..pipe };
            let (got, input) = match pipe.way {
                Way::To => (sample.table.to_text(&input, settings).map(String::into_bytes), input),
                Way::From => {
                    let text = String::from_utf8_lossy(&input).into_owned();
                    (sample.table.from_text(&text, settings), text.into_bytes())
                }
            };
            is_told(got, sample.told(pipe, &input))?;
        }
    }
    Ok(())
}

/// One text through one value, cut by chance, with spaces from four on.
fn pieces() -> Result<(), String> {
    for mut sample in samples(3) {
        for _ in 0..8 {
            let (pipe, input) = sample.input();
            let (answer, output) = sample.told(pipe, &input);
            let settings = settings_of(pipe.scheme, pipe.settings);
            let mut pieces = match pipe.way {
                Way::To => Pieces::to_unicode(&sample.table, settings),
                Way::From => Pieces::from_unicode(&sample.table, settings),
            };
            let (last, place, joined) = through(&mut pieces, &input, &mut sample.rng);
            equal("answer", last, answer.number)?;
            equal("place", place as u64, answer.read)?;
            equal_slices("joined output", &joined, &output)?;
        }
    }
    Ok(())
}

/// The last answer, its place, and the outputs joined.
fn through(pieces: &mut Pieces, input: &[u8], rng: &mut Rng) -> (u32, usize, Vec<u8>) {
    let (mut joined, mut read, mut upto) = (Vec::new(), 0, 0);
    loop {
        let closing = read == input.len() && upto == input.len();
        upto = if upto == read { read + rng.below((input.len() - read).min(9) + 1) } else { upto };
        let mut output = vec![0; rng.range(4, 12)];
        let done = if closing { pieces.close(&mut output) } else { pieces.piece(&input[read..upto], &mut output) };
        joined.extend_from_slice(&output[..done.written]);
        read += done.read;
        match done.answer {
            Answer::Full => continue,
            Answer::Ok if !closing => continue,
            answer => return (answer.number(), read - pieces.kept_bytes(), joined),
        }
    }
}

fn findings() -> Result<(), String> {
    for sample in samples(4) {
        for fallback in [false, true] {
            let mut space = vec![0; MOST_FINDINGS];
            let audited = oracle::audit(&sample.meaning, fallback, 0, 0, u64::MAX, &mut space);
            space.truncate(audited.entries as usize);
            let found: Vec<Finding> = sample.table.findings(fallback).take(MOST_FINDINGS).collect();
            let number = |f: &Finding| oracle::entry_number(f.code.as_slice(), f.cause.number().into());
            equal_slices("findings", &found.iter().map(number).collect::<Vec<u64>>(), &space)?;
            let told = |f: &Finding| oracle::cause(&sample.meaning, &sample.lines, f.code.as_slice(), fallback);
            equal("causes", found.iter().all(|f| told(f) == Some(f.cause.number().into())), true)?;
        }
    }
    Ok(())
}

fn entries() -> Result<(), String> {
    let entry = |bits: u64, length: u64, cause: u64| bits + (length << 32) + (cause << 40);
    for (length, cause) in (0..6).flat_map(|length| (0..7).map(move |cause| (length, cause))) {
        let got = Finding::from_entry(entry(0x817d_0000, length, cause));
        equal("is a finding", got.is_some(), (1..=4).contains(&length) && (1..=4).contains(&cause))?;
    }
    equal("bits on top", Finding::from_entry(entry(0, 1, 1) + (1 << 48)), None)?;
    let finding = Finding::from_entry(entry(0x817d_0000, 2, 3)).ok_or("no finding")?;
    equal("bytes and cause", (finding.code.as_slice(), finding.cause), (&[0x81, 0x7d], Cause::OtherCode))?;
    equal("shown", finding.code.to_string(), "817D".into())
}

fn bytes() -> Result<(), String> {
    for sample in samples(5) {
        let bytes = sample.table.to_bytes();
        let (record, memory) = oracle::form(&sample.meaning);
        equal_slices("bytes", &bytes, &bytes_of(&record, &memory))?;
        equal("the table again", Table::from_bytes(&bytes).as_ref(), Ok(&sample.table))?;
        equal("a copy of it", &sample.table.clone(), &sample.table)?;
        equal("its test", sample.table.check(), Ok(()))?;
    }
    Ok(())
}

/// A number changed, with the oracle's answer to what the bytes then hold.
fn damaged_bytes() -> Result<(), String> {
    let mut refused = 0;
    for Sample { mut rng, table, .. } in samples(6) {
        for _ in 0..4 {
            let mut bytes = table.to_bytes();
            // The record, rows and lines in front, or anything.
            let most = *rng.pick(&[28, 28 + 1024, bytes.len()]);
            let at = rng.below(most);
            bytes[at] = bytes[at].wrapping_add(*rng.pick(&[1, 255, 128]));
            let (record, memory) = form_of(&bytes);
            let got = Table::from_bytes(&bytes).map_or_else(Answer::number, |_| 0);
            equal(&format!("byte {at} changed"), got, Oracle.check(&record, &memory))?;
            refused += (got == 60) as u32;
        }
    }
    equal("some are refused", refused > 0, true)
}

fn other_lengths() -> Result<(), String> {
    let bytes = k().to_bytes();
    for n in [0, 1, 28, bytes.len() - 1] {
        equal("fewer", Table::from_bytes(&bytes[..n]), Err(Answer::BadTable))?;
    }
    equal("one more", Table::from_bytes(&[&bytes[..], &[0]].concat()), Err(Answer::BadTable))?;
    equal("as many, all zeros", Table::from_bytes(&vec![0; bytes.len()]), Err(Answer::BadTable))
}

fn k() -> Table {
    Table::load(K.as_bytes()).expect("K is accepted")
}

/// FNV-1a of the bytes, as tests/c has it of the struct.
fn bytes_of_k() -> Result<(), String> {
    let bytes = k().to_bytes();
    let hash = |hash: u64, &byte: &u8| (hash ^ u64::from(byte)).wrapping_mul(0x100_0000_01b3);
    equal("length", bytes.len(), 32_796)?;
    equal("hash", bytes.iter().fold(0xcbf2_9ce4_8422_2325, hash), 0x6d9b_b06c_9f0c_2a7c)
}

fn rooms() -> Result<(), String> {
    for (n, wanted) in [(0, 4), (1, 8), (3, 16), (1 << 20, (4 << 20) + 4), (usize::MAX / 4, usize::MAX)] {
        equal(&format!("room of {n}"), room(n), wanted)?;
    }
    equal("the last that is exact", room((usize::MAX - 4) / 4), usize::MAX - 3)
}

fn answers() -> Result<(), String> {
    for number in 0..200 {
        let named = Answer::ALL.iter().copied().find(|answer| answer.number() == number);
        equal("answer", Answer::from_number(number), named)?;
    }
    let rising = Answer::ALL.windows(2).all(|pair| pair[0].number() < pair[1].number());
    equal("all, by rising number", (Answer::ALL.len(), rising), (28, true))?;
    equal("a number that no call gives", Answer::from_number(u32::MAX), None)
}

fn shown() -> Result<(), String> {
    let refused = Table::load(&k_void()).expect_err("28");
    equal("refused", refused, Refused { answer: Answer::NotReadBack, line: 15 })?;
    equal("shown", refused.to_string(), format!("line 15: {}", Answer::NotReadBack.message()))?;
    let long = Table::load(&vec![b'#'; oboepond::TEXT + 1]).expect_err("2");
    equal("shown without a line", long.to_string(), Answer::TextTooLong.message().into())?;
    let stopped = k().to_text(b"3\xff", oboepond::Settings::default()).expect_err("52");
    equal("shown", stopped.to_string(), format!("at byte 1: {}", Answer::Illegal.message()))?;
    equal("a table", format!("{:?}", k()), "Table { rows: 2, mappings: 6, .. }".into())
}
