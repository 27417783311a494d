//! Reading in pieces, by hand: the readings S9 to S14 with every value worked
//! out, and every kept state of up to three bytes against the plain rules of K.
//! OBOEPOND_ALL_KEPT=1 tries all of three bytes, else some are left out.

use crate::bursts::{Caller, Plan};
use crate::cases::{equal, equal_slices, hex, illegal, junk, mbcs, old_bytes, skipping, Case, End};
use crate::cases::{BE, FALL, K, LE, PLAIN, STRICT, SUBST};
use crate::gen::Rng;
use crate::oracle::{code_of, Kept, Memory, Pipe, Piped, Record, Scheme, Settings, Way, FRESH};
use crate::random::Reached;
use crate::subject::Subject;

const UTF8: Scheme = Scheme::Utf8;
const SKIP: Settings = skipping(STRICT);
const SKIP_SUBST: Settings = skipping(SUBST);

fn to(scheme: Scheme, settings: Settings) -> Pipe {
    Pipe { way: Way::To, scheme, settings }
}

fn from(scheme: Scheme, settings: Settings) -> Pipe {
    Pipe { way: Way::From, scheme, settings }
}

/// A call and what it must do. No piece is the closing call.
struct Call {
    piece: Option<Vec<u8>>,
    space: usize,
    answer: Piped,
    out: Vec<u8>,
    kept: Kept,
}

fn feed(piece: &str, space: usize, end: impl Into<End>, read: u64, out: &str, kept: Kept) -> Call {
    let (End { number, length }, out) = (end.into(), hex(out));
    let answer = Piped { number, read, written: out.len() as u64, length };
    Call { piece: Some(hex(piece)), space, answer, out, kept }
}

fn close(space: usize, end: impl Into<End>, out: &str, kept: Kept) -> Call {
    Call { piece: None, ..feed("", space, end, 0, out, kept) }
}

/// These bytes are kept, and nothing else.
fn kept(bytes: &str) -> Kept {
    let bytes = hex(bytes);
    let bits = bytes.iter().enumerate().map(|(i, &b)| (b as u32) << (24 - 8 * i)).sum();
    [bits, bytes.len() as u32, 0, 0, 0]
}

/// The mark is behind, and the text is big-endian.
fn big(kept: Kept) -> Kept {
    [kept[0], kept[1], 1, kept[3], kept[4]]
}

fn little(kept: Kept) -> Kept {
    [kept[0], kept[1], 2, kept[3], kept[4]]
}

/// An answer stands.
fn stands(end: impl Into<End>, kept: Kept) -> Kept {
    let End { number, length } = end.into();
    [kept[0], kept[1], kept[2], number, length as u32]
}

fn loaded(s: &dyn Subject, text: &[u8]) -> Result<(Record, Memory), String> {
    let mut memory = junk(0);
    let loaded = s.load(text, &mut memory);
    equal("the table is accepted", loaded.number, 0)?;
    Ok((loaded.record, memory))
}

/// The calls one after the other, each from what the one before left.
fn calls(s: &dyn Subject, text: &[u8], pipe: Pipe, start: Kept, calls: &[Call]) -> Result<(), String> {
    let (record, memory) = loaded(s, text)?;
    let mut kept = start;
    for (i, call) in calls.iter().enumerate() {
        let what = format!("call {}", i + 1);
        let mut output = old_bytes(call.space);
        let got = s.piece(&record, &memory, pipe, &mut kept, call.piece.as_deref(), &mut output);
        equal(&format!("{what}, answer"), got, call.answer)?;
        let mut want = old_bytes(call.space);
        want[..call.out.len()].copy_from_slice(&call.out);
        equal_slices(&format!("{what}, output"), &output, &want)?;
        equal(&format!("{what}, kept"), kept, call.kept)?;
    }
    Ok(())
}

#[derive(Default)]
struct List {
    cases: Vec<Case>,
}

impl List {
    fn add(&mut self, name: String, run: impl Fn(&dyn Subject) -> Result<(), String> + 'static) {
        self.cases.push(Case { name: format!("in pieces, {name}"), run: Box::new(run) });
    }

    /// From some state on, over a table.
    fn over(&mut self, name: &str, text: impl AsRef<[u8]>, pipe: Pipe, start: Kept, list: Vec<Call>) {
        let text = text.as_ref().to_vec();
        let way = if pipe.way == Way::To { "to" } else { "from" };
        let skip = if pipe.settings.skip { ", skipping" } else { "" };
        let name = format!("{way} {}{skip}, {name}", pipe.scheme.name());
        self.add(name, move |s| calls(s, &text, pipe, start, &list));
    }

    /// From a fresh start on, over K.
    fn k(&mut self, name: &str, pipe: Pipe, list: Vec<Call>) {
        self.over(name, K, pipe, FRESH, list);
    }

    /// No call hands this back: a piece and a close are 42, and nothing changes.
    fn refused(&mut self, name: &str, text: impl AsRef<[u8]>, pipe: Pipe, start: Kept) {
        let list = vec![
            feed("33", 9, 42, 0, "", start),
            feed("", 0, 42, 0, "", start),
            close(9, 42, "", start),
            close(0, 42, "", start),
        ];
        self.over(&format!("{name}: 42"), text, pipe, start, list);
    }
}

pub fn cases() -> Vec<Case> {
    let mut l = List::default();
    order(&mut l);
    to_utf8(&mut l);
    to_utf32(&mut l);
    deep(&mut l);
    from_utf8(&mut l);
    trails(&mut l);
    from_utf32(&mut l);
    marks(&mut l);
    closing(&mut l);
    refusals(&mut l);
    every_cut(&mut l);
    every_kept(&mut l);
    l.cases
}

/// S9: 60, 42, the standing answer, the mark, the bytes.
fn order(l: &mut List) {
    l.add("60 goes before 42 and a standing answer, and changes nothing".into(), |s| {
        let (record, memory) = loaded(s, K.as_bytes())?;
        let ways = [Way::To, Way::From].into_iter().flat_map(|way| Scheme::ALL.map(|scheme| (way, scheme)));
        let states = [FRESH, [9; 5], stands(53, FRESH), stands(51, kept("81")), big(FRESH), kept("E288")];
        for ((way, scheme), state) in ways.flat_map(|way| states.map(|state| (way, state))) {
            for (record, memory) in [([0; 7], &memory), (record, &Memory::default())] {
                for (piece, space) in [(Some(&b"33"[..]), 9), (Some(b""), 0), (None, 9), (None, 0)] {
                    let pipe = Pipe { way, scheme, settings: STRICT };
                    let (mut kept, mut output) = (state, old_bytes(space));
                    let got = s.piece(&record, memory, pipe, &mut kept, piece, &mut output);
                    equal("answer", got, Piped { number: 60, read: 0, written: 0, length: 0 })?;
                    equal("kept", kept, state)?;
                    equal_slices("output", &output, &old_bytes(space))?;
                }
            }
        }
        Ok(())
    });
    // 42 before an answer that stands: 51 without bytes is no state.
    l.refused("51 stands without bytes", K, to(UTF8, STRICT), stands(51, FRESH));
    // What stands goes before the bytes, and before the settings are asked.
    for set in [STRICT, SUBST, SKIP, SKIP_SUBST] {
        for (end, state) in [
            (illegal(1), stands(illegal(1), FRESH)),
            (illegal(4), stands(illegal(4), FRESH)),
            (illegal(2), stands(illegal(2), kept("81"))),
            (53.into(), stands(53, FRESH)),
            (53.into(), stands(53, kept("81"))),
            (51.into(), stands(51, kept("81"))),
        ] {
            for scheme in Scheme::ALL {
                let state = if scheme == PLAIN { big(state) } else { state };
                let list = vec![
                    feed("33", 9, end, 0, "", state),
                    feed("", 0, end, 0, "", state),
                    close(9, end, "", state),
                    feed("FF", 9, end, 0, "", state),
                    close(0, end, "", state),
                ];
                l.over(&format!("{} stands, {set:?}", end.number), K, to(scheme, set), state, list);
            }
        }
    }
    // The mark goes before the bytes.
    let illegal_behind = big(stands(illegal(1), FRESH));
    l.k(
        "the mark before an illegal byte",
        to(PLAIN, STRICT),
        vec![
            feed("FF", 3, 50, 0, "", FRESH),
            feed("FF", 4, illegal(1), 0, "0000FEFF", illegal_behind),
            feed("33", 9, illegal(1), 0, "", illegal_behind),
        ],
    );
    l.k(
        "the mark before an unassigned code",
        to(PLAIN, STRICT),
        vec![feed("3F", 0, 50, 0, "", FRESH), feed("3F", 4, 53, 0, "0000FEFF", big(stands(53, FRESH)))],
    );
}

/// S10: where reading stops, and what stays kept.
fn to_utf8(l: &mut List) {
    let strict = to(UTF8, STRICT);
    l.k(
        "81, 7C 33",
        strict,
        vec![feed("81", 9, 0, 1, "", kept("81")), feed("7C33", 9, 0, 2, "E28892 33", FRESH), close(0, 0, "", FRESH)],
    );
    l.k(
        "empty pieces",
        strict,
        vec![
            feed("", 9, 0, 0, "", FRESH),
            feed("81", 0, 0, 1, "", kept("81")),
            feed("", 9, 0, 0, "", kept("81")),
            feed("", 0, 0, 0, "", kept("81")),
            feed("7C", 3, 0, 1, "E28892", FRESH),
            feed("", 0, 0, 0, "", FRESH),
            close(0, 0, "", FRESH),
        ],
    );
    l.k(
        "33 81 in one piece, then 7D",
        strict,
        vec![feed("3381", 9, 0, 2, "33", kept("81")), feed("7D", 9, 0, 1, "E28892", FRESH)],
    );
    l.k(
        "50 at a code that began earlier",
        strict,
        vec![
            feed("81", 9, 0, 1, "", kept("81")),
            feed("7C33", 2, 50, 0, "", kept("81")),
            feed("7C33", 0, 50, 0, "", kept("81")),
            feed("7C33", 3, 50, 1, "E28892", FRESH),
            feed("33", 0, 50, 0, "", FRESH),
            feed("33", 1, 0, 1, "33", FRESH),
        ],
    );
    l.k(
        "50, and then another way to go on",
        strict,
        vec![
            feed("81", 9, 0, 1, "", kept("81")),
            feed("7C33", 2, 50, 0, "", kept("81")),
            feed("", 9, 0, 0, "", kept("81")),
            feed("7C", 9, 0, 1, "E28892", FRESH),
        ],
    );
    l.k(
        "50 in a piece leaves nothing kept",
        strict,
        vec![
            feed("33817C", 3, 50, 1, "33", FRESH),
            feed("81", 0, 0, 1, "", kept("81")),
            feed("7C", 3, 0, 1, "E28892", FRESH),
        ],
    );
    for (piece, length) in [("2D33", 1), ("FF", 2), ("81", 1), ("00", 2), ("3F", 1)] {
        let state = stands(illegal(length), kept("81"));
        l.k(
            &format!("52 at a code that began earlier, {piece}"),
            strict,
            vec![
                feed("3381", 9, 0, 2, "33", kept("81")),
                feed(piece, 9, illegal(length), 0, "", state),
                feed(piece, 9, illegal(length), 0, "", state),
                feed("", 0, illegal(length), 0, "", state),
                close(9, illegal(length), "", state),
                feed("33", 9, illegal(length), 0, "", state),
            ],
        );
    }
    let state = stands(illegal(1), FRESH);
    l.k(
        "52 inside a piece",
        strict,
        vec![
            feed("33812D", 9, illegal(1), 1, "33", state),
            feed("2D", 9, illegal(1), 0, "", state),
            close(0, illegal(1), "", state),
        ],
    );
    l.k(
        "52 behind a code that began earlier",
        strict,
        vec![
            feed("81", 9, 0, 1, "", kept("81")),
            feed("7C3381FF33", 9, illegal(2), 2, "E28892 33", stands(illegal(2), FRESH)),
        ],
    );
    l.k(
        "53 at a code that began earlier",
        strict,
        vec![
            feed("81", 9, 0, 1, "", kept("81")),
            feed("8033", 0, 53, 0, "", stands(53, kept("81"))),
            feed("7C", 9, 53, 0, "", stands(53, kept("81"))),
            close(9, 53, "", stands(53, kept("81"))),
        ],
    );
    l.k(
        "53 inside a piece",
        strict,
        vec![feed("333F33", 9, 53, 1, "33", stands(53, FRESH)), close(9, 53, "", stands(53, FRESH))],
    );
    l.k(
        "substituted",
        to(UTF8, SUBST),
        vec![
            feed("81", 9, 0, 1, "", kept("81")),
            feed("803F", 3, 50, 1, "EFBFBD", FRESH),
            feed("3F", 3, 0, 1, "EFBFBD", FRESH),
        ],
    );
    let skip = to(UTF8, SKIP);
    l.k("81, 2D 33", skip, vec![feed("81", 9, 0, 1, "", kept("81")), feed("2D33", 9, 0, 2, "EFBFBD 2D 33", FRESH)]);
    l.k(
        "81, 2D 33, space by space",
        skip,
        vec![
            feed("81", 9, 0, 1, "", kept("81")),
            feed("2D33", 2, 50, 0, "", kept("81")),
            feed("2D33", 3, 50, 0, "EFBFBD", FRESH),
            feed("2D33", 1, 50, 1, "2D", FRESH),
            feed("33", 1, 0, 1, "33", FRESH),
        ],
    );
    l.k(
        "81, FF 33",
        skip,
        vec![
            feed("81", 9, 0, 1, "", kept("81")),
            feed("FF33", 3, 50, 1, "EFBFBD", FRESH),
            feed("33", 1, 0, 1, "33", FRESH),
        ],
    );
    l.k(
        "81, 81, 7C",
        skip,
        vec![
            feed("81", 9, 0, 1, "", kept("81")),
            feed("81", 2, 50, 0, "", kept("81")),
            feed("81", 3, 0, 1, "EFBFBD", kept("81")),
            feed("7C", 3, 0, 1, "E28892", FRESH),
            close(0, 0, "", FRESH),
        ],
    );
    l.k(
        "81, 80: strict all the same",
        skip,
        vec![feed("FF81", 3, 0, 2, "EFBFBD", kept("81")), feed("80", 9, 53, 0, "", stands(53, kept("81")))],
    );
}

fn to_utf32(l: &mut List) {
    for (scheme, minus, three) in [(BE, "00002212", "00000033"), (LE, "12220000", "33000000")] {
        l.k(
            "81, 7C 33",
            to(scheme, STRICT),
            vec![
                close(0, 0, "", FRESH),
                feed("", 0, 0, 0, "", FRESH),
                feed("81", 0, 0, 1, "", kept("81")),
                feed("7C33", 3, 50, 0, "", kept("81")),
                feed("7C33", 7, 50, 1, minus, FRESH),
                feed("33", 4, 0, 1, three, FRESH),
                close(0, 0, "", FRESH),
            ],
        );
    }
    l.k(
        "the mark with an empty piece",
        to(PLAIN, STRICT),
        vec![
            feed("", 3, 50, 0, "", FRESH),
            feed("", 0, 50, 0, "", FRESH),
            feed("", 4, 0, 0, "0000FEFF", big(FRESH)),
            feed("", 0, 0, 0, "", big(FRESH)),
            feed("33", 4, 0, 1, "00000033", big(FRESH)),
            close(0, 0, "", FRESH),
        ],
    );
    l.k(
        "the mark, then 50",
        to(PLAIN, STRICT),
        vec![
            feed("33", 7, 50, 0, "0000FEFF", big(FRESH)),
            feed("33", 3, 50, 0, "", big(FRESH)),
            feed("33", 4, 0, 1, "00000033", big(FRESH)),
        ],
    );
    l.k(
        "81, 7C 33",
        to(PLAIN, STRICT),
        vec![
            feed("81", 3, 50, 0, "", FRESH),
            feed("81", 4, 0, 1, "0000FEFF", big(kept("81"))),
            feed("7C33", 3, 50, 0, "", big(kept("81"))),
            feed("7C33", 4, 50, 1, "00002212", big(FRESH)),
            feed("33", 4, 0, 1, "00000033", big(FRESH)),
            close(0, 0, "", FRESH),
            feed("33", 8, 0, 1, "0000FEFF 00000033", big(FRESH)),
        ],
    );
    l.k(
        "81, FF",
        to(PLAIN, SKIP),
        vec![
            feed("81", 4, 0, 1, "0000FEFF", big(kept("81"))),
            feed("FF", 4, 0, 1, "0000FFFD", big(FRESH)),
            feed("FF", 3, 50, 0, "", big(FRESH)),
            close(0, 0, "", FRESH),
        ],
    );
}

/// Codes of up to four bytes, 90 leading on three times.
fn deep_table() -> Vec<u8> {
    let rows = ["41, 90:1", "42, 90:2", "43, 90:3", "44"];
    let lines = ["<U0041> \\x41", "<U0042> \\x90\\x42", "<U0043> \\x90\\x90\\x43", "<U0044> \\x90\\x90\\x90\\x44"];
    mbcs(4, "\\x41", &rows, &lines)
}

fn deep(l: &mut List) {
    let three = || feed("909090", 9, 0, 3, "", kept("909090"));
    l.over(
        "byte by byte",
        deep_table(),
        to(UTF8, STRICT),
        FRESH,
        vec![
            feed("90", 9, 0, 1, "", kept("90")),
            feed("90", 9, 0, 1, "", kept("9090")),
            feed("90", 9, 0, 1, "", kept("909090")),
            feed("44", 0, 50, 0, "", kept("909090")),
            feed("44", 1, 0, 1, "44", FRESH),
            close(0, 0, "", FRESH),
        ],
    );
    l.over(
        "two bytes, then one",
        deep_table(),
        to(UTF8, STRICT),
        FRESH,
        vec![feed("419090", 9, 0, 3, "41", kept("9090")), feed("4341", 1, 50, 1, "43", FRESH)],
    );
    for (piece, length) in [("41", 3), ("90", 3), ("42", 4), ("FF44", 4)] {
        let state = stands(illegal(length), kept("909090"));
        l.over(
            &format!("90 90 90, {piece}"),
            deep_table(),
            to(UTF8, STRICT),
            FRESH,
            vec![three(), feed(piece, 9, illegal(length), 0, "", state), close(9, illegal(length), "", state)],
        );
    }
    l.over(
        "90 90 90, 41 41",
        deep_table(),
        to(UTF8, SKIP),
        FRESH,
        vec![
            three(),
            feed("4141", 2, 50, 0, "", kept("909090")),
            feed("4141", 3, 50, 0, "EFBFBD", FRESH),
            feed("4141", 2, 0, 2, "4141", FRESH),
        ],
    );
    l.over(
        "90 90 90, 42 41",
        deep_table(),
        to(UTF8, SKIP),
        FRESH,
        vec![three(), feed("4241", 3, 50, 1, "EFBFBD", FRESH), feed("41", 1, 0, 1, "41", FRESH)],
    );
    l.over(
        "90 90 90, 90",
        deep_table(),
        to(UTF8, SKIP),
        FRESH,
        vec![three(), feed("90", 9, 0, 1, "EFBFBD", kept("90")), close(9, 51, "", stands(51, kept("90")))],
    );
    for bytes in ["41", "9041", "9042", "90FF", "909041", "FF", "00", "900000", "90909044"] {
        l.refused(bytes, deep_table(), to(UTF8, SKIP), kept(bytes));
    }
    l.refused("four bytes", deep_table(), to(UTF8, STRICT), [0x9090_9090, 4, 0, 0, 0]);
    for length in [0, 1, 5, 256, 1 << 31] {
        let state = [0x9090_0000, 2, 0, 52, length];
        l.refused(&format!("52 of length {length} with two bytes kept"), deep_table(), to(UTF8, STRICT), state);
    }
    for length in 2..=4 {
        let (end, state) = (illegal(length), stands(illegal(length), kept("9090")));
        let list = vec![feed("43", 9, end, 0, "", state), close(9, end, "", state)];
        l.over(&format!("52 of length {length} stands"), deep_table(), to(UTF8, STRICT), state, list);
    }
}

fn from_utf8(l: &mut List) {
    let strict = from(UTF8, STRICT);
    l.k(
        "E2, 88, 92 33",
        strict,
        vec![
            feed("E2", 9, 0, 1, "", kept("E2")),
            feed("88", 9, 0, 1, "", kept("E288")),
            feed("", 0, 0, 0, "", kept("E288")),
            feed("9233", 1, 50, 0, "", kept("E288")),
            feed("9233", 2, 50, 1, "817C", FRESH),
            feed("33", 1, 0, 1, "33", FRESH),
            close(0, 0, "", FRESH),
        ],
    );
    l.k("33 E2, 88 92", strict, vec![feed("33E2", 9, 0, 2, "33", kept("E2")), feed("8892", 9, 0, 2, "817C", FRESH)]);
    l.k(
        "E2 88, 33",
        strict,
        vec![
            feed("33E288", 9, 0, 3, "33", kept("E288")),
            feed("33", 9, illegal(1), 0, "", stands(illegal(1), kept("E288"))),
            feed("92", 9, illegal(1), 0, "", stands(illegal(1), kept("E288"))),
            close(9, illegal(1), "", stands(illegal(1), kept("E288"))),
        ],
    );
    l.k(
        "ED, A0",
        strict,
        vec![feed("ED", 9, 0, 1, "", kept("ED")), feed("A080", 9, illegal(1), 0, "", stands(illegal(1), kept("ED")))],
    );
    l.k(
        "C0 inside a piece",
        strict,
        vec![
            feed("E2", 9, 0, 1, "", kept("E2")),
            feed("889233C0AD", 9, illegal(1), 3, "817C 33", stands(illegal(1), FRESH)),
        ],
    );
    l.k(
        "C3, A9",
        strict,
        vec![
            feed("C3", 9, 0, 1, "", kept("C3")),
            feed("A933", 9, 53, 0, "", stands(53, kept("C3"))),
            close(9, 53, "", stands(53, kept("C3"))),
        ],
    );
    l.k(
        "F0 9F 98, 80",
        strict,
        vec![feed("F09F98", 9, 0, 3, "", kept("F09F98")), feed("80", 9, 53, 0, "", stands(53, kept("F09F98")))],
    );
    l.k(
        "F0 9F 98, 80, substituted",
        from(UTF8, SUBST),
        vec![
            feed("F09F98", 9, 0, 3, "", kept("F09F98")),
            feed("8033", 0, 50, 0, "", kept("F09F98")),
            feed("8033", 1, 50, 1, "3F", FRESH),
        ],
    );
    l.k("41 inside a piece", strict, vec![feed("3341", 9, 53, 1, "33", stands(53, FRESH))]);
    l.k(
        "EF BC, 8D, strict",
        strict,
        vec![feed("EFBC", 9, 0, 2, "", kept("EFBC")), feed("8D", 9, 53, 0, "", stands(53, kept("EFBC")))],
    );
    l.k(
        "EF BC, 8D, fallback",
        from(UTF8, FALL),
        vec![feed("EFBC", 9, 0, 2, "", kept("EFBC")), feed("8D", 9, 0, 1, "817C", FRESH)],
    );
}

/// S11: trail bytes are kept after a 50 while skipping UTF-8, and skipped first.
fn trails(l: &mut List) {
    let skip = from(UTF8, SKIP);
    l.k(
        "E2 88, 33",
        skip,
        vec![
            feed("E288", 9, 0, 2, "", kept("E288")),
            feed("33", 0, 50, 0, "", kept("E288")),
            feed("33", 1, 50, 0, "3F", kept("88")),
            feed("33", 0, 50, 0, "", kept("88")),
            feed("33", 1, 50, 0, "3F", FRESH),
            feed("33", 1, 0, 1, "33", FRESH),
        ],
    );
    l.k(
        "E2 88, 33, then empty pieces",
        skip,
        vec![
            feed("E288", 9, 0, 2, "", kept("E288")),
            feed("33", 1, 50, 0, "3F", kept("88")),
            feed("", 0, 50, 0, "", kept("88")),
            feed("", 1, 0, 0, "3F", FRESH),
            feed("33", 1, 0, 1, "33", FRESH),
            close(0, 0, "", FRESH),
        ],
    );
    l.k(
        "F0 90 80, 33",
        skip,
        vec![
            feed("F09080", 9, 0, 3, "", kept("F09080")),
            feed("33", 1, 50, 0, "3F", kept("9080")),
            feed("", 0, 50, 0, "", kept("9080")),
            feed("", 1, 50, 0, "3F", kept("80")),
            feed("33", 2, 0, 1, "3F33", FRESH),
        ],
    );
    l.k(
        "F0 90 80, 33, two at a time",
        skip,
        vec![
            feed("F09080", 9, 0, 3, "", kept("F09080")),
            feed("33", 2, 50, 0, "3F3F", kept("80")),
            feed("33", 9, 0, 1, "3F33", FRESH),
        ],
    );
    l.k(
        "F0 90 80, 33, all at once",
        skip,
        vec![feed("F09080", 9, 0, 3, "", kept("F09080")), feed("33", 4, 0, 1, "3F3F3F33", FRESH)],
    );
    l.k(
        "trail bytes, then a character that is cut",
        skip,
        vec![
            feed("E288", 9, 0, 2, "", kept("E288")),
            feed("E288", 1, 50, 0, "3F", kept("88")),
            feed("E288", 1, 0, 2, "3F", kept("E288")),
            feed("92", 2, 0, 1, "817C", FRESH),
        ],
    );
    l.k(
        "trail bytes, then another",
        skip,
        vec![
            feed("E288", 9, 0, 2, "", kept("E288")),
            feed("FF", 1, 50, 0, "3F", kept("88")),
            feed("92", 9, 0, 1, "3F3F", FRESH),
        ],
    );
    // A trail byte of the piece itself is not kept.
    l.k(
        "E2, 88 33",
        skip,
        vec![
            feed("E2", 9, 0, 1, "", kept("E2")),
            feed("8833", 1, 50, 0, "3F", FRESH),
            feed("8833", 1, 50, 1, "3F", FRESH),
            feed("33", 1, 0, 1, "33", FRESH),
        ],
    );
    l.k(
        "a close while they are kept",
        skip,
        vec![
            feed("E288", 9, 0, 2, "", kept("E288")),
            feed("33", 1, 50, 0, "3F", kept("88")),
            close(9, 51, "", stands(51, kept("88"))),
            feed("", 9, 51, 0, "", stands(51, kept("88"))),
            feed("33", 9, 51, 0, "", stands(51, kept("88"))),
            close(0, 51, "", stands(51, kept("88"))),
        ],
    );
    l.k("33 ED, A0 80", skip, vec![feed("33ED", 9, 0, 2, "33", kept("ED")), feed("A080", 9, 0, 2, "3F3F3F", FRESH)]);
    l.k(
        "53 behind skipped bytes",
        skip,
        vec![feed("E288", 9, 0, 2, "", kept("E288")), feed("41", 9, 53, 0, "3F3F", stands(53, FRESH))],
    );
    for bytes in ["80", "88", "BF", "8080", "BFBF"] {
        l.refused(&format!("trail bytes {bytes} with skipping off"), K, from(UTF8, STRICT), kept(bytes));
        l.refused(&format!("trail bytes {bytes} substituting"), K, from(UTF8, SUBST), kept(bytes));
        l.refused(&format!("trail bytes {bytes} towards Unicode"), K, to(UTF8, SKIP), kept(bytes));
    }
    for bytes in ["808080", "BFBFBF", "7F", "C0", "FF", "887F", "88C0", "C288"] {
        l.refused(bytes, K, skip, kept(bytes));
    }
}

fn from_utf32(l: &mut List) {
    l.k(
        "00, 00 22, 12 00 00 00 33",
        from(BE, STRICT),
        vec![
            feed("00", 9, 0, 1, "", kept("00")),
            feed("0022", 9, 0, 2, "", kept("000022")),
            feed("1200000033", 1, 50, 0, "", kept("000022")),
            feed("1200000033", 2, 50, 1, "817C", FRESH),
            feed("00000033", 1, 0, 4, "33", FRESH),
            close(0, 0, "", FRESH),
        ],
    );
    l.k(
        "12 22, 00 00 33, 00 00 00",
        from(LE, STRICT),
        vec![
            feed("1222", 9, 0, 2, "", kept("1222")),
            feed("000033", 9, 0, 3, "817C", kept("33")),
            feed("000000", 9, 0, 3, "33", FRESH),
        ],
    );
    // An initial FEFF is text.
    l.k(
        "00 00 FE, FF",
        from(BE, STRICT),
        vec![feed("0000FE", 9, 0, 3, "", kept("0000FE")), feed("FF", 9, 53, 0, "", stands(53, kept("0000FE")))],
    );
    for (scheme, front, last) in
        [(BE, "0000D8", "00"), (LE, "00D800", "00"), (BE, "001100", "00"), (LE, "FFFFFF", "FF")]
    {
        l.k(
            &format!("{front}, {last}"),
            from(scheme, STRICT),
            vec![
                feed(front, 9, 0, 3, "", kept(front)),
                feed(last, 9, illegal(4), 0, "", stands(illegal(4), kept(front))),
                feed("00000033", 9, illegal(4), 0, "", stands(illegal(4), kept(front))),
                close(9, illegal(4), "", stands(illegal(4), kept(front))),
            ],
        );
        l.k(
            &format!("{front}, {last}"),
            from(scheme, SKIP),
            vec![
                feed(front, 9, 0, 3, "", kept(front)),
                feed(last, 0, 50, 0, "", kept(front)),
                feed(last, 1, 0, 1, "3F", FRESH),
            ],
        );
    }
    for bytes in ["FF", "80", "FFFF", "808080", "000000", "D8"] {
        let list = vec![feed("", 0, 0, 0, "", kept(bytes)), close(0, 51, "", stands(51, kept(bytes)))];
        l.over(&format!("any bytes are kept, {bytes}"), K, from(BE, STRICT), kept(bytes), list);
    }
}

/// S14: plain UTF-32 read; the order is chosen when four bytes are there.
fn marks(l: &mut List) {
    let strict = from(PLAIN, STRICT);
    l.k(
        "big-endian",
        strict,
        vec![
            feed("0000FE", 9, 0, 3, "", kept("0000FE")),
            feed("", 0, 0, 0, "", kept("0000FE")),
            feed("FF", 0, 0, 1, "", big(FRESH)),
            feed("000022", 9, 0, 3, "", big(kept("000022"))),
            feed("12", 9, 0, 1, "817C", big(FRESH)),
            close(0, 0, "", FRESH),
        ],
    );
    l.k(
        "little-endian",
        strict,
        vec![
            feed("FF", 9, 0, 1, "", kept("FF")),
            feed("FE", 9, 0, 1, "", kept("FFFE")),
            feed("000012", 9, 0, 3, "", little(kept("12"))),
            feed("220000", 1, 50, 0, "", little(kept("12"))),
            feed("220000", 2, 0, 3, "817C", little(FRESH)),
            feed("33000000", 9, 0, 4, "33", little(FRESH)),
            close(0, 0, "", FRESH),
        ],
    );
    l.k(
        "no mark",
        strict,
        vec![
            feed("0000", 9, 0, 2, "", kept("0000")),
            feed("2212", 9, 0, 2, "817C", big(FRESH)),
            // Behind the first character a mark is text.
            feed("FFFE0000", 9, illegal(4), 0, "", big(stands(illegal(4), FRESH))),
        ],
    );
    l.k(
        "no mark, then FEFF",
        strict,
        vec![
            feed("0000003300", 9, 0, 5, "33", big(kept("00"))),
            feed("00FEFF", 9, 53, 0, "", big(stands(53, kept("00")))),
        ],
    );
    l.k(
        "a second mark is text",
        strict,
        vec![feed("0000FEFF0000FEFF", 9, 53, 4, "", big(stands(53, FRESH))), close(9, 53, "", big(stands(53, FRESH)))],
    );
    l.k(
        "a second mark is text, little-endian and cut",
        strict,
        vec![
            feed("FFFE0000FFFE00", 9, 0, 7, "", little(kept("FFFE00"))),
            feed("00", 9, 53, 0, "", little(stands(53, kept("FFFE00")))),
        ],
    );
    l.k(
        "a mark of the other order behind one",
        strict,
        vec![
            feed("0000FE", 9, 0, 3, "", kept("0000FE")),
            feed("FFFFFE0000", 9, illegal(4), 1, "", big(stands(illegal(4), FRESH))),
        ],
    );
    // At the first character without a mark nothing is settled by a stop.
    l.k(
        "50 at the first character",
        strict,
        vec![
            feed("00002212", 1, 50, 0, "", FRESH),
            feed("000022", 9, 0, 3, "", kept("000022")),
            feed("12", 0, 50, 0, "", kept("000022")),
            feed("12", 2, 0, 1, "817C", big(FRESH)),
        ],
    );
    l.k("53 at the first character", strict, vec![feed("00000041", 9, 53, 0, "", stands(53, FRESH))]);
    l.k(
        "53 at the first character, cut",
        strict,
        vec![
            feed("000000", 9, 0, 3, "", kept("000000")),
            feed("41", 9, 53, 0, "", stands(53, kept("000000"))),
            close(9, 53, "", stands(53, kept("000000"))),
        ],
    );
    l.k("52 at the first character", strict, vec![feed("0000D800", 9, illegal(4), 0, "", stands(illegal(4), FRESH))]);
    l.k(
        "52 at the first character, cut",
        strict,
        vec![
            feed("0000D8", 9, 0, 3, "", kept("0000D8")),
            feed("00", 9, illegal(4), 0, "", stands(illegal(4), kept("0000D8"))),
        ],
    );
    // Behind a mark it is settled.
    l.k(
        "53 behind the mark",
        strict,
        vec![feed("0000FE", 9, 0, 3, "", kept("0000FE")), feed("FF00000041", 9, 53, 1, "", big(stands(53, FRESH)))],
    );
    l.k("50 behind the mark", strict, vec![feed("FFFE000033000000", 0, 50, 4, "", little(FRESH))]);
    // A character that is skipped or substituted is through.
    l.k(
        "skipped",
        from(PLAIN, SKIP),
        vec![
            feed("0000D8", 9, 0, 3, "", kept("0000D8")),
            feed("00", 0, 50, 0, "", kept("0000D8")),
            feed("00", 1, 0, 1, "3F", big(FRESH)),
            feed("FFFE0000", 9, 0, 4, "3F", big(FRESH)),
        ],
    );
    l.k(
        "substituted",
        from(PLAIN, SUBST),
        vec![feed("00000041", 0, 50, 0, "", FRESH), feed("00000041", 1, 0, 4, "3F", big(FRESH))],
    );
    l.k(
        "the order is chosen anew behind a close",
        strict,
        vec![
            feed("FFFE000033000000", 9, 0, 8, "33", little(FRESH)),
            close(0, 0, "", FRESH),
            feed("00000033", 9, 0, 4, "33", big(FRESH)),
            close(0, 0, "", FRESH),
            close(0, 0, "", FRESH),
        ],
    );
}

/// S12: a close has space; 51 stands; 50 changes nothing; 0 is a fresh start.
fn closing(l: &mut List) {
    l.k(
        "81",
        to(UTF8, STRICT),
        vec![
            feed("3381", 9, 0, 2, "33", kept("81")),
            close(0, 51, "", stands(51, kept("81"))),
            feed("7C", 9, 51, 0, "", stands(51, kept("81"))),
            feed("", 9, 51, 0, "", stands(51, kept("81"))),
            close(9, 51, "", stands(51, kept("81"))),
        ],
    );
    l.k(
        "the mark at the close",
        to(PLAIN, STRICT),
        vec![
            close(0, 50, "", FRESH),
            close(3, 50, "", FRESH),
            close(4, 0, "0000FEFF", FRESH),
            close(9, 0, "0000FEFF", FRESH),
            feed("33", 9, 0, 1, "0000FEFF 00000033", big(FRESH)),
            close(9, 0, "", FRESH),
        ],
    );
    l.k(
        "50 at a piece, then the mark at the close",
        to(PLAIN, STRICT),
        vec![feed("", 3, 50, 0, "", FRESH), close(4, 0, "0000FEFF", FRESH)],
    );
    l.k(
        "81 behind the mark",
        to(PLAIN, STRICT),
        vec![
            feed("81", 9, 0, 1, "0000FEFF", big(kept("81"))),
            close(9, 51, "", big(stands(51, kept("81")))),
            feed("7C", 9, 51, 0, "", big(stands(51, kept("81")))),
        ],
    );
    for (scheme, bytes) in [(UTF8, "E2"), (UTF8, "E288"), (UTF8, "F09080"), (BE, "00"), (LE, "0000"), (PLAIN, "0000FE")]
    {
        l.k(
            bytes,
            from(scheme, SKIP_SUBST),
            vec![
                feed(bytes, 9, 0, bytes.len() as u64 / 2, "", kept(bytes)),
                close(9, 51, "", stands(51, kept(bytes))),
                feed("33", 9, 51, 0, "", stands(51, kept(bytes))),
                close(0, 51, "", stands(51, kept(bytes))),
            ],
        );
    }
    l.k(
        "bytes behind a mark",
        from(PLAIN, STRICT),
        vec![feed("FFFE000033", 9, 0, 5, "", little(kept("33"))), close(9, 51, "", little(stands(51, kept("33"))))],
    );
    for scheme in Scheme::ALL {
        l.k("a fresh start", from(scheme, STRICT), vec![close(0, 0, "", FRESH), close(9, 0, "", FRESH)]);
    }
}

/// S13: what no call hands back.
fn refusals(l: &mut List) {
    for set in [STRICT, SUBST, SKIP, SKIP_SUBST] {
        for bytes in ["2D", "33", "3F", "FF", "00", "7C", "817C", "8181", "812D", "81FF", "818181", "332D30"] {
            l.refused(&format!("{bytes}, {set:?}"), K, to(UTF8, set), kept(bytes));
        }
        for bytes in [
            "33", "7F", "C0", "C1", "F5", "FF", "C280", "E27F", "E2C0", "E080", "E09F", "EDA0", "F08F", "F490",
            "E28892", "F0907F", "F09080C0", "3333",
        ] {
            l.refused(&format!("{bytes}, {set:?}"), K, from(UTF8, set), kept(bytes));
        }
    }
    for (scheme, unit) in [(UTF8, 1), (BE, 4), (LE, 4), (PLAIN, 4)] {
        let (to, from) = (to(scheme, STRICT), from(scheme, STRICT));
        let written = |kept| if scheme == PLAIN { big(kept) } else { kept };
        for pipe in [to, from] {
            l.refused("bits behind the bytes", K, pipe, written([0x8100_0001, 1, 0, 0, 0]));
            l.refused("bits without bytes", K, pipe, written([0x8100_0000, 0, 0, 0, 0]));
            for count in [4, 5, 255, 256, 257, 1 << 16, u32::MAX] {
                l.refused(&format!("{count} bytes"), K, pipe, written([0, count, 0, 0, 0]));
            }
            for mark in [3, 4, 255, 256, 257, u32::MAX] {
                l.refused(&format!("mark {mark}"), K, pipe, [0, 0, mark, 0, 0]);
            }
            for number in [1, 42, 50, 54, 60, 255, 256 + 52, u32::MAX] {
                l.refused(&format!("{number} stands"), K, pipe, written([0, 0, 0, number, 0]));
            }
            for (number, length) in [(0, 1), (51, 1), (53, 1), (0, 4), (52, 0), (52, 5), (52, 256 + unit)] {
                l.refused(&format!("{number} stands, length {length}"), K, pipe, written([0, 0, 0, number, length]));
            }
            l.refused("51 without bytes", K, pipe, written(stands(51, FRESH)));
            if scheme != PLAIN {
                l.refused("a mark behind", K, pipe, big(FRESH));
                l.refused("a mark behind, little-endian", K, pipe, little(FRESH));
            }
        }
        for length in (1..=4).filter(|&length| length != unit) {
            l.refused(&format!("52 of length {length}"), K, from, written([0, 0, 0, 52, length]));
        }
    }
    let plain = to(PLAIN, STRICT);
    l.refused("a little-endian text is never written", K, plain, little(FRESH));
    l.refused("bytes before the mark is written", K, plain, kept("81"));
    l.refused("an answer before the mark is written", K, plain, stands(53, FRESH));
    l.refused("an answer before the mark is written", K, plain, stands(illegal(1), FRESH));
}

/// A frame with everything in it, cut into up to three pieces at every place.
fn every_cut(l: &mut List) {
    let texts: [(&str, Pipe, &[&str]); 8] = [
        ("81 7C around", to(UTF8, SUBST), &["33817C2D8180", "812D33", "3381FF81", "8181817C", "FF3F", "", "81"]),
        ("81 7C around", to(BE, SUBST), &["33817C2D", "812D33", "3381"]),
        ("81 7C around", to(PLAIN, SUBST), &["33817C2D", "812D33", "3381", "", "81"]),
        ("U+2212 around", from(UTF8, SUBST), &["33E288922D", "E28833", "F09F988033", "F09080", "EDA08033", "", "C0AD"]),
        ("U+2212 around", from(BE, SUBST), &["0000221200000033", "0000D80000", "00110000"]),
        ("U+2212 around", from(LE, SUBST), &["1222000033000000", "00D8000000"]),
        (
            "U+2212 around",
            from(PLAIN, SUBST),
            &["0000FEFF00002212", "FFFE000012220000", "00002212FFFE0000", "0000FE", ""],
        ),
        ("strict", from(UTF8, FALL), &["33EFBC8D41", "E288924133"]),
    ];
    for (name, pipe, inputs) in texts {
        for input in inputs {
            for skip in [false, true] {
                let settings = Settings { skip, ..pipe.settings };
                let (pipe, bytes) = (Pipe { settings, ..pipe }, hex(input));
                let name = format!("{name}, {input}, {pipe:?}, every cut");
                l.add(name, move |s| cut_everywhere(s, pipe, &bytes));
            }
        }
    }
}

fn cut_everywhere(s: &dyn Subject, pipe: Pipe, input: &[u8]) -> Result<(), String> {
    let (record, memory) = loaded(s, K.as_bytes())?;
    let mut caller = Caller { s, record: &record, memory: &memory, pipe, compare: true, kept: FRESH };
    let n = input.len();
    let two = (0..=n).map(|a| vec![a]);
    let three = (0..=n).flat_map(|a| (a..=n).map(move |b| vec![a, b]));
    let cuts: Vec<Vec<usize>> = [vec![], (0..=n).collect()].into_iter().chain(two).chain(three).collect();
    for cuts in cuts {
        for spaces in [vec![99], vec![0], vec![1], vec![2, 0], vec![3, 1], vec![4], vec![0, 5, 2]] {
            let plan = Plan { cuts: cuts.clone(), spaces, halves: false };
            let read = caller.text(input, &plan, &mut Reached::default());
            read.map_err(|why| format!("{plan:?}: {why}"))?;
        }
    }
    Ok(())
}

// ---------------------------------------------------------------------------
// Every kept state
// ---------------------------------------------------------------------------

fn is_trail(b: &u8) -> bool {
    (0x80..=0xbf).contains(b)
}

/// As the standard library has it: nothing wrong yet, but more is needed.
fn begins_character(bytes: &[u8]) -> bool {
    std::str::from_utf8(bytes).is_err_and(|e| e.valid_up_to() == 0 && e.error_len().is_none())
}

/// Trail bytes left by a 50 while skipping.
fn left_by_50(pipe: Pipe, bytes: &[u8]) -> bool {
    let skips = pipe.way == Way::From && pipe.scheme == UTF8 && pipe.settings.skip;
    skips && matches!(bytes.len(), 1 | 2) && bytes.iter().all(is_trail)
}

/// Bytes that a call can keep under K.
fn can_be_kept(pipe: Pipe, bytes: &[u8]) -> bool {
    match (pipe.way, pipe.scheme) {
        (_, _) if bytes.is_empty() => true,
        (Way::To, _) => bytes == [0x81],
        (Way::From, Scheme::Utf8) => begins_character(bytes) || left_by_50(pipe, bytes),
        (Way::From, _) => bytes.len() <= 3,
    }
}

/// The bytes of a state that a call can hand back under K; else None.
fn handed_back(pipe: Pipe, [bits, count, mark, standing, length]: Kept) -> Option<Vec<u8>> {
    let bytes = if count <= 3 { code_of(bits, count)? } else { return None };
    let marks: &[u32] = match (pipe.way, pipe.scheme) {
        (Way::To, PLAIN) if count > 0 || standing > 0 => &[1],
        (Way::To, PLAIN) => &[0, 1],
        (Way::From, PLAIN) => &[0, 1, 2],
        _ => &[0],
    };
    let lengths = match (standing, pipe.way, pipe.scheme) {
        (0 | 53, _, _) => 0..=0,
        (51, _, _) if count > 0 => 0..=0,
        (52, Way::To, _) => count.max(1)..=4,
        (52, Way::From, Scheme::Utf8) => 1..=1,
        (52, Way::From, _) => 4..=4,
        _ => return None,
    };
    (can_be_kept(pipe, &bytes) && marks.contains(&mark) && lengths.contains(&length)).then_some(bytes)
}

/// With an empty piece, or at a close, and no space: number, length, and what is
/// kept then.
fn without_space(pipe: Pipe, kept: Kept, closes: bool) -> (u32, u32, Kept) {
    let [bits, count, mark, standing, length] = kept;
    let Some(bytes) = handed_back(pipe, kept) else {
        return (42, 0, kept);
    };
    if standing != 0 {
        (standing, length, kept)
    } else if closes && count > 0 {
        (51, 0, [bits, count, mark, 51, 0])
    } else if pipe.way == Way::To && pipe.scheme == PLAIN && mark == 0 || left_by_50(pipe, &bytes) {
        (50, 0, kept)
    } else {
        (0, 0, if closes { FRESH } else { kept })
    }
}

/// K in a subject's memory.
struct States<'a> {
    s: &'a dyn Subject,
    record: Record,
    memory: Memory,
}

impl States<'_> {
    fn of(s: &dyn Subject) -> Result<States<'_>, String> {
        let (record, memory) = loaded(s, K.as_bytes())?;
        Ok(States { s, record, memory })
    }

    fn tries(&self, pipe: Pipe, state: Kept, piece: Option<&[u8]>) -> Result<(), String> {
        let mut kept = state;
        let got = self.s.piece(&self.record, &self.memory, pipe, &mut kept, piece, &mut []);
        let (number, length, left) = without_space(pipe, state, piece.is_none());
        let want = Piped { number, read: 0, written: 0, length: length as u64 };
        if (got, kept) == (want, left) {
            return Ok(());
        }
        let what = format!("{pipe:?}, kept {state:x?}, {}", if piece.is_none() { "close" } else { "empty piece" });
        equal(&what, (got, kept), (want, left))
    }

    /// The bytes alone, at an empty piece.
    fn tries_bytes(&self, pipe: Pipe, bytes: &[u8]) -> Result<(), String> {
        let bits = bytes.iter().fold(0, |bits, &b| bits << 8 | b as u32) << (32 - 8 * bytes.len() as u32);
        self.tries(pipe, [bits, bytes.len() as u32, 0, 0, 0], Some(b""))
    }
}

/// None, one and two bytes: all of them.
fn up_to_two(s: &dyn Subject, pipe: Pipe) -> Result<(), String> {
    let states = States::of(s)?;
    states.tries(pipe, FRESH, Some(b""))?;
    for a in 0..=255 {
        states.tries_bytes(pipe, &[a])?;
        for b in 0..=255 {
            states.tries_bytes(pipe, &[a, b])?;
        }
    }
    Ok(())
}

/// Around the bounds of UTF-8's bytes, and K's bytes.
const EDGES: [u8; 16] =
    [0x00, 0x2d, 0x7c, 0x7f, 0x80, 0x81, 0x8f, 0x90, 0x9f, 0xa0, 0xbf, 0xc0, 0xc2, 0xe0, 0xf0, 0xff];

/// How many states of three bytes with the same first one are tried.
#[derive(Clone, Copy, PartialEq)]
enum Share {
    All,
    /// Every second byte, the third at an edge.
    Seconds,
    /// Both at an edge.
    Edges,
}

impl Share {
    /// Only what can begin a longer sequence is kept, under K and in UTF-8; of what
    /// else UTF-8 has but single bytes, many are tried.
    fn of(pipe: Pipe, first: u8) -> Share {
        match (pipe.way, first) {
            (Way::To, 0x81) | (Way::From, 0xf0..=0xf4) => Share::All,
            (Way::From, 0x80..=0xbf | 0xc2..=0xef) => Share::Seconds,
            _ => Share::Edges,
        }
    }
}

/// Three bytes, the first given; some by chance besides.
fn three(s: &dyn Subject, pipe: Pipe, first: u8, share: Share) -> Result<(), String> {
    let states = States::of(s)?;
    let every: Vec<u8> = (0..=255).collect();
    let (seconds, thirds) = match share {
        Share::All => (&every[..], &every[..]),
        Share::Seconds => (&every[..], &EDGES[..]),
        Share::Edges => (&EDGES[..], &EDGES[..]),
    };
    for &second in seconds {
        for &third in thirds {
            states.tries_bytes(pipe, &[first, second, third])?;
        }
    }
    let mut rng = Rng::new(first as u64);
    (0..64).try_for_each(|_| states.tries_bytes(pipe, &[first, rng.byte(), rng.byte()]))
}

/// Numbers that are no count, mark, answer or length among such as are.
fn odd_values(s: &dyn Subject, pipe: Pipe) -> Result<(), String> {
    let states = States::of(s)?;
    let bits: [u32; 10] =
        [0, 0x8100_0000, 0x8181_0000, 0xe200_0000, 0xe288_0000, 0xf090_8000, 0xf090_8080, 0x8888_0000, 0x8100_0001, 1];
    for bits in bits {
        for count in [0, 1, 2, 3, 4, 256 + 1] {
            for mark in [0, 1, 2, 3] {
                for standing in [0, 50, 51, 52, 53, 256 + 52] {
                    for length in [0, 1, 2, 3, 4, 5, 256 + 1] {
                        let kept = [bits, count, mark, standing, length];
                        states.tries(pipe, kept, Some(b""))?;
                        states.tries(pipe, kept, None)?;
                    }
                }
            }
        }
    }
    Ok(())
}

fn every_kept(l: &mut List) {
    let all = std::env::var_os("OBOEPOND_ALL_KEPT").is_some();
    for pipe in [to(UTF8, STRICT), from(UTF8, STRICT), from(UTF8, SKIP)] {
        l.add(format!("every state of up to two bytes, {pipe:?}"), move |s| up_to_two(s, pipe));
        for first in 0..=255 {
            let share = if all { Share::All } else { Share::of(pipe, first) };
            let name = format!("states of three bytes from {first:02X} on, {pipe:?}");
            l.add(name, move |s| three(s, pipe, first, share));
        }
    }
    for scheme in Scheme::ALL {
        for set in [STRICT, SKIP] {
            for pipe in [to(scheme, set), from(scheme, set)] {
                l.add(format!("odd values, {pipe:?}"), move |s| odd_values(s, pipe));
            }
        }
    }
}
