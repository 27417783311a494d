//! Random tables and lines: the program against the stand-in. A failing case
//! is made smaller and printed.

use crate::cases::K;
use crate::gen::{self, Rng};
use crate::oracle::{self, Table};
use crate::program::{self, MAX_FRAME, MAX_TABLE};
use crate::program_runs::{gives, Place, Program, Way};
use crate::random::{fewer, show_text, smaller_text};
use std::time::{Duration, Instant};

#[derive(Clone)]
pub struct Input {
    /// `None`: no table.ucm.
    table: Option<Vec<u8>>,
    input: Vec<u8>,
    way: Way,
}

pub fn run(p: &dyn Program, case: &Input) -> Result<(), String> {
    let place = case.table.clone().map_or(Place::Missing, Place::Text);
    let want = program::answer(case.table.as_deref(), &case.input);
    gives(p, &place, &case.input, &case.way, &want)
}

// ---------------------------------------------------------------------------
// Making a case
// ---------------------------------------------------------------------------

pub fn make(rng: &mut Rng) -> Input {
    let table = a_table(rng);
    let meant = table.as_deref().and_then(|text| oracle::meaning_of_text(text).ok());
    let meant = meant.unwrap_or_else(|| oracle::meaning_of_text(K.as_bytes()).expect("K"));
    let input = some_lines(rng, &meant);
    let way = a_way(rng, input.len());
    Input { table, input, way }
}

/// A table file whose codes are not too many to list.
fn a_table(rng: &mut Rng) -> Option<Vec<u8>> {
    loop {
        let table = any_table(rng);
        if table.as_deref().is_none_or(has_few_codes) {
            return table;
        }
    }
}

fn any_table(rng: &mut Rng) -> Option<Vec<u8>> {
    match rng.below(24) {
        0 => None,
        1 | 2 => {
            // Around the longest table.
            let mut text = [&valid_text(rng)[..], b"\n#"].concat();
            let length = MAX_TABLE - 2 + rng.below(5);
            text.resize(length.max(text.len()), b'x');
            Some(text)
        }
        3 | 4 => {
            let number = *rng.pick(&gen::TEXT_NUMBERS);
            Some(gen::text_for(rng, number).0)
        }
        5 | 6 => {
            let text = valid_text(rng);
            Some(gen::mutate(rng, &text))
        }
        7 => Some(gen::near_text(rng)),
        8 => Some(gen::hostile_text(rng)),
        9 => {
            let made = gen::full_table(rng, 400);
            Some(gen::text_of(rng, &made))
        }
        _ => Some(valid_text(rng)),
    }
}

fn valid_text(rng: &mut Rng) -> Vec<u8> {
    let lines = *rng.pick(&[4, 16, 60]);
    let made = gen::random_table(rng, lines);
    gen::text_of(rng, &made)
}

/// Refused, or with some ten thousand codes at most.
fn has_few_codes(text: &[u8]) -> bool {
    match oracle::meaning_of_text(text) {
        Ok(t) => oracle::all_codes(&t, 150).is_some(),
        Err(_) => true,
    }
}

fn some_lines(rng: &mut Rng, t: &Table) -> Vec<u8> {
    let mut input = Vec::new();
    let most = *rng.pick(&[0, 1, 4, 20, 200]);
    for _ in 0..rng.below(most + 1) {
        input.extend(a_line(rng, t));
        if rng.one_in(40) {
            input.push(b'\r');
        }
        input.push(b'\n');
    }
    if rng.one_in(3) {
        input.pop();
    }
    input
}

fn a_line(rng: &mut Rng, t: &Table) -> Vec<u8> {
    match rng.below(16) {
        0 => Vec::new(),
        1 => b"-".to_vec(),
        2 => (0..rng.below(9)).map(|_| if rng.one_in(3) { rng.byte() } else { *rng.pick(b"-0A f\t\r\0G3") }).collect(),
        3 | 4 => {
            let frame = a_frame(rng, t, 8);
            let mut line = digits(rng, &frame);
            damage(rng, &mut line);
            line
        }
        5 if rng.one_in(4) => {
            // Around the longest frame, at times far over it.
            let one = a_frame(rng, t, 60);
            let bytes = if rng.one_in(4) { rng.below(80_000) } else { MAX_FRAME - 2 + rng.below(5) };
            let frame: Vec<u8> = one.iter().copied().cycle().take(bytes).collect();
            digits(rng, &frame)
        }
        _ => {
            let items = *rng.pick(&[3, 8, 60]);
            let frame = a_frame(rng, t, items);
            digits(rng, &frame)
        }
    }
}

/// Mostly of the table's own codes.
fn a_frame(rng: &mut Rng, t: &Table, items: usize) -> Vec<u8> {
    if rng.one_in(10) {
        return (0..rng.below(items)).map(|_| rng.byte()).collect();
    }
    gen::random_frame(rng, t, items)
}

/// Capital, small, or both.
fn digits(rng: &mut Rng, frame: &[u8]) -> Vec<u8> {
    let mut line = program::hex(frame).into_bytes();
    match rng.below(3) {
        0 => {}
        1 => line.make_ascii_lowercase(),
        _ => line.iter_mut().filter(|_| rng.one_in(2)).for_each(|d| d.make_ascii_lowercase()),
    }
    line
}

fn damage(rng: &mut Rng, line: &mut Vec<u8>) {
    let odd = if rng.one_in(2) { rng.byte() } else { *rng.pick(b"- \t\r\0gG/:@`F") };
    let at = rng.below(line.len());
    match rng.below(3) {
        0 => line[at] = odd,
        1 => line.insert(at, odd),
        _ => drop(line.remove(at)),
    }
}

fn a_way(rng: &mut Rng, length: usize) -> Way {
    match rng.below(5) {
        0 => Way::File,
        1 => Way::whole(),
        2 if length <= 400 => Way::cut(length, 1..length),
        3 => Way::cut(length, [65_535 + rng.below(3)]),
        _ => Way::cut(length, (0..rng.range(1, 6)).map(|_| rng.below(length + 1)).collect::<Vec<_>>()),
    }
}

// ---------------------------------------------------------------------------
// Shrinking and printing
// ---------------------------------------------------------------------------

fn smaller(case: &Input) -> Vec<Input> {
    let mut out = Vec::new();
    if !matches!(&case.way, Way::Pieces(cuts) if cuts.is_empty()) {
        out.push(Input { way: Way::whole(), ..case.clone() });
    }
    if let Way::Pieces(cuts) = &case.way {
        out.extend(fewer(cuts).into_iter().map(|cuts| Input { way: Way::Pieces(cuts), ..case.clone() }));
    }
    for input in smaller_text(&case.input) {
        let way = match &case.way {
            Way::File => Way::File,
            Way::Pieces(cuts) => Way::cut(input.len(), cuts.iter().copied()),
        };
        out.push(Input { input, way, ..case.clone() });
    }
    let texts = case.table.as_deref().map(smaller_text).unwrap_or_default();
    out.extend(texts.into_iter().map(|text| Input { table: Some(text), ..case.clone() }));
    out
}

/// Makes a failing case smaller while it goes on failing, for some seconds.
pub fn shrink(case: &Input, fails: &mut dyn FnMut(&Input) -> bool) -> Input {
    let mut best = case.clone();
    let start = Instant::now();
    'again: loop {
        for candidate in smaller(&best) {
            if start.elapsed() > Duration::from_secs(20) {
                return best;
            }
            if candidate.table.as_deref().is_none_or(has_few_codes) && fails(&candidate) {
                best = candidate;
                continue 'again;
            }
        }
        return best;
    }
}

pub fn show(case: &Input) -> String {
    let table = match &case.table {
        None => "  no table.ucm\n".into(),
        Some(text) => format!("  table.ucm of {} bytes:\n{}", text.len(), show_text(text)),
    };
    let way = &case.way;
    format!("{table}  input of {} bytes, {way:?}:\n{}", case.input.len(), show_text(&case.input))
}
