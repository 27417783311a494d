//! Times the library beside a straightforward Rust converter over the same
//! table in the same run, and beside ICU and iconv. Figures are ratios: time of
//! the library divided by time of the other. The argument `look-ups` asks for the
//! look-ups alone, `searches` for look-ups without any conversion, `skipping` for
//! damaged text alone, `schemes` for UTF-32BE beside UTF-8 alone, `pieces` for text in
//! pieces alone, `peers` for ICU and iconv alone, and `before FOLDER` for another build
//! of the library.
//!
//! Each figure but those of `searches` is the median of several rounds; a second
//! ratio is that of the least times, for a busy machine. The state of the buffers is printed with
//! each figure: `cleared` means set to zero before each round, outside the time
//! taken; `as left` means as the round before left them.

mod before;
mod calls;
mod dynamic;
mod iconv;
mod icu;
#[path = "../../tests/src/lending.rs"]
mod lending;
mod library;
#[path = "../../tests/src/lookups.rs"]
mod lookups;
#[path = "../../tests/src/memory.rs"]
mod memory;
mod older;
mod peers;
mod pieces;
mod pipes;
mod plain;
mod searches;
mod texts;
mod timing;

use library::{loading, Lent, LINKED};
use pipes::{both_ways, own, tested, Converter, PlainSkipping, Skipping, Tested};
use plain::{Plain, Search};
use std::cell::RefCell;
use std::hint::black_box;
use std::time::Instant;
use texts::{load_texts, mappings, scattered, table_text, Mapping, Texts, BLENDS, FRAME, TEXT};
use timing::{figure, nothing, way, Amount, ROUNDS};

fn main() {
    let arguments: Vec<String> = std::env::args().skip(1).collect();
    let arguments: Vec<&str> = arguments.iter().map(|a| a.as_str()).collect();
    println!("median of {ROUNDS} rounds; ratio = time of the library / time of the other");
    match arguments[..] {
        [] => {
            own_figures();
            skipping();
            look_ups();
            searches::run();
            pieces::run();
            peers::schemes();
            peers::run();
        }
        ["look-ups"] => look_ups(),
        ["searches"] => searches::run(),
        ["skipping"] => skipping(),
        ["schemes"] => peers::schemes(),
        ["pieces"] => pieces::run(),
        ["peers"] => peers::run(),
        ["before", folder] => before::run(folder.as_ref()),
        _ => {
            println!(
                "arguments: none, `look-ups`, `searches`, `skipping`, `schemes`, `pieces`, `peers` or `before FOLDER`"
            );
            std::process::exit(2);
        }
    }
}

fn own_figures() {
    let all = mappings();
    let text = table_text(&all);
    let plains = Plain::all(&text);
    let lent = Lent::with(LINKED, &text);
    println!(
        "table: {} mappings, {} rows, {} bytes of text; {} frames of {FRAME} bytes each way",
        plains[0].mappings,
        plains[0].rows.len(),
        text.len(),
        TEXT / FRAME
    );
    for (name, text) in load_texts() {
        loads(name, &text);
    }
    test_behind_60(&lent);
    conversions(&all, &lent, &plains);
    audits(&lent, &plains);
    dead_ends();
    deep_walks();
}

fn loads(name: &str, text: &[u8]) {
    for (buffers, cleared) in [("as left", false), ("cleared", true)] {
        let target = RefCell::new(Lent::new(LINKED));
        let mut before = || {
            if cleared {
                target.borrow_mut().clear()
            }
        };
        let plain = |search: Search| way(search.name(), move || Plain::load(black_box(text), search));
        let mut ways = vec![loading(&target, text)];
        ways.extend(Search::ALL.map(plain));
        figure(name, buffers, Some(Amount::bytes(text.len())), &mut before, ways);
    }
}

fn test_behind_60(lent: &Lent) {
    assert!(tested(lent), "the plain test of the memory");
    let ways = vec![way("library", || lent.check()), way("plain, same numbers", || tested(lent))];
    figure("test behind 60", "none written", None, &mut nothing, ways);
}

fn conversions(all: &[Mapping], lent: &Lent, plains: &[Plain]) {
    let tested = Tested(&plains[0], lent);
    let mut converters = own(lent, plains);
    converters.push(&tested);
    for blend in BLENDS {
        both_ways(&Texts::in_frames(all, blend), &converters);
    }
}

/// Damaged text with skipping on.
fn skipping() {
    let all = mappings();
    let text = table_text(&all);
    let (lent, plains) = (Lent::with(LINKED, &text), Plain::all(&text));
    let (library, plains) = (Skipping(&lent), plains.each_ref().map(PlainSkipping));
    let others = plains.iter().map(|plain| plain as &dyn Converter);
    let converters: Vec<&dyn Converter> = std::iter::once(&library as &dyn Converter).chain(others).collect();
    for blend in BLENDS {
        both_ways(&Texts::in_frames(&all, blend).damaged(), &converters);
    }
}

/// Either direction with codes and code points that all are in the table, then
/// with such as are not.
fn look_ups() {
    let (mapped, others) = scattered();
    let text = table_text(&mapped);
    let (lent, plains) = (Lent::with(LINKED, &text), Plain::all(&text));
    println!("look-ups: the time includes cutting each character out of the input and writing what it gives");
    println!("table for these: {} two-byte codes, {} are not in it", mapped.len(), others.len());
    for (name, list) in [("all in the table", mapped), ("none in the table", others)] {
        both_ways(&Texts::of_look_ups(name, &list), &own(&lent, &plains));
    }
}

fn audits(lent: &Lent, plains: &[Plain]) {
    for plain in plains {
        same_audit(lent, plain);
    }
    let list = RefCell::new(Vec::new());
    for (how, piece) in [("one call", u64::MAX), ("pieces of 256 codes", 256)] {
        let mut entries = vec![0; 20_000];
        let library = way("library", move || {
            let (mut position, mut finished) = ((0, 0), false);
            while !finished {
                (_, _, finished) = lent.audit(&mut position, piece, &mut entries);
            }
        });
        let mut ways = vec![library];
        for plain in plains {
            let list = &list;
            ways.push(way(plain.search.name(), move || plain.audit(false, &mut list.borrow_mut())));
        }
        figure(&format!("audit of all codes, {how} (plain: one walk)"), "as left", None, &mut nothing, ways);
    }
}

/// Library and plain converter must list the same codes.
fn same_audit(lent: &Lent, plain: &Plain) {
    let (mut entries, mut list) = (vec![0; 20_000], Vec::new());
    let (n, count, finished) = lent.audit(&mut (0, 0), u64::MAX, &mut entries);
    let plain_count = plain.audit(false, &mut list);
    assert_eq!((n, count, finished), (list.len(), plain_count, true), "audit");
    for (e, (bits, len, cause)) in entries.iter().zip(&list) {
        assert_eq!(*e, *bits as u64 + ((*len as u64) << 32) + ((*cause as u64) << 40), "audit");
    }
}

/// Ways that end nowhere before the only code: what one step can cost.
fn dead_ends() {
    let text = b"<code_set_name> \"dead\"\n<mb_cur_min> 1\n<mb_cur_max> 3\n<uconv_class> \"MBCS\"\n\
        <subchar> \\xFF\n<icu:state> 0-fe:1, ff\n<icu:state> 0-ff:2\n<icu:state>\nCHARMAP\nEND CHARMAP\n";
    let lent = Lent::with(LINKED, text);
    let plain = Plain::load(text, Search::Sorted).expect("plain load");
    let (mut entries, mut list) = (vec![0; 1], Vec::new());
    let ways = vec![
        way("library", move || lent.audit(&mut (0, 0), 1, &mut entries)),
        way(plain.search.name(), || plain.audit(false, &mut list)),
    ];
    figure("audit of one code behind 65,280 dead ends", "as left", None, &mut nothing, ways);
}

/// Walks that have no peer: four bytes deep, with ways that end nowhere and with
/// every way ending in a code.
fn deep_walks() {
    let head = "<code_set_name> \"deep\"\n<mb_cur_min> 1\n<mb_cur_max> 4\n<uconv_class> \"MBCS\"\n";
    let rows = "<subchar> \\xFF\n<icu:state> 0-fe:1, ff\n<icu:state> 0-ff:2\n<icu:state> 0-ff:3\n<icu:state>\n";
    let mut lent = Lent::new(LINKED);
    let dead = format!("{head}{rows}CHARMAP\nEND CHARMAP\n");
    assert_eq!(lent.load(dead.as_bytes()), 0, "the library accepts four rows of dead ends");
    let mut entries = vec![0u64; 1_000_000];
    let mut position = (0, 0);
    let start = Instant::now();
    let answer = lent.audit(&mut position, 1_000_000, &mut entries);
    let spent = start.elapsed();
    assert_eq!(answer, (1, 1, true), "one code, FF, and no other");
    println!("audit of one code behind four thousand million dead ends, one call: {:.1} us", spent.as_secs_f64() * 1e6);

    let rows = "<subchar> \\x00\\x00\\x00\\x00\n<icu:state> 0-ff:1\n<icu:state> 0-ff:2\n<icu:state> 0-ff:3\n<icu:state> 0-ff\n";
    let full = format!("{head}{rows}CHARMAP\nEND CHARMAP\n");
    assert_eq!(lent.load(full.as_bytes()), 0, "the library accepts four full rows");
    for first in [0u32, 0x40, 0x80, 0xC0, 0xFE] {
        let mut position = if first == 0 { (0, 0) } else { (first << 24, 4) };
        let start = Instant::now();
        let (listed, looked, finished) = lent.audit(&mut position, 1_000_000, &mut entries);
        let spent = start.elapsed().as_secs_f64();
        assert_eq!((listed, looked, finished), (1_000_000, 1_000_000, false), "every code is listed");
        println!(
            "audit of 4,294,967,296 codes, a call of 1,000,000 from {first:02X} on: {:.1} ms, {:.1} million codes a second",
            spent * 1e3,
            looked as f64 / spent / 1e6
        );
    }
}
