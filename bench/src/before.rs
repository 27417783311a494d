//! The linked library beside another build of it, an earlier landing: its
//! archive is made into a shared library and opened.

use crate::calls::{Calls, Pointers};
use crate::dynamic::{Folder, Opened};
use crate::library::{loading, Build, Lent, LINKED};
use crate::older;
use crate::pipes::both_ways;
use crate::texts::{load_texts, mappings, table_text, Scheme, Texts, BLENDS, MIXED};
use crate::timing::{figure, nothing, way, Amount};
use std::cell::RefCell;
use std::path::Path;
use std::process::Command;

/// Pieces of each short size: the test behind 60 goes before every one.
const SHORT_PIECES: usize = 1_024;

pub fn run(folder: &Path) {
    let pointers = opened(&folder.join("libcabi.a")).unwrap_or_else(|why| {
        println!("before: {why}");
        std::process::exit(1);
    });
    let builds = [LINKED, Build { name: "before", calls: Calls::Opened(pointers) }];
    for (name, text) in load_texts() {
        loads(name, &text, builds);
    }
    let all = mappings();
    let [linked, other] = builds.map(|build| Lent::with(build, &table_text(&all)));
    same_load(&linked, &other);
    let tests = [&linked, &other].map(|lent| way(lent.build.name, || lent.check()));
    figure("test behind 60", "none written", None, &mut nothing, tests.into());
    for blend in BLENDS {
        let frames = Texts::in_frames(&all, blend);
        both_ways(&frames, &[&linked, &other]);
        both_ways(&frames.in_one_call(), &[&linked, &other]);
    }
    for size in [16, 64, 256] {
        both_ways(&Texts::in_pieces(&all, MIXED, size, SHORT_PIECES), &[&linked, &other]);
    }
    if pointers.to_unicode.is_none() || pointers.from_unicode.is_none() {
        println!("before: no UTF-32 in it");
        return;
    }
    for blend in BLENDS {
        let frames = Texts::in_scheme(&all, blend, Scheme::Utf32Be);
        both_ways(&frames, &[&linked, &other]);
        both_ways(&frames.in_one_call(), &[&linked, &other]);
    }
}

/// The calls of the archive, behind those of today where they had another form.
fn opened(archive: &Path) -> Result<Pointers, String> {
    let folder = Folder::make()?;
    let shared = folder.0.join("libbefore.so");
    make_shared(archive, &shared)?;
    let library = Opened::open(&shared)?;
    // SAFETY: the types are those of the library's header.
    let pointers = unsafe {
        Pointers {
            load: library.call("oboepond_load")?,
            check: library.call("oboepond_check")?,
            to_utf8: Some(library.call("oboepond_to_utf8")?),
            from_utf8: Some(library.call("oboepond_from_utf8")?),
            to_unicode: library.call("oboepond_to_unicode").ok(),
            from_unicode: library.call("oboepond_from_unicode").ok(),
        }
    };
    older::of_today(&library, pointers)
}

/// With all of the archive, whose functions call each other and none of the
/// linked library.
fn make_shared(archive: &Path, shared: &Path) -> Result<(), String> {
    let made = Command::new("cc")
        .args(["-shared", "-Wl,-Bsymbolic", "-Wl,--whole-archive"])
        .arg(archive)
        .args(["-Wl,--no-whole-archive", "-o"])
        .arg(shared)
        .status()
        .map_err(|e| format!("no cc: {e}"))?;
    made.success().then_some(()).ok_or(format!("cc makes no shared library of {}: {made}", archive.display()))
}

fn loads(name: &str, text: &[u8], builds: [Build; 2]) {
    let targets = builds.map(|build| RefCell::new(Lent::new(build)));
    let ways = targets.iter().map(|target| loading(target, text)).collect();
    figure(name, "as left", Some(Amount::bytes(text.len())), &mut nothing, ways);
}

/// Both must find the same record; the memory is each build's own affair.
fn same_load(linked: &Lent, other: &Lent) {
    assert_eq!(linked.record, other.record, "the record after load");
    let memory = if linked.memory == other.memory { "the same" } else { "another" };
    println!("load leaves {memory} memory in both");
}
