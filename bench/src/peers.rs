//! The library beside ICU with the same table and iconv with its own. Table and
//! text hold only codes that iconv maps alike, both ways.

use crate::iconv::Iconv;
use crate::icu::Icu;
use crate::library::{Lent, LINKED};
use crate::pipes::{both_ways, own, Converter};
use crate::plain::Plain;
use crate::texts::{mappings, table_text, Mapping, Scheme, Texts, BLENDS};
use crate::timing::least;

struct Peers {
    mappings: Vec<Mapping>,
    text: Vec<u8>,
    lent: Lent,
    plains: [Plain; 3],
    icu: Result<Icu, String>,
    iconv: Option<Iconv>,
}

impl Peers {
    fn open() -> Peers {
        let iconv = Iconv::open();
        let mappings = iconv.as_ref().map_or_else(mappings, Iconv::mappings);
        let text = table_text(&mappings);
        let (lent, plains, icu) = (Lent::with(LINKED, &text), Plain::all(&text), Icu::with(&text));
        Peers { mappings, text, lent, plains, icu, iconv }
    }

    /// All that are there, and a line on each.
    fn converters(&self) -> Vec<&dyn Converter> {
        let mut converters = own(&self.lent, &self.plains);
        match &self.icu {
            Ok(icu) => {
                println!("{}", icu.version());
                converters.push(icu);
            }
            Err(why) => println!("ICU: {why}"),
        }
        match &self.iconv {
            Some(iconv) => {
                println!("iconv: {}", iconv.version());
                converters.push(iconv);
            }
            None => println!("iconv: no SHIFT_JIS here"),
        }
        println!("table for these: {} mappings, {} bytes of text", self.mappings.len(), self.text.len());
        converters
    }
}

pub fn run() {
    let peers = Peers::open();
    let converters = peers.converters();
    for blend in BLENDS {
        let frames = Texts::in_frames(&peers.mappings, blend);
        both_ways(&frames, &converters);
        both_ways(&frames.in_one_call(), &converters);
    }
    if let Ok(icu) = peers.icu {
        loads(peers.lent, &peers.text, icu);
    }
}

/// The same characters in UTF-8 and in UTF-32BE.
pub fn schemes() {
    let peers = Peers::open();
    let converters = peers.converters();
    for blend in BLENDS {
        for scheme in Scheme::ALL {
            let frames = Texts::in_scheme(&peers.mappings, blend, scheme);
            both_ways(&frames, &converters);
            both_ways(&frames.in_one_call(), &converters);
        }
    }
}

/// Loading has no peer: `makeconv` is a command that makes a binary table of the
/// text and writes it to a file, and ICU only opens that file.
fn loads(mut lent: Lent, text: &[u8], mut icu: Icu) {
    let library = least(&mut || assert_eq!(lent.load(text), 0));
    let make = least(&mut || icu.make_table());
    let open = least(&mut || icu.open_again());
    println!("load of the same text, least times, not the same work:");
    for (name, time) in [("library", library), ("makeconv, a command", make), ("ICU opens its result", open)] {
        println!("    {name:<22}{:10.1} us", time * 1e6);
    }
}
