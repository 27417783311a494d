//! How much stack each C call takes, against what the header and docs/API.md
//! say: the call runs on a painted stack of its own, and the lowest place that
//! it wrote to tells.

use crate::abi::AbiCase;
use crate::cases::{equal, junk, k_void, K};
use crate::lending::{lent, lent_mut};
use crate::memory::Memory;
use oboepond::slices::{self, Lent};
use std::arch::asm;

pub const CASES: &[AbiCase] = &[
    ("load: at most 2 KiB of stack", load),
    ("check: at most 2 KiB of stack", check),
    ("to UTF-8: at most 36 KiB of stack", to_utf8),
    ("from UTF-8: at most 36 KiB of stack", from_utf8),
    ("to Unicode: at most 36 KiB of stack", to_unicode),
    ("from Unicode: at most 36 KiB of stack", from_unicode),
    ("to Unicode in pieces: at most 36 KiB of stack", to_pieces),
    ("from Unicode in pieces: at most 68 KiB of stack", from_pieces),
    ("audit: at most 3 KiB of stack", audit),
];

const KIB: usize = 1024;
const SIZE: usize = 256 * KIB;
const PAINT: u64 = 0x5c5c_5c5c_5c5c_5c5c;

type Work<'a> = &'a mut dyn FnMut();

extern "C" fn call(work: &mut Work) {
    work();
}

/// The bytes of a painted stack that some work writes to.
fn used(mut work: Work) -> usize {
    let mut stack = vec![PAINT; SIZE / 8];
    let top = (stack.as_mut_ptr() as usize + SIZE) & !15;
    // SAFETY: the stack is as large as a thread's need be here, `call` keeps to
    // the C calling convention, and r12 is kept by it; nothing unwinds.
    unsafe {
        asm!(
            "mov r12, rsp",
            "mov rsp, {top}",
            "call {call}",
            "mov rsp, r12",
            top = in(reg) top,
            call = sym call,
            in("rdi") &mut work,
            out("r12") _,
            clobber_abi("C"),
        );
    }
    let untouched = stack.iter().take_while(|&&word| word == PAINT).count();
    SIZE - untouched * 8
}

fn at_most(what: &str, bound: usize, work: Work) -> Result<(), String> {
    let bytes = used(work);
    if std::env::var_os("OBOEPOND_STACK").is_some() {
        println!("{what}: {bytes} bytes of stack");
    }
    match bytes <= bound {
        true => Ok(()),
        false => Err(format!("{what} took {bytes} bytes of stack, more than {bound}")),
    }
}

/// A table whose codes have one to four bytes, so that the audit walks deep.
fn deep() -> String {
    let rows = "<icu:state> 0-7f, 80-ff:1\n<icu:state> 0-7f, 80-ff:2\n<icu:state> 0-7f, 80-ff:3\n<icu:state> 0-ff\n";
    let head = "<code_set_name> \"d\"\n<mb_cur_min> 1\n<mb_cur_max> 4\n<uconv_class> \"MBCS\"\n<subchar> \\x3F\n";
    let lines = "<U0041> \\x41\n<U0042> \\x80\\x42\n<U0043> \\x80\\x80\\x43\n<U0044> \\x80\\x80\\x80\\x44 |0\n";
    format!("{head}{rows}CHARMAP\n{lines}END CHARMAP\n")
}

pub fn loaded(text: &[u8]) -> ([u32; 7], Memory) {
    let (mut record, mut memory) = ([0; 7], junk(0));
    let number = slices::load(text, lent_mut(&mut record, &mut memory), &mut [0]);
    assert_eq!(number, 0, "the table is accepted");
    (record, memory)
}

fn load() -> Result<(), String> {
    let texts = [K.to_string(), deep(), "<icu:state> 0-ff:1, 80-\n".repeat(9), K.repeat(2)];
    for text in texts.map(String::into_bytes).into_iter().chain([k_void()]) {
        let (mut record, mut memory, mut result) = ([0; 7], junk(0), [0]);
        at_most("load", 2 * KIB, &mut || {
            slices::load(&text, lent_mut(&mut record, &mut memory), &mut result);
        })?;
    }
    Ok(())
}

/// The same work over K and over a table with codes of up to four bytes.
fn over_tables(work: fn(Lent) -> Result<(), String>) -> Result<(), String> {
    for text in [K.to_string(), deep()] {
        let (record, memory) = loaded(text.as_bytes());
        work(lent(&record, &memory))?;
    }
    Ok(())
}

fn check() -> Result<(), String> {
    over_tables(|table| {
        let mut number = 1;
        at_most("check", 2 * KIB, &mut || number = slices::check(table))?;
        equal("number", number, 0)
    })
}

/// So many sequences, the good and the bad one taking turns, a good one last; with
/// skipping off only good ones.
fn turns(n: usize, good: &[u8], bad: &[u8], skip: u32) -> Vec<u8> {
    (0..n).rev().flat_map(|i| if i % 2 == 1 && skip == 1 { bad } else { good }).copied().collect()
}

fn to_utf8() -> Result<(), String> {
    over_tables(|table| {
        for (n, skip) in [0, 1, 63, 64, 5000].into_iter().flat_map(|n| [(n, 0), (n, 1)]) {
            let (input, mut output, mut result) = (turns(n, b"\x3f", b"\xff", skip), vec![0; 4 * n], [0; 3]);
            at_most("to UTF-8", 36 * KIB, &mut || {
                slices::to_utf8(table, &input, &mut output, 1, skip, &mut result);
            })?;
            equal("read", result[0], n as u64)?;
        }
        Ok(())
    })
}

fn from_utf8() -> Result<(), String> {
    over_tables(|table| {
        for (n, skip) in [0, 1, 63, 64, 5000].into_iter().flat_map(|n| [(n, 0), (n, 1)]) {
            let (input, mut output, mut result) = (turns(n, b"C", b"\xff", skip), vec![0; 4 * n], [0; 3]);
            at_most("from UTF-8", 36 * KIB, &mut || {
                slices::from_utf8(table, &input, &mut output, 1, 1, skip, &mut result);
            })?;
            equal("read", result[0], n as u64)?;
        }
        Ok(())
    })
}

fn to_unicode() -> Result<(), String> {
    over_tables(|table| {
        let calls = (0..8).flat_map(|call| [0, 1, 63, 64, 5000].map(|n| (call / 2, call % 2, n)));
        for (scheme, skip, n) in calls {
            let (input, mut output, mut result) = (turns(n, b"\x3f", b"\xff", skip), vec![0; 4 * n + 4], [0; 3]);
            at_most(&format!("to Unicode, scheme {scheme}"), 36 * KIB, &mut || {
                slices::to_unicode(table, &input, &mut output, scheme, 1, skip, &mut result);
            })?;
            equal("read", result[0], n as u64)?;
        }
        Ok(())
    })
}

fn from_unicode() -> Result<(), String> {
    over_tables(|table| {
        // A scheme, what stands in front, and a character with what is none; the last
        // has a mark.
        let utf8: [&[u8]; 2] = [b"C", b"\xff"];
        let big: [&[u8]; 2] = [b"\x00\x00\x00C", b"\x00\x00\xd8\x00"];
        let little: [&[u8]; 2] = [b"C\x00\x00\x00", b"\x00\xd8\x00\x00"];
        let mark: &[u8] = b"\xff\xfe\x00\x00";
        let texts = [(0, &b""[..], utf8), (1, b"", big), (2, b"", little), (3, b"", big), (3, mark, little)];
        let lengths = [0, 1, 15, 16, 63, 64, 5000];
        let calls =
            texts.into_iter().flat_map(|text| lengths.into_iter().flat_map(move |n| [(text, n, 0), (text, n, 1)]));
        for ((scheme, front, [good, bad]), n, skip) in calls {
            let input = [front, &turns(n, good, bad, skip)].concat();
            let (mut output, mut result) = (vec![0; 4 * n], [0; 3]);
            at_most(&format!("from Unicode, scheme {scheme}"), 36 * KIB, &mut || {
                slices::from_unicode(table, &input, &mut output, scheme, 1, 1, skip, &mut result);
            })?;
            equal("read", result[0], input.len() as u64)?;
        }
        Ok(())
    })
}

/// Where a text is cut: before, inside and behind its first sequences, and late.
fn cuts(n: usize) -> impl Iterator<Item = usize> {
    [0, 1, 2, 3, 5, 67, n].into_iter().filter(move |&cut| cut <= n)
}

fn to_pieces() -> Result<(), String> {
    over_tables(|table| {
        let calls = (0..8).flat_map(|call| [0, 1, 63, 64, 5000].map(|n| (call / 2, call % 2, n)));
        for ((scheme, skip, n), last) in calls.flat_map(|call| [(call, &b"\x3f"[..]), (call, b"\x81")]) {
            let input = [&turns(n, b"\x3f", b"\xff", skip), last].concat();
            for cut in cuts(input.len()) {
                let (mut kept, mut output, mut result) = ([0; 5], vec![0; 4 * n + 8], [0; 3]);
                let mut read = 0;
                for piece in [&input[..cut], &input[cut..]] {
                    at_most(&format!("to Unicode in pieces, scheme {scheme}"), 36 * KIB, &mut || {
                        slices::to_unicode_piece(table, &mut kept, piece, &mut output, scheme, 1, skip, &mut result);
                    })?;
                    read += result[0];
                }
                equal("read", read, n as u64 + 1)?;
                at_most(&format!("to Unicode, close, scheme {scheme}"), 3 * KIB, &mut || {
                    slices::to_unicode_close(table, &mut kept, &mut output, scheme, 1, skip, &mut result);
                })?;
            }
        }
        Ok(())
    })
}

fn from_pieces() -> Result<(), String> {
    over_tables(|table| {
        let utf8: [&[u8]; 3] = [b"C", b"\xff", b"\xf0\x90\x80"];
        let big: [&[u8]; 3] = [b"\x00\x00\x00C", b"\x00\x00\xd8\x00", b"\x00\x00\x00"];
        let little: [&[u8]; 3] = [b"C\x00\x00\x00", b"\x00\xd8\x00\x00", b"C"];
        let mark: &[u8] = b"\xff\xfe\x00\x00";
        let texts = [(0, &b""[..], utf8), (1, b"", big), (2, b"", little), (3, b"", big), (3, mark, little)];
        let lengths = [0, 1, 15, 64, 5000];
        let calls =
            texts.into_iter().flat_map(|text| lengths.into_iter().flat_map(move |n| [(text, n, 0), (text, n, 1)]));
        for ((scheme, front, [good, bad, last]), n, skip) in calls {
            let input = [front, &turns(n, good, bad, skip), last].concat();
            for cut in cuts(input.len()) {
                let (mut kept, mut output, mut result) = ([0; 5], vec![0; 4 * n + 4], [0; 3]);
                let mut read = 0;
                for piece in [&input[..cut], &input[cut..]] {
                    at_most(&format!("from Unicode in pieces, scheme {scheme}"), 68 * KIB, &mut || {
                        slices::from_unicode_piece(
                            table,
                            &mut kept,
                            piece,
                            &mut output,
                            scheme,
                            1,
                            1,
                            skip,
                            &mut result,
                        );
                    })?;
                    read += result[0];
                }
                equal("read", read, input.len() as u64)?;
                at_most(&format!("from Unicode, close, scheme {scheme}"), 3 * KIB, &mut || {
                    slices::from_unicode_close(table, &mut kept, &mut output, scheme, 1, 1, skip, &mut result);
                })?;
            }
        }
        Ok(())
    })
}

fn audit() -> Result<(), String> {
    over_tables(|table| {
        let (mut entries, mut result) = (vec![0; 900], [0; 5]);
        let mut number = 1;
        at_most("audit", 3 * KIB, &mut || {
            number = slices::audit(table, 1, 0, 0, 900, &mut entries, &mut result);
        })?;
        equal("number", number, 0)
    })
}
