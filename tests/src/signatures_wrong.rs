//! Wrong versions of the texts that `signatures` compares: each is one change,
//! and just what it is about must be refused.

use crate::cases::equal;
use crate::signatures::{compared, Texts};

type File = fn(&mut Texts) -> &mut String;

/// What is wrong, the file, the change at its first place, and what is refused.
type Wrong = (&'static str, File, &'static str, &'static str, &'static [&'static str]);

const HEADER: File = |texts| &mut texts.header;
const TABLE_HEADER: File = |texts| &mut texts.table_header;
const SYS: File = |texts| &mut texts.sys;
const SLICES: File = |texts| &mut texts.slices;
const RATTLE: File = |texts| &mut texts.rattle;
const CARGO: File = |texts| &mut texts.cargo;

const WRONG: &[Wrong] = &[
    (
        "a type of the header",
        HEADER,
        "uint16_t *states",
        "uint32_t *states",
        &["header and Rattle, oboepond_load", "header and Rust, oboepond_load"],
    ),
    ("a type in Rust", SYS, "allowance: u64", "allowance: u32", &["header and Rust, oboepond_audit"]),
    ("a type in Rattle", RATTLE, "allowance: u64", "allowance: u32", &["header and Rattle, oboepond_audit"]),
    ("a pointer that is written in Rust", SYS, "text: *const u8", "text: *mut u8", &["header and Rust, oboepond_load"]),
    (
        "a slice that is written in Rattle",
        RATTLE,
        "input: &[u8]",
        "input: &mut [u8]",
        &["header and Rattle, oboepond_to_unicode"],
    ),
    (
        "a result's type in the header",
        HEADER,
        "uint32_t oboepond_check(",
        "uint64_t oboepond_check(",
        &["header and Rattle, oboepond_check", "header and Rust, oboepond_check"],
    ),
    (
        "two settings swapped in Rust",
        SYS,
        "substitute: u32, skip: u32",
        "skip: u32, substitute: u32",
        &["header and Rust, oboepond_to_utf8"],
    ),
    (
        "two settings swapped in safe Rust",
        SLICES,
        "scheme, substitute, skip",
        "scheme, skip, substitute",
        &["header and safe Rust, oboepond_to_unicode"],
    ),
    (
        "a safe conversion over another function",
        SLICES,
        "to_utf8 = oboepond_to_utf8(",
        "from_utf8 = oboepond_to_utf8(",
        &["header and safe Rust, oboepond_to_utf8"],
    ),
    (
        "a conversion that safe Rust lacks",
        SLICES,
        "from_utf8 = oboepond_from_utf8(",
        "from_utf8 = none(",
        &["header and safe Rust, oboepond_from_utf8"],
    ),
    (
        "two slices swapped in Rattle",
        RATTLE,
        "codes: &[u32],\n    infos: &[u32],",
        "infos: &[u32],\n    codes: &[u32],",
        &["header and Rattle, oboepond_check"],
    ),
    (
        "two settings swapped in the header",
        HEADER,
        "uint32_t fallback, uint32_t substitute,",
        "uint32_t substitute, uint32_t fallback,",
        &[
            "header and Rattle, oboepond_from_utf8",
            "header and Rust, oboepond_from_utf8",
            "header and safe Rust, oboepond_from_utf8",
        ],
    ),
    (
        "a function that the header lacks",
        HEADER,
        "uint32_t oboepond_audit(",
        "#define audit(",
        &["header and Rattle, oboepond_audit", "header and Rust, oboepond_audit"],
    ),
    ("a function that Rust lacks", SYS, "= fn oboepond_check(", "= none(", &["header and Rust, oboepond_check"]),
    (
        "a function that Rattle does not export",
        RATTLE,
        "#[unsafe(no_mangle)]\npub extern \"C\" fn oboepond_check(",
        "pub fn oboepond_check(",
        &["header and Rattle, oboepond_check"],
    ),
    (
        "a function under another name in Rattle",
        RATTLE,
        "fn oboepond_to_utf8(",
        "fn oboepond_to_utf_8(",
        &["header and Rattle, oboepond_to_utf8", "header and Rattle, oboepond_to_utf_8"],
    ),
    (
        "a number of the header",
        HEADER,
        "#define OBOEPOND_CUT_SHORT 51",
        "#define OBOEPOND_CUT_SHORT 52",
        &["header and crate, CUT_SHORT"],
    ),
    (
        "a size of the header",
        HEADER,
        "#define OBOEPOND_KEPT 5",
        "#define OBOEPOND_KEPT 6",
        &["Rattle and header, KEPT", "header and crate, KEPT"],
    ),
    (
        "a scheme of the header",
        HEADER,
        "#define OBOEPOND_UTF32LE 2",
        "#define OBOEPOND_UTF32LE 1",
        &["header and crate, UTF32LE"],
    ),
    (
        "a cause of the header",
        HEADER,
        "#define OBOEPOND_CAUSE_OTHER_CODE 3",
        "#define OBOEPOND_CAUSE_OTHER_CODE 4",
        &["header and crate, CAUSE_OTHER_CODE"],
    ),
    (
        "a number under another name",
        HEADER,
        "#define OBOEPOND_NO_FORM 10",
        "#define OBOEPOND_NO_LINE 10",
        &["header and crate, NO_FORM", "header and crate, NO_LINE"],
    ),
    ("a number of Rattle", RATTLE, " Short = 70", " Short = 71", &["Rattle and header, SHORT"]),
    ("a size of Rattle", RATTLE, "const RECORD: usize = 7", "const RECORD: usize = 8", &["Rattle and header, RECORD"]),
    (
        "a constant of Rattle under another name",
        RATTLE,
        " NoScheme = 71",
        " None = 71",
        &["Rattle and header, NONE", "Rattle's numbers"],
    ),
    (
        "a changed message",
        TABLE_HEADER,
        "Remove one of the two.",
        "Remove one of the three.",
        &["message of KEY_AGAIN"],
    ),
    (
        "a message for another number",
        TABLE_HEADER,
        "case OBOEPOND_FULL:",
        "case OBOEPOND_DONE:",
        &["message of DONE", "message of FULL"],
    ),
    (
        "the header's version",
        HEADER,
        "#define OBOEPOND_VERSION \"",
        "#define OBOEPOND_VERSION \"1",
        &["version of include/oboepond.h"],
    ),
    (
        "a part of the header's version",
        HEADER,
        "#define OBOEPOND_VERSION_PATCH ",
        "#define OBOEPOND_VERSION_PATCH 1",
        &["header and crate, VERSION_PATCH"],
    ),
    ("the crate's version", CARGO, "version = \"", "version = \"1", &["version of bindings/rust/Cargo.toml"]),
];

/// Lengths that do not stand behind their pointers make a file unreadable.
const UNREADABLE: &[(&str, File, &str, &str, &str)] = &[
    ("a length under another name in the header", HEADER, "kept_len", "output_len", "functions of include/oboepond.h"),
    (
        "a length of another type in Rust",
        SYS,
        "kept_len: usize",
        "kept_len: u32",
        "functions of bindings/rust/src/sys.rs",
    ),
    ("a type that is unknown", HEADER, "uint64_t allowance", "long allowance", "functions of include/oboepond.h"),
    ("a function exported without its name", RATTLE, "#[unsafe(no_mangle)]", "", "functions of crates/cabi_c/src"),
];

/// What is refused after a change.
fn refused(file: File, from: &str, to: &str) -> Result<Vec<String>, String> {
    let mut texts = Texts::read();
    let text = file(&mut texts);
    let changed = text.replacen(from, to, 1);
    if changed == *text {
        return Err(format!("the text to change is not there: {from}"));
    }
    *text = changed;
    let failed = compared(&texts).into_iter().filter(|(_, outcome)| outcome.is_err());
    let mut names: Vec<String> = failed.map(|(name, _)| name).collect();
    names.sort();
    Ok(names)
}

/// Each wrong version, with its outcome.
pub fn outcomes() -> Vec<(String, Result<(), String>)> {
    let exactly = WRONG.iter().map(|&(what, file, from, to, names)| {
        let wanted: Vec<String> = names.iter().map(|name| name.to_string()).collect();
        (what, refused(file, from, to).and_then(|got| equal("refused", got, wanted)))
    });
    let among = UNREADABLE.iter().map(|&(what, file, from, to, name)| {
        let found = refused(file, from, to).map(|got| got.iter().any(|refused| refused == name));
        (what, found.and_then(|found| equal("refused", found, true)))
    });
    exactly.chain(among).map(|(what, outcome)| (format!("wrong: {what}"), outcome)).collect()
}
