//! One interface, told in three places: the exported functions in
//! crates/cabi_c/src, include/oboepond.h, and bindings/rust/src/sys.rs. They are
//! read as text, and each function must have the same parameters, kinds and
//! result in all three. The crate's safe conversions must name what is behind the
//! table's slices in the same order. The numbers, messages and versions of the
//! headers must be those of the crate.

use crate::cases::equal;
use crate::pages::root;
use oboepond::{Answer, Cause, Scheme};
use std::collections::{BTreeMap, BTreeSet};
use std::fmt::Debug;
use std::fs;

/// The files as text.
#[derive(Clone)]
pub struct Texts {
    pub header: String,
    pub table_header: String,
    pub sys: String,
    pub slices: String,
    pub rattle: String,
    pub cargo: String,
}

impl Texts {
    pub fn read() -> Texts {
        let text = |file: &str| fs::read_to_string(root().join(file)).unwrap_or_default();
        Texts {
            header: text("include/oboepond.h"),
            table_header: text("include/oboepond_table.h"),
            sys: text("bindings/rust/src/sys.rs"),
            slices: text("bindings/rust/src/slices.rs"),
            // the exports, and the numbers of the functions that they call
            rattle: ["cabi_c/src/lib.rt", "cabi/src/lib.rt", "cabi/src/pieces.rt"]
                .map(|file| text(&format!("crates/{file}")))
                .concat(),
            cargo: text("bindings/rust/Cargo.toml"),
        }
    }
}

/// What was compared, with its outcome.
pub type Outcome = (String, Result<(), String>);

pub fn compared(texts: &Texts) -> Vec<Outcome> {
    let mut outcomes = functions(texts);
    outcomes.extend(numbers(texts));
    outcomes.extend(rattle_numbers(texts));
    outcomes.extend(messages(texts));
    outcomes.extend(versions(texts));
    outcomes
}

/// Every key of either side must have the same value in both.
fn same<T: Debug + PartialEq>(what: &str, one: &BTreeMap<String, T>, other: &BTreeMap<String, T>) -> Vec<Outcome> {
    let keys: BTreeSet<&String> = one.keys().chain(other.keys()).collect();
    keys.into_iter().map(|key| (format!("{what} {key}"), equal(key, one.get(key), other.get(key)))).collect()
}

// ---------------------------------------------------------------------------
// Functions
// ---------------------------------------------------------------------------

#[derive(Clone, PartialEq, Debug)]
enum Kind {
    Number(String),
    Slice { of: String, written: bool },
}

/// Parameters by name, and the result's type.
type Signature = (Vec<(String, Kind)>, String);
type Signatures = BTreeMap<String, Signature>;

fn functions(texts: &Texts) -> Vec<Outcome> {
    let read = [
        ("include/oboepond.h", in_header(&texts.header)),
        ("bindings/rust/src/sys.rs", in_sys(&texts.sys)),
        ("crates/cabi_c/src", in_rattle(&texts.rattle)),
    ];
    let mut outcomes = Vec::new();
    let mut lists = Vec::new();
    for (file, list) in read {
        let readable = list.as_ref().map(|_| ()).map_err(Clone::clone);
        outcomes.push((format!("functions of {file}"), readable));
        lists.push(list.unwrap_or_default());
    }
    outcomes.extend(same("header and Rust,", &lists[0], &lists[1]));
    outcomes.extend(same("header and Rattle,", &lists[0], &lists[2]));
    outcomes.extend(same("header and safe Rust,", &conversions_of(&lists[0]), &in_slices(&texts.slices)));
    outcomes
}

/// What every conversion has, and the safe ones do not name.
const COMMON: [&str; 7] = ["record", "states", "codes", "infos", "order", "output", "result"];

/// Each conversion: its safe name, and the names of its other parameters.
fn conversions_of(header: &Signatures) -> BTreeMap<String, Vec<String>> {
    let conversions = header.iter().filter(|(_, (parameters, _))| parameters.iter().any(|(name, _)| name == "output"));
    let names = conversions.map(|(function, (parameters, _))| {
        let names = parameters.iter().map(|(name, _)| name.clone()).filter(|name| !COMMON.contains(&name.as_str()));
        (function.clone(), [function.replace("oboepond_", "")].into_iter().chain(names).collect())
    });
    names.collect()
}

/// The same as the crate lists them: `NAME = oboepond_NAME(kept; input; settings);`.
fn in_slices(slices: &str) -> BTreeMap<String, Vec<String>> {
    let listed = slices.lines().filter_map(|line| {
        let (safe, rest) = line.trim().strip_suffix(");")?.split_once(" = ")?;
        let (function, inside) = rest.split_once('(')?;
        let names = inside.split([';', ',']).map(str::trim).filter(|name| !name.is_empty());
        Some((function.to_string(), [safe].into_iter().chain(names).map(String::from).collect()))
    });
    listed.filter(|(function, _)| function.starts_with("oboepond_")).collect()
}

/// The text without what stands between the two marks, those included.
fn without(text: &str, from: &str, to: &str) -> String {
    let mut parts = text.split(from);
    let first = parts.next().unwrap_or_default().to_string();
    parts.fold(first, |kept, part| kept + part.split_once(to).map_or("", |(_, rest)| rest))
}

/// Every name behind a mark, what stands in the brackets behind it, and the rest.
fn behind<'a>(text: &'a str, mark: &'a str) -> impl Iterator<Item = (&'a str, &'a str, &'a str)> {
    text.match_indices(mark).filter_map(move |(at, _)| {
        let (name, rest) = text[at + mark.len()..].split_once('(')?;
        let (inside, rest) = rest.split_once(')')?;
        Some((name.trim(), inside, rest))
    })
}

fn in_header(header: &str) -> Result<Signatures, String> {
    let code = without(header, "/*", "*/");
    let code: String = code.lines().filter(|line| !line.starts_with('#')).flat_map(|line| [line, "\n"]).collect();
    let mut found = Signatures::new();
    for statement in code.split(';') {
        let Some((front, inside)) = statement.split_once('(') else { continue };
        let mut words = front.split_whitespace().rev();
        let (name, result) = (words.next().unwrap_or_default(), words.next().unwrap_or_default());
        let inside = inside.split_once(')').ok_or(format!("{name}: no end of the parameters"))?.0;
        let plain: Result<Vec<Plain>, String> = split(inside).map(c_parameter).collect();
        insert(&mut found, name, paired(plain?)?, rust_type(result)?)?;
    }
    Ok(found)
}

fn in_sys(sys: &str) -> Result<Signatures, String> {
    let code = without(sys, "//", "\n");
    let mut found = Signatures::new();
    // The macro's own pattern has a $ there.
    for (name, inside, rest) in behind(&code, "= fn ").filter(|(name, ..)| !name.starts_with('$')) {
        let plain: Result<Vec<Plain>, String> = split(inside).map(sys_parameter).collect();
        insert(&mut found, name, paired(plain?)?, result(rest)?)?;
    }
    Ok(found)
}

fn in_rattle(rattle: &str) -> Result<Signatures, String> {
    let code = without(rattle, "//", "\n");
    let mut found = Signatures::new();
    for (name, inside, rest) in behind(&code, "#[unsafe(no_mangle)]\npub extern \"C\" fn ") {
        let parameters: Result<Vec<(String, Kind)>, String> = split(inside).map(rattle_parameter).collect();
        insert(&mut found, name, parameters?, result(rest)?)?;
    }
    equal("exported functions", code.matches("extern \"C\"").count(), found.len())?;
    equal("exported names", code.matches("no_mangle").count(), found.len())?;
    Ok(found)
}

fn insert(found: &mut Signatures, name: &str, parameters: Vec<(String, Kind)>, result: String) -> Result<(), String> {
    match found.insert(name.into(), (parameters, result)) {
        None => Ok(()),
        Some(_) => Err(format!("{name} stands twice")),
    }
}

fn split(inside: &str) -> impl Iterator<Item = &str> {
    inside.split(',').map(str::trim).filter(|parameter| !parameter.is_empty())
}

/// The type behind an arrow.
fn result(rest: &str) -> Result<String, String> {
    let rest = rest.trim_start().strip_prefix("->").ok_or("no result")?;
    let name = rest.split(|c: char| c == ';' || c.is_whitespace()).find(|word| !word.is_empty());
    Ok(name.ok_or("no result's type")?.to_string())
}

/// A parameter as C passes it: its type, and for a pointer whether it is written.
struct Plain {
    name: String,
    of: String,
    pointer: Option<bool>,
}

fn rust_type(name: &str) -> Result<String, String> {
    let types = [("uint8_t", "u8"), ("uint16_t", "u16"), ("uint32_t", "u32"), ("uint64_t", "u64"), ("size_t", "usize")];
    let found = types.into_iter().find(|(c, _)| *c == name);
    found.map(|(_, rust)| rust.to_string()).ok_or(format!("no known type: {name}"))
}

fn c_parameter(text: &str) -> Result<Plain, String> {
    let (front, name) = text.rsplit_once([' ', '*']).ok_or(format!("no parameter: {text}"))?;
    let pointer = text.contains('*').then(|| !front.contains("const "));
    let of = front.trim_end_matches([' ', '*']).trim_start_matches("const ");
    Ok(Plain { name: name.into(), of: rust_type(of)?, pointer })
}

/// Name and type.
fn typed(text: &str) -> Result<(&str, &str), String> {
    let (name, of) = text.split_once(':').ok_or(format!("no parameter: {text}"))?;
    Ok((name.trim(), of.trim()))
}

fn sys_parameter(text: &str) -> Result<Plain, String> {
    let (name, of) = typed(text)?;
    let (of, pointer) = match (of.strip_prefix("*const "), of.strip_prefix("*mut ")) {
        (Some(of), _) => (of, Some(false)),
        (_, Some(of)) => (of, Some(true)),
        _ => (of, None),
    };
    Ok(Plain { name: name.into(), of: of.into(), pointer })
}

/// `record` and `result` are words of Rattle, so the parameters are called `rec` and `res` there.
fn rattle_parameter(text: &str) -> Result<(String, Kind), String> {
    let (name, of) = typed(text)?;
    let name = match name {
        "rec" => "record",
        "res" => "result",
        _ => name,
    };
    let slice = |front: &str| of.strip_prefix(front)?.strip_suffix(']').map(String::from);
    let kind = match (slice("&["), slice("&mut [")) {
        (Some(of), _) => Kind::Slice { of, written: false },
        (_, Some(of)) => Kind::Slice { of, written: true },
        _ => Kind::Number(of.into()),
    };
    Ok((name.into(), kind))
}

/// Each pointer with its length, which must stand behind it under its name.
fn paired(plain: Vec<Plain>) -> Result<Vec<(String, Kind)>, String> {
    let mut parameters = Vec::new();
    let mut rest = plain.into_iter();
    while let Some(Plain { name, of, pointer }) = rest.next() {
        let kind = match pointer {
            None => Kind::Number(of),
            Some(written) => {
                let length = rest.next().filter(|l| l.name == format!("{name}_len") && l.of == "usize");
                length.filter(|l| l.pointer.is_none()).ok_or(format!("{name}: no length behind it"))?;
                Kind::Slice { of, written }
            }
        };
        parameters.push((name, kind));
    }
    Ok(parameters)
}

// ---------------------------------------------------------------------------
// Numbers, messages, versions
// ---------------------------------------------------------------------------

/// What the header defines: names without their front, and the text behind each.
fn defined(header: &str) -> impl Iterator<Item = (&str, &str)> {
    header.lines().filter_map(|line| line.strip_prefix("#define OBOEPOND_")?.split_once(' '))
}

fn header_numbers(header: &str) -> BTreeMap<String, u64> {
    let number = |text: &str| text.split_whitespace().next()?.parse().ok();
    defined(header).filter_map(|(name, text)| Some((name.to_string(), number(text)?))).collect()
}

/// `NoForm` as the header has it: NO_FORM.
fn as_macro(name: impl Debug) -> String {
    let mut out = String::new();
    for c in format!("{name:?}").chars() {
        if c.is_uppercase() && !out.is_empty() {
            out.push('_');
        }
        out.extend(c.to_uppercase());
    }
    out
}

fn crate_numbers() -> BTreeMap<String, u64> {
    let sizes = [
        ("RECORD", oboepond::RECORD),
        ("STATES", oboepond::STATES),
        ("MAPPINGS", oboepond::MAPPINGS),
        ("KEPT", oboepond::KEPT),
        ("LOADED", oboepond::LOADED),
        ("DONE", oboepond::DONE),
        ("AUDITED", oboepond::AUDITED),
        ("TEXT", oboepond::TEXT),
    ];
    let mut numbers: BTreeMap<String, u64> = sizes.map(|(name, size)| (name.into(), size as u64)).into();
    numbers.extend(Answer::ALL.iter().map(|answer| (as_macro(answer), answer.number().into())));
    numbers.extend(Scheme::ALL.map(|scheme| (as_macro(scheme).replace('_', ""), scheme.number().into())));
    numbers.extend(Cause::ALL.map(|cause| (format!("CAUSE_{}", as_macro(cause)), cause.number().into())));
    let parts = ["MAJOR", "MINOR", "PATCH"].into_iter().zip(oboepond::VERSION.split('.'));
    numbers.extend(parts.filter_map(|(part, number)| Some((format!("VERSION_{part}"), number.parse().ok()?))));
    numbers
}

fn numbers(texts: &Texts) -> Vec<Outcome> {
    same("header and crate,", &header_numbers(&texts.header), &crate_numbers())
}

/// The constants of the exported functions that are numbers, and the numbers of their enum's cases, stand in the header.
fn rattle_numbers(texts: &Texts) -> Vec<Outcome> {
    let header = header_numbers(&texts.header);
    let code = without(&texts.rattle, "//", "\n");
    let constants = code.match_indices("const ").filter_map(|(at, mark)| {
        let (name, rest) = code[at + mark.len()..].split_once(':')?;
        let number = rest.split_once(';')?.0.split_once('=')?.1;
        Some((name.to_string(), number.trim().parse().ok()?))
    });
    let cases = code.lines().filter_map(|line| {
        let (name, number) = line.trim().strip_suffix(',')?.split_once(" = ")?;
        let word = name.chars().all(char::is_alphanumeric) && name.starts_with(char::is_uppercase);
        Some((word.then(|| as_macro(format_args!("{name}")))?, number.parse().ok()?))
    });
    let constants: BTreeMap<String, u64> = constants.chain(cases).collect();
    let wanted = constants.keys().filter_map(|name| Some((name.clone(), *header.get(name)?))).collect();
    let mut outcomes = same("Rattle and header,", &constants, &wanted);
    let known = ["SHORT", "NO_SCHEME", "RECORD", "KEPT"].iter().all(|name| constants.contains_key(*name));
    outcomes.push(("Rattle's numbers".into(), equal("all are there", known, true)));
    outcomes
}

/// The messages of the second header, by the name of the number.
fn header_messages(table_header: &str) -> BTreeMap<String, String> {
    let cases = table_header.split("case OBOEPOND_").skip(1);
    let message = |case: &str| {
        let (name, rest) = case.split_once(':')?;
        let text = rest.trim_start().strip_prefix("return ")?.split_once(';')?.0;
        let parts: String = text.split('"').skip(1).step_by(2).collect();
        Some((name.to_string(), parts))
    };
    cases.filter_map(message).collect()
}

fn messages(texts: &Texts) -> Vec<Outcome> {
    let ours = Answer::ALL.iter().map(|answer| (as_macro(answer), answer.message().to_string())).collect();
    same("message of", &header_messages(&texts.table_header), &ours)
}

fn versions(texts: &Texts) -> Vec<Outcome> {
    let quoted = |text: &str| text.split('"').nth(1).map(String::from);
    let header = defined(&texts.header).find(|(name, _)| *name == "VERSION").and_then(|(_, text)| quoted(text));
    let cargo = texts.cargo.lines().find(|line| line.starts_with("version ")).and_then(quoted);
    let crate_version = Some(oboepond::VERSION.to_string());
    vec![
        ("version of include/oboepond.h".into(), equal("version", header, crate_version.clone())),
        ("version of bindings/rust/Cargo.toml".into(), equal("version", cargo, crate_version)),
    ]
}
