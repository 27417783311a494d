//! The hand-written cases: document 01's own, document 02's, the readings, and
//! for every number several texts. One list; it runs against the oracle and
//! against the library alike. Expected values are written by hand, never
//! computed by the oracle.

use crate::oracle::{Audited, Loaded, Memory, Piped, Record, Scheme, Settings, MAPPING_PLACES, STATE_PLACES};
use crate::subject::Subject;

type Run = Box<dyn Fn(&dyn Subject) -> Result<(), String>>;

pub struct Case {
    pub name: String,
    pub run: Run,
}

// ---------------------------------------------------------------------------
// Table K and its changes
// ---------------------------------------------------------------------------

pub const K: &str = "<code_set_name> \"kettle-1\"
<mb_cur_min> 1
<mb_cur_max> 2
<uconv_class> \"MBCS\"
<subchar> \\x3F
<icu:state> 2d, 30, 33, 3f, 81:1
<icu:state> 7c-7d, 80.u
CHARMAP
<U002D> \\x2D |0
<U0030> \\x30 |0
<U0033> \\x33 |0
<U2212> \\x81\\x7C |0
<UFF0D> \\x81\\x7C |1
<U2212> \\x81\\x7D |3
END CHARMAP
";

/// K with every liberty of the grammar: `free_text` of crates/table/specs/TableK.antt, byte for byte.
const K_FREE: &[u8] = b"\
    # K, fa\xe7on libre\r\n\
    \r\n\
    \t <code_set_name>\"kettle #1 \xe9\r\"  # name\n\
    <mb_cur_min>\t1 # one\r\n\
    <mb_cur_max>2\n\
    <a\"b> \"caf\xe9 # \r\" \t# \"\n\
    <uconv_class>\t\"MBCS\r\n\
    <U0041> \"open \xff #\n\
    <subchar> \\x3f\t#\r\n\
    <icu:state>initial ,2D,30\t-\t3F . i, 30:0., 33 .,3f , 81 : 1\n\
    \x20\x20<icu:state> 7c-7D,80.u# u\n\
    \x20\t\n\
    \tCHARMAP # \"\r\n\
    <U2D>\\x2d\n\
    \t<U000030> \\x30 |0 # zero\r\n\
    #\n\
    <U33>\t\\x33\t|0\t\n\
    <U2212>\\x81 \\x7c|0#\n\
    \x20<Uff0d> \\x81\\x7C |1\r\n\
    <U2212>\t\\x81\t\\x7D|3\n\
    END \t CHARMAP# end\n\
    \n\
    # the last line has no end\
    ";

const K_RECORD: Record = [2, 6, 1, 2, 0x3f00_0000, 1, 0];
/// Row, first byte, last byte, number.
const K_STATES: &[(usize, usize, usize, u16)] = &[
    (0, 0x2d, 0x2d, 1),
    (0, 0x30, 0x30, 1),
    (0, 0x33, 0x33, 1),
    (0, 0x3f, 0x3f, 1),
    (0, 0x81, 0x81, 17),
    (1, 0x7c, 0x7d, 1),
    (1, 0x80, 0x80, 3),
];
/// Numbers of `codes` and `infos`.
const K_ENTRIES: &[(u32, u32)] = &[
    (0x2d00_0000, 0x0000_002d),
    (0x3000_0000, 0x0000_0030),
    (0x3300_0000, 0x0000_0033),
    (0x817c_0000, 0x0100_2212),
    (0x817c_0000, 0x0140_ff0d),
    (0x817d_0000, 0x0120_2212),
];
const K_ORDER: &[u32] = &[0, 1, 2, 3, 5, 4];

type Bytes = Vec<u8>;

fn k_lines() -> Vec<Bytes> {
    K.lines().map(|l| l.as_bytes().to_vec()).collect()
}

fn joined(lines: &[Bytes]) -> Bytes {
    lines.iter().flat_map(|l| [l.as_slice(), b"\n"].concat()).collect()
}

/// K with line n (from 1) replaced.
pub fn k_line(n: usize, line: impl AsRef<[u8]>) -> Bytes {
    let mut lines = k_lines();
    lines[n - 1] = line.as_ref().to_vec();
    joined(&lines)
}

/// K with a line put in so that it is line n.
pub fn k_insert(n: usize, line: impl AsRef<[u8]>) -> Bytes {
    let mut lines = k_lines();
    lines.insert(n - 1, line.as_ref().to_vec());
    joined(&lines)
}

pub fn k_delete(n: usize) -> Bytes {
    let mut lines = k_lines();
    lines.remove(n - 1);
    joined(&lines)
}

/// K with several lines replaced.
fn k_change(changes: &[(usize, &str)]) -> Bytes {
    let mut lines = k_lines();
    for (n, line) in changes {
        lines[n - 1] = line.as_bytes().to_vec();
    }
    joined(&lines)
}

/// K with its `|1` line gone to 3F, which no line reads: 28 at line 15.
pub fn k_void() -> Bytes {
    k_line(13, "<UFF0D> \\x3F |1")
}

/// A text from its parts: header values, rows, mapping lines.
pub fn text(min: u32, max: u32, class: &str, subchar: &str, rows: &[&str], lines: &[&str]) -> Bytes {
    let mut t = format!(
        "<code_set_name> \"t\"\n<mb_cur_min> {min}\n<mb_cur_max> {max}\n\
         <uconv_class> \"{class}\"\n{subchar}\n"
    );
    for row in rows {
        t += &format!("<icu:state> {row}\n");
    }
    t += "CHARMAP\n";
    for line in lines {
        t += &format!("{line}\n");
    }
    t += "END CHARMAP\n";
    t.into_bytes()
}

pub fn mbcs(max: u32, subchar: &str, rows: &[&str], lines: &[&str]) -> Bytes {
    text(1, max, "MBCS", &format!("<subchar> {subchar}"), rows, lines)
}

/// SBCS without rows: one row 0-ff.
fn sbcs(subchar: &str, lines: &[&str]) -> Bytes {
    text(1, 1, "SBCS", subchar, &[], lines)
}

/// `n` distinct mappings of two bytes: line 8 is CHARMAP, mapping i is line 8 + i.
fn many(n: usize) -> Bytes {
    let lines: Vec<String> = (0..n)
        .map(|i| format!("<U{:04X}> \\x{:02X}\\x{:02X} |0", 0x100 + i, 1 + i / 256, i % 256))
        .collect();
    let lines: Vec<&str> = lines.iter().map(|l| l.as_str()).collect();
    mbcs(2, "\\x01\\x01", &["0-ff:1", "0-ff"], &lines)
}

const END: &[u8] = b"END CHARMAP\n";

/// A text with lines put in before its last line, END CHARMAP.
fn and(text: impl AsRef<[u8]>, lines: &[&str]) -> Bytes {
    let open = text.as_ref().strip_suffix(END).expect("END CHARMAP is last");
    [open, lines.join("\n").as_bytes(), b"\n", END].concat()
}

pub fn with_cr_lf(text: &[u8]) -> Bytes {
    text.iter().flat_map(|&b| if b == b'\n' { vec![b'\r', b'\n'] } else { vec![b] }).collect()
}

/// Blanks around every line, a comment behind it, a comment line and a blank
/// line before it: line n becomes line 3n.
pub fn dressed(text: &[u8]) -> Bytes {
    let mut out = Vec::new();
    for line in text.split_inclusive(|&b| b == b'\n') {
        let line = line.strip_suffix(b"\n").unwrap_or(line);
        out.extend(b"# a comment \xff\r with \" and <U0041>\r\n \t \r\n\t ");
        out.extend(line);
        out.extend(b" \t# CHARMAP \" \x80\r#\r\n");
    }
    out
}

// ---------------------------------------------------------------------------
// Running a case
// ---------------------------------------------------------------------------

/// Memory full of old values, `extra` places longer than needed.
pub fn junk(extra: usize) -> Memory {
    let n = STATE_PLACES + extra;
    let m = MAPPING_PLACES + extra;
    Memory {
        states: (0..n).map(|i| (i as u16).wrapping_mul(40_503) | 1).collect(),
        codes: (0..m).map(|i| (i as u32).wrapping_mul(2_654_435_761) | 1).collect(),
        infos: (0..m).map(|i| (i as u32).wrapping_mul(2_246_822_519) | 1).collect(),
        order: (0..m).map(|i| (i as u32).wrapping_mul(3_266_489_917) | 1).collect(),
    }
}

/// Old values of an output.
pub fn old_bytes(n: usize) -> Vec<u8> {
    (0..n).map(|i| (i as u8).wrapping_mul(37) ^ 0xa5).collect()
}

/// Old values of a space for entries.
pub fn old_entries(n: usize) -> Vec<u64> {
    (0..n as u64).map(|i| 0xfeed_0000_0000_0000 + i).collect()
}

pub fn equal<T: PartialEq + std::fmt::Debug>(what: &str, got: T, want: T) -> Result<(), String> {
    if got == want {
        Ok(())
    } else {
        Err(format!("{what}: got {got:?}, want {want:?}"))
    }
}

/// Compares slices, naming the first difference.
pub fn equal_slices<T: PartialEq + std::fmt::Debug>(
    what: &str,
    got: &[T],
    want: &[T],
) -> Result<(), String> {
    equal(&format!("{what}, length"), got.len(), want.len())?;
    match (0..got.len()).find(|&i| got[i] != want[i]) {
        None => Ok(()),
        Some(i) => Err(format!("{what}[{i}]: got {:?}, want {:?}", got[i], want[i])),
    }
}

pub fn equal_memory(got: &Memory, want: &Memory) -> Result<(), String> {
    equal_slices("states", &got.states, &want.states)?;
    equal_slices("codes", &got.codes, &want.codes)?;
    equal_slices("infos", &got.infos, &want.infos)?;
    equal_slices("order", &got.order, &want.order)
}

/// Refused with this number and line: record of zeros, needed memory zeroed
/// (1 and 2: untouched), nothing behind it touched.
fn is_refused(s: &dyn Subject, text: &[u8], number: u32, line: u64) -> Result<(), String> {
    let mut memory = junk(5);
    let mut want = memory.clone();
    if number > 2 {
        want.set_needed(&Memory::zeros());
    }
    let got = s.load(text, &mut memory);
    equal("answer", got, Loaded { number, line, record: [0; 7] })?;
    equal_memory(&memory, &want)
}

/// Accepted: the record and the memory, with nothing behind it touched.
fn is_accepted(s: &dyn Subject, text: &[u8]) -> Result<(Record, Memory), String> {
    let mut memory = junk(5);
    let got = s.load(text, &mut memory);
    equal("number and line", (got.number, got.line), (0, 0))?;
    let old = junk(5);
    equal_slices("states behind", &memory.states[STATE_PLACES..], &old.states[STATE_PLACES..])?;
    let m = MAPPING_PLACES;
    equal_slices("codes behind", &memory.codes[m..], &old.codes[m..])?;
    equal_slices("infos behind", &memory.infos[m..], &old.infos[m..])?;
    equal_slices("order behind", &memory.order[m..], &old.order[m..])?;
    Ok((got.record, memory))
}

/// Accepted with exactly this form.
fn has_form(
    s: &dyn Subject,
    text: &[u8],
    record: Record,
    states: &[(usize, usize, usize, u16)],
    entries: &[(u32, u32)],
    order: &[u32],
) -> Result<(), String> {
    let (got_record, got) = is_accepted(s, text)?;
    equal("record", got_record, record)?;
    let mut want = junk(5);
    want.set_needed(&Memory::zeros());
    for &(row, from, to, number) in states {
        want.states[row * 256 + from..=row * 256 + to].fill(number);
    }
    for (i, &(code, info)) in entries.iter().enumerate() {
        want.codes[i] = code;
        want.infos[i] = info;
    }
    want.order[..order.len()].copy_from_slice(order);
    equal_memory(&got, &want)?;
    equal("the test behind 60", s.check(&got_record, &got), 0)
}

pub fn hex(text: &str) -> Vec<u8> {
    let digits: Vec<u8> = text.bytes().filter(|b| *b != b' ').collect();
    digits
        .chunks(2)
        .map(|pair| u8::from_str_radix(std::str::from_utf8(pair).unwrap(), 16).unwrap())
        .collect()
}

fn position(hex_code: &str) -> (u32, u32) {
    let code = hex(hex_code);
    let bits = code.iter().enumerate().fold(0, |n, (i, &b)| n + ((b as u32) << (24 - 8 * i)));
    (bits, code.len() as u32)
}

// ---------------------------------------------------------------------------
// The list
// ---------------------------------------------------------------------------

pub struct List {
    pub cases: Vec<Case>,
}

pub const STRICT: Settings = Settings { fallback: false, substitute: false, skip: false };
pub const SUBST: Settings = Settings { fallback: false, substitute: true, skip: false };
pub const FALL: Settings = Settings { fallback: true, substitute: false, skip: false };
const FALL_SUBST: Settings = Settings { fallback: true, substitute: true, skip: false };
// The same with illegal sequences passed over.
const SKIP: Settings = skipping(STRICT);
const SKIP_SUBST: Settings = skipping(SUBST);
const SKIP_FALL: Settings = skipping(FALL);
const SKIP_FALL_SUBST: Settings = skipping(FALL_SUBST);

pub const fn skipping(set: Settings) -> Settings {
    Settings { skip: true, ..set }
}

/// The number at a conversion's end, and the length of the sequence for 52.
#[derive(Clone, Copy)]
pub struct End {
    pub number: u32,
    pub length: u64,
}

/// 52 for a sequence of this length.
pub const fn illegal(length: u64) -> End {
    End { number: 52, length }
}

impl From<u32> for End {
    fn from(number: u32) -> End {
        assert_ne!(number, 52, "52 comes with a length");
        End { number, length: 0 }
    }
}

/// Answer and output of a conversion; the rest of the space untouched. What a
/// case says without skipping holds with it too, unless it is 52.
fn converts_to(
    set: Settings,
    space: usize,
    end: End,
    read: u64,
    out: &[u8],
    convert: impl Fn(&mut [u8], Settings) -> Piped,
) -> Result<(), String> {
    let want = Piped { number: end.number, read, written: out.len() as u64, length: end.length };
    let mut want_output = old_bytes(space);
    want_output[..out.len()].copy_from_slice(out);
    let mut output = old_bytes(space);
    equal("answer", convert(&mut output, set), want)?;
    equal_slices("output", &output, &want_output)?;
    if set.skip {
        return Ok(());
    }
    let mut output = old_bytes(space);
    let got = convert(&mut output, skipping(set));
    if end.number == 52 {
        equal("skipping, 52 or a length", got.number == 52 || got.length != 0, false)?;
        equal("skipping, at least as far", got.read >= read && got.written >= want.written, true)?;
        return equal_slices("skipping, output before", &output[..out.len()], out);
    }
    equal("skipping, answer", got, want)?;
    equal_slices("skipping, output", &output, &want_output)
}

/// The name of a conversion's case.
fn named(way: &str, scheme: Scheme, set: Settings, name: &str, number: u32) -> String {
    let how = if set.skip { ", skipping" } else { "" };
    format!("{way} {}{how}, {name}: {number}", scheme.name())
}

impl List {
    fn add(
        &mut self,
        name: impl Into<String>,
        run: impl Fn(&dyn Subject) -> Result<(), String> + 'static,
    ) {
        self.cases.push(Case { name: name.into(), run: Box::new(run) });
    }

    /// Refused as it stands.
    fn no1(&mut self, name: &str, text: impl AsRef<[u8]>, number: u32, line: u64) {
        let text = text.as_ref().to_vec();
        self.add(format!("{name}: {number} at line {line}"), move |s| {
            is_refused(s, &text, number, line)
        });
    }

    /// Refused as it stands, with CR LF, and with comments and blanks around.
    fn no(&mut self, name: &str, text: impl AsRef<[u8]>, number: u32, line: u64) {
        let text = text.as_ref();
        self.no1(name, text, number, line);
        self.no1(&format!("{name} (CR LF)"), with_cr_lf(text), number, line);
        let count = text.split_inclusive(|&b| b == b'\n').count() as u64;
        let line = if number == 27 { 3 * count + 1 } else { 3 * line };
        self.no1(&format!("{name} (dressed)"), dressed(text), number, line);
    }

    /// Accepted with the form of K.
    fn k1(&mut self, name: &str, text: impl AsRef<[u8]>) {
        let text = text.as_ref().to_vec();
        self.add(format!("{name}: is K"), move |s| {
            has_form(s, &text, K_RECORD, K_STATES, K_ENTRIES, K_ORDER)
        });
    }

    fn k(&mut self, name: &str, text: impl AsRef<[u8]>) {
        let text = text.as_ref();
        self.k1(name, text);
        self.k1(&format!("{name} (CR LF)"), with_cr_lf(text));
        self.k1(&format!("{name} (dressed)"), dressed(text));
    }

    /// Accepted with this record; also with CR LF and dressed.
    fn yes(&mut self, name: &str, text: impl AsRef<[u8]>, record: Record) {
        let plain = text.as_ref().to_vec();
        let texts = [plain.clone(), with_cr_lf(&plain), dressed(&plain)];
        for (text, how) in texts.into_iter().zip(["", " (CR LF)", " (dressed)"]) {
            self.add(format!("{name}{how}: accepted"), move |s| {
                let (got, memory) = is_accepted(s, &text)?;
                equal("record", got, record)?;
                equal("the test behind 60", s.check(&got, &memory), 0)
            });
        }
    }

    fn form(
        &mut self,
        name: &str,
        text: impl AsRef<[u8]>,
        record: Record,
        states: &'static [(usize, usize, usize, u16)],
        entries: &'static [(u32, u32)],
        order: &'static [u32],
    ) {
        let text = text.as_ref().to_vec();
        self.add(format!("{name}: form"), move |s| {
            has_form(s, &text, record, states, entries, order)
        });
    }

    /// To UTF-8: answer, bytes read, output; the rest of the space untouched.
    #[allow(clippy::too_many_arguments)]
    fn to(
        &mut self,
        name: &str,
        table: impl AsRef<[u8]>,
        input: &str,
        space: usize,
        set: Settings,
        end: impl Into<End>,
        read: u64,
        out: &str,
    ) {
        self.to_in(Scheme::Utf8, name, table, input, space, set, end, read, out);
    }

    /// The same to a scheme.
    #[allow(clippy::too_many_arguments)]
    fn to_in(
        &mut self,
        scheme: Scheme,
        name: &str,
        table: impl AsRef<[u8]>,
        input: &str,
        space: usize,
        set: Settings,
        end: impl Into<End>,
        read: u64,
        out: &str,
    ) {
        let (table, input, out, end) = (table.as_ref().to_vec(), hex(input), hex(out), end.into());
        self.add(named("to", scheme, set, name, end.number), move |s| {
            let (record, memory) = is_accepted(s, &table)?;
            converts_to(set, space, end, read, &out, |output, set| {
                s.to_unicode(&record, &memory, &input, output, scheme, set)
            })
        });
    }

    /// From UTF-8. The length for 52 is 1 there, and 4 in UTF-32.
    #[allow(clippy::too_many_arguments)]
    fn from(
        &mut self,
        name: &str,
        table: impl AsRef<[u8]>,
        input: &str,
        space: usize,
        set: Settings,
        number: u32,
        read: u64,
        out: &str,
    ) {
        self.from_in(Scheme::Utf8, name, table, input, space, set, number, read, out);
    }

    /// The same from a scheme.
    #[allow(clippy::too_many_arguments)]
    fn from_in(
        &mut self,
        scheme: Scheme,
        name: &str,
        table: impl AsRef<[u8]>,
        input: &str,
        space: usize,
        set: Settings,
        number: u32,
        read: u64,
        out: &str,
    ) {
        let (table, input, out) = (table.as_ref().to_vec(), hex(input), hex(out));
        let end = match (number, scheme) {
            (52, Scheme::Utf8) => illegal(1),
            (52, _) => illegal(4),
            _ => number.into(),
        };
        self.add(named("from", scheme, set, name, number), move |s| {
            let (record, memory) = is_accepted(s, &table)?;
            converts_to(set, space, end, read, &out, |output, set| {
                s.from_unicode(&record, &memory, &input, output, scheme, set)
            })
        });
    }

    /// One audit call. Positions are (bits, length).
    #[allow(clippy::too_many_arguments)]
    fn audit(
        &mut self,
        name: &str,
        table: impl AsRef<[u8]>,
        fallback: bool,
        from: (u32, u32),
        allowance: u64,
        space: usize,
        number: u32,
        list: &[(&str, u64)],
        to: (u32, u32),
        finished: bool,
        count: u64,
    ) {
        let table = table.as_ref().to_vec();
        let list: Vec<u64> = list
            .iter()
            .map(|(code, cause)| {
                let (bits, len) = position(code);
                bits as u64 + ((len as u64) << 32) + (cause << 40)
            })
            .collect();
        self.add(format!("audit, {name}: {number}"), move |s| {
            let (record, memory) = is_accepted(s, &table)?;
            let mut entries = old_entries(space);
            let got =
                s.audit(&record, &memory, fallback, from.0, from.1, allowance, &mut entries);
            let want = Audited {
                number,
                entries: list.len() as u64,
                bits: to.0,
                len: to.1,
                finished,
                count,
            };
            equal("answer", got, want)?;
            let mut want = old_entries(space);
            want[..list.len()].copy_from_slice(&list);
            equal_slices("entries", &entries, &want)
        });
    }

    /// The test behind 60 on K's memory after a change; with 60 the pipes and
    /// the audit must refuse too and leave everything as it was.
    fn behind60(
        &mut self,
        name: &str,
        want: u32,
        change: impl Fn(&mut Record, &mut Memory) + 'static,
    ) {
        self.behind60_of(name, K, want, change);
    }

    fn behind60_of(
        &mut self,
        name: &str,
        table: impl AsRef<[u8]>,
        want: u32,
        change: impl Fn(&mut Record, &mut Memory) + 'static,
    ) {
        let table = table.as_ref().to_vec();
        self.add(format!("test behind 60, {name}: {want}"), move |s| {
            let (mut record, mut memory) = is_accepted(s, &table)?;
            change(&mut record, &mut memory);
            equal("check", s.check(&record, &memory), want)?;
            if want == 60 {
                let none = Piped { number: 60, read: 0, written: 0, length: 0 };
                // Good bytes and a mark, and what is illegal at once or behind a mark.
                let inputs: [(&[u8], &[u8]); 2] =
                    [(b"3", b"\x00\x00\xfe\xff3"), (b"\xff", b"\xff\xfe\x00\x00\xff\xff\xff\xff")];
                for (scheme, set) in Scheme::ALL.into_iter().flat_map(|s| [(s, FALL_SUBST), (s, SKIP_FALL_SUBST)]) {
                    // With three places there would be no room for a mark: 60 comes first.
                    for (space, (frame, text)) in [3, 9].into_iter().flat_map(|space| inputs.map(|i| (space, i))) {
                        let mut output = old_bytes(space);
                        let got = s.to_unicode(&record, &memory, frame, &mut output, scheme, set);
                        equal(&format!("to {}", scheme.name()), got, none)?;
                        let got = s.from_unicode(&record, &memory, text, &mut output, scheme, set);
                        equal(&format!("from {}", scheme.name()), got, none)?;
                        equal_slices("output", &output, &old_bytes(space))?;
                    }
                }
                let mut entries = old_entries(9);
                // A position that would be 40: 60 comes first.
                let got = s.audit(&record, &memory, true, 0x8100_0001, 7, 99, &mut entries);
                let none = Audited {
                    number: 60,
                    entries: 0,
                    bits: 0x8100_0001,
                    len: 7,
                    finished: false,
                    count: 0,
                };
                equal("audit", got, none)?;
                equal_slices("entries", &entries, &old_entries(9))?;
            }
            Ok(())
        });
    }
}

pub fn all() -> List {
    let mut l = List { cases: Vec::new() };
    document_cases(&mut l);
    numbers(&mut l);
    fallbacks(&mut l);
    text_readings(&mut l);
    rule_readings(&mut l);
    sizes(&mut l);
    forms(&mut l);
    behind_60(&mut l);
    behind_60_by_t10(&mut l);
    conversions(&mut l);
    utf32_k(&mut l);
    utf32_marks(&mut l);
    utf32_values(&mut l);
    utf32_spaces(&mut l);
    utf32_settings(&mut l);
    utf32_long(&mut l);
    skip_k(&mut l);
    skip_cuts(&mut l);
    skip_settings(&mut l);
    skip_spaces(&mut l);
    skip_utf8(&mut l);
    skip_utf32(&mut l);
    skip_long(&mut l);
    audits(&mut l);
    l
}

/// Document 01, cases 1 to 11.
fn document_cases(l: &mut List) {
    l.k("K", K);
    l.to("case 1", K, "817C33", 9, STRICT, 0, 3, "E2889233");
    l.from("case 2", K, "E2889233", 9, STRICT, 0, 4, "817C33");
    l.from("case 3, strict", K, "EFBC8D33", 9, STRICT, 53, 0, "");
    l.from("case 3, substitute", K, "EFBC8D33", 9, SUBST, 0, 4, "3F33");
    l.from("case 3, fallback", K, "EFBC8D33", 9, FALL, 0, 4, "817C33");
    l.from("case 3, fallback and substitute", K, "EFBC8D33", 9, FALL_SUBST, 0, 4, "817C33");
    for (set, how) in [(STRICT, "strict"), (SUBST, "substitute")] {
        l.to(&format!("case 4, 81, {how}"), K, "81", 9, set, 51, 0, "");
        l.to(&format!("case 4, 81 2D 33, {how}"), K, "812D33", 9, set, illegal(1), 0, "");
        l.to(&format!("case 4, empty, {how}"), K, "", 9, set, 0, 0, "");
    }
    l.to("case 5, substitute", K, "8180", 9, SUBST, 0, 2, "EFBFBD");
    l.to("case 5, strict", K, "8180", 9, STRICT, 53, 0, "");
    l.to("case 6", K, "817C", 2, STRICT, 50, 0, "");
    let list = [("3F", 2), ("817D", 3), ("8180", 1)];
    let begin = (0, 0);
    l.audit("case 7", K, false, begin, 99, 9, 0, &list, position("8180"), true, 7);
    l.audit("case 8, allowance 0", K, false, begin, 0, 9, 0, &[], begin, false, 0);
    let lead = position("81");
    l.audit("case 8, position 81", K, false, lead, 99, 9, 40, &[], lead, false, 0);

    l.no("case 9, line 14 with |0", k_line(14, "<U2212> \\x81\\x7D |0"), 25, 14);
    l.no("case 9, line 13 with |3", k_line(13, "<UFF0D> \\x81\\x7C |3"), 24, 13);
    l.no("case 9, mb_cur_max 1", k_line(3, "<mb_cur_max> 1"), 16, 8);
    l.no1("case 9, empty text", "", 27, 1);
    let rows = ["0-ff:1", "0-ff:2", "0-ff:3", "0-ff"];
    let sub = "\\x01\\x02\\x03\\x04";
    let record = [4, 0, 1, 4, 0x0102_0304, 4, 0];
    l.yes("case 9, four bytes", mbcs(4, sub, &rows, &[]), record);
    let rows = ["0-ff:1", "0-ff:2", "0-ff:3", "0-ff:4", "0-ff"];
    l.no("case 9, five rows deep", mbcs(4, sub, &rows, &[]), 16, 11);

    l.yes("case 10, 2,048 mappings", many(2048), [2, 2048, 1, 2, 0x0101_0000, 2, 0]);
    l.no("case 10, 2,049 mappings", many(2049), 26, 8 + 2049);

    let lines = ["<U0041> \\x01", "<U2262> \\x02", "<U0391> \\x03", "<U002E> \\x04"];
    let t = sbcs("<subchar> \\x3f", &lines);
    l.from("case 11", &t, "41E289A2CE912E", 9, STRICT, 0, 7, "01020304");
    l.to("case 11, back", &t, "01020304", 9, STRICT, 0, 4, "41E289A2CE912E");

    // The errors a hurried fitter would build in.
    l.to("a |1 line is not read", K, "817C", 9, FALL, 0, 2, "E28892");
    let twice = k_line(6, "<icu:state> 2d, 30, 33, 3f, 81, 81:1");
    l.k("the later of two overlapping entries wins", twice);
    let twice = k_line(6, "<icu:state> 2d, 30, 33, 3f, 81:1, 81");
    l.no("the later of two overlapping entries wins, other way", twice, 21, 12);
    l.from("C0 AD is no minus", K, "C0AD", 9, SUBST, 52, 0, "");
    l.from("ED A0 80 is illegal", K, "EDA080", 9, SUBST, 52, 0, "");
    l.to("cut short is not unassigned", K, "3381", 9, SUBST, 51, 1, "33");
}

/// For every number: plain, dressed, and with higher numbers on the same line.
fn numbers(l: &mut List) {
    // 10
    l.no("no form, header", k_insert(2, "garbage"), 10, 2);
    l.no("no form, body", k_insert(9, "garbage"), 10, 9);
    l.no("no form, end", k_insert(16, "garbage"), 10, 16);
    l.no("no form, though the key is there again with a bad value",
        k_insert(3, b"<mb_cur_min> 9 \xff"), 10, 3);
    l.no("no form, though a byte breaks a row of 12, 14 and 15",
        k_line(6, b"<icu:state> surrogates, zz, 7d-7c:80 \xff"), 10, 6);
    l.no("no form, though the code point is too large", k_line(9, "<U110000> \\x2D |9"), 10, 9);
    l.no("no form, though a plus is right", k_line(9, "<U41>+<U42> \\x2D |9"), 10, 9);
    for bad in ["<U0041>", "<U0041> |0", "\\x41 |0", "<U0041> 41 |0", "<U0041> \\x4 |0",
        "<U0041> \\x4g |0", "<U0041> \\x41 |", "<U0041> \\x41 |5", "<U0041> \\x41 |00",
        "<U0041> \\x41 0", "<U0041> \\x41 |0 |0", "<U0041> |0 \\x41", "<U0041> \\x41 |0 x",
        "<U0041 \\x41 |0", "U0041> \\x41 |0", "<0041> \\x41 |0", "<U0041> \\x41 |0 \"",
        "\"", "<U0041> \\x41 \"#\" |0", "<U0041> \\x41 |0 <U0042>", "<U0041> \\x41\\",
        "<U0041> \\x41\\x", "<U0041> \\x41 |-", "<U004G> \\x41 |0", "<U-41> \\x41 |0",
        "<U+0041> \\x41 |0", "<U0041> x41 |0", "|0", "+", "<", "<U", "<U>", "\\", "\\x41"] {
        l.no(&format!("no mapping form `{bad}`"), k_line(9, bad), 10, 9);
    }

    // 11
    for (n, line) in k_lines().iter().take(5).enumerate() {
        let name = format!("once-only key of line {} again", n + 1);
        l.no(&name, k_insert(7, line), 11, 7);
    }
    let sub1 = k_insert(6, "<subchar1> \\x33");
    let mut lines: Vec<Bytes> = sub1.split(|&b| b == b'\n').map(|x| x.to_vec()).collect();
    lines.pop();
    lines.insert(7, b"<subchar1> \\x33".to_vec());
    l.no("subchar1 again", joined(&lines), 11, 8);
    l.no("again, though its value is bad", k_insert(8, "<mb_cur_max> x"), 11, 8);
    l.no("again, though its class is not built", k_insert(8, "<uconv_class> \"DBCS\""), 11, 8);
    l.no("again, though empty", k_insert(2, "<code_set_name>"), 11, 2);

    // 12
    for bad in ["<code_set_name>", "<code_set_name> \"\"", "<code_set_name> k",
        "<code_set_name> 'k'", "<code_set_name> \"k\" x", "<code_set_name> \"k\" \"l\"",
        "<code_set_name> \"k\"\"l\"", "<code_set_name> x \"k\"", "<code_set_name> k\"k\""] {
        l.no(&format!("value of `{bad}`"), k_line(1, bad), 12, 1);
    }
    for bad in ["", "0", "5", "9", "01", "12", "1 1", "-1", "+1", "\"1\"", "a", "1.", "one", "\\x01",
        "1,", "1 x", "11"] {
        l.no(&format!("mb_cur_min `{bad}`"), k_line(2, format!("<mb_cur_min> {bad}")), 12, 2);
        l.no(&format!("mb_cur_max `{bad}`"), k_line(3, format!("<mb_cur_max> {bad}")), 12, 3);
    }
    for bad in ["", "MBCS", "\"\"", "\"mbcs\"", "\"MBCS \"", "\" MBCS\"", "\"MBCS\" x", "\"M BCS\"",
        "\"UTF-8\"", "\"SBCSX\"", "\"SBC\"", "DBCS", "\"dbcs\"", "\"EBCDIC\"", "\"ISO_2022\"",
        "\"MBCS\"\"MBCS\"", "'MBCS'", "\"EBCDIC_STATEFUL \"", "\"DBCS\" \"DBCS\""] {
        l.no(&format!("class `{bad}`"), k_line(4, format!("<uconv_class> {bad}")), 12, 4);
    }
    for bad in ["", "3F", "\\x3", "\\x", "\\x3G", "\\X3F", "\\x3F\\x3F\\x3F\\x3F\\x3F", "\"\\x3F\"",
        "\\x3F |0", "\\x3F+\\x3F", "\\x3F,\\x3F", "\\x3F x", "\\ x3F", "\\x 3F", "\\x3 F",
        "\\x3F\\", "x3F", "0x3F", "<U003F>"] {
        l.no(&format!("subchar `{bad}`"), k_line(5, format!("<subchar> {bad}")), 12, 5);
    }
    for bad in ["", "3F", "\\x3F\\x3F", "\\x3F \\x3F", "\\x3", "\"\\x3F\"", "none", "\\x3F+"] {
        l.no(&format!("subchar1 `{bad}`"), k_insert(6, format!("<subchar1> {bad}")), 12, 6);
    }
    for bad in [",", "30,", ",30", "30,,31", "30 31", "30-", "-30", "30-31-32", "30:", ":1",
        "30::1", "30:1:1", "30..", "30.x", "30.uu", "30.u.u", "30.u:0", "30.1", "30.e", "130",
        "30-131", "30:100", "30:001", "g", "0x30", "30;31", "\\x30", "30.up", "30.u p", "3 0",
        "30 -", "30.u 31", "30:1 1", "30 u", "30u", "30p", "|0", "30-31:", "30:-1", "30|0",
        "i", "u", ".", ".u", ":", "-", "30.initial", "30, initial"] {
        l.no(&format!("row `{bad}`"), k_line(6, format!("<icu:state> {bad}")), 12, 6);
        l.no(&format!("second row `{bad}`"), k_line(7, format!("<icu:state> {bad}")), 12, 7);
    }
    l.no("12 before 14 and 15", k_line(6, "<icu:state> surrogates, 30.s, 7d-7c, 40:80, zz"), 12, 6);
    l.no("12 though the class is named", k_line(4, "<uconv_class> \"DBCS\" \"x\""), 12, 4);

    // 13
    for n in 1..=5 {
        l.no(&format!("line {n} absent"), k_delete(n), 13, 7);
    }
    let mut lines = k_lines();
    lines.drain(5..7);
    l.no("no row", joined(&lines), 13, 6);
    l.no("only CHARMAP", "CHARMAP\n", 13, 1);
    l.no("CHARMAP after ignored keys", "<a> b\n<U0041> \\x41 |4\nCHARMAP\nEND CHARMAP\n", 13, 3);
    let mut lines = k_lines();
    lines[1] = b"<mb_cur_min> 3".to_vec();
    lines[5] = b"<icu:state> 0-ff:0".to_vec();
    lines.remove(4);
    l.no("subchar absent, though min, max and T2 are broken", joined(&lines), 13, 7);

    // 14
    l.no("DBCS", k_line(4, "<uconv_class> \"DBCS\""), 14, 4);
    l.no("EBCDIC_STATEFUL", k_line(4, "<uconv_class> \"EBCDIC_STATEFUL\""), 14, 4);
    l.no("icu:base", k_insert(1, "<icu:base> \"x\""), 14, 1);
    l.no("surrogates on row 0", k_line(6, "<icu:state> surrogates, 30"), 14, 6);
    l.no("surrogates on row 1", k_line(7, "<icu:state> surrogates, 30"), 14, 7);
    l.no("initial on row 1", k_line(7, "<icu:state> initial, 7c-7d, 80.u"), 14, 7);
    l.no("letter s", k_line(6, "<icu:state> 2d.s"), 14, 6);
    l.no("letter s with next row 0", k_line(6, "<icu:state> 2d:0.s"), 14, 6);
    l.no("letter s with next row 1", k_line(6, "<icu:state> 2d:1.s"), 14, 6);
    for end in [".", ".u", ".p", ".i", ".s"] {
        let row = format!("<icu:state> 2d:1{end}");
        l.no(&format!("an end to row 1 `{end}`"), k_line(6, row), 14, 6);
    }
    l.no("second CHARMAP", k_insert(9, "CHARMAP"), 14, 9);
    l.no("second CHARMAP before the end", k_insert(15, "CHARMAP"), 14, 15);
    l.no("CHARMAP after the end", k_insert(16, "CHARMAP"), 14, 16);
    l.no("a second part", k_insert(16, "CHARMAP\nEND CHARMAP"), 14, 16);
    l.no("indicator 4", k_line(9, "<U002D> \\x2D |4"), 14, 9);
    l.no("two code points", k_line(9, "<U002D><U0041> \\x2D |0"), 14, 9);
    l.no("two code points, blank", k_line(9, "<U002D> <U0041> \\x2D"), 14, 9);
    l.no("plus between code points", k_line(9, "<U002D>+<U0041> \\x2D |0"), 14, 9);
    l.no("plus between bytes", k_line(9, "<U002D> \\x81+\\x7C |0"), 14, 9);
    l.no("004's own example",
        k_line(9, "<U101234>+<U50005>+<U60006> \\x07+\\x00+\\x01\\x02\\x0f+\\x09 |0"), 14, 9);
    l.no("14, though the range falls and the row is far",
        k_line(6, "<icu:state> 7d-7c.s, 40:80"), 14, 6);
    l.no("14, though 15 stands before it", k_line(6, "<icu:state> 7d-7c, 30.s"), 14, 6);
    l.no("14, though T5 to T9 are broken", k_line(10, "<UD800> \\x99\\x99 |4"), 14, 10);
    l.no("14, though it repeats a line", k_line(10, "<U002D> \\x2D |4"), 14, 10);

    // 15
    l.no("falling range", k_line(6, "<icu:state> 7d-7c"), 15, 6);
    l.no("falling range that leads on", k_line(6, "<icu:state> 7d-7c:1"), 15, 6);
    l.no("next row 80", k_line(6, "<icu:state> 40:80"), 15, 6);
    l.no("next row ff", k_line(6, "<icu:state> 40:ff"), 15, 6);
    l.no("next row 80, overwritten", k_line(6, "<icu:state> 40:80, 0-ff"), 15, 6);
    l.no("falling range, overwritten", k_line(6, "<icu:state> 7d-7c, 0-ff"), 15, 6);
    let sixteen = vec!["30"; 16];
    let seventeen = vec!["30"; 17];
    l.yes("16 rows", mbcs(1, "\\x30", &sixteen, &[]), [16, 0, 1, 1, 0x3000_0000, 1, 0]);
    l.no("17th row", mbcs(1, "\\x30", &seventeen, &[]), 15, 22);
    l.no("17th row, empty", mbcs(1, "\\x30", &[&sixteen[..], &[""]].concat(), &[]), 15, 22);
    l.no("17th row, though required keys never come",
        "<icu:state>\n".repeat(17), 15, 17);

    // 16
    l.no("min above max", k_line(2, "<mb_cur_min> 3"), 16, 8);
    l.no("T2: row 2 of 2", k_line(6, "<icu:state> 2d, 30, 33, 3f, 81:2"), 16, 8);
    l.no("T2: row 7f", k_line(6, "<icu:state> 2d, 30, 33, 3f, 81:1, 82:7f"), 16, 8);
    l.no("T2: row 0", k_line(6, "<icu:state> 2d, 30, 33, 3f, 81:1, 82:0"), 16, 8);
    l.no("T3: circle", k_line(7, "<icu:state> 7c-7d, 80:1"), 16, 8);
    l.no("T3: an empty target row counts", mbcs(1, "\\x30", &["30, 81:1", ""], &[]), 16, 8);
    l.yes("T3: with max 2 it may stand", mbcs(2, "\\x30", &["30, 81:1", ""], &[]),
        [2, 0, 1, 2, 0x3000_0000, 1, 0]);
    for bad in ["\\x34", "\\x81", "\\x81\\x81", "\\x3F\\x3F", "\\x81\\x7C\\x3F", "\\x00"] {
        l.no(&format!("T4: subchar {bad}"), k_line(5, format!("<subchar> {bad}")), 16, 8);
    }
    l.no("T4: subchar1 81", k_insert(6, "<subchar1> \\x81"), 16, 9);
    l.no("T4: subchar1 34", k_insert(6, "<subchar1> \\x34"), 16, 9);
    l.no("T4: subchar of an illegal end", k_line(6, "<icu:state> 2d, 30, 33, 3f, 81:1, 3f.i"), 16, 8);

    // 20
    for bad in ["D800", "DBFF", "DC00", "DFFF", "110000", "FFFFFF", "00D800", "200000"] {
        l.no(&format!("T6: U+{bad}"), k_line(9, format!("<U{bad}> \\x2D |0")), 20, 9);
        l.no(&format!("T6: U+{bad}, |2"), k_line(9, format!("<U{bad}> \\x2D |2")), 20, 9);
        l.no(&format!("T6: U+{bad}, though T5, T7 and T9 too"),
            k_line(10, format!("<U{bad}> \\x00\\x2D |0")), 20, 10);
    }

    let bounds = ["<UD7FF> \\x01 |0", "<UE000> \\x02 |1", "<UFFFF> \\x03 |3", "<U0000> \\x04 |0", "<UE000> \\x02 |3"];
    l.yes("T6: the bounds", sbcs("<subchar> \\x3F", &bounds), [1, 5, 1, 1, 0x3f00_0000, 1, 0]);

    // 21
    for (bad, why) in [("\\x99", "illegal"), ("\\x81", "cut short"), ("\\x2D\\x2D", "goes on"),
        ("\\x81\\x80", "ended by u"), ("\\x81\\x81", "illegal second byte"),
        ("\\x81\\x7C\\x7C", "too long"), ("\\x2D\\x2D\\x2D\\x2D\\x2D", "five bytes")] {
        for kind in ["", " |0", " |1", " |3"] {
            let line = format!("<U0041> {bad}{kind}");
            l.no(&format!("T5: {why}{kind}"), k_line(9, line), 21, 9);
        }
    }
    l.no("T5: above U+FFFF without p", k_line(9, "<U10000> \\x2D |0"), 21, 9);
    l.no("T5: above U+FFFF without p, |3", k_line(9, "<U10FFFF> \\x2D |3"), 21, 9);
    l.no("T5: shorter than mb_cur_min", k_line(2, "<mb_cur_min> 2"), 21, 9);
    l.no("T5: two bytes where min is 3",
        k_change(&[(2, "<mb_cur_min> 3"), (3, "<mb_cur_max> 4"), (9, "<U0041> \\x81\\x7C |1")]), 21, 9);
    l.no("T5, though T7 and T9 too", k_line(10, "<U002D> \\x00\\x2D |0"), 21, 10);

    // 22
    let rows = ["0:1, 30", "0-ff"];
    let lines = ["<U0030> \\x30 |0", "<U0041> \\x00\\x41 |3", "<U0042> \\x00\\x42 |0"];
    l.no("T7: |0", mbcs(2, "\\x30", &rows, &lines), 22, 11);
    let lines = ["<U0030> \\x30 |0", "<U0041> \\x00\\x41 |3", "<U0042> \\x00\\x42 |1"];
    l.no("T7: |1", mbcs(2, "\\x30", &rows, &lines), 22, 11);
    let lines = ["<U0030> \\x30 |0", "<U0041> \\x00\\x41 |3", "<U0030> \\x00\\x41 |0"];
    l.no("T7, though T9 twice too", mbcs(2, "\\x30", &rows, &lines), 22, 11);
    let lines = ["<U0030> \\x30 |0", "<U0041> \\x00\\x41 |3", "<U0042> \\x00\\x00 |3"];
    l.yes("T7: |3 may", mbcs(2, "\\x30", &rows, &lines), [2, 3, 1, 2, 0x3000_0000, 1, 0]);

    // 23
    l.no("T8: no subchar1", k_line(9, "<U0041> \\x2D |2"), 23, 9);
    l.no("T8: no subchar1, 00", k_line(9, "<U0041> \\x00 |2"), 23, 9);
    l.no("T8: no subchar1, 00 legal", sbcs("<subchar> \\x00", &["<U0041> \\x00 |2"]), 23, 7);
    for bad in ["\\x30", "\\x2D\\x2D", "\\x81\\x7C", "\\x99", "\\x2D\\x2D\\x2D\\x2D\\x2D", "\\x00"] {
        let mut lines = k_lines();
        lines.insert(5, b"<subchar1> \\x2D".to_vec());
        lines.insert(12, format!("<U0041> {bad} |2").into_bytes());
        l.no(&format!("T8: {bad}"), joined(&lines), 23, 13);
        lines[12] = format!("<U0030> {bad} |2").into_bytes();
        l.no(&format!("T8: {bad}, though T9 too"), joined(&lines), 23, 13);
    }

    // 24
    l.no("T9 bytes: |0 and |0", k_line(10, "<U0041> \\x2D |0"), 24, 10);
    l.no("T9 bytes: |0 and |3", k_line(10, "<U0041> \\x2D |3"), 24, 10);
    l.no("T9 bytes: |3 and |0", k_insert(15, "<U0041> \\x81\\x7D"), 24, 15);
    l.no("T9 bytes: |3 and |3", k_insert(15, "<U0041> \\x81\\x7D |3"), 24, 15);
    l.no("T9 bytes, though code points too", k_line(10, "<U002D> \\x2D |0"), 24, 10);

    // 25
    l.no("T9 code points: |0 and |0", k_line(10, "<U002D> \\x30 |0"), 25, 10);
    l.no("T9 code points: |0 and |1", k_line(10, "<U002D> \\x30 |1"), 25, 10);
    l.no("T9 code points: |1 and |0", k_insert(14, "<UFF0D> \\x3F |0"), 25, 14);
    l.no("T9 code points: |1 and |1", k_insert(14, "<UFF0D> \\x3F |1"), 25, 14);
    let mut full = many(2048);
    full.truncate(full.len() - "END CHARMAP\n".len());
    let more = |line: &str| [&full[..], line.as_bytes(), b"\nEND CHARMAP\n"].concat();
    l.no("T9 code points, though the 2,049th too", more("<U0100> \\x09\\x00 |0"), 25, 8 + 2049);

    // 26
    l.no("2,049th, |3", more("<U0100> \\x09\\x00 |3"), 26, 8 + 2049);
    l.no("2,049th, |1", more("<U0041> \\x01\\x00 |1"), 26, 8 + 2049);
    l.no("2,049th of no form", more("<U0041> \\x01\\x00 |9"), 10, 8 + 2049);
    l.no("2,049th with |4", more("<U0041> \\x01\\x00 |4"), 14, 8 + 2049);
    l.no("2,049th a surrogate", more("<UD800> \\x01\\x00 |1"), 20, 8 + 2049);
    l.no("2,049th breaks T5", more("<U0041> \\x01 |1"), 21, 8 + 2049);
    l.no("2,049th breaks T7", more("<U0041> \\x00\\x01 |1"), 22, 8 + 2049);
    l.no("2,049th breaks T8", more("<U0041> \\x01 |2"), 23, 8 + 2049);
    l.no("2,049th breaks T9 by bytes", more("<U0041> \\x01\\x00 |0"), 24, 8 + 2049);
    let t = [&full[..], b"# no more\n\nEND CHARMAP\n# <U0041> \\x09\\x00\n"].concat();
    l.yes("comments are no 2,049th", t, [2, 2048, 1, 2, 0x0101_0000, 2, 0]);

    // 27
    l.no("no END", k_delete(15), 27, 15);
    l.no("only a header", "<code_set_name> \"x\"\n", 27, 2);
    l.no("nearly END", k_line(15, "# END CHARMAP"), 27, 16);
    let open = k_delete(15);
    l.no1("no END, no last LF", &open[..open.len() - 1], 27, 15);
}

/// T10 and number 28 (S15): a `|0` or `|3` line reads what a `|1` line writes.
fn fallbacks(l: &mut List) {
    l.no("T10: K's |1 line to 3F, which no line reads", k_void(), 28, 15);
    l.form(
        "T10: K's |1 line to 81 7D, which a |3 line reads",
        k_line(13, "<UFF0D> \\x81\\x7D |1"),
        K_RECORD,
        K_STATES,
        &[
            (0x2d00_0000, 0x0000_002d),
            (0x3000_0000, 0x0000_0030),
            (0x3300_0000, 0x0000_0033),
            (0x817c_0000, 0x0100_2212),
            (0x817d_0000, 0x0120_2212),
            (0x817d_0000, 0x0140_ff0d),
        ],
        &[0, 1, 2, 3, 4, 5],
    );
    l.form(
        "T10: K's |1 line to 2D, which a |0 line reads",
        k_line(13, "<UFF0D> \\x2D |1"),
        K_RECORD,
        K_STATES,
        &[
            (0x2d00_0000, 0x0000_002d),
            (0x2d00_0000, 0x0040_ff0d),
            (0x3000_0000, 0x0000_0030),
            (0x3300_0000, 0x0000_0033),
            (0x817c_0000, 0x0100_2212),
            (0x817d_0000, 0x0120_2212),
        ],
        &[0, 2, 3, 4, 5, 1],
    );
    l.no("T10: only another |1 line has the code", k_line(12, "<U2212> \\x81\\x7C |1"), 28, 15);
    l.yes("T10: no |1 line", k_delete(13), [2, 5, 1, 2, 0x3f00_0000, 1, 0]);

    // What stands behind END CHARMAP comes later, a line too that would read the code.
    for behind in ["garbage", "CHARMAP", "CHARMAP\n<U003F> \\x3F |0\nEND CHARMAP", "END CHARMAP", "<U003F> \\x3F |0",
        "<U0041> \\x3F |3", "<icu:base>", "# x", ""] {
        let text = [&k_void()[..], behind.as_bytes(), b"\n"].concat();
        l.no(&format!("T10: `{}` behind the end", behind.escape_debug()), text, 28, 15);
    }
    l.no("T10: K, `garbage` behind the end", [K, "garbage\n"].concat(), 10, 16);
    l.no("T10: K, `CHARMAP` behind the end", [K, "CHARMAP\n"].concat(), 14, 16);
    let void = k_void();
    let open = void.strip_suffix(END).expect("END CHARMAP is last");
    l.no("T10: no END", open, 27, 15);
    l.no("T10: nearly END", [open, b"# END CHARMAP\n"].concat(), 27, 16);
    l.no1("T10: END without a line's end", [open, b"END CHARMAP"].concat(), 28, 15);
    l.no1("T10: END CR without LF", [open, b"END CHARMAP\r"].concat(), 10, 15);
    l.no("T10: END with blanks and a comment", [open, b"\tEND \t CHARMAP # x\n"].concat(), 28, 15);
    l.no("T10: blank and comment lines before the end", and(&void, &["", "# x", " \t"]), 28, 18);

    // A line that is wrong, before the |1 line, itself or behind it.
    for (n, line, number, at) in [
        (3, "<mb_cur_max> 1", 16, 8),
        (9, "garbage", 10, 9),
        (10, "<U0041> \\x2D |0", 24, 10),
        (12, "<U0033> \\x81\\x7C |0", 25, 12),
        (13, "<UFF0D> \\x3F |4", 14, 13),
        (13, "<UD800> \\x3F |1", 20, 13),
        (13, "<U10000> \\x3F |1", 21, 13),
        (13, "<U2212> \\x3F |1", 25, 13),
        (14, "garbage", 10, 14),
        (14, "CHARMAP", 14, 14),
        (14, "<U0041> \\x2D |4", 14, 14),
        (14, "<UD800> \\x2D |0", 20, 14),
        (14, "<U0041> \\x99 |0", 21, 14),
        (14, "<U0041> \\x2D |2", 23, 14),
        (14, "<U0041> \\x2D |3", 24, 14),
        (14, "<U0033> \\x81\\x7D |0", 25, 14),
        (15, "END CHARMAP x", 10, 15),
    ] {
        let text = k_change(&[(13, "<UFF0D> \\x3F |1"), (n, line)]);
        l.no(&format!("T10, though line {n} is `{line}`"), text, number, at);
    }
    let rows = ["0:1, 30", "0-ff"];
    l.no("T10, though T7", mbcs(2, "\\x30", &rows, &["<U0041> \\x30 |1", "<U0042> \\x00\\x42 |0"]), 22, 10);

    // The reader stands anywhere.
    l.k("T10: the reader right behind",
        k_change(&[(12, "<UFF0D> \\x81\\x7C |1"), (13, "<U2212> \\x81\\x7C |0")]));
    l.k("T10: the |1 line first, the reader last", k_change(&[(9, "<UFF0D> \\x81\\x7C |1"), (10, "<U002D> \\x2D |0"),
        (11, "<U0030> \\x30 |0"), (12, "<U2212> \\x81\\x7D |3"), (13, "<U0033> \\x33 |0"),
        (14, "<U2212> \\x81\\x7C")]));
    l.yes("T10: the |3 line right before",
        k_change(&[(13, "<U2212> \\x81\\x7D |3"), (14, "<UFF0D> \\x81\\x7D |1")]), K_RECORD);

    // Several |1 lines.
    let four = ["<U2010> \\x81\\x7C |1", "<U2011> \\x81\\x7C |1", "<U2012> \\x81\\x7D |1", "<U2013> \\x81\\x7D |1"];
    l.yes("T10: several |1 lines to codes that are read", and(K, &four), [2, 10, 1, 2, 0x3f00_0000, 1, 0]);
    for i in 0..4 {
        let mut lines = four;
        lines[i] = "<U2014> \\x3F |1";
        l.no(&format!("T10: number {} of four more goes to 3F", i + 1), and(K, &lines), 28, 19);
    }
    l.no("T10: two |1 lines to 3F", and(K, &["<U2010> \\x3F |1", "<U2011> \\x3F |1"]), 28, 17);
    l.yes("T10: and a line that reads it", and(K, &["<U2010> \\x3F |1", "<U2011> \\x3F |1", "<U003F> \\x3F |3"]),
        [2, 9, 1, 2, 0x3f00_0000, 1, 0]);

    // |2 lines are not asked, and they do not read.
    let sub = "<subchar> \\x3F\n<subchar1> \\x1A";
    let record = |lines| [1, lines, 1, 1, 0x3f00_0000, 1, 0x1b];
    let (two, one, three) = ("<U0041> \\x1A |2", "<U0042> \\x1A |1", "<U0043> \\x1A |3");
    l.yes("T10: a |2 line whose byte nothing reads", sbcs(sub, &[two]), record(1));
    l.no("T10: only a |2 line has the code", sbcs(sub, &[two, one]), 28, 10);
    l.no("T10: only a |2 line has the code, other way", sbcs(sub, &[one, two]), 28, 10);
    l.yes("T10: |1, |2 and |3 of one code", sbcs(sub, &[one, two, three]), record(3));
    l.yes("T10: |3, |2 and |1 of one code", sbcs(sub, &[three, two, one]), record(3));
    l.yes("T10: |2 not read, |1 read", sbcs(sub, &[two, "<U0042> \\x42 |1", "<U0043> \\x42"]), record(3));

    // Bytes decide, not code points.
    let s = |lines: &[&str]| sbcs("<subchar> \\x3F", lines);
    let record = |lines| [1, lines, 1, 1, 0x3f00_0000, 1, 0];
    l.no("T10: a |3 line has the code point alone", s(&["<U0033> \\x33 |3", "<U0033> \\x34 |1"]), 28, 9);
    l.yes("T10: a |3 line has both", s(&["<U0033> \\x33 |3", "<U0033> \\x33 |1"]), record(2));
    // First, between and last among the codes that are read.
    for void in [0x40, 0x41, 0x42, 0x43, 0x44] {
        let code = format!("<U0100> \\x{void:02X} |1");
        let lines = ["<U0041> \\x41 |0", &code, "<U0043> \\x43 |3"];
        let name = format!("T10: 41 and 43 are read, |1 to {void:02X}");
        match void {
            0x41 | 0x43 => l.yes(&name, s(&lines), record(3)),
            _ => l.no(&name, s(&lines), 28, 10),
        }
    }
    // 00, of which the unused places of the memory are full.
    l.no("T10: |1 to 00 alone", s(&["<U0041> \\x00 |1"]), 28, 8);
    l.yes("T10: |1 to 00, read as U+0000", s(&["<U0041> \\x00 |1", "<U0000> \\x00"]), record(2));
    l.yes("T10: |1 to 00, read by |3", s(&["<U0041> \\x00 |1", "<U0042> \\x00 |3"]), record(2));

    // Codes that begin alike.
    let rows = ["41, 81:1", "0-3f, 40:2", "0-ff"];
    let codes = ["\\x41", "\\x81\\x00", "\\x81\\x01", "\\x81\\x3F", "\\x81\\x40\\x00", "\\x81\\x40\\x01",
        "\\x81\\x40\\xFF"];
    for (read, written) in codes.iter().flat_map(|read| codes.map(|written| (*read, written))) {
        for kind in ["|0", "|3"] {
            let (read_line, line) = (format!("<U0041> {read} {kind}"), format!("<U0042> {written} |1"));
            let text = mbcs(3, "\\x41", &rows, &[&read_line, &line]);
            let name = format!("T10: {read} is read by {kind}, {written} is written");
            match read == written {
                true => l.yes(&name, text, [3, 2, 1, 3, 0x4100_0000, 1, 0]),
                false => l.no1(&name, text, 28, 12),
            }
        }
    }
    // Packed alike: 41 and 41 00. No complete code begins another, so one of them breaks T5 first.
    let (one, two) = (["30, 41"], ["30, 41:1", "0"]);
    let lines = ["<U0041> \\x41 |0", "<U0042> \\x41\\x00 |1"];
    l.no("T10: 41 is read, 41 00 is written", mbcs(2, "\\x30", &one, &lines), 21, 9);
    l.no("T10: 41 is read, 41 00 is written and complete", mbcs(2, "\\x30", &two, &lines), 21, 9);
    let lines = ["<U0042> \\x41 |1", "<U0041> \\x41\\x00 |0"];
    l.no("T10: 41 00 is read, 41 is written", mbcs(2, "\\x30", &two, &lines), 21, 9);
    l.no("T10: 41 00 is read, 41 is written and complete", mbcs(2, "\\x30", &one, &lines), 21, 9);

    // Full tables: mapping i is line 8 + i.
    let record = [2, 2048, 1, 2, 0x0101_0000, 2, 0];
    l.no("T10: the last of 2,048 mappings", and(many(2047), &["<U0041> \\x09\\x00 |1"]), 28, 8 + 2048 + 1);
    l.yes("T10: the last of 2,048 mappings, read", and(many(2047), &["<U0041> \\x01\\x00 |1"]), record);
    l.yes("T10: the last of 2,048 mappings, read by the one before",
        and(many(2047), &["<U0041> \\x08\\xFE |1"]), record);
    l.no("T10, though a 2,049th mapping", and(many(2047), &["<U0041> \\x09\\x00 |1", "<U0042> \\x0A\\x00 |0"]), 26,
        8 + 2049);
    // So many |1 lines, then as many lines that read their codes, the other way round.
    let halves = |written: usize, read: usize| {
        let line = |cp: usize, i: usize, kind: &str| {
            format!("<U{:04X}> \\x01\\x{:02X}\\x{:02X} {kind}", cp + i, i / 256, i % 256)
        };
        let first = (0..written).map(|i| line(0x1000, i, "|1"));
        let then = (0..read).rev().map(|i| line(0x2000, i, if i % 2 == 0 { "|0" } else { "|3" }));
        let lines: Vec<String> = first.chain(then).collect();
        let lines: Vec<&str> = lines.iter().map(|l| l.as_str()).collect();
        mbcs(3, "\\x01\\x00\\x00", &["1:1", "0-ff:2", "0-ff"], &lines)
    };
    let record = |lines| [3, lines, 1, 3, 0x0100_0000, 3, 0];
    l.yes("T10: 1,024 |1 lines and their readers", halves(1024, 1024), record(2048));
    l.no("T10: 1,024 |1 lines and 1,023 readers", halves(1024, 1023), 28, 9 + 2047 + 1);
    l.yes("T10: 1,023 |1 lines and 1,024 readers", halves(1023, 1024), record(2047));
    l.no("T10: 2,048 |1 lines", halves(2048, 0), 28, 9 + 2048 + 1);

    // Fallback on, what is written reads.
    let t = k_line(13, "<UFF0D> \\x81\\x7D |1");
    l.from("|1 to the code of a |3 line", &t, "EFBC8D E28892", 9, FALL, 0, 6, "817D 817C");
    l.from("|1 to the code of a |3 line, fallback off", &t, "EFBC8D", 9, STRICT, 53, 0, "");
    l.to("|1 to the code of a |3 line, back", &t, "817D 817C", 9, STRICT, 0, 4, "E28892 E28892");
}

/// Readings R1 to R20.
fn text_readings(l: &mut List) {
    l.k1("K with every liberty of the grammar", K_FREE);

    // R1
    l.k1("R1: open class", k_line(4, "<uconv_class> \"MBCS"));
    l.k1("R1: open class (CR LF)", with_cr_lf(&k_line(4, "<uconv_class> \"MBCS")));
    l.no1("R1: open class with a blank", k_line(4, "<uconv_class> \"MBCS "), 12, 4);
    l.no1("R1: open class with a comment inside", k_line(4, "<uconv_class> \"MBCS#"), 12, 4);
    l.no1("R1: open class, not built", k_line(4, "<uconv_class> \"DBCS"), 14, 4);
    l.no1("R1: open and empty name", k_line(1, "<code_set_name> \""), 12, 1);
    l.k1("R1: open name", k_line(1, "<code_set_name> \"a # b"));
    l.k1("R1: open name of one blank", k_line(1, "<code_set_name> \" "));
    l.k("R1: name with #", k_line(1, "<code_set_name> \"#\""));
    l.k("R1: name of a blank", k_line(1, "<code_set_name> \" \""));
    l.k("R1: comment right behind", k_line(1, "<code_set_name> \"a\"#\""));
    l.k1("R1: an open quote ends with its line", k_line(1, "<code_set_name> \"kettle-1"));
    l.k1("R1: open quote of an ignored key", k_insert(1, "<a> x \"y # z"));
    l.no1("R1: `\"a\" #\"` and a bad byte behind `#` in an open quote is inside",
        k_line(1, b"<code_set_name> \"a\" \"# \xff"), 12, 1);

    // R2
    l.k1("R2: 80 up and CR in a name", k_line(1, b"<code_set_name> \"\x80\xff\r.\""));
    l.k1("R2: in an open name", k_line(1, b"<code_set_name> \"\xff\r."));
    l.k("R2: in quotes behind an ignored key", k_insert(1, b"<a> x \"\xff\r\" y \"\x80\""));
    l.k1("R2: in open quotes behind an ignored key", k_insert(1, b"<a> x \"\" y \"\x80\r\xff"));
    l.no("R2: between quotes", k_insert(1, b"<a> \"x\" \xff \"y\""), 10, 1);
    l.no("R2: CR between quotes", k_insert(1, b"<a> \"x\" \r \"y\""), 10, 1);
    l.no("R2: in quotes of a digit", k_line(3, b"<mb_cur_max> \"\xff\""), 12, 3);
    l.no("R2: in quotes behind a digit", k_line(3, b"<mb_cur_max> 2 \"\xff\""), 12, 3);
    l.no("R2: in quotes of a row", k_line(6, b"<icu:state> \"\xff\""), 12, 6);
    l.no("R2: in quotes of icu:base", k_insert(1, b"<icu:base> \"\xff\""), 14, 1);
    l.no("R2: in quotes of a class", k_line(4, b"<uconv_class> \"MBCS\xff\""), 12, 4);

    // R3
    l.k("R3: a quote in a key opens nothing", k_insert(1, b"<a\"b> x # \xff\r."));
    l.no("R3: so this byte is outside", k_insert(1, b"<a\"b> \xff"), 10, 1);
    l.no("R3: and this one", k_insert(1, b"<a\"b> \" \" \xff"), 10, 1);
    l.k("R3: the quote behind it does", k_insert(1, b"<a\"b> \"# \xff\""));
    l.k("R3: a key of a quote", k_insert(1, b"<\"> x"));
    l.no("R3: a comment inside a key", k_insert(1, "<a#b> x"), 10, 1);

    // R4
    for line in [&b"<a> \xff"[..], b"<a> x\x80", b"<a>\xc3\xa4", b"<a> \r x", b"\xff", b"\r x",
        b"<mb_cur_max> 2\xff", b"<mb_cur_max>\xff", b"<mb_cur_max> \r2", b"<code_set_name> \"a\" \xff",
        b"<icu:base> \xff", b"<icu:base> x\r x", b"<\xff> x", b"<a\r> x", b"\xff <a> x", b"<icu:state> 30 \xff",
        b"<uconv_class> \"MBCS\xff\" \xff", b"CHARMAP \xff", b"CHARMAP \r x", b"\x80CHARMAP"] {
        let name = format!("R4: {}", line.escape_ascii());
        l.no(&name, k_insert(1, line), 10, 1);
    }
    for line in [&b"<U0041> \\x3F |0 \xff"[..], b"\xff<U0041> \\x3F", b"<U0041>\r\\x3F", b"\x80", b"\r x",
        b"<U0041\xff> \\x3F", b"<U0041> \\x3F\xff", b"END CHARMAP \xff", b"END \r CHARMAP"] {
        let name = format!("R4, body: {}", line.escape_ascii());
        l.no(&name, k_insert(9, line), 10, 9);
        l.no(&name.replace("body", "end"), k_insert(16, line), 10, 16);
    }
    l.no1("R4: byte order mark", [b"\xef\xbb\xbf", K.as_bytes()].concat(), 10, 1);
    l.k1("R4: byte order mark in a comment", [b"#\xef\xbb\xbf\n", K.as_bytes()].concat());
    for n in [1, 2, 3, 5, 6, 7, 8, 9, 13, 15] {
        let line = [k_lines()[n - 1].as_slice(), b"#\xff\r\x80"].concat();
        l.k(&format!("R4: in the comment of line {n}"), k_line(n, line));
    }

    // R5
    for bad in [&b"<>"[..], b"<> x", b"<f\x7f>", b"<f", b"<f g>", b"< f>", b"<f >", b"<f\tg>", b"<f<g>",
        b"<<f>", b"f>", b">", b"<", b"f", b"<f\x00>", b"<f\x1f>", b"x <f> y", b"\"<f>\"", b"<f#> x"] {
        l.no(&format!("R5: {}", bad.escape_ascii()), k_insert(3, bad), 10, 3);
    }
    for good in ["<!>", "<~> x", "<f>>", "<f><", "<f><g> x", "<f>g", "<f:g> <code_set_name> \"x\"",
        "<CHARMAP>", "<U0041>", "<U0041> \\x41 |4", "<U0041>+<U0042> x", "<UD800> \\x99 |0",
        "<mb_cur_mi> 9", "<mb_cur_min_> 9", "<subchar2> x", "<subchar11> x", "<icu:states> zz", "<icu:stat> zz",
        "<icu:basE> x", "<code_set_name_> x", "<charset> x", "<char_name_mask> \"AXXXX\"",
        "<icu:charsetFamily> \"ASCII\"", "<uconv_clas> \"DBCS\"", "<'> '", "<\\x41> \\", "<END> CHARMAP"] {
        l.k(&format!("R5: ignored {good}"), k_insert(3, good));
        l.no(&format!("R8: not after the end {good}"), k_insert(16, good), 10, 16);
    }

    // R6
    l.no1("R6: CR at the very end", [K.trim_end(), "\r"].concat(), 10, 15);
    l.no1("R6: only a CR", "\r", 10, 1);
    l.no1("R6: LF CR", "\n\r", 10, 2);
    l.no1("R6: CR LF CR", "\r\n\r", 10, 2);
    l.no1("R6: CR CR LF", [K, "\r\r\n"].concat(), 10, 16);
    l.no1("R6: CR CR LF behind a value", k_line(2, "<mb_cur_min> 1\r\r"), 10, 2);
    l.k1("R6: CR CR LF in a comment", k_line(2, "<mb_cur_min> 1 #\r\r"));
    l.k1("R6: CR CR LF in an open name", k_line(1, "<code_set_name> \"x\r\r"));
    l.no1("R6: CR CR LF in an open class", k_line(4, "<uconv_class> \"MBCS\r\r"), 12, 4);
    l.no1("R6: an open class at the very end", "<uconv_class> \"MBCS\r", 12, 1);
    l.no1("R6: an open name at the very end", "<code_set_name> \"x\r", 27, 2);
    l.k1("R6: a CR in a comment at the very end", [K, "#\r"].concat());
    l.k1("R6: CR LF at the end", [K, "\r\n"].concat());

    // R7
    l.no1("R7: #", "#", 27, 2);
    l.no1("R7: # LF", "#\n", 27, 2);
    l.no1("R7: # CR LF", "#\r\n", 27, 2);
    l.no1("R7: LF", "\n", 27, 2);
    l.no1("R7: CR LF", "\r\n", 27, 2);
    l.no1("R7: LF LF", "\n\n", 27, 3);
    l.no1("R7: LF LF blank", "\n\n ", 27, 4);
    l.no1("R7: blank", " ", 27, 2);
    l.k1("R7: the last line lacks an end", K.trim_end());
    l.k1("R7: the last line lacks an end, a comment", [K, "# x"].concat());

    // R8
    l.no("R8: END before CHARMAP", k_insert(8, "END CHARMAP"), 10, 8);
    l.no("R8: END first", "END CHARMAP\n", 10, 1);
    for line in ["<a> x", "<icu:base> \"x\"", "<icu:base>", "<code_set_name> \"x\"", "<icu:state> 30",
        "<subchar1> \\x2D", "<mb_cur_min> 1", "<U0041> x"] {
        l.no(&format!("R8: after CHARMAP {line}"), k_insert(9, line), 10, 9);
    }
    for line in ["END CHARMAP", "<U0041> \\x3F |0", "<U0041> \\x3F |4", "<U0041>+<U0042> \\x3F |0",
        "<icu:base> \"x\"", "<code_set_name> \"x\"", "x", "CHARMAP x", "charmap", "\"", "<UD800> \\x99"] {
        l.no(&format!("R8: after the end {line}"), k_insert(16, line), 10, 16);
    }
    l.k("R8: blank and comment after the end", [K, "\n  \n# x\n\t# CHARMAP\n"].concat());

    // R9
    for good in [" CHARMAP", "CHARMAP ", "\tCHARMAP\t", "CHARMAP#x", "CHARMAP # \"", "\t \tCHARMAP \t# x"] {
        l.k(&format!("R9: `{good}`"), k_line(8, good));
    }
    for good in ["END  CHARMAP", "END\tCHARMAP", " END \t CHARMAP ", "END CHARMAP#x", "END CHARMAP # END"] {
        l.k(&format!("R9: `{good}`"), k_line(15, good));
    }
    for bad in ["CHARMAP x", "charmap", "Charmap", "CHARMAPS", "CHAR MAP", "CHARMAP CHARMAP", "CHARMAP \"\"",
        "CHARMAP:", "\"CHARMAP\"", "CHARMAP.", "CHARMAP 1", "<CHARMAP", "CHARMAP>", "CHARMA",
        "#CHARMAP\nCHARMAP x"] {
        let line = if bad.starts_with('#') { 9 } else { 8 };
        l.no(&format!("R9: `{bad}`"), k_line(8, bad), 10, line);
        let line = if bad.starts_with('#') { 10 } else { 9 };
        l.no(&format!("R9, body: `{bad}`"), k_insert(9, bad), 10, line);
    }
    for bad in ["ENDCHARMAP", "END", "END CHARMAP x", "end charmap", "END charmap", "END CHARMAPS",
        "END-CHARMAP", "END, CHARMAP", "END END CHARMAP", "CHARMAP END", "END #CHARMAP", "END \"CHARMAP\"",
        "END CHAR MAP", "EN D CHARMAP"] {
        l.no(&format!("R9: `{bad}`"), k_line(15, bad), 10, 15);
    }

    // R10
    for bad in ["<U>", "<U0000030>", "<U 0030>", "<U0030 >", "<U00G0>", "<U-030>", "<U00.30>", "<U0030>>",
        "<U\\x30>"] {
        l.no(&format!("R10: {bad}"), k_line(10, format!("{bad} \\x30 |0")), 10, 10);
    }
    for good in ["<U30>", "<U030>", "<U0030>", "<U00030>", "<U000030>"] {
        l.k(&format!("R10: {good}"), k_line(10, format!("{good} \\x30 |0")));
    }

    // R11
    let long = "\\x30".repeat(300);
    l.no("R11: 300 bytes", k_line(9, format!("<U0041> {long} |0")), 21, 9);
    l.no("R11: 300 bytes, |2", k_line(9, format!("<U0041> {long} |2")), 23, 9);
    l.no("R11: five bytes, no indicator", k_line(9, "<U0041> \\x30\\x30 \\x30\\x30\\x30"), 21, 9);

    // R12
    for good in ["<U41>+<U42> \\x30 |0", "<U41> + <U42> \\x30 |0", "<U41>+<U42>\\x30", "<U41>+<U42>+<U43> \\x30 |1",
        "<U41> \\x81+\\x7C |0", "<U41> \\x81 + \\x7C", "<U41><U42> \\x30 |4",
        "<U41> <U42>+<U43>\t\\x30\\x31+\\x32|2",
        "<UFFFFFF>+<UD800> \\x99 |0", "<U41> \\x81+\\x7C |4", "<U41>\t+\t<U42> \\x30"] {
        l.no(&format!("R12: {good}"), k_line(9, good), 14, 9);
    }
    for bad in ["+<U41> \\x30 |0", "<U41>++<U42> \\x30 |0", "<U41>+ + <U42> \\x30 |0", "<U41>+ \\x30 |0",
        "<U41>+\\x30 |0", "<U41> +\\x30", "<U41> \\x30+ |0", "<U41> \\x30+", "<U41> \\x30 |0+",
        "<U41> \\x30 |0 + \\x31",
        "<U41> \\x30++\\x31 |0", "<U41> \\x30 + + \\x31 |0", "<U41>+<U42> |0", "<U41>+<U42>", "<U41>+<U> \\x30 |0",
        "<U41>+<U0000042> \\x30 |0", "<U41>-<U42> \\x30 |0", "<U41>,<U42> \\x30 |0", "<U41>+<U42> \\x30 |5",
        "<U41> \\x30+<U42> |0", "<U41><U42> \\x30 |4 x", "<U41>+<U42> \\x30 | 0", "<U41>+<u42> \\x30"] {
        l.no(&format!("R12: {bad}"), k_line(9, bad), 10, 9);
    }

    // R13
    l.k("R13: with and without indicator", k_change(&[(9, "<U002D> \\x2D"), (12, "<U2212> \\x81\\x7C")]));

    // R14
    for bad in ["<U002D> \\x2D | 0", "<U 002D> \\x2D |0", "<U002D> \\x 2D |0", "<U002D> \\x2 D |0",
        "< U002D> \\x2D |0",
        "<U002D> \\ x2D |0", "<U002D> \\x2D |\t0", "<U00 2D> \\x2D"] {
        l.no(&format!("R14: {bad}"), k_line(9, bad), 10, 9);
    }
    for bad in ["2 d", "ini tial, 30", "30.u u", "8 1:1"] {
        l.no(&format!("R14: row {bad}"), k_line(6, format!("<icu:state> {bad}")), 12, 6);
    }
    for good in ["2d,30,33,3f,81:1", "2d , 30 , 33 , 3f , 81 : 1", "\t2d\t,30\t,\t33,3f,\t81\t:\t1\t",
        "2d., 30 ., 33:0., 3f : 0 . , 81:1", "initial,2d,30,33,3f,81:1", "initial , 2d , 30,33,3f,81:01",
        "2D,30,33,3F,81:1", "2d-2d, 30 - 30, 33, 3f, 81 - 81 : 1"] {
        l.k(&format!("R14: row `{good}`"), k_line(6, format!("<icu:state>{good}")));
    }
    for good in ["7c-7d,80.u", "7c - 7d , 80 . u", "7c-7d, 80:0.u", "7C-7D, 80 : 0 . u", "7c, 7d, 80.u",
        "7c-80, 7e-80.u, 7e-7f.i",
        "0-ff.u, 0-7b.i, 7c-7d, 7e-7f.i, 81-ff.i", "7c-7d,80.u,0.i,1 . i,2:0.i,3:00.i"] {
        l.k(&format!("R14: row `{good}`"), k_line(7, format!("<icu:state>\t{good}")));
    }
    l.k("R14: <mb_cur_max>2", k_line(3, "<mb_cur_max>2"));
    l.k("R14: <uconv_class>\"MBCS\"", k_line(4, "<uconv_class>\"MBCS\""));
    l.k("R14: <code_set_name>\"x\"", k_line(1, "<code_set_name>\"x\""));
    l.k("R14: <subchar>\\x3F", k_line(5, "<subchar>\\x3F"));
    l.k("R14: <U2d>\\x2D|0", k_line(9, "<U2d>\\x2D|0"));
    l.k("R14: blanks between the bytes", k_line(12, "<U2212> \\x81 \t \\x7C \t |0"));
    let record = [2, 6, 1, 2, 0x817c_0000, 2, 0];
    l.yes("R14: blanks in subchar", k_line(5, "<subchar> \\x81 \t \\x7C"), record);

    // R15
    for bad in ["initial", "initial,", "initial 30", "initial, initial, 30", "initial, surrogates, 30",
        "surrogates, initial, 30", "surrogates", "surrogates,", "surrogates 30", "surrogates, surrogates, 30",
        "30, initial", "initial, ,30", "initial: 30", "initials, 30", "initial30", ", initial, 30",
        "initial, 30,"] {
        l.no(&format!("R15: {bad}"), k_line(6, format!("<icu:state> {bad}")), 12, 6);
        l.no(&format!("R15: row 1 {bad}"), k_line(7, format!("<icu:state> {bad}")), 12, 7);
    }

    // R16
    for (n, bad) in [(2, "<mb_cur_min> \"1\""), (5, "<subchar> \"\\x3F\""), (6, "<icu:state> \"2d\""),
        (7, "<icu:state> \"\""), (4, "<uconv_class> MBCS"), (1, "<code_set_name> kettle-1")] {
        l.no(&format!("R16: {bad}"), k_line(n, bad), 12, n as u64);
    }

    // R17
    for line in ["<icu:base>", "<icu:base> x", "<icu:base> \"\"", "<icu:base>\"x\" y", "<icu:base> 1 2 3",
        "<icu:base> \x01"] {
        l.no(&format!("R17: {}", line.escape_debug()), k_insert(4, line), 14, 4);
    }
    l.no1("R17: open quote", k_insert(4, b"<icu:base> \"\xff # x"), 14, 4);

    // R18
    for (row, number) in [("40:80.", 14), ("40:80.u", 14), ("40:1.i", 14), ("40:ff.i", 14), ("40:80", 15),
        ("40:100", 12),
        ("7d-7c.s", 14), ("7d-7c:1.", 14), ("40.s, zz", 12), ("7d-7c, zz", 12), ("40.s, 40", 14), ("40:1., 40", 14),
        ("7d-7c, 40:80", 15), ("40:80, 30.s", 14), ("surrogates, 7d-7c", 14), ("40:80.s, 40:100", 12), ("ff-0",
        15), ("1-0.i", 15)] {
        l.no(&format!("R18: {row}"), k_line(6, format!("<icu:state> {row}")), number, 6);
    }
    for (row, number) in [("zz", 12), ("30.s", 14), ("initial, 30", 14), ("surrogates, 30", 14), ("7d-7c", 15),
        ("30", 15), ("30,", 12), ("30:1.", 14), ("30:5", 15)] {
        let mut rows = vec!["30"; 16];
        rows.push(row);
        l.no(&format!("R18: 17th row {row}"), mbcs(1, "\\x30", &rows, &[]), number, 22);
    }
    l.k("R18: a far row overwritten is not led to", k_line(6, "<icu:state> 2d, 30:7f, 30:0, 30, 33, 3f, 81:1"));

    // R19
    for bad in ["30.U", "30.P", "30.I", "30.S", "Initial, 30", "INITIAL, 30", "Surrogates, 30"] {
        l.no(&format!("R19: {bad}"), k_line(6, format!("<icu:state> {bad}")), 12, 6);
    }
    l.no("R19: \\X41 in a mapping", k_line(9, "<U002D> \\X2D |0"), 10, 9);
    l.no("R19: <u2d> in a mapping", k_line(9, "<u002D> \\x2D |0"), 10, 9);
    l.no("R19: <MB_CUR_MAX>", k_line(3, "<MB_CUR_MAX> 2"), 13, 8);
    l.k("R19: <MB_CUR_MAX> ignored", k_insert(3, "<MB_CUR_MAX> 9"));
    l.k("R19: <ICU:BASE> ignored", k_insert(3, "<ICU:BASE> 9"));
    l.k("R19: digits in either case",
        k_change(&[(5, "<subchar> \\x3f"), (9, "<U2d> \\x2d |0"), (12, "<U2212> \\x81\\x7c |0"), (13,
            "<UfF0d> \\x81\\x7C |1")]));

    // R20
    let controls: Vec<u8> = (0..0x20).filter(|b| ![9, 10].contains(b)).chain([0x7f]).collect();
    let with = |before: &[u8], after: &[u8]| [before, &controls, after].concat();
    l.k("R20: in a comment", k_insert(3, with(b"#", b"x")));
    l.k("R20: in a name", k_line(1, with(b"<code_set_name> \"", b"x\"")));
    let no_cr: Vec<u8> = controls.iter().copied().filter(|b| *b != 13).collect();
    l.k("R20: behind an ignored key", k_insert(3, [b"<a> ", &no_cr[..], b" x"].concat()));
    for c in no_cr {
        let what = format!("R20: control {c:02X}");
        l.no(&format!("{what} alone"), k_insert(3, [c]), 10, 3);
        l.no(&format!("{what} before a digit"), k_line(3, [b"<mb_cur_max>", &[c][..], b"2"].concat()), 12, 3);
        l.no(&format!("{what} in a row"), k_line(6, [b"<icu:state> 30", &[c][..]].concat()), 12, 6);
        l.no(&format!("{what} in a mapping"), k_line(9, [b"<U002D> \\x2D |0", &[c][..]].concat()), 10, 9);
        l.no(&format!("{what} behind CHARMAP"), k_line(8, [b"CHARMAP", &[c][..]].concat()), 10, 8);
        l.no(&format!("{what} in END CHARMAP"), k_line(15, [b"END", &[c][..], b"CHARMAP"].concat()), 10, 15);
    }
}

/// Readings R21 to R27 and R34.
fn rule_readings(l: &mut List) {
    // R21
    let k_row = |row: &str| {
        let mut lines = k_lines();
        lines.insert(7, format!("<icu:state> {row}").into_bytes());
        joined(&lines)
    };
    l.no("R21: T2 of a row not reached", k_row("30:3"), 16, 9);
    l.no("R21: T2 of a row not reached, row 0", k_row("30:0"), 16, 9);
    l.yes("R21: a circle not reached", k_row("30:2"), [3, 6, 1, 2, 0x3f00_0000, 1, 0]);
    l.yes("R21: a long way not reached", k_row("30:1"), [3, 6, 1, 2, 0x3f00_0000, 1, 0]);
    l.no("R21: a circle of two reached", mbcs(4, "\\x30", &["30, 81:1", "30:2", "30:1"], &[]), 16, 9);
    l.yes("R21: a circle of two not reached", mbcs(1, "\\x30", &["30", "30:2", "30:1"], &[]),
        [3, 0, 1, 1, 0x3000_0000, 1, 0]);

    // R22
    let k_sbcs = k_line(4, "<uconv_class> \"SBCS\"");
    l.k("R22: K as SBCS", &k_sbcs);
    let lines = ["<U0041> \\x41"];
    let wide = text(1, 4, "SBCS", "<subchar> \\x3F", &[], &lines);
    l.yes("R22: SBCS with max 4", wide, [1, 1, 1, 4, 0x3f00_0000, 1, 0]);
    let narrow = text(2, 4, "SBCS", "<subchar> \\x3F", &[], &lines);
    l.no("R22: SBCS with min 2", narrow, 21, 7);
    let empty = text(1, 1, "SBCS", "<subchar> \\x3F", &[""], &[]);
    l.no("R22: SBCS with an empty row has no code", empty, 16, 7);
    let one = text(1, 1, "SBCS", "<subchar> \\x3F", &["3f"], &["<U0041> \\x41"]);
    l.no("R22: SBCS with a row has that row", one, 21, 8);

    // R23
    l.no("R23: |0 again", k_insert(10, "<U002D> \\x2D |0"), 24, 10);
    l.no("R23: |0 again, unmarked", k_insert(10, "<U002D> \\x2D"), 24, 10);
    l.no("R23: |3 again", k_insert(15, "<U2212> \\x81\\x7D |3"), 24, 15);
    l.no("R23: |1 again", k_insert(14, "<UFF0D> \\x81\\x7C |1"), 25, 14);
    let sub = "<subchar> \\x3F\n<subchar1> \\x1A";
    l.no("R23: |2 again", sbcs(sub, &["<U0041> \\x1A |2", "<U0042> \\x1A |2", "<U0041> \\x1A |2"]), 25, 10);
    l.no("R23: |2 and |0", sbcs(sub, &["<U0041> \\x1A |2", "<U0041> \\x42 |0"]), 25, 9);
    l.no("R23: |2 and |1", sbcs(sub, &["<U0041> \\x1A |2", "<U0041> \\x42 |1"]), 25, 9);
    l.no("R23: |1 and |2", sbcs(sub, &["<U0041> \\x42 |1", "<U0041> \\x1A |2"]), 25, 9);
    l.no("R23: |0 and |2", sbcs(sub, &["<U0041> \\x42 |0", "<U0041> \\x1A |2"]), 25, 9);
    let free = ["<U0041> \\x1A |0", "<U0042> \\x1A |1", "<U0043> \\x1A |1", "<U0044> \\x1A |2", "<U0045> \\x1A |2",
        "<U0041> \\x41 |3", "<U0041> \\x42 |3", "<U0044> \\x43 |3", "<U0042> \\x44 |3"];
    l.yes("R23: what T9 leaves free", sbcs(sub, &free), [1, 9, 1, 1, 0x3f00_0000, 1, 0x1b]);
    let mut turned = free;
    turned.reverse();
    l.yes("R23: what T9 leaves free, other way", sbcs(sub, &turned), [1, 9, 1, 1, 0x3f00_0000, 1, 0x1b]);

    // R25
    l.yes("R25: subchar ends in u", k_line(5, "<subchar> \\x81\\x80"), [2, 6, 1, 2, 0x8180_0000, 2, 0]);
    let t = text(2, 2, "MBCS", "<subchar> \\x3F\n<subchar1> \\x40", &["3f, 40.u, 81:1", "0-ff"],
        &["<U0041> \\x81\\x00", "<U0042> \\x40 |2", "<U10FFFF> \\x40 |2"]);
    l.yes("R25: shorter than min, ended by u, |2 above U+FFFF", t, [2, 3, 2, 2, 0x3f00_0000, 1, 0x41]);
    let t = text(2, 2, "MBCS", "<subchar> \\x3F\n<subchar1> \\x40", &["3f, 40.u, 81:1", "0-ff"],
        &["<UD800> \\x40 |2"]);
    l.no("R25: |2 keeps T6", t, 20, 10);

    // R26
    l.no("R26: :0 without a point", k_line(7, "<icu:state> 7c-7d, 80:0"), 16, 8);
    let p = |row: &str, line: &str| mbcs(1, "\\x30", &[row], &[line]);
    l.no("R26: one byte, no p", p("30-39", "<U10000> \\x31"), 21, 8);
    l.yes("R26: one byte, p", p("30-39.p", "<U10000> \\x31"), [1, 1, 1, 1, 0x3000_0000, 1, 0]);
    l.yes("R26: p up to U+FFFF too", p("30-39.p", "<UFFFF> \\x31"), [1, 1, 1, 1, 0x3000_0000, 1, 0]);
    l.yes("R26: the last code point", p("30-39:0.p", "<U10FFFF> \\x31 |3"), [1, 1, 1, 1, 0x3000_0000, 1, 0]);

    // R34
    let zero = sbcs("<subchar> \\x00\n<subchar1> \\x00", &["<U0000> \\x00 |0"]);
    l.yes("R34: zeros", &zero, [1, 1, 1, 1, 0, 1, 1]);
    let none = sbcs("<subchar> \\x00", &["<U0000> \\x00 |0"]);
    l.yes("R34: zeros, no subchar1", &none, [1, 1, 1, 1, 0, 1, 0]);
    l.to("R34: reads 00", &none, "00", 9, STRICT, 0, 1, "00");
    l.from("R34: writes 00", &none, "00", 9, STRICT, 0, 1, "00");
    let empty = sbcs("<subchar> \\x00\n<subchar1> \\x00", &[]);
    l.to("R34: 00 without its line", &empty, "00", 9, STRICT, 53, 0, "");
    l.to("R34: 00 without its line, substitute", &empty, "00", 9, SUBST, 0, 1, "1A");
    l.from("R34: U+0000 without its line", &empty, "00", 9, STRICT, 53, 0, "");
    l.from("R34: U+0000 without its line, substitute", &empty, "00", 9, SUBST, 0, 1, "00");
    let sub = sbcs("<subchar> \\x3F\n<subchar1> \\x00", &["<U0000> \\x00 |2"]);
    l.yes("R34: |2 with 00", &sub, [1, 1, 1, 1, 0x3f00_0000, 1, 1]);
    l.from("R34: |2 with 00", &sub, "00", 9, SUBST, 0, 1, "00");
    let rows = ["0-ff:1", "0-ff"];
    let t = mbcs(2, "\\x00\\x00", &rows, &["<U0000> \\x00\\x00 |3"]);
    l.yes("R34: 00 00 with |3", &t, [2, 1, 1, 2, 0, 2, 0]);
    l.to("R34: reads 00 00", &t, "0000", 9, STRICT, 0, 2, "00");
}

/// Lent memory, longest text (numbers 1 and 2).
fn sizes(l: &mut List) {
    let long = |n: usize| {
        let mut t = K.as_bytes().to_vec();
        t.push(b'#');
        t.resize(n, b'x');
        t
    };
    l.k1("1,048,576 bytes", long(1_048_576));
    l.no1("1,048,577 bytes", long(1_048_577), 2, 0);
    l.no1("1,048,577 bytes of no form", vec![0xff; 1_048_577], 2, 0);
    l.no1("1,048,577 line ends", vec![b'\n'; 1_048_577], 2, 0);
    l.no1("1,048,576 line ends", vec![b'\n'; 1_048_576], 27, 1_048_577);
    l.no1("1,048,576 bytes of no form", vec![0xff; 1_048_576], 10, 1);
    let mut late = vec![b'\n'; 1_048_575];
    late.push(b'x');
    l.no1("the last of 1,048,576 bytes", late, 10, 1_048_576);
    l.no1("a key of nearly the whole text", [b"<", &vec![b'k'; 1_048_574][..], b">"].concat(), 27, 2);
    l.no1("a key that never ends", [b"<", &vec![b'k'; 1_048_575][..]].concat(), 10, 1);

    let short = |which: usize, by: usize| {
        let mut m = junk(3);
        match which {
            0 => m.states.truncate(STATE_PLACES - by),
            1 => m.codes.truncate(MAPPING_PLACES - by),
            2 => m.infos.truncate(MAPPING_PLACES - by),
            _ => m.order.truncate(MAPPING_PLACES - by),
        }
        m
    };
    let texts = [("K", K.as_bytes().to_vec()), ("empty", vec![]), ("too long", vec![b'#'; 1_048_577]),
        ("no form", b"x".to_vec()), ("void", k_void())];
    for (which, slice) in ["states", "codes", "infos", "order"].into_iter().enumerate() {
        for by in [1, 2, MAPPING_PLACES] {
            for (what, text) in texts.clone() {
                l.add(format!("{slice} {by} too short, {what} text: 1"), move |s| {
                    let mut memory = short(which, by);
                    let got = s.load(&text, &mut memory);
                    equal("answer", got, Loaded { number: 1, line: 0, record: [0; 7] })?;
                    equal_memory(&memory, &short(which, by))
                });
            }
            l.add(format!("test behind 60, {slice} {by} too short: 60"), move |s| {
                let (record, loaded) = is_accepted(s, K.as_bytes())?;
                let mut memory = loaded;
                let keep = short(which, by);
                memory.states.truncate(keep.states.len());
                memory.codes.truncate(keep.codes.len());
                memory.infos.truncate(keep.infos.len());
                memory.order.truncate(keep.order.len());
                equal("check", s.check(&record, &memory), 60)
            });
        }
    }
    l.add("all slices empty: 1", |s| {
        let mut memory = Memory::default();
        let got = s.load(K.as_bytes(), &mut memory);
        equal("answer", got, Loaded { number: 1, line: 0, record: [0; 7] })?;
        equal("check", s.check(&K_RECORD, &memory), 60)
    });
    for extra in [0, 1, 1000] {
        l.add(format!("slices {extra} places longer"), move |s| {
            for (text, number) in [(K.as_bytes().to_vec(), 0), (k_delete(15), 27), (k_void(), 28),
                (vec![b'#'; 1_048_577], 2)] {
                let mut memory = junk(extra);
                let got = s.load(&text, &mut memory);
                equal("number", got.number, number)?;
                let old = junk(extra);
                equal_slices("states", &memory.states[STATE_PLACES..], &old.states[STATE_PLACES..])?;
                equal_slices("codes", &memory.codes[MAPPING_PLACES..], &old.codes[MAPPING_PLACES..])?;
                equal_slices("infos", &memory.infos[MAPPING_PLACES..], &old.infos[MAPPING_PLACES..])?;
                equal_slices("order", &memory.order[MAPPING_PLACES..], &old.order[MAPPING_PLACES..])?;
                if number == 0 {
                    equal("check", s.check(&got.record, &memory), 0)?;
                    let mut out = old_bytes(9);
                    let got = s.to_unicode(&got.record, &memory, b"\x81\x7c3", &mut out, Scheme::Utf8, STRICT);
                    equal("to UTF-8", got, Piped { number: 0, read: 3, written: 4, length: 0 })?;
                }
            }
            Ok(())
        });
    }
    l.add("a second load forgets the first", |s| {
        let mut memory = junk(2);
        s.load(&many(2048), &mut memory);
        let got = s.load(K.as_bytes(), &mut memory);
        let mut fresh = junk(2);
        equal("answer", got, s.load(K.as_bytes(), &mut fresh))?;
        equal_memory(&memory, &fresh)
    });
}

/// The fixed form, number by number.
fn forms(l: &mut List) {
    // All cells, 1 to 4 bytes, all indicators, lines in no order.
    let rows = ["30-3f, 81:1, 90.u, a0-a1.p, b0:4", "40, 41.p, 42:2, 43.u", "50-51, 52:3", "60.p, 61", "ff",
        "30:5"];
    let lines = [
        "<U0041> \\x30 |0",
        "<U10FFFF> \\x81\\x42\\x52\\x60 |0",
        "<U0042> \\x81\\x40 |0",
        "<U0041> \\x81\\x42\\x50 |3",
        "<U0041> \\x31 |3",
        "<U0043> \\x30 |1",
        "<U1F600> \\xA0 |1",
        "<U1F602> \\xA0 |3",
        "<U1F601> \\x3F |2",
        "<U0044> \\x3F |2",
        "<U0040> \\xB0\\xFF |0",
        "<U0000> \\x3F |3",
    ];
    let t = text(1, 4, "MBCS", "<subchar> \\x81\\x42\\x50\n<subchar1> \\x3F", &rows, &lines);
    l.form(
        "all kinds",
        &t,
        [6, 12, 1, 4, 0x8142_5000, 3, 0x40],
        &[
            (0, 0x30, 0x3f, 1),
            (0, 0x81, 0x81, 17),
            (0, 0x90, 0x90, 3),
            (0, 0xa0, 0xa1, 2),
            (0, 0xb0, 0xb0, 20),
            (1, 0x40, 0x40, 1),
            (1, 0x41, 0x41, 2),
            (1, 0x42, 0x42, 18),
            (1, 0x43, 0x43, 3),
            (2, 0x50, 0x51, 1),
            (2, 0x52, 0x52, 19),
            (3, 0x60, 0x60, 2),
            (3, 0x61, 0x61, 1),
            (4, 0xff, 0xff, 1),
            (5, 0x30, 0x30, 21),
        ],
        &[
            (0x3000_0000, 0x0000_0041),
            (0x3000_0000, 0x0040_0043),
            (0x3100_0000, 0x0020_0041),
            (0x3f00_0000, 0x0020_0000),
            (0x3f00_0000, 0x0080_0044),
            (0x3f00_0000, 0x0081_f601),
            (0x8140_0000, 0x0100_0042),
            (0x8142_5000, 0x0220_0041),
            (0x8142_5260, 0x0310_ffff),
            (0xa000_0000, 0x0021_f602),
            (0xa000_0000, 0x0041_f600),
            (0xb0ff_0000, 0x0100_0040),
        ],
        // 0000, 0040, 0041 |0, 0041 |3 by bytes, 0042, 0043, 0044, 1F600, 1F601, 1F602, 10FFFF
        &[3, 11, 0, 2, 7, 6, 1, 4, 10, 5, 9, 8],
    );
    l.form(
        "SBCS without rows",
        sbcs("<subchar> \\xFF", &["<U0002> \\x00", "<U0001> \\xFF", "<U0003> \\x01"]),
        [1, 3, 1, 1, 0xff00_0000, 1, 0],
        &[(0, 0, 255, 1)],
        &[(0, 2), (0x0100_0000, 3), (0xff00_0000, 1)],
        &[2, 0, 1],
    );
    l.form(
        "|3 behind the others in order",
        sbcs(
            "<subchar> \\xFF\n<subchar1> \\x50",
            &["<U0041> \\x41 |3", "<U0041> \\x42 |0", "<U0041> \\x40 |3", "<U0042> \\x43 |3", "<U0042> \\x44 |1",
                "<U0043> \\x45 |3", "<U0043> \\x50 |2", "<U0044> \\x42 |1", "<U0045> \\x44 |3"],
        ),
        [1, 9, 1, 1, 0xff00_0000, 1, 0x51],
        &[(0, 0, 255, 1)],
        &[
            (0x4000_0000, 0x0020_0041),
            (0x4100_0000, 0x0020_0041),
            (0x4200_0000, 0x0000_0041),
            (0x4200_0000, 0x0040_0044),
            (0x4300_0000, 0x0020_0042),
            (0x4400_0000, 0x0020_0045),
            (0x4400_0000, 0x0040_0042),
            (0x4500_0000, 0x0020_0043),
            (0x5000_0000, 0x0080_0043),
        ],
        &[2, 0, 1, 6, 4, 8, 7, 3, 5],
    );
    l.form("no mappings", mbcs(1, "\\x30", &["30"], &[]), [1, 0, 1, 1, 0x3000_0000, 1, 0], &[(0, 0x30, 0x30,
        1)], &[], &[]);
    l.form(
        "overlapping entries",
        mbcs(2, "\\x30", &["0-ff, 20-2f.u, 40-7f:1, 50-5f.p, 55.i, 30-30", "0-ff.i, 80:0., 7f-81.p, 80"], &[]),
        [2, 0, 1, 2, 0x3000_0000, 1, 0],
        &[
            (0, 0, 255, 1),
            (0, 0x20, 0x2f, 3),
            (0, 0x40, 0x7f, 17),
            (0, 0x50, 0x5f, 2),
            (0, 0x55, 0x55, 0),
            (1, 0x7f, 0x81, 2),
            (1, 0x80, 0x80, 1),
        ],
        &[],
        &[],
    );
    let shuffled = k_change(&[
        (9, "<U2212> \\x81\\x7D |3"),
        (10, "<UFF0D> \\x81\\x7C |1"),
        (11, "<U2212> \\x81\\x7C |0"),
        (12, "<U0033> \\x33 |0"),
        (13, "<U002D> \\x2D |0"),
        (14, "<U0030> \\x30 |0"),
    ]);
    l.k("K with its lines shuffled", shuffled);
    let turned: Vec<Bytes> = [4, 6, 3, 7, 2, 5, 1, 8, 9, 10, 11, 12, 13, 14,
        15].map(|n: usize| k_lines()[n - 1].clone()).to_vec();
    l.k("K with its header shuffled", joined(&turned));
    // The full table, forwards and backwards, has one form.
    l.add("2,048 lines backwards: one form", |s| {
        let text = many(2048);
        let mut lines: Vec<&[u8]> = text.split(|&b| b == b'\n').collect();
        lines[8..8 + 2048].reverse();
        let (record, memory) = is_accepted(s, &text)?;
        let (other_record, other) = is_accepted(s, &lines.join(&b'\n'))?;
        equal("record", other_record, record)?;
        equal_memory(&other, &memory)?;
        for i in 0..2048 {
            equal("codes", memory.codes[i], (0x100 + i as u32) << 16)?;
            equal("infos", memory.infos[i], 0x100_0000 + 0x100 + i as u32)?;
            equal("order", memory.order[i], i as u32)?;
        }
        Ok(())
    });
}

/// The test behind 60 on K and its like, one change at a time.
fn behind_60(l: &mut List) {
    l.behind60("K", 0, |_, _| {});
    l.behind60("places behind are free", 0, |_, m| {
        m.states[4096] = 9;
        m.codes[2048] = 9;
        m.infos[2048] = 9;
        m.order[2048] = 9;
    });
    for i in 0..7 {
        for v in [0u32, 1, 2, 3, 4, 5, 6, 7, 16, 17, 0x3f00_0000, 0x3f00_0001, 0x3f00_0100, 2048, 2049, u32::MAX] {
            // Changes that leave a table: more rows (empty ones), a larger max.
            let fine = K_RECORD[i] == v
                || (i == 0 && (2..=16).contains(&v))
                || (i == 3 && (3..=4).contains(&v));
            l.behind60(&format!("record[{i}] = {v}"), if fine { 0 } else { 60 }, move |r, _| r[i] = v);
        }
    }
    l.behind60("subchar 33", 0, |r, _| r[4] = 0x3300_0000);
    l.behind60("subchar 34", 60, |r, _| r[4] = 0x3400_0000);
    l.behind60("subchar 81 7C", 0, |r, _| (r[4], r[5]) = (0x817c_0000, 2));
    l.behind60("subchar 81 80", 0, |r, _| (r[4], r[5]) = (0x8180_0000, 2));
    l.behind60("subchar 81 7C of three bytes", 60, |r, _| (r[4], r[5]) = (0x817c_0000, 3));
    l.behind60("subchar 81 7C of one byte", 60, |r, _| (r[4], r[5]) = (0x817c_0000, 1));
    l.behind60("subchar 81", 60, |r, _| (r[4], r[5]) = (0x8100_0000, 1));
    l.behind60("subchar of 2^32 - 1 bytes", 60, |r, _| r[5] = u32::MAX);
    l.behind60("subchar1 33", 0, |r, _| r[6] = 0x34);
    l.behind60("subchar1 34", 60, |r, _| r[6] = 0x35);
    l.behind60("subchar1 81", 60, |r, _| r[6] = 0x82);
    l.behind60("subchar1 33 and 256 more", 60, |r, _| r[6] = 0x134);
    l.behind60("min 2", 60, |r, _| r[2] = 2);
    l.behind60("max 3", 0, |r, _| r[3] = 3);
    l.behind60("max 5", 60, |r, _| r[3] = 5);
    l.behind60("a row more, all illegal", 0, |r, _| r[0] = 3);
    l.behind60("16 rows", 0, |r, _| r[0] = 16);
    l.behind60("17 rows", 60, |r, _| r[0] = 17);
    l.behind60("one row", 60, |r, _| r[0] = 1);
    l.behind60("a number in an unused row", 60, |_, m| m.states[4095] = 1);
    l.behind60("a number in the first unused row", 60, |_, m| m.states[512] = 1);
    for v in [4u16, 5, 15, 16, 18, 31, 32, 255, 256, 65535] {
        l.behind60(&format!("state {v} in row 0"), 60, move |_, m| m.states[0] = v);
        l.behind60(&format!("state {v} in row 1"), 60, move |_, m| m.states[511] = v);
    }
    for v in [0u16, 1, 2, 3, 17] {
        l.behind60(&format!("state {v} in a free place of row 0"), 0, move |_, m| m.states[0] = v);
    }
    for v in [0u16, 1, 2, 3] {
        l.behind60(&format!("state {v} in a free place of row 1"), 0, move |_, m| m.states[511] = v);
    }
    l.behind60("row 1 in a circle", 60, |_, m| m.states[511] = 17);
    l.behind60("too deep", 60, |r, m| {
        r[0] = 3;
        m.states[511] = 18;
    });
    l.behind60("deep enough with max 3", 0, |r, m| {
        r[0] = 3;
        r[3] = 3;
        m.states[511] = 18;
    });
    l.behind60("a used code ended by u", 60, |_, m| m.states[0x2d] = 3);
    l.behind60("a used code ended by p", 0, |_, m| m.states[0x2d] = 2);
    l.behind60("a used code illegal", 60, |_, m| m.states[0x2d] = 0);
    l.behind60("a used code leads on", 60, |_, m| m.states[0x2d] = 17);
    l.behind60("subchar illegal", 60, |_, m| m.states[0x3f] = 0);
    l.behind60("subchar ended by u", 0, |_, m| m.states[0x3f] = 3);
    l.behind60("seven mappings, the last of zeros", 60, |r, _| r[1] = 7);
    l.behind60("five mappings", 60, |r, _| r[1] = 5);
    l.behind60("a code in an unused place", 60, |_, m| m.codes[6] = 1);
    l.behind60("an info in an unused place", 60, |_, m| m.infos[6] = 1);
    l.behind60("an order in an unused place", 60, |_, m| m.order[6] = 1);
    l.behind60("a code in the last unused place", 60, |_, m| m.codes[2047] = 1);
    l.behind60("an info in the last unused place", 60, |_, m| m.infos[2047] = 1);
    l.behind60("an order in the last unused place", 60, |_, m| m.order[2047] = 1);
    l.behind60("another code point, in order", 0, |_, m| m.infos[0] = 0x2e);
    l.behind60("a code point out of order", 60, |_, m| m.infos[0] = 0x31);
    l.behind60("a code point out of order, the order mended", 0, |_, m| {
        m.infos[0] = 0x31;
        m.order[..2].copy_from_slice(&[1, 0]);
    });
    l.behind60("a surrogate", 60, |_, m| {
        m.infos[0] = 0xd800;
        m.order[..6].copy_from_slice(&[1, 2, 3, 5, 0, 4]);
    });
    l.behind60("above 10FFFF", 60, |_, m| {
        m.infos[0] = 0x11_0000;
        m.order[..6].copy_from_slice(&[1, 2, 3, 5, 4, 0]);
    });
    l.behind60("above FFFF without p", 60, |_, m| {
        m.infos[0] = 0x1_0000;
        m.order[..6].copy_from_slice(&[1, 2, 3, 5, 4, 0]);
    });
    l.behind60("above FFFF with p", 0, |_, m| {
        m.infos[0] = 0x1_0000;
        m.states[0x2d] = 2;
        m.order[..6].copy_from_slice(&[1, 2, 3, 5, 4, 0]);
    });
    l.behind60("entries swapped", 60, |_, m| {
        m.codes.swap(0, 1);
        m.infos.swap(0, 1);
        m.order[..2].copy_from_slice(&[1, 0]);
    });
    l.behind60("order swapped", 60, |_, m| m.order.swap(0, 1));
    l.behind60("order twice", 60, |_, m| m.order[1] = 0);
    l.behind60("order outside", 60, |_, m| m.order[5] = 6);
    l.behind60("order far outside", 60, |_, m| m.order[5] = u32::MAX);
    l.behind60("|3 before |0 in order", 60, |_, m| m.order.swap(3, 4));
    // Ranks of no line: all else stays right, also where the code is subchar1's.
    for rank in [3u32, 5, 6, 7] {
        l.behind60(&format!("|0 made rank {rank}"), 60, move |_, m| m.infos[0] += rank << 21);
        l.behind60(&format!("|0 made rank {rank} with subchar1"), 60, move |r, m| {
            m.infos[0] += rank << 21;
            r[6] = 0x2e;
        });
        l.behind60(&format!("|1 made rank {rank}"), 60, move |_, m| m.infos[4] += (rank - 2) << 21);
        l.behind60(&format!("|3 made rank {rank}"), 60, move |_, m| m.infos[5] += (rank - 1) << 21);
    }
    l.behind60("length 5", 60, |_, m| m.infos[5] += 3 << 24);
    l.behind60("length 256", 60, |_, m| m.infos[5] |= 0xff00_0000);
    l.behind60("length 1 for two bytes", 60, |_, m| m.infos[5] -= 1 << 24);
    l.behind60("length 3 for two bytes", 60, |_, m| m.infos[5] += 1 << 24);
    l.behind60("bits behind the code", 60, |_, m| m.codes[5] += 1);
    l.behind60("|0 made |1", 60, |_, m| m.infos[0] += 2 << 21);
    l.behind60("|0 made |3", 0, |_, m| m.infos[0] += 1 << 21);
    // Rank 4 is `|2`, whose code is subchar1's (T8).
    l.behind60("|0 made |2 without subchar1", 60, |_, m| m.infos[0] += 4 << 21);
    l.behind60("|0 made |2 with subchar1", 0, |r, m| {
        m.infos[0] += 4 << 21;
        r[6] = 0x2e;
    });
    l.behind60("|0 made |2 with another subchar1", 60, |r, m| {
        m.infos[0] += 4 << 21;
        r[6] = 0x31;
    });
    l.behind60("|1 of two bytes made |2", 60, |r, m| {
        m.infos[4] += 2 << 21;
        r[6] = 0x2e;
    });
    l.behind60("T9 by bytes", 60, |_, m| m.infos[4] = 0x0120_ff0d);
    l.behind60("T9 by code point", 60, |_, m| m.infos[5] = 0x0100_2212);
    l.behind60("T9 by code point, |1", 60, |_, m| {
        m.infos[4] = 0x0140_2212;
        m.order[..6].copy_from_slice(&[0, 1, 2, 3, 4, 5]);
    });
    l.behind60("an entry twice", 60, |_, m| {
        m.codes[1] = m.codes[0];
        m.infos[1] = m.infos[0];
    });
    l.behind60("another code in order", 0, |_, m| {
        m.codes[0] = 0x2e00_0000;
        m.states[0x2e] = 1;
    });
    let rows = ["0:1, 30", "0-ff"];
    let t = mbcs(2, "\\x30", &rows, &["<U0041> \\x00\\x41 |3"]);
    l.behind60_of("00 41 with |3", &t, 0, |_, _| {});
    l.behind60_of("00 41 with |0", &t, 60, |_, m| m.infos[0] -= 1 << 21);
    l.behind60_of("00 41 with |1", &t, 60, |r, m| {
        r[1] = 2;
        (m.codes[1], m.infos[1], m.order[1]) = (0x0041_0000, 0x0140_0042, 1);
    });
    let bare = mbcs(1, "\\x30", &["30"], &[]);
    for (min, max, want) in [(1, 1, 0), (2, 1, 60), (4, 1, 60), (4, 3, 60), (4, 4, 0), (0, 1, 60), (4, 5, 60),
        (5, 5, 60), (0, 0, 60), (1, 4, 0), (2, 3, 0)] {
        l.behind60_of(&format!("min {min} and max {max}"), &bare, want, move |r, _| (r[2], r[3]) = (min, max));
    }
    l.behind60_of("|2 with 00 and no subchar1", sbcs("<subchar> \\x00\n<subchar1> \\x00", &["<U0041> \\x00 |2"]), 60,
        |r, _| r[6] = 0);
    let zero = sbcs("<subchar> \\x00", &["<U0000> \\x00"]);
    l.behind60_of("the mapping of zeros", &zero, 0, |_, _| {});
    l.behind60_of("the mapping of zeros not counted", &zero, 0, |r, _| r[1] = 0);
    l.behind60_of("the mapping of zeros twice", &zero, 60, |r, _| r[1] = 2);
    l.behind60_of("2,048 mappings", many(2048), 0, |_, _| {});
    l.behind60_of("2,047 of 2,048 mappings", many(2048), 60, |r, _| r[1] = 2047);
    l.behind60_of("2,049 of 2,048 mappings", many(2048), 60, |r, _| r[1] = 2049);
    l.behind60_of("the last of 2,048 left out", many(2048), 0, |r, m| {
        r[1] = 2047;
        m.codes[2047] = 0;
        m.infos[2047] = 0;
        m.order[2047] = 0;
    });
    l.add("test behind 60, all zeros: 60", |s| {
        equal("check", s.check(&[0; 7], &Memory::zeros()), 60)?;
        equal("check", s.check(&K_RECORD, &Memory::zeros()), 60)
    });
    l.add("test behind 60, a refused load: 60", |s| {
        for text in [b"x".to_vec(), k_void()] {
            let mut memory = junk(0);
            let got = s.load(&text, &mut memory);
            equal("check", s.check(&got.record, &memory), 60)?;
        }
        Ok(())
    });
    l.add("test behind 60, old values: 60", |s| equal("check", s.check(&K_RECORD, &junk(0)), 60));
}

/// The same where T10 alone may be broken.
fn behind_60_by_t10(l: &mut List) {
    // K's lines: 2D, 30 and 33 |0; 81 7C |0 U+2212 and |1 U+FF0D; 81 7D |3 U+2212.
    l.behind60("81 7C |0 made |3", 0, |_, m| m.infos[3] = 0x0120_2212);
    l.behind60("81 7C |0 made |1", 60, |_, m| m.infos[3] = 0x0140_2212);
    l.behind60("81 7C |0 moved to 81 7B", 60, |_, m| {
        m.codes[3] = 0x817b_0000;
        m.states[256 + 0x7b] = 1;
    });
    l.behind60("81 7D |3 made |1 of another code point", 60, |_, m| {
        m.infos[5] = 0x0140_ff0e;
        m.order[..6].copy_from_slice(&[0, 1, 2, 3, 4, 5]);
    });
    l.behind60("81 7C |0 left out", 60, |r, m| {
        r[1] = 5;
        m.codes.copy_within(4..6, 3);
        m.infos.copy_within(4..6, 3);
        (m.codes[5], m.infos[5]) = (0, 0);
        m.order[..6].copy_from_slice(&[0, 1, 2, 4, 3, 0]);
    });
    l.behind60("81 7C |1 left out", 0, |r, m| {
        r[1] = 5;
        (m.codes[4], m.infos[4]) = (m.codes[5], m.infos[5]);
        (m.codes[5], m.infos[5]) = (0, 0);
        m.order[..6].copy_from_slice(&[0, 1, 2, 3, 4, 0]);
    });
    // The |1 line moved to another code: its place among the six lines, and the order.
    type Moved = (u32, usize, [u32; 6], u32);
    let moved: [Moved; 9] = [
        (0x2b00_0000, 0, [1, 2, 3, 4, 5, 0], 60),
        (0x2d00_0000, 1, [0, 2, 3, 4, 5, 1], 0),
        (0x2e00_0000, 1, [0, 2, 3, 4, 5, 1], 60),
        (0x3000_0000, 2, [0, 1, 3, 4, 5, 2], 0),
        (0x3300_0000, 3, [0, 1, 2, 4, 5, 3], 0),
        (0x3f00_0000, 3, [0, 1, 2, 4, 5, 3], 60),
        (0x817b_0000, 3, [0, 1, 2, 4, 5, 3], 60),
        (0x817d_0000, 5, [0, 1, 2, 3, 4, 5], 0),
        (0x817e_0000, 5, [0, 1, 2, 3, 4, 5], 60),
    ];
    for (code, place, order, want) in moved {
        l.behind60(&format!("the |1 line moved to {code:08X}"), want, move |_, m| {
            let mut lines: Vec<(u32, u32)> = (0..6).filter(|&i| i != 4).map(|i| (m.codes[i], m.infos[i])).collect();
            let second = (code >> 16) as usize % 256;
            if second == 0 {
                lines.insert(place, (code, 0x0040_ff0d));
                m.states[(code >> 24) as usize] = 1;
            } else {
                lines.insert(place, (code, 0x0140_ff0d));
                m.states[256 + second] = 1;
            }
            for (i, line) in lines.into_iter().enumerate() {
                (m.codes[i], m.infos[i]) = line;
            }
            m.order[..6].copy_from_slice(&order);
        });
    }
    // One code with all kinds of lines: 1A |0 U+0041, |1 U+0042, |1 U+0043, |2 U+0044.
    let sub = "<subchar> \\x3F\n<subchar1> \\x1A";
    let one = sbcs(sub, &["<U0041> \\x1A |0", "<U0042> \\x1A |1", "<U0043> \\x1A |1", "<U0044> \\x1A |2"]);
    l.behind60_of("1A with |0, |1, |1, |2", &one, 0, |_, _| {});
    l.behind60_of("1A with |3, |1, |1, |2", &one, 0, |_, m| m.infos[0] = 0x0020_0041);
    l.behind60_of("1A with |1, |1, |1, |2", &one, 60, |_, m| m.infos[0] = 0x0040_0041);
    l.behind60_of("1A with |1, |1, |2, |2", &one, 60, |_, m| {
        m.infos[..4].copy_from_slice(&[0x0040_0042, 0x0040_0043, 0x0080_0041, 0x0080_0044]);
        m.order[..4].copy_from_slice(&[2, 0, 1, 3]);
    });
    l.behind60_of("1A with |2 alone", &one, 0, |_, m| {
        m.infos[..4].copy_from_slice(&[0x0080_0041, 0x0080_0042, 0x0080_0043, 0x0080_0044]);
    });
    l.behind60_of("1A with |1, 1B with |0", &one, 60, |_, m| {
        m.codes[..4].copy_from_slice(&[0x1a00_0000, 0x1a00_0000, 0x1a00_0000, 0x1b00_0000]);
        m.infos[..4].copy_from_slice(&[0x0040_0042, 0x0040_0043, 0x0080_0044, 0x0000_0041]);
        m.order[..4].copy_from_slice(&[3, 0, 1, 2]);
    });
    // Behind the last line stand zeros, which are no line of 00.
    let zero = sbcs("<subchar> \\x3F", &["<U0000> \\x00 |0", "<U0041> \\x00 |1"]);
    l.behind60_of("00 with |0 and |1", &zero, 0, |_, _| {});
    l.behind60_of("00 with |1 alone", &zero, 60, |r, m| {
        r[1] = 1;
        (m.infos[0], m.infos[1], m.order[1]) = (0x0040_0041, 0, 0);
    });
    // The first and the last of 2,048 lines.
    for i in [0, 1, 1024, 2046, 2047] {
        l.behind60_of(&format!("line {i} of 2,048 made |1"), many(2048), 60, move |_, m| m.infos[i] += 2 << 21);
    }
    for i in [1, 1024, 2047] {
        l.behind60_of(&format!("line {i} of 2,048 made |1 of the code before"), many(2048), 0, move |_, m| {
            m.codes[i] = m.codes[i - 1];
            m.infos[i] += 2 << 21;
        });
        l.behind60_of(&format!("line {i} of 2,048 made |1 of the code before, a |1 too"), many(2048), 60, move |_, m| {
            m.codes[i] = m.codes[i - 1];
            m.infos[i - 1] += 2 << 21;
            m.infos[i] += 2 << 21;
        });
    }
}

/// Both pipes beyond document 01's cases (R28, R29, R31 among them).
fn conversions(l: &mut List) {
    // Every space from 0 to enough; what fits goes out.
    let out = "E28892 33 E28892";
    for (space, number, read, written) in [(0, 50, 0, ""), (1, 50, 0, ""), (2, 50, 0, ""), (3, 50, 2, "E28892"),
        (4, 50, 3, "E2889233"),
        (5, 50, 3, "E2889233"), (6, 50, 3, "E2889233"), (7, 0, 5, out), (8, 0, 5, out)] {
        l.to(&format!("space {space}"), K, "817C33817D", space, STRICT, number, read, written);
    }
    for (space, number, read, written) in [(0, 50, 0, ""), (1, 50, 0, ""), (2, 50, 3, "817C"), (3, 0, 4,
        "817C33"), (4, 0, 4, "817C33")] {
        l.from(&format!("space {space}"), K, "E2889233", space, STRICT, number, read, written);
    }
    l.to("no space, no input", K, "", 0, STRICT, 0, 0, "");
    l.from("no space, no input", K, "", 0, STRICT, 0, 0, "");
    // Around 64 bytes, from which on the places of lines are kept at hand: the same answers, line by line.
    for n in [62u64, 63, 64, 65, 66, 300] {
        let before = |end: u64| "33".repeat((n - end) as usize);
        for (code, number, length, out) in [
            ("817C", 0, 0, "E28892"),
            ("817D", 0, 0, "E28892"),
            ("8180", 53, 0, ""),
            ("812D", 52, 1, ""),
            ("81FF", 52, 2, ""),
        ] {
            let read = if number == 0 { n } else { n - 2 };
            let (input, out, end) = (before(2) + code, before(2) + out, End { number, length });
            l.to(&format!("{n} bytes, the last two {code}"), K, &input, 999, STRICT, end, read, &out);
        }
        for (point, setting, number, out) in [
            ("E28892", STRICT, 0, "817C"),
            ("EFBC8D", STRICT, 53, ""),
            ("EFBC8D", SUBST, 0, "3F"),
            ("EFBC8D", FALL, 0, "817C"),
            ("EFBC8E", SUBST, 0, "3F"),
        ] {
            let read = if number == 0 { n } else { n - 3 };
            let (input, out) = (before(3) + point, before(3) + out);
            l.from(&format!("{n} bytes, the last three {point}"), K, &input, 999, setting, number, read, &out);
        }
    }
    // At one place the earlier line wins: 51, 52, 53 before 50.
    l.to("51 before 50", K, "81", 0, SUBST, 51, 0, "");
    l.to("52 before 50", K, "FF", 0, SUBST, illegal(1), 0, "");
    l.to("53 before 50", K, "3F", 0, STRICT, 53, 0, "");
    l.to("50 when substituted", K, "3F", 2, SUBST, 50, 0, "");
    l.to("50 at the first place, 52 at the second", K, "33FF", 0, STRICT, 50, 0, "");
    l.to("52 behind what fits", K, "33FF", 1, STRICT, illegal(1), 1, "33");
    l.from("51 before 50", K, "E288", 0, SUBST, 51, 0, "");
    l.from("52 before 50", K, "FF", 0, SUBST, 52, 0, "");
    l.from("53 before 50", K, "41", 0, STRICT, 53, 0, "");
    l.from("50 when substituted", K, "41", 0, SUBST, 50, 0, "");
    l.from("50 at the first place, 52 at the second", K, "33FF", 0, STRICT, 50, 0, "");
    l.from("what was written stands", K, "3330FF33", 9, STRICT, 52, 2, "3330");
    l.to("what was written stands", K, "3330FF33", 9, STRICT, illegal(1), 2, "3330");
    // K's bytes, all of them.
    for b in 0..=255u32 {
        let input = format!("{b:02X}");
        let (end, read, out) = match b {
            0x2d | 0x30 | 0x33 => (0.into(), 1, input.clone()),
            0x3f => (0.into(), 1, "EFBFBD".to_string()),
            0x81 => (51.into(), 0, String::new()),
            _ => (illegal(1), 0, String::new()),
        };
        l.to(&format!("byte {input}"), K, &input, 9, SUBST, end, read, &out);
        let (end, read, out) = match b {
            0x7c | 0x7d => (0.into(), 2, "E28892".to_string()),
            0x80 => (0.into(), 2, "EFBFBD".to_string()),
            0x2d | 0x30 | 0x33 | 0x3f | 0x81 => (illegal(1), 0, String::new()),
            _ => (illegal(2), 0, String::new()),
        };
        l.to(&format!("bytes 81 {input}"), K, &format!("81{input}"), 9, SUBST, end, read, &out);
    }
    // R28: cut short only where a well-formed sequence could go on.
    for (input, number) in [("C2", 51), ("DF", 51), ("E0", 51), ("E0A0", 51), ("E0BF", 51), ("E1", 51), ("E180",
        51), ("ED", 51), ("ED9F", 51),
        ("EE80", 51), ("EFBF", 51), ("F0", 51), ("F090", 51), ("F09080", 51), ("F0BFBF", 51), ("F1", 51),
        ("F180", 51), ("F18080", 51), ("F3BFBF", 51),
        ("F4", 51), ("F480", 51), ("F48F", 51), ("F48FBF", 51), ("80", 52), ("BF", 52), ("C0", 52), ("C080",
        52), ("C1", 52), ("C1BF", 52),
        ("C27F", 52), ("C2C0", 52), ("E080", 52), ("E09F", 52), ("E09F80", 52), ("E0A07F", 52), ("E0C0", 52),
        ("E17F", 52), ("E1807F", 52), ("E180C0", 52),
        ("EDA0", 52), ("EDA080", 52), ("EDBF", 52), ("EDBFBF", 52), ("F080", 52), ("F08F", 52), ("F08FBFBF",
        52), ("F0907F", 52), ("F09080C0", 52),
        ("F18080C0", 52), ("F1807F", 52), ("F490", 52), ("F4908080", 52), ("F4BF", 52), ("F5", 52), ("F580",
        52), ("F8", 52), ("F888808080", 52), ("FC", 52), ("FE", 52), ("FF", 52),
        ("C241", 52), ("E28833", 52), ("F0908033", 52)] {
        l.from(&format!("R28: {input}"), K, input, 9, SUBST, number, 0, "");
        l.from(&format!("R28: 33 {input}"), K, &format!("33{input}"), 9, SUBST, number, 1, "33");
    }
    for input in ["00", "7F", "C280", "DFBF", "E0A080", "ED9FBF", "EE8080", "EFBFBF", "F0908080", "F48FBFBF",
        "F3BFBFBF"] {
        let read = hex(input).len() as u64;
        l.from(&format!("well-formed {input}, strict"), K, input, 9, STRICT, 53, 0, "");
        l.from(&format!("well-formed {input}"), K, input, 9, SUBST, 0, read, "3F");
    }
    let empty_row = mbcs(3, "\\x30", &["30, 81:1, 82:2", "", "40:1"], &["<U0030> \\x30"]);
    for (input, number, length, read, out) in [("81", 51, 0, 0, ""), ("3081", 51, 0, 1, "30"), ("8140", 52, 2, 0, ""),
        ("82", 51, 0, 0, ""), ("8240", 51, 0, 0, ""), ("824040", 52, 3, 0, ""), ("8241", 52, 2, 0, "")] {
        let end = End { number, length };
        l.to(&format!("R28: empty row, {input}"), &empty_row, input, 9, SUBST, end, read, out);
    }
    // One to four bytes a code and a character.
    let rows = ["30-3f, 81:1", "40-4f.p, 42:2", "50-5f.p, 52:3", "60-6f.p"];
    let lines = ["<U0041> \\x31", "<U00E4> \\x81\\x40", "<U20AC> \\x81\\x42\\x50",
        "<U1F600> \\x81\\x42\\x52\\x60", "<U10FFFF> \\x81\\x42\\x52\\x61 |0"];
    let four = mbcs(4, "\\x81\\x42\\x52\\x6F", &rows, &lines);
    let codes = "31 8140 814250 81425260 81425261";
    let chars = "41 C3A4 E282AC F09F9880 F48FBFBF";
    l.to("one to four bytes", &four, codes, 20, STRICT, 0, 14, chars);
    l.from("one to four bytes", &four, chars, 20, STRICT, 0, 14, codes);
    l.from("subchar of four bytes", &four, "42", 4, SUBST, 0, 1, "8142526F");
    l.from("subchar of four bytes, space 3", &four, "42", 3, SUBST, 50, 0, "");
    l.to("four bytes cut", &four, "814252", 9, SUBST, 51, 0, "");
    l.to("four bytes broken", &four, "81425299", 9, SUBST, illegal(4), 0, "");
    l.to("four bytes unassigned", &four, "81425262", 9, SUBST, 0, 4, "EFBFBD");
    // R29 and the substitutes.
    let rows = ["30-3f, 90.u, 81:1", "40, 80.u"];
    let sub = "<subchar> \\x81\\x40\n<subchar1> \\x3F";
    let lines = ["<U0030> \\x30 |0", "<U0031> \\x31 |1", "<U0032> \\x3F |2", "<U0033> \\x33 |3",
        "<U0034> \\x30 |1", "<U0036> \\x31 |3"];
    let t = text(1, 2, "MBCS", sub, &rows, &lines);
    for (input, out) in [("90", "1A"), ("35", "1A"), ("3F", "1A"), ("8140", "EFBFBD"), ("8180", "EFBFBD")] {
        let read = hex(input).len() as u64;
        l.to(&format!("R29: {input}"), &t, input, 9, SUBST, 0, read, out);
        l.to(&format!("R29: {input}, strict"), &t, input, 9, STRICT, 53, 0, "");
    }
    // The |3 line reads; the |1 line of the same code does not.
    for (input, out) in [("33", "33"), ("31", "36")] {
        l.to(&format!("R29: {input}"), &t, input, 9, SUBST, 0, 1, out);
        l.to(&format!("R29: {input}, strict"), &t, input, 9, STRICT, 0, 1, out);
    }
    for (input, set, number, out) in [
        ("30", STRICT, 0, "30"),
        ("31", STRICT, 53, ""),
        ("31", SUBST, 0, "8140"),
        ("31", FALL, 0, "31"),
        ("31", FALL_SUBST, 0, "31"),
        ("32", STRICT, 53, ""),
        ("32", SUBST, 0, "3F"),
        ("32", FALL, 53, ""),
        ("32", FALL_SUBST, 0, "3F"),
        ("33", STRICT, 53, ""),
        ("33", SUBST, 0, "8140"),
        ("33", FALL, 53, ""),
        ("34", SUBST, 0, "8140"),
        ("34", FALL, 0, "30"),
        ("35", SUBST, 0, "8140"),
        ("36", SUBST, 0, "8140"),
        ("36", FALL, 53, ""),
    ] {
        let how = format!("U+00{input}, fallback {}, substitute {}", set.fallback, set.substitute);
        let read = if number == 0 { 1 } else { 0 };
        l.from(&how, &t, input, 9, set, number, read, out);
    }
    // Cut short, illegal and well-formed as the Rust standard library has them.
    l.add("from UTF-8 agrees with the standard library", |s| {
        let (record, memory) = is_accepted(s, K.as_bytes())?;
        let bounds = [0x00, 0x41, 0x7f, 0x80, 0x8f, 0x90, 0x9f, 0xa0, 0xbf, 0xc0, 0xc2, 0xe0, 0xff];
        let trails = [0x7f, 0x80, 0xbf, 0xc0];
        let mut inputs: Vec<Bytes> = Vec::new();
        for a in 0..=255u8 {
            inputs.push(vec![a]);
            for b in 0..=255u8 {
                if a >= 0xc0 || bounds.contains(&b) {
                    inputs.push(vec![a, b]);
                }
                if a >= 0xc0 && bounds.contains(&b) {
                    for c in trails {
                        inputs.push(vec![a, b, c]);
                        inputs.extend(trails.map(|d| vec![a, b, c, d]));
                    }
                }
            }
        }
        for input in inputs {
            let (number, read) = match std::str::from_utf8(&input) {
                Ok(_) => (0, input.len()),
                Err(e) if e.error_len().is_none() => (51, e.valid_up_to()),
                Err(e) => (52, e.valid_up_to()),
            };
            let got = s.from_unicode(&record, &memory, &input, &mut [0; 16], Scheme::Utf8, SUBST);
            let length = if number == 52 { 1 } else { 0 };
            equal(&format!("{input:02x?}"), (got.number, got.read, got.length), (number, read as u64, length))?;
            skips_as_std(s, &record, &memory, &input)?;
        }
        Ok(())
    });
    // A long frame.
    l.add("to UTF-8, 4,096 bytes: 0", |s| {
        let (record, memory) = is_accepted(s, K.as_bytes())?;
        let input = b"\x81\x7c".repeat(2048);
        let mut output = old_bytes(6144 + 7);
        let got = s.to_unicode(&record, &memory, &input, &mut output, Scheme::Utf8, STRICT);
        equal("answer", got, Piped { number: 0, read: 4096, written: 6144, length: 0 })?;
        let mut want = old_bytes(6144 + 7);
        want[..6144].copy_from_slice(&b"\xe2\x88\x92".repeat(2048));
        equal_slices("output", &output, &want)
    });
}

pub const BE: Scheme = Scheme::Utf32Be;
pub const LE: Scheme = Scheme::Utf32Le;
/// Plain UTF-32, with a byte order mark.
pub const PLAIN: Scheme = Scheme::Utf32;

/// Codes for the bounds of the scalar values, and for what looks like a mark.
fn bounds() -> Bytes {
    let lines = ["<U0000> \\x00", "<UD7FF> \\x01", "<UE000> \\x02", "<UFEFF> \\x03", "<UFFFE> \\x04",
        "<UFFFF> \\x05", "<U10000> \\x06", "<U10FFFF> \\x07", "<U0033> \\x33"];
    mbcs(1, "\\x3F", &["0-ff.p"], &lines)
}

/// Document 01's cases 1 to 6 in UTF-32.
fn utf32_k(l: &mut List) {
    l.to_in(BE, "case 1", K, "817C33", 15, STRICT, 0, 3, "00002212 00000033");
    l.to_in(LE, "case 1", K, "817C33", 15, STRICT, 0, 3, "12220000 33000000");
    l.to_in(PLAIN, "case 1", K, "817C33", 15, STRICT, 0, 3, "0000FEFF 00002212 00000033");
    l.from_in(BE, "case 2", K, "00002212 00000033", 9, STRICT, 0, 8, "817C33");
    l.from_in(LE, "case 2", K, "12220000 33000000", 9, STRICT, 0, 8, "817C33");
    l.from_in(PLAIN, "case 2, no mark", K, "00002212 00000033", 9, STRICT, 0, 8, "817C33");
    l.from_in(PLAIN, "case 2, mark", K, "0000FEFF 00002212 00000033", 9, STRICT, 0, 12, "817C33");
    l.from_in(PLAIN, "case 2, little-endian mark", K, "FFFE0000 12220000 33000000", 9, STRICT, 0, 12, "817C33");
    for (scheme, how, mark, input) in [
        (BE, "", 0, "0000FF0D 00000033"),
        (LE, "", 0, "0DFF0000 33000000"),
        (PLAIN, ", no mark", 0, "0000FF0D 00000033"),
        (PLAIN, ", mark", 4, "0000FEFF 0000FF0D 00000033"),
        (PLAIN, ", little-endian mark", 4, "FFFE0000 0DFF0000 33000000"),
    ] {
        l.from_in(scheme, &format!("case 3, strict{how}"), K, input, 9, STRICT, 53, mark, "");
        l.from_in(scheme, &format!("case 3, substitute{how}"), K, input, 9, SUBST, 0, mark + 8, "3F33");
        l.from_in(scheme, &format!("case 3, fallback{how}"), K, input, 9, FALL, 0, mark + 8, "817C33");
        l.from_in(scheme, &format!("case 3, both{how}"), K, input, 9, FALL_SUBST, 0, mark + 8, "817C33");
    }
    for (scheme, mark) in [(BE, ""), (LE, ""), (PLAIN, "0000FEFF")] {
        for (set, how) in [(STRICT, "strict"), (SUBST, "substitute")] {
            l.to_in(scheme, &format!("case 4, 81, {how}"), K, "81", 9, set, 51, 0, mark);
            l.to_in(scheme, &format!("case 4, 81 2D 33, {how}"), K, "812D33", 9, set, illegal(1), 0, mark);
            l.to_in(scheme, &format!("case 4, empty, {how}"), K, "", 9, set, 0, 0, mark);
        }
        l.to_in(scheme, "case 5, strict", K, "8180", 9, STRICT, 53, 0, mark);
        l.to_in(scheme, "case 6", K, "817C", 2, STRICT, 50, 0, "");
    }
    l.to_in(BE, "case 5, substitute", K, "8180", 9, SUBST, 0, 2, "0000FFFD");
    l.to_in(LE, "case 5, substitute", K, "8180", 9, SUBST, 0, 2, "FDFF0000");
    l.to_in(PLAIN, "case 5, substitute", K, "8180", 9, SUBST, 0, 2, "0000FEFF 0000FFFD");
}

/// The byte order mark, read and written (S1, S2, S3).
fn utf32_marks(l: &mut List) {
    let t = bounds();
    // In plain UTF-32 it chooses the order and is no text.
    for space in [0, 9] {
        l.from_in(PLAIN, &format!("the mark alone, space {space}"), K, "0000FEFF", space, STRICT, 0, 4, "");
        l.from_in(PLAIN, &format!("little-endian mark alone, space {space}"), K, "FFFE0000", space, STRICT, 0, 4, "");
        l.from_in(PLAIN, &format!("no mark, no text, space {space}"), K, "", space, STRICT, 0, 0, "");
    }
    for (how, input, number, read, out) in [
        ("no mark", "00000033", 0, 4, "33"),
        ("mark", "0000FEFF 00000033", 0, 8, "33"),
        ("little-endian mark", "FFFE0000 33000000", 0, 8, "33"),
        ("no mark, little-endian text", "33000000", 52, 0, ""),
        ("mark, little-endian text", "0000FEFF 33000000", 52, 4, ""),
        ("little-endian mark, big-endian text", "FFFE0000 00000033", 52, 4, ""),
        ("little-endian mark, the second character big-endian", "FFFE0000 33000000 00000033", 52, 8, "33"),
        ("mark behind a character is text", "00000033 0000FEFF", 0, 8, "333F"),
        ("little-endian mark behind a character", "00000033 FFFE0000", 52, 4, "33"),
        ("a second mark is text", "0000FEFF 0000FEFF", 0, 8, "3F"),
        ("a second little-endian mark is text", "FFFE0000 FFFE0000", 0, 8, "3F"),
        ("mark, little-endian mark", "0000FEFF FFFE0000", 52, 4, ""),
        ("little-endian mark, mark", "FFFE0000 0000FEFF", 52, 4, ""),
        ("a mark of UTF-16", "FEFF0033", 52, 0, ""),
        ("a little-endian mark of UTF-16", "FFFE3300", 52, 0, ""),
        ("a mark of UTF-8", "EFBBBF33", 52, 0, ""),
        ("nearly a mark, 1", "0100FEFF", 52, 0, ""),
        ("nearly a mark, 2", "0001FEFF", 0, 4, "3F"),
        ("nearly a mark, 3", "0000FFFF", 0, 4, "3F"),
        ("nearly a mark, 4", "0000FEFE", 0, 4, "3F"),
        ("nearly a little-endian mark, 1", "FEFE0000", 52, 0, ""),
        ("nearly a little-endian mark, 2", "FFFF0000", 52, 0, ""),
        ("nearly a little-endian mark, 3", "FFFE0100", 52, 0, ""),
        ("nearly a little-endian mark, 4", "FFFE0001", 52, 0, ""),
        ("halves of the mark changed", "FEFF0000", 52, 0, ""),
    ] {
        l.from_in(PLAIN, how, K, input, 9, SUBST, number, read, out);
    }
    l.from_in(PLAIN, "a second mark, strict", K, "0000FEFF 0000FEFF", 9, STRICT, 53, 4, "");
    l.from_in(PLAIN, "a second little-endian mark, strict", K, "FFFE0000 FFFE0000", 9, STRICT, 53, 4, "");
    // With a table that has FEFF and FFFE.
    for (how, input, number, read, out) in [
        ("the mark alone, mapped", "0000FEFF", 0, 4, ""),
        ("the little-endian mark alone, mapped", "FFFE0000", 0, 4, ""),
        ("a second mark, mapped", "0000FEFF 0000FEFF", 0, 8, "03"),
        ("a third mark, mapped", "0000FEFF 0000FEFF 0000FEFF", 0, 12, "0303"),
        ("a second little-endian mark, mapped", "FFFE0000 FFFE0000", 0, 8, "03"),
        ("a second little-endian mark and text", "FFFE0000 FFFE0000 33000000", 0, 12, "0333"),
        ("mark behind a character, mapped", "00000033 0000FEFF", 0, 8, "3303"),
        ("FFFE is no mark", "0000FFFE", 0, 4, "04"),
        ("FFFE behind the little-endian mark", "FFFE0000 FEFF0000", 0, 8, "04"),
    ] {
        l.from_in(PLAIN, how, &t, input, 9, STRICT, number, read, out);
    }
    // In the other two an initial FEFF is text.
    for (scheme, mark, other, three) in
        [(BE, "0000FEFF", "FFFE0000", "00000033"), (LE, "FFFE0000", "0000FEFF", "33000000")]
    {
        l.from_in(scheme, "initial FEFF, strict", K, mark, 9, STRICT, 53, 0, "");
        l.from_in(scheme, "initial FEFF", K, mark, 9, SUBST, 0, 4, "3F");
        l.from_in(scheme, "initial FEFF, mapped", &t, mark, 9, STRICT, 0, 4, "03");
        l.from_in(scheme, "initial FEFF and text", &t, &format!("{mark}{three}"), 9, STRICT, 0, 8, "0333");
        l.from_in(scheme, "two FEFF", &t, &format!("{mark}{mark}"), 9, STRICT, 0, 8, "0303");
        l.from_in(scheme, "initial FEFF, no space", &t, mark, 0, STRICT, 50, 0, "");
        l.from_in(scheme, "FEFF in the other order", &t, other, 9, SUBST, 52, 0, "");
        l.from_in(scheme, "FEFF in the other order and text", &t, &format!("{other}{three}"), 9, SUBST, 52, 0, "");
        l.from_in(scheme, "FEFF in the other order behind text", &t, &format!("{three}{other}"), 9, SUBST, 52, 4, "33");
    }
    // Written: the mark first, and FEFF as text behind it.
    l.to_in(PLAIN, "FEFF is written behind the mark", &t, "03", 9, STRICT, 0, 1, "0000FEFF 0000FEFF");
    l.to_in(PLAIN, "FFFE is written behind the mark", &t, "04", 9, STRICT, 0, 1, "0000FEFF 0000FFFE");
    l.to_in(BE, "FEFF", &t, "0333", 9, STRICT, 0, 2, "0000FEFF 00000033");
    l.to_in(LE, "FEFF", &t, "0333", 9, STRICT, 0, 2, "FFFE0000 33000000");
    // A stop at the first character behind the mark: its four bytes are read.
    for (input, space, set, number) in [
        ("0000FEFF 0000D800", 9, SUBST, 52),
        ("0000FEFF 00110000", 9, SUBST, 52),
        ("0000FEFF 00", 9, SUBST, 51),
        ("0000FEFF 00000041", 9, STRICT, 53),
        ("0000FEFF 00000041", 0, STRICT, 53),
        ("0000FEFF 00000041", 0, SUBST, 50),
        ("0000FEFF 00000033", 0, STRICT, 50),
        ("0000FEFF 00002212", 1, STRICT, 50),
        ("FFFE0000 00D80000", 9, SUBST, 52),
        ("FFFE0000 00001100", 9, SUBST, 52),
        ("FFFE0000 33", 9, SUBST, 51),
        ("FFFE0000 41000000", 9, STRICT, 53),
        ("FFFE0000 33000000", 0, STRICT, 50),
    ] {
        l.from_in(PLAIN, &format!("{input}, space {space}"), K, input, space, set, number, 4, "");
    }
}

/// Which values are characters (S3), and bytes left over.
fn utf32_values(l: &mut List) {
    let t = bounds();
    // A character in big-endian order, in little-endian order, its code.
    for (be, le, code) in [
        ("00000000", "00000000", "00"),
        ("00000033", "33000000", "33"),
        ("0000D7FF", "FFD70000", "01"),
        ("0000E000", "00E00000", "02"),
        ("0000FEFF", "FFFE0000", "03"),
        ("0000FFFE", "FEFF0000", "04"),
        ("0000FFFF", "FFFF0000", "05"),
        ("00010000", "00000100", "06"),
        ("0010FFFF", "FFFF1000", "07"),
    ] {
        l.from_in(BE, be, &t, be, 9, STRICT, 0, 4, code);
        l.from_in(LE, le, &t, le, 9, STRICT, 0, 4, code);
        l.from_in(PLAIN, &format!("mark, {be}"), &t, &format!("0000FEFF {be}"), 9, STRICT, 0, 8, code);
        l.from_in(PLAIN, &format!("little-endian mark, {le}"), &t, &format!("FFFE0000 {le}"), 9, STRICT, 0, 8, code);
        l.to_in(BE, code, &t, code, 9, STRICT, 0, 1, be);
        l.to_in(LE, code, &t, code, 9, STRICT, 0, 1, le);
        l.to_in(PLAIN, code, &t, code, 9, STRICT, 0, 1, &format!("0000FEFF {be}"));
    }
    // No character: surrogates, and above 10FFFF.
    for (be, le) in [
        ("0000D800", "00D80000"),
        ("0000D83D", "3DD80000"),
        ("0000DBFF", "FFDB0000"),
        ("0000DC00", "00DC0000"),
        ("0000DE00", "00DE0000"),
        ("0000DFFF", "FFDF0000"),
        ("00110000", "00001100"),
        ("0011FFFF", "FFFF1100"),
        ("00120033", "33001200"),
        ("00200033", "33002000"),
        ("00800033", "33008000"),
        ("00FF0000", "0000FF00"),
        ("01000000", "00000001"),
        ("01000033", "33000001"),
        ("7FFFFFFF", "FFFFFF7F"),
        ("80000000", "00000080"),
        ("80000033", "33000080"),
        ("FFFE0000", "0000FEFF"),
        ("FFFFFFFF", "FFFFFFFF"),
    ] {
        l.from_in(BE, be, &t, be, 9, SUBST, 52, 0, "");
        l.from_in(LE, le, &t, le, 9, SUBST, 52, 0, "");
        l.from_in(BE, &format!("33, {be}"), &t, &format!("00000033 {be} 00000033"), 9, SUBST, 52, 4, "33");
        l.from_in(LE, &format!("33, {le}"), &t, &format!("33000000 {le} 33000000"), 9, SUBST, 52, 4, "33");
        l.from_in(PLAIN, &format!("33, {be}"), &t, &format!("00000033 {be}"), 9, SUBST, 52, 4, "33");
        l.from_in(PLAIN, &format!("mark, {be}"), &t, &format!("0000FEFF {be}"), 9, SUBST, 52, 4, "");
        l.from_in(PLAIN, &format!("little-endian mark, {le}"), &t, &format!("FFFE0000 {le}"), 9, SUBST, 52, 4, "");
    }
    // A pair of surrogates is two sequences, each illegal; U+1F600 is the character.
    l.from_in(BE, "a pair", K, "0000D83D 0000DE00", 9, SUBST, 52, 0, "");
    l.from_in(LE, "a pair", K, "3DD80000 00DE0000", 9, SUBST, 52, 0, "");
    l.from_in(PLAIN, "a pair", K, "0000D83D 0000DE00", 9, SUBST, 52, 0, "");
    l.from_in(PLAIN, "little-endian mark, a pair", K, "FFFE0000 3DD80000 00DE0000", 9, SUBST, 52, 4, "");
    l.from_in(BE, "33, a pair", K, "00000033 0000D83D 0000DE00", 9, SUBST, 52, 4, "33");
    l.from_in(BE, "a second half", K, "0000DE00 00000033", 9, SUBST, 52, 0, "");
    l.from_in(BE, "a pair the other way", K, "0000DE00 0000D83D", 9, SUBST, 52, 0, "");
    l.from_in(BE, "a pair in four bytes", K, "D83DDE00", 9, SUBST, 52, 0, "");
    l.from_in(BE, "U+1F600", K, "0001F600", 9, SUBST, 0, 4, "3F");
    l.from_in(LE, "U+1F600", K, "00F60100", 9, SUBST, 0, 4, "3F");
    // One to three bytes left over, whatever they are.
    for rest in ["00", "33", "D8", "FF", "0000", "0033", "00D8", "FFFE", "FEFF", "FFFF", "000000", "000033", "0000D8",
        "0000FE", "FFFE00", "001100", "330000", "00D800", "EFBBBF", "FFFFFF"] {
        for (scheme, three) in [(BE, "00000033"), (LE, "33000000"), (PLAIN, "00000033")] {
            l.from_in(scheme, &format!("{rest} left over"), K, rest, 9, SUBST, 51, 0, "");
            l.from_in(scheme, &format!("{rest} left over, no space"), K, rest, 0, STRICT, 51, 0, "");
            l.from_in(scheme, &format!("33, {rest} left over"), K, &format!("{three}{rest}"), 9, STRICT, 51, 4, "33");
            l.from_in(scheme, &format!("33, {rest} left over, space 1"), K, &format!("{three}{rest}"), 1, STRICT, 51, 4,
                "33");
        }
        for (mark, three) in [("0000FEFF", "00000033"), ("FFFE0000", "33000000")] {
            l.from_in(PLAIN, &format!("{mark}, {rest} left over"), K, &format!("{mark}{rest}"), 9, SUBST, 51, 4, "");
            let text = format!("{mark}{three}{rest}");
            l.from_in(PLAIN, &format!("{mark}, 33, {rest} left over"), K, &text, 9, SUBST, 51, 8, "33");
        }
    }
    // At one place the earlier line wins.
    for (scheme, three, letter, surrogate) in
        [(BE, "00000033", "00000041", "0000D800"), (LE, "33000000", "41000000", "00D80000")]
    {
        l.from_in(scheme, "52 before 50", K, surrogate, 0, SUBST, 52, 0, "");
        l.from_in(scheme, "53 before 50", K, letter, 0, STRICT, 53, 0, "");
        l.from_in(scheme, "50 when substituted", K, letter, 0, SUBST, 50, 0, "");
        l.from_in(scheme, "50 at the first place", K, &format!("{three}{surrogate}"), 0, STRICT, 50, 0, "");
        l.from_in(scheme, "52 behind what fits", K, &format!("{three}{surrogate}"), 1, STRICT, 52, 4, "33");
        l.from_in(scheme, "53 behind what fits", K, &format!("{three}{letter}"), 1, STRICT, 53, 4, "33");
    }
    l.add("from UTF-32 agrees with the standard library", |s| {
        let (record, memory) = is_accepted(s, K.as_bytes())?;
        let firsts = [0x00u8, 0x01, 0x80, 0xff];
        let halves = firsts.into_iter().flat_map(|a| [0x00, 0x0f, 0x10, 0x11, 0xff].map(|b| (a, b)));
        for (a, b) in halves {
            for c in [0x00, 0xd7, 0xd8, 0xdb, 0xdc, 0xdf, 0xe0, 0xff] {
                for d in [0x00, 0x33, 0x7f, 0xff] {
                    let number = if char::from_u32(u32::from_be_bytes([a, b, c, d])).is_some() { 0 } else { 52 };
                    for (scheme, input) in [(BE, [a, b, c, d]), (LE, [d, c, b, a])] {
                        let got = s.from_unicode(&record, &memory, &input, &mut [0; 4], scheme, SUBST);
                        equal(&format!("{} {input:02x?}", scheme.name()), got.number, number)?;
                    }
                }
            }
        }
        Ok(())
    });
    l.add("from UTF-32, every surrogate: 52", |s| {
        let (record, memory) = is_accepted(s, K.as_bytes())?;
        for (c, d) in (0xd8..=0xdf).flat_map(|c| (0..=255).map(move |d| (c, d))) {
            for (scheme, input) in [(BE, [0, 0, c, d]), (LE, [d, c, 0, 0])] {
                let what = format!("{} {input:02x?}", scheme.name());
                let got = s.from_unicode(&record, &memory, &input, &mut [0; 4], scheme, SUBST);
                equal(&what, got, Piped { number: 52, read: 0, written: 0, length: 4 })?;
                let mut output = [0; 4];
                let got = s.from_unicode(&record, &memory, &input, &mut output, scheme, SKIP);
                equal(&what, got, Piped { number: 0, read: 4, written: 1, length: 0 })?;
                equal(&what, output, [0x3f, 0, 0, 0])?;
            }
        }
        Ok(())
    });
    // Every character in one text, in each order, with and without a mark.
    for (scheme, mark, big) in [(BE, "", true), (LE, "", false), (PLAIN, "", true), (PLAIN, "0000FEFF", true),
        (PLAIN, "FFFE0000", false)] {
        l.add(format!("from {}, every character, mark {mark}: 0", scheme.name()), move |s| {
            let (record, memory) = is_accepted(s, K.as_bytes())?;
            let (mut input, mut want) = (hex(mark), Vec::new());
            for c in '\0'..=char::MAX {
                let v = c as u32;
                let bytes = [0, (v >> 16) as u8, (v >> 8) as u8, v as u8];
                input.extend(if big { bytes } else { [bytes[3], bytes[2], bytes[1], bytes[0]] });
                want.extend(match v {
                    0x2d | 0x30 | 0x33 => vec![v as u8],
                    0x2212 => vec![0x81, 0x7c],
                    _ => vec![0x3f],
                });
            }
            let mut output = vec![0; want.len()];
            let got = s.from_unicode(&record, &memory, &input, &mut output, scheme, SUBST);
            let read = 4 * 1_112_064 + hex(mark).len() as u64;
            equal("answer", got, Piped { number: 0, read, written: 1_112_065, length: 0 })?;
            equal_slices("output", &output, &want)
        });
    }
}

/// Every space from 0 to enough; the mark before any byte is looked at (S1).
fn utf32_spaces(l: &mut List) {
    for (scheme, first, both) in [(BE, "00002212", "00002212 00000033"), (LE, "12220000", "12220000 33000000")] {
        for space in 0..=9 {
            let (number, read, out) = match space {
                0..=3 => (50, 0, ""),
                4..=7 => (50, 2, first),
                _ => (0, 3, both),
            };
            l.to_in(scheme, &format!("space {space}"), K, "817C33", space, STRICT, number, read, out);
        }
        l.to_in(scheme, "no space, no input", K, "", 0, STRICT, 0, 0, "");
        l.to_in(scheme, "51 before 50", K, "81", 0, SUBST, 51, 0, "");
        l.to_in(scheme, "52 before 50", K, "FF", 0, SUBST, illegal(1), 0, "");
        l.to_in(scheme, "53 before 50", K, "3F", 0, STRICT, 53, 0, "");
        l.to_in(scheme, "50 when substituted", K, "3F", 3, SUBST, 50, 0, "");
    }
    for space in 0..=13 {
        let (number, read, out) = match space {
            0..=3 => (50, 0, ""),
            4..=7 => (50, 0, "0000FEFF"),
            8..=11 => (50, 2, "0000FEFF 00002212"),
            _ => (0, 3, "0000FEFF 00002212 00000033"),
        };
        l.to_in(PLAIN, &format!("space {space}"), K, "817C33", space, STRICT, number, read, out);
    }
    // S1: without room for the mark 50, whatever the input; with it, what the input gives.
    for (input, how, set, number, length) in [
        ("", "empty", STRICT, 0, 0),
        ("81", "cut short", SUBST, 51, 0),
        ("81", "cut short, strict", STRICT, 51, 0),
        ("812D33", "illegal", SUBST, 52, 1),
        ("81FF33", "illegal with the byte that broke it", SUBST, 52, 2),
        ("FF", "illegal at once", SUBST, 52, 1),
        ("3F", "unassigned, strict", STRICT, 53, 0),
        ("8180", "ended by u, strict", STRICT, 53, 0),
        ("3F", "unassigned, substituted", SUBST, 50, 0),
        ("33", "assigned", STRICT, 50, 0),
        ("812D33", "illegal and skipped", SKIP, 50, 0),
        ("FF", "illegal at once and skipped", SKIP, 50, 0),
        ("81", "cut short, skipping", SKIP, 51, 0),
    ] {
        for space in 0..=3 {
            l.to_in(PLAIN, &format!("S1: {how}, space {space}"), K, input, space, set, 50, 0, "");
        }
        let end = End { number, length };
        l.to_in(PLAIN, &format!("S1: {how}, space 4"), K, input, 4, set, end, 0, "0000FEFF");
    }
    l.to_in(PLAIN, "mark and one character, space 7", K, "33", 7, STRICT, 50, 0, "0000FEFF");
    l.to_in(PLAIN, "mark and one character, space 8", K, "33", 8, STRICT, 0, 1, "0000FEFF 00000033");
    l.to_in(PLAIN, "mark and a substitute, space 7", K, "3F", 7, SUBST, 50, 0, "0000FEFF");
    l.to_in(PLAIN, "mark and a substitute, space 8", K, "3F", 8, SUBST, 0, 1, "0000FEFF 0000FFFD");
    l.to_in(PLAIN, "a stop behind what fits", K, "33FF", 8, STRICT, illegal(1), 1, "0000FEFF 00000033");
    l.to_in(PLAIN, "50 at the first place, 52 at the second", K, "33FF", 7, STRICT, 50, 0, "0000FEFF");
    for (scheme, mark, input) in [
        (BE, 0, "00002212 00000033"),
        (LE, 0, "12220000 33000000"),
        (PLAIN, 0, "00002212 00000033"),
        (PLAIN, 4, "0000FEFF 00002212 00000033"),
        (PLAIN, 4, "FFFE0000 12220000 33000000"),
    ] {
        for (space, number, read, out) in [(0, 50, 0, ""), (1, 50, 0, ""), (2, 50, 4, "817C"), (3, 0, 8, "817C33"),
            (4, 0, 8, "817C33")] {
            l.from_in(scheme, &format!("{input}, space {space}"), K, input, space, STRICT, number, mark + read, out);
        }
    }
    l.from_in(BE, "no space, no input", K, "", 0, STRICT, 0, 0, "");
    l.from_in(LE, "no space, no input", K, "", 0, STRICT, 0, 0, "");
}

/// Substitutes, fallbacks, codes of one to four bytes.
fn utf32_settings(l: &mut List) {
    let rows = ["30-3f, 90.u, 81:1", "40, 80.u"];
    let sub = "<subchar> \\x81\\x40\n<subchar1> \\x3F";
    let lines = ["<U0030> \\x30 |0", "<U0031> \\x31 |1", "<U0032> \\x3F |2", "<U0033> \\x33 |3",
        "<U0034> \\x30 |1", "<U0036> \\x31 |3"];
    let t = text(1, 2, "MBCS", sub, &rows, &lines);
    for (input, be, le) in [
        ("90", "0000001A", "1A000000"),
        ("35", "0000001A", "1A000000"),
        ("3F", "0000001A", "1A000000"),
        ("8140", "0000FFFD", "FDFF0000"),
        ("8180", "0000FFFD", "FDFF0000"),
    ] {
        let read = hex(input).len() as u64;
        l.to_in(BE, input, &t, input, 9, SUBST, 0, read, be);
        l.to_in(LE, input, &t, input, 9, SUBST, 0, read, le);
        l.to_in(PLAIN, input, &t, input, 9, SUBST, 0, read, &format!("0000FEFF {be}"));
        l.to_in(BE, &format!("{input}, strict"), &t, input, 9, STRICT, 53, 0, "");
        l.to_in(LE, &format!("{input}, strict"), &t, input, 9, STRICT, 53, 0, "");
        l.to_in(PLAIN, &format!("{input}, strict"), &t, input, 9, STRICT, 53, 0, "0000FEFF");
    }
    l.to_in(BE, "a |3 line reads", &t, "33", 9, STRICT, 0, 1, "00000033");
    for (set, how) in [(STRICT, "strict"), (SUBST, "substitute")] {
        let how = format!("a |3 line reads, the |1 line does not, {how}");
        l.to_in(BE, &how, &t, "31", 9, set, 0, 1, "00000036");
        l.to_in(LE, &how, &t, "31", 9, set, 0, 1, "36000000");
        l.to_in(PLAIN, &how, &t, "31", 9, set, 0, 1, "0000FEFF 00000036");
    }
    for (digit, set, number, out) in [
        ("30", STRICT, 0, "30"),
        ("31", STRICT, 53, ""),
        ("31", SUBST, 0, "8140"),
        ("31", FALL, 0, "31"),
        ("31", FALL_SUBST, 0, "31"),
        ("32", STRICT, 53, ""),
        ("32", SUBST, 0, "3F"),
        ("32", FALL, 53, ""),
        ("32", FALL_SUBST, 0, "3F"),
        ("33", STRICT, 53, ""),
        ("33", SUBST, 0, "8140"),
        ("34", SUBST, 0, "8140"),
        ("34", FALL, 0, "30"),
        ("35", SUBST, 0, "8140"),
    ] {
        let how = format!("U+00{digit}, fallback {}, substitute {}", set.fallback, set.substitute);
        let read = |mark| if number == 0 { mark + 4 } else { mark };
        let (be, le) = (format!("000000{digit}"), format!("{digit}000000"));
        l.from_in(BE, &how, &t, &be, 9, set, number, read(0), out);
        l.from_in(LE, &how, &t, &le, 9, set, number, read(0), out);
        l.from_in(PLAIN, &how, &t, &be, 9, set, number, read(0), out);
        l.from_in(PLAIN, &format!("mark, {how}"), &t, &format!("0000FEFF{be}"), 9, set, number, read(4), out);
        let le = format!("FFFE0000{le}");
        l.from_in(PLAIN, &format!("little-endian mark, {how}"), &t, &le, 9, set, number, read(4), out);
    }
    let rows = ["30-3f, 81:1", "40-4f.p, 42:2", "50-5f.p, 52:3", "60-6f.p"];
    let lines = ["<U0041> \\x31", "<U00E4> \\x81\\x40", "<U20AC> \\x81\\x42\\x50",
        "<U1F600> \\x81\\x42\\x52\\x60", "<U10FFFF> \\x81\\x42\\x52\\x61 |0"];
    let four = mbcs(4, "\\x81\\x42\\x52\\x6F", &rows, &lines);
    let codes = "31 8140 814250 81425260 81425261";
    let be = "00000041 000000E4 000020AC 0001F600 0010FFFF";
    let le = "41000000 E4000000 AC200000 00F60100 FFFF1000";
    let marked = "0000FEFF 00000041 000000E4 000020AC 0001F600 0010FFFF";
    l.to_in(BE, "one to four bytes", &four, codes, 26, STRICT, 0, 14, be);
    l.to_in(LE, "one to four bytes", &four, codes, 26, STRICT, 0, 14, le);
    l.to_in(PLAIN, "one to four bytes", &four, codes, 26, STRICT, 0, 14, marked);
    l.from_in(BE, "one to four bytes", &four, be, 20, STRICT, 0, 20, codes);
    l.from_in(LE, "one to four bytes", &four, le, 20, STRICT, 0, 20, codes);
    l.from_in(PLAIN, "one to four bytes", &four, marked, 20, STRICT, 0, 24, codes);
    l.from_in(PLAIN, "one to four bytes, no mark", &four, be, 20, STRICT, 0, 20, codes);
    l.from_in(BE, "subchar of four bytes", &four, "00000042", 4, SUBST, 0, 4, "8142526F");
    l.from_in(BE, "subchar of four bytes, space 3", &four, "00000042", 3, SUBST, 50, 0, "");
    l.to_in(BE, "four bytes cut", &four, "814252", 9, SUBST, 51, 0, "");
    l.to_in(BE, "four bytes broken", &four, "81425299", 9, SUBST, illegal(4), 0, "");
    l.to_in(BE, "four bytes unassigned", &four, "81425262", 9, SUBST, 0, 4, "0000FFFD");
}

/// Long inputs, where places of lines are kept at hand: the same answers, line by line.
fn utf32_long(l: &mut List) {
    for n in [15u64, 16, 17, 62, 63, 64, 65, 66, 300] {
        for (scheme, mark, three, minus) in [
            (BE, "", "00000033", "00002212"),
            (LE, "", "33000000", "12220000"),
            (PLAIN, "0000FEFF", "00000033", "00002212"),
        ] {
            let before = |one: &str| one.repeat(n as usize - 2);
            for (code, number, length, last) in [
                ("817C", 0, 0, minus),
                ("817D", 0, 0, minus),
                ("8180", 53, 0, ""),
                ("812D", 52, 1, ""),
                ("81FF", 52, 2, ""),
            ] {
                let read = if number == 0 { n } else { n - 2 };
                let (input, out) = (before("33") + code, mark.to_string() + &before(three) + last);
                let name = format!("{n} bytes, the last two {code}");
                l.to_in(scheme, &name, K, &input, 1999, STRICT, End { number, length }, read, &out);
            }
        }
        for (scheme, mark, three, [minus, wide, none]) in [
            (BE, "", "00000033", ["00002212", "0000FF0D", "0000FF0E"]),
            (LE, "", "33000000", ["12220000", "0DFF0000", "0EFF0000"]),
            (PLAIN, "0000FEFF", "00000033", ["00002212", "0000FF0D", "0000FF0E"]),
            (PLAIN, "FFFE0000", "33000000", ["12220000", "0DFF0000", "0EFF0000"]),
        ] {
            for (point, set, number, last) in [
                (minus, STRICT, 0, "817C"),
                (wide, STRICT, 53, ""),
                (wide, SUBST, 0, "3F"),
                (wide, FALL, 0, "817C"),
                (none, SUBST, 0, "3F"),
            ] {
                let read = hex(mark).len() as u64 + if number == 0 { 4 * n } else { 4 * (n - 1) };
                let before = |one: &str| one.repeat(n as usize - 1);
                let (input, out) = (mark.to_string() + &before(three) + point, before("33") + last);
                let name = format!("{n} characters, mark {mark}, the last {point}");
                l.from_in(scheme, &name, K, &input, 999, set, number, read, &out);
            }
        }
    }
    for (scheme, mark, one) in [(BE, "", "00002212"), (LE, "", "12220000"), (PLAIN, "0000FEFF", "00002212")] {
        let (codes, chars) = ("817C".repeat(2048), mark.to_string() + &one.repeat(2048));
        let bytes = 4 * 2048 + hex(mark).len();
        l.to_in(scheme, "4,096 bytes", K, &codes, bytes + 7, STRICT, 0, 4096, &chars);
        let fits = &chars[..2 * bytes - 8];
        l.to_in(scheme, "4,096 bytes, a place too few", K, &codes, bytes - 1, STRICT, 50, 4094, fits);
        l.from_in(scheme, "4,096 bytes", K, &chars, 4096 + 7, STRICT, 0, bytes as u64, &codes);
        let stop = bytes as u64 - 4;
        l.from_in(scheme, "4,096 bytes, a place too few", K, &chars, 4095, STRICT, 50, stop, &codes[..2 * 4094]);
    }
}

/// K: a byte that breaks a sequence and could begin one is no part of it (S5, S8).
fn skip_k(l: &mut List) {
    // The cable's own: a stray byte, then -3.
    for (set, how) in [(STRICT, "strict"), (SUBST, "substitute")] {
        l.to(&format!("81 2D 33, {how}"), K, "812D33", 9, set, illegal(1), 0, "");
        l.to(&format!("81 2D 33, {how}"), K, "812D33", 9, skipping(set), 0, 3, "EFBFBD 2D 33");
        l.to(&format!("81 FF 33, {how}"), K, "81FF33", 9, set, illegal(2), 0, "");
        l.to(&format!("81 FF 33, {how}"), K, "81FF33", 9, skipping(set), 0, 3, "EFBFBD 33");
        l.to(&format!("81 81, {how}"), K, "8181", 9, set, illegal(1), 0, "");
        l.to(&format!("81 81, {how}"), K, "8181", 9, skipping(set), 51, 1, "EFBFBD");
        l.to(&format!("FF, {how}"), K, "FF", 9, set, illegal(1), 0, "");
        l.to(&format!("FF, {how}"), K, "FF", 9, skipping(set), 0, 1, "EFBFBD");
        l.to(&format!("81, {how}"), K, "81", 9, set, 51, 0, "");
        l.to(&format!("81, {how}"), K, "81", 9, skipping(set), 51, 0, "");
        l.to(&format!("empty, {how}"), K, "", 9, skipping(set), 0, 0, "");
        l.to(&format!("81 7C 33, {how}"), K, "817C33", 9, skipping(set), 0, 3, "E28892 33");
    }
    // Strict and unassigned is 53 all the same.
    l.to("81 80, strict", K, "8180", 9, SKIP, 53, 0, "");
    l.to("81 80, substitute", K, "8180", 9, SKIP_SUBST, 0, 2, "EFBFBD");
    l.to("FF 81 80, strict", K, "FF8180", 9, SKIP, 53, 1, "EFBFBD");
    l.to("FF 81 80, substitute", K, "FF8180", 9, SKIP_SUBST, 0, 3, "EFBFBD EFBFBD");
    l.to("81 3F, strict: the 3F is unassigned", K, "813F", 9, SKIP, 53, 1, "EFBFBD");
    l.to("81 3F, substitute", K, "813F", 9, SKIP_SUBST, 0, 2, "EFBFBD EFBFBD");
    l.to("fallback is not asked towards Unicode", K, "812D817C", 12, SKIP_FALL_SUBST, 0, 4, "EFBFBD 2D E28892");
    // Several, one after the other and among codes.
    for (input, number, read, out) in [
        ("FFFFFF", 0, 3, "EFBFBD EFBFBD EFBFBD"),
        ("81FFFF", 0, 3, "EFBFBD EFBFBD"),
        ("FF81", 51, 1, "EFBFBD"),
        ("3381", 51, 1, "33"),
        ("8181817C", 0, 4, "EFBFBD EFBFBD E28892"),
        ("818181", 51, 2, "EFBFBD EFBFBD"),
        ("81812D", 0, 3, "EFBFBD EFBFBD 2D"),
        ("8181FF", 0, 3, "EFBFBD EFBFBD"),
        ("81FF81", 51, 2, "EFBFBD"),
        ("81FF7C", 0, 3, "EFBFBD EFBFBD"),
        ("7C33", 0, 2, "EFBFBD 33"),
        ("817C7C33", 0, 4, "E28892 EFBFBD 33"),
        ("81817C33", 0, 4, "EFBFBD E28892 33"),
        ("33812D33", 0, 4, "33 EFBFBD 2D 33"),
        ("2D812D8130812D", 0, 7, "2D EFBFBD 2D EFBFBD 30 EFBFBD 2D"),
        ("812D", 0, 2, "EFBFBD 2D"),
        ("8133", 0, 2, "EFBFBD 33"),
        ("8100817C", 0, 4, "EFBFBD E28892"),
        ("8180812D81", 51, 4, "EFBFBD EFBFBD 2D"),
    ] {
        l.to(input, K, input, 40, SKIP_SUBST, number, read, out);
    }
    // Every byte behind 81, and then 33.
    for b in 0..=255u32 {
        let (length, out) = match b {
            0x7c | 0x7d => (0, "E28892".to_string()),
            0x80 => (0, "EFBFBD".to_string()),
            0x2d | 0x30 | 0x33 => (1, format!("EFBFBD {b:02X}")),
            // 3F is unassigned; 81 is broken by the 33.
            0x3f | 0x81 => (1, "EFBFBD EFBFBD".to_string()),
            _ => (2, "EFBFBD".to_string()),
        };
        let input = format!("81{b:02X}33");
        l.to(&input, K, &input, 40, SKIP_SUBST, 0, 3, &format!("{out} 33"));
        if length > 0 {
            l.to(&input, K, &input, 40, SUBST, illegal(length), 0, "");
        }
        let (number, read, out) = match b {
            0x2d | 0x30 | 0x33 => (0, 1, format!("{b:02X}")),
            0x3f => (53, 0, String::new()),
            0x81 => (51, 0, String::new()),
            _ => (0, 1, "EFBFBD".to_string()),
        };
        l.to(&format!("byte {b:02X}"), K, &format!("{b:02X}"), 40, SKIP, number, read, &out);
    }
}

/// What the byte that breaks a sequence would be in row 0, and how long the
/// sequence is (S5).
fn skip_cuts(l: &mut List) {
    // Row 0 has each kind: ends, `p`, `u`, an `i` that is written, leading on,
    // leading on to an empty row; 99 and others are not named.
    let rows = ["30, 31.p, 32.u, 33.i, 81:1, 82:2", "40", ""];
    let t = mbcs(2, "\\x30", &rows, &["<U0030> \\x30", "<U0031> \\x31", "<U0041> \\x81\\x40"]);
    for (input, length, number, read, out) in [
        ("8130", 1, 0, 2, "EFBFBD 30"),
        ("8131", 1, 0, 2, "EFBFBD 31"),
        ("8132", 1, 53, 1, "EFBFBD"),
        ("8133", 2, 0, 2, "EFBFBD"),
        ("8199", 2, 0, 2, "EFBFBD"),
        ("8181", 1, 51, 1, "EFBFBD"),
        ("818140", 1, 0, 3, "EFBFBD 41"),
        ("8182", 1, 51, 1, "EFBFBD"),
        ("818230", 1, 0, 3, "EFBFBD EFBFBD 30"),
        ("818232", 1, 53, 2, "EFBFBD EFBFBD"),
        ("818299", 1, 0, 3, "EFBFBD EFBFBD"),
        ("8230", 1, 0, 2, "EFBFBD 30"),
        ("8232", 1, 53, 1, "EFBFBD"),
        ("8233", 2, 0, 2, "EFBFBD"),
        ("8240", 2, 0, 2, "EFBFBD"),
        ("8281", 1, 51, 1, "EFBFBD"),
        ("828140", 1, 0, 3, "EFBFBD 41"),
        ("8282", 1, 51, 1, "EFBFBD"),
        ("828230", 1, 0, 3, "EFBFBD EFBFBD 30"),
        ("33", 1, 0, 1, "EFBFBD"),
        ("4030", 1, 0, 2, "EFBFBD 30"),
        ("9930", 1, 0, 2, "EFBFBD 30"),
    ] {
        l.to(&format!("cut of {input}"), &t, input, 20, STRICT, illegal(length), 0, "");
        l.to(&format!("cut of {input}"), &t, input, 20, SKIP, number, read, out);
    }
    l.to("81 32, substituted", &t, "8132", 20, SKIP_SUBST, 0, 2, "EFBFBD EFBFBD");
    l.to("82 alone", &t, "82", 20, SKIP, 51, 0, "");
    // Codes of four bytes. 42 and 52 could begin codes, but they led on: only the
    // byte that breaks a sequence is looked at.
    let rows = ["30, 42, 52, 81:1", "42:2", "52:3", "60"];
    let lines = ["<U0030> \\x30", "<U0042> \\x42", "<U0052> \\x52", "<U2603> \\x81\\x42\\x52\\x60"];
    let four = mbcs(4, "\\x81\\x42\\x52\\x60", &rows, &lines);
    for (input, length, number, read, out) in [
        ("8130", 1, 0, 2, "EFBFBD 30"),
        ("8199", 2, 0, 2, "EFBFBD"),
        ("8160", 2, 0, 2, "EFBFBD"),
        ("8152", 1, 0, 2, "EFBFBD 52"),
        ("814230", 2, 0, 3, "EFBFBD 30"),
        ("814242", 2, 0, 3, "EFBFBD 42"),
        ("814299", 3, 0, 3, "EFBFBD"),
        ("814281", 2, 51, 2, "EFBFBD"),
        ("81425230", 3, 0, 4, "EFBFBD 30"),
        ("81425242", 3, 0, 4, "EFBFBD 42"),
        ("81425252", 3, 0, 4, "EFBFBD 52"),
        ("81425299", 4, 0, 4, "EFBFBD"),
        ("8142529942", 4, 0, 5, "EFBFBD 42"),
        ("81425281", 3, 51, 3, "EFBFBD"),
        ("81425281425260", 3, 0, 7, "EFBFBD E29883"),
        ("814281425260", 2, 0, 6, "EFBFBD E29883"),
        ("8181425260", 1, 0, 5, "EFBFBD E29883"),
        ("818142", 1, 51, 1, "EFBFBD"),
        ("81428142528142", 2, 51, 5, "EFBFBD EFBFBD"),
        ("99425260", 1, 0, 4, "EFBFBD 42 52 EFBFBD"),
    ] {
        l.to(&format!("four bytes, {input}"), &four, input, 20, STRICT, illegal(length), 0, "");
        l.to(&format!("four bytes, {input}"), &four, input, 20, SKIP, number, read, out);
    }
    for input in ["81", "8142", "814252"] {
        l.to(&format!("four bytes, {input}"), &four, input, 20, SKIP, 51, 0, "");
        l.to(&format!("four bytes, 30 {input}"), &four, &format!("30{input}"), 20, SKIP, 51, 1, "30");
    }
    // No byte is illegal in row 0: a sequence always ends before what breaks it.
    let all = mbcs(3, "\\x00", &["0-7f, 80-ff:1", "0-ff.i, 40:2", "41"], &["<U0040> \\x40", "<U0042> \\x42"]);
    for (input, length, number, read, out) in [
        ("80FF", 1, 51, 1, "EFBFBD"),
        ("8042", 1, 0, 2, "EFBFBD 42"),
        ("804042", 2, 0, 3, "EFBFBD 42"),
        ("8040FF42", 2, 0, 4, "EFBFBD EFBFBD 42"),
        ("804040", 2, 0, 3, "EFBFBD 40"),
    ] {
        l.to(&format!("nothing illegal in row 0, {input}"), &all, input, 20, STRICT, illegal(length), 0, "");
        l.to(&format!("nothing illegal in row 0, {input}"), &all, input, 20, SKIP, number, read, out);
    }
}

/// U+FFFD, never U+001A; subchar, never subchar1; in the strict setting too (S7).
fn skip_settings(l: &mut List) {
    let rows = ["30-3f, 90.u, 81:1", "40, 80.u"];
    let sub = "<subchar> \\x81\\x40\n<subchar1> \\x3F";
    let lines = ["<U0030> \\x30 |0", "<U0031> \\x31 |1", "<U0032> \\x3F |2", "<U0033> \\x33 |3",
        "<U0034> \\x30 |1", "<U0036> \\x31 |3"];
    let t = text(1, 2, "MBCS", sub, &rows, &lines);
    for (input, set, number, read, out) in [
        ("20", SKIP, 0, 1, "EFBFBD"),
        ("20", SKIP_SUBST, 0, 1, "EFBFBD"),
        ("2035", SKIP_SUBST, 0, 2, "EFBFBD 1A"),
        ("3520", SKIP_SUBST, 0, 2, "1A EFBFBD"),
        ("2035", SKIP, 53, 1, "EFBFBD"),
        ("81FF", SKIP_SUBST, 0, 2, "EFBFBD"),
        ("8135", SKIP_SUBST, 0, 2, "EFBFBD 1A"),
        ("8135", SKIP, 53, 1, "EFBFBD"),
        ("8190", SKIP_SUBST, 0, 2, "EFBFBD 1A"),
        ("8190", SKIP, 53, 1, "EFBFBD"),
        ("8130", SKIP, 0, 2, "EFBFBD 30"),
        ("818180", SKIP_SUBST, 0, 3, "EFBFBD EFBFBD"),
        ("818180", SKIP, 53, 1, "EFBFBD"),
    ] {
        let how = format!("subchar1, {input}, substitute {}", set.substitute);
        l.to(&how, &t, input, 9, set, number, read, out);
    }
    for (scheme, out) in [
        (BE, "0000FFFD 0000001A"),
        (LE, "FDFF0000 1A000000"),
        (PLAIN, "0000FEFF 0000FFFD 0000001A"),
    ] {
        l.to_in(scheme, "subchar1, 20 35", &t, "2035", 15, SKIP_SUBST, 0, 2, out);
        l.to_in(scheme, "subchar1, 81 90", &t, "8190", 15, SKIP_SUBST, 0, 2, out);
    }
    for (input, set, number, read, out) in [
        ("FF", SKIP, 0, 1, "8140"),
        ("FF", SKIP_SUBST, 0, 1, "8140"),
        ("FF32FF", SKIP_SUBST, 0, 3, "8140 3F 8140"),
        ("FF32", SKIP, 53, 1, "8140"),
        ("FF32", SKIP_FALL, 53, 1, "8140"),
        ("FF31", SKIP, 53, 1, "8140"),
        ("FF31", SKIP_SUBST, 0, 2, "8140 8140"),
        ("FF31", SKIP_FALL, 0, 2, "8140 31"),
        ("FF3134", SKIP_FALL_SUBST, 0, 3, "8140 31 30"),
        ("C230", SKIP, 0, 2, "8140 30"),
    ] {
        let how = format!("subchar1, {input}, fallback {}, substitute {}", set.fallback, set.substitute);
        l.from(&how, &t, input, 9, set, number, read, out);
    }
    for (scheme, input) in [
        (BE, "0000D800 00000032 0000D800"),
        (LE, "00D80000 32000000 00D80000"),
        (PLAIN, "0000D800 00000032 0000D800"),
    ] {
        l.from_in(scheme, "subchar1, a surrogate, U+0032", &t, input, 9, SKIP_SUBST, 0, 12, "8140 3F 8140");
        l.from_in(scheme, "subchar1, a surrogate, U+0032, strict", &t, input, 9, SKIP, 53, 4, "8140");
    }
}

/// Where what stands for a skipped sequence does not fit: 50 before it, length 0.
fn skip_spaces(l: &mut List) {
    for (space, number, read, out) in [(0, 50, 0, ""), (1, 50, 0, ""), (2, 50, 0, ""), (3, 0, 1, "EFBFBD")] {
        l.to(&format!("FF, space {space}"), K, "FF", space, SKIP, number, read, out);
    }
    for (space, number, read, out) in [(2, 50, 0, ""), (3, 50, 1, "EFBFBD"), (4, 0, 2, "EFBFBD 2D")] {
        l.to(&format!("81 2D, space {space}"), K, "812D", space, SKIP, number, read, out);
    }
    for (space, number, read, out) in [(0, 50, 0, ""), (1, 50, 1, "33"), (3, 50, 1, "33"), (4, 50, 3, "33 EFBFBD"),
        (5, 0, 4, "33 EFBFBD 33")] {
        l.to(&format!("33 81 FF 33, space {space}"), K, "3381FF33", space, SKIP, number, read, out);
    }
    for (space, number, read, out) in [(5, 50, 1, "EFBFBD"), (6, 50, 2, "EFBFBD EFBFBD"), (9, 0, 3,
        "EFBFBD EFBFBD EFBFBD")] {
        l.to(&format!("FF FF FF, space {space}"), K, "FFFFFF", space, SKIP, number, read, out);
    }
    // 51 and 53 go before 50, 50 at an earlier place before both.
    l.to("51 before 50", K, "81", 0, SKIP, 51, 0, "");
    l.to("53 before 50", K, "3F", 0, SKIP, 53, 0, "");
    l.to("50 at the first place, 51 at the second", K, "FF81", 2, SKIP, 50, 0, "");
    l.to("51 behind what fits", K, "FF81", 3, SKIP, 51, 1, "EFBFBD");
    l.to("53 behind what fits", K, "FF3F", 3, SKIP, 53, 1, "EFBFBD");
    for (scheme, one, two) in [(BE, "0000FFFD", "0000FFFD 0000002D"), (LE, "FDFF0000", "FDFF0000 2D000000")] {
        for space in 0..=9 {
            let (number, read, out) = match space {
                0..=3 => (50, 0, ""),
                4..=7 => (50, 1, one),
                _ => (0, 2, two),
            };
            l.to_in(scheme, &format!("81 2D, space {space}"), K, "812D", space, SKIP, number, read, out);
        }
    }
    for space in 0..=13 {
        let (number, read, out) = match space {
            0..=3 => (50, 0, ""),
            4..=7 => (50, 0, "0000FEFF"),
            8..=11 => (50, 2, "0000FEFF 0000FFFD"),
            _ => (0, 3, "0000FEFF 0000FFFD 00000033"),
        };
        l.to_in(PLAIN, &format!("81 FF 33, space {space}"), K, "81FF33", space, SKIP, number, read, out);
    }
    // A subchar of four bytes.
    let rows = ["30-3f, 81:1", "42:2", "52:3", "60-6f"];
    let four = mbcs(4, "\\x81\\x42\\x52\\x6F", &rows, &["<U0031> \\x31"]);
    for (space, number, read, out) in [(0, 50, 0, ""), (3, 50, 0, ""), (4, 50, 1, "8142526F"), (7, 50, 1, "8142526F"),
        (8, 50, 2, "8142526F 8142526F"), (9, 0, 3, "8142526F 8142526F 31")] {
        l.from(&format!("C0 AD 31, space {space}"), &four, "C0AD31", space, SKIP, number, read, out);
    }
    for (space, number, read, out) in [(3, 50, 0, ""), (4, 50, 4, "8142526F"), (5, 0, 8, "8142526F 31")] {
        l.from_in(BE, &format!("a surrogate and 31, space {space}"), &four, "0000D800 00000031", space, SKIP, number,
            read, out);
        l.from_in(LE, &format!("a surrogate and 31, space {space}"), &four, "00D80000 31000000", space, SKIP, number,
            read, out);
        let marked = "FFFE0000 00D80000 31000000";
        l.from_in(PLAIN, &format!("mark, a surrogate and 31, space {space}"), &four, marked, space, SKIP, number,
            read + 4, out);
    }
    l.from("51 before 50", K, "E288", 0, SKIP, 51, 0, "");
    l.from("53 before 50", K, "41", 0, SKIP, 53, 0, "");
    l.from("FF, no space", K, "FF", 0, SKIP, 50, 0, "");
    l.from("33 FF, space 1", K, "33FF", 1, SKIP, 50, 1, "33");
    l.from("50 at the first place, 51 at the second", K, "FFE288", 0, SKIP, 50, 0, "");
    l.from("51 behind what fits", K, "FFE288", 1, SKIP, 51, 1, "3F");
}

/// What a walk with the standard library says of a text under K, substituted
/// and with every illegal byte skipped alone: number, bytes read, output.
pub fn std_walk(text: &[u8]) -> (u32, u64, Vec<u8>) {
    let (mut read, mut out) = (0, Vec::new());
    loop {
        let (good, error) = match std::str::from_utf8(&text[read..]) {
            Ok(good) => (good, None),
            Err(e) => (std::str::from_utf8(&text[read..read + e.valid_up_to()]).expect("up to there"), Some(e)),
        };
        for c in good.chars() {
            match c {
                '-' | '0' | '3' => out.push(c as u8),
                '\u{2212}' => out.extend([0x81, 0x7c]),
                _ => out.push(0x3f),
            }
        }
        read += good.len();
        match error.map(|e| e.error_len()) {
            None => return (0, read as u64, out),
            Some(None) => return (51, read as u64, out),
            Some(Some(_)) => {
                read += 1;
                out.push(0x3f);
            }
        }
    }
}

/// A text under K, substituted and with skipping on, gives what that walk says.
pub fn skips_as_std(s: &dyn Subject, record: &Record, memory: &Memory, text: &[u8]) -> Result<(), String> {
    let (number, read, out) = std_walk(text);
    let mut output = vec![0; 2 * text.len()];
    let got = s.from_unicode(record, memory, text, &mut output, Scheme::Utf8, SKIP_SUBST);
    let want = Piped { number, read, written: out.len() as u64, length: 0 };
    equal(&format!("skipping in {text:02x?}"), got, want)?;
    equal_slices(&format!("skipping in {text:02x?}, output"), &output[..out.len()], &out)
}

/// From UTF-8 each illegal byte is skipped alone (S6).
fn skip_utf8(l: &mut List) {
    // What stands before the first illegal byte, then everything.
    for (input, place, before, read, out) in [
        ("C0AD", 0, "", 2, "3F3F"),
        ("E28833", 0, "", 3, "3F3F33"),
        ("EDA080", 0, "", 3, "3F3F3F"),
        ("F4908080", 0, "", 4, "3F3F3F3F"),
        ("FF", 0, "", 1, "3F"),
        ("80", 0, "", 1, "3F"),
        ("C0", 0, "", 1, "3F"),
        ("C1BF", 0, "", 2, "3F3F"),
        ("C233", 0, "", 2, "3F33"),
        ("E233", 0, "", 2, "3F33"),
        ("E0802D", 0, "", 3, "3F3F2D"),
        ("E09F80", 0, "", 3, "3F3F3F"),
        ("F0908033", 0, "", 4, "3F3F3F33"),
        ("F08080AF", 0, "", 4, "3F3F3F3F"),
        ("F5808080", 0, "", 4, "3F3F3F3F"),
        ("F888808080", 0, "", 5, "3F3F3F3F3F"),
        ("E2E28892", 0, "", 4, "3F 817C"),
        ("E288E28892", 0, "", 5, "3F3F 817C"),
        ("8892E28892", 0, "", 5, "3F3F 817C"),
        ("E28892E28833", 3, "817C", 6, "817C 3F3F 33"),
        ("E2889292", 3, "817C", 4, "817C 3F"),
        ("33FF33", 1, "33", 3, "333F33"),
    ] {
        l.from(input, K, input, 9, STRICT, 52, place, before);
        l.from(input, K, input, 9, SKIP, 0, read, out);
        l.from(&format!("{input}, substitute"), K, input, 9, SKIP_SUBST, 0, read, out);
    }
    // Cut short stays 51, wherever it is cut.
    for input in ["C2", "E2", "E288", "F0", "F090", "F09080"] {
        l.from(input, K, input, 9, SKIP, 51, 0, "");
        l.from(&format!("33 {input}"), K, &format!("33{input}"), 9, SKIP, 51, 1, "33");
        l.from(&format!("FF {input}"), K, &format!("FF{input}"), 9, SKIP, 51, 1, "3F");
        l.from(&format!("E2 88 {input}"), K, &format!("E288{input}"), 9, SKIP, 51, 2, "3F3F");
    }
    // Strict and unassigned is 53 all the same; fallback as without.
    l.from("FF 41, strict", K, "FF41", 9, SKIP, 53, 1, "3F");
    l.from("FF 41, substitute", K, "FF41", 9, SKIP_SUBST, 0, 2, "3F3F");
    l.from("FF FF0D, strict", K, "FFEFBC8D", 9, SKIP, 53, 1, "3F");
    l.from("FF FF0D, fallback", K, "FFEFBC8D", 9, SKIP_FALL, 0, 4, "3F 817C");
    l.from("FF FF0D, fallback and substitute", K, "FFEFBC8D", 9, SKIP_FALL_SUBST, 0, 4, "3F 817C");
    l.from("FF FFFD, substitute", K, "FFEFBFBD", 9, SKIP_SUBST, 0, 4, "3F3F");
}

/// From UTF-32 four bytes are skipped at a time, and the mark is as before.
fn skip_utf32(l: &mut List) {
    for (be, le) in [
        ("0000D800", "00D80000"),
        ("0000DBFF", "FFDB0000"),
        ("0000DC00", "00DC0000"),
        ("0000DFFF", "FFDF0000"),
        ("00110000", "00001100"),
        ("01000033", "33000001"),
        ("80000033", "33000080"),
        ("FFFE0000", "0000FEFF"),
        ("FFFFFFFF", "FFFFFFFF"),
    ] {
        l.from_in(BE, be, K, be, 9, SKIP, 0, 4, "3F");
        l.from_in(LE, le, K, le, 9, SKIP, 0, 4, "3F");
        l.from_in(BE, &format!("33, {be}, 33"), K, &format!("00000033 {be} 00000033"), 9, SKIP, 0, 12, "333F33");
        l.from_in(LE, &format!("33, {le}, 33"), K, &format!("33000000 {le} 33000000"), 9, SKIP, 0, 12, "333F33");
        l.from_in(PLAIN, &format!("33, {be}, 33"), K, &format!("00000033 {be} 00000033"), 9, SKIP, 0, 12, "333F33");
        for (mark, bad, three) in [("0000FEFF", be, "00000033"), ("FFFE0000", le, "33000000")] {
            let marked = format!("{mark} {bad} {three}");
            l.from_in(PLAIN, &marked, K, &marked, 9, STRICT, 52, 4, "");
            l.from_in(PLAIN, &marked, K, &marked, 9, SKIP, 0, 12, "3F33");
            l.from_in(PLAIN, &format!("{marked}, substitute"), K, &marked, 9, SKIP_SUBST, 0, 12, "3F33");
        }
        // One to three bytes behind it are 51.
        for rest in ["00", "33", "0000", "FFFE", "000000", "FFFE00"] {
            l.from_in(BE, &format!("{be}, {rest} left over"), K, &format!("{be}{rest}"), 9, SKIP, 51, 4, "3F");
            l.from_in(LE, &format!("{le}, {rest} left over"), K, &format!("{le}{rest}"), 9, SKIP, 51, 4, "3F");
            let marked = format!("0000FEFF {be} {rest}");
            l.from_in(PLAIN, &format!("mark, {be}, {rest} left over"), K, &marked, 9, SKIP, 51, 8, "3F");
        }
    }
    for rest in ["00", "D8", "FFFE", "00D8", "0000FE", "00D800"] {
        for scheme in [BE, LE, PLAIN] {
            l.from_in(scheme, &format!("{rest} left over"), K, rest, 9, SKIP, 51, 0, "");
        }
        l.from_in(PLAIN, &format!("mark, {rest} left over"), K, &format!("0000FEFF {rest}"), 9, SKIP, 51, 4, "");
    }
    // Each half of a pair is a sequence of its own.
    l.from_in(BE, "a pair", K, "0000D83D 0000DE00", 9, SKIP, 0, 8, "3F3F");
    l.from_in(LE, "a pair", K, "3DD80000 00DE0000", 9, SKIP, 0, 8, "3F3F");
    l.from_in(PLAIN, "mark, a pair", K, "0000FEFF 0000D83D 0000DE00 00000033", 9, SKIP, 0, 16, "3F3F33");
    // The mark: at the front alone, and never behind a skipped sequence.
    for (how, input, set, number, read, out) in [
        ("the mark alone", "0000FEFF", SKIP, 0, 4, ""),
        ("the little-endian mark alone", "FFFE0000", SKIP, 0, 4, ""),
        ("a mark behind a skipped sequence, strict", "0000D800 0000FEFF", SKIP, 53, 4, "3F"),
        ("a mark behind a skipped sequence", "0000D800 0000FEFF", SKIP_SUBST, 0, 8, "3F3F"),
        ("a little-endian mark behind one", "0000D800 FFFE0000 33000000", SKIP, 0, 12, "3F3F3F"),
        ("no mark, little-endian text", "33000000 30000000", SKIP, 0, 8, "3F3F"),
        ("little-endian mark, mark", "FFFE0000 0000FEFF 33000000", SKIP, 0, 12, "3F33"),
        ("mark, little-endian mark", "0000FEFF FFFE0000 00000033", SKIP, 0, 12, "3F33"),
        ("nearly a mark", "0100FEFF 00000033", SKIP, 0, 8, "3F33"),
        ("the mark and a surrogate", "0000FEFF 0000D800", SKIP, 0, 8, "3F"),
    ] {
        l.from_in(PLAIN, how, K, input, 9, set, number, read, out);
    }
    l.from_in(PLAIN, "mark, a surrogate, no space", K, "0000FEFF 0000D800", 0, SKIP, 50, 4, "");
    // Written: the mark first, then what stands for the skipped sequence.
    for (scheme, input, out) in [
        (BE, "812D33", "0000FFFD 0000002D 00000033"),
        (LE, "812D33", "FDFF0000 2D000000 33000000"),
        (PLAIN, "812D33", "0000FEFF 0000FFFD 0000002D 00000033"),
        (BE, "81FF33", "0000FFFD 00000033"),
        (LE, "81FF33", "FDFF0000 33000000"),
        (PLAIN, "81FF33", "0000FEFF 0000FFFD 00000033"),
    ] {
        l.to_in(scheme, input, K, input, 19, SKIP, 0, 3, out);
        let (mark, length) = (if scheme == PLAIN { "0000FEFF" } else { "" }, if input == "812D33" { 1 } else { 2 });
        l.to_in(scheme, input, K, input, 19, STRICT, illegal(length), 0, mark);
    }
    l.to_in(BE, "81 81", K, "8181", 9, SKIP, 51, 1, "0000FFFD");
    l.to_in(LE, "81 81", K, "8181", 9, SKIP, 51, 1, "FDFF0000");
    l.to_in(PLAIN, "81 81", K, "8181", 9, SKIP, 51, 1, "0000FEFF 0000FFFD");
    l.to_in(PLAIN, "81 80, strict", K, "8180", 9, SKIP, 53, 0, "0000FEFF");
}

/// Long inputs, where places of lines are kept at hand: what is skipped changes
/// nothing of what stands around it.
fn skip_long(l: &mut List) {
    for n in [20, 31, 32, 33, 200] {
        let (codes, chars) = ("33817C".repeat(n), "33E28892".repeat(n));
        let read = 6 * n as u64;
        for (bad, length, skipped, out) in
            [("FF", 1, 1, "EFBFBD"), ("81", 1, 1, "EFBFBD"), ("8100", 2, 2, "EFBFBD"), ("812D", 1, 2, "EFBFBD 2D")]
        {
            let (input, out) = (format!("{codes}{bad}{codes}"), format!("{chars}{out}{chars}"));
            l.to(&format!("{bad} among {n}"), K, &input, 4000, STRICT, illegal(length), read / 2, &chars);
            l.to(&format!("{bad} among {n}"), K, &input, 4000, SKIP, 0, read + skipped, &out);
        }
        let read = 8 * n as u64;
        for (bad, skipped, out) in [("FF", 1, "3F"), ("E288", 2, "3F3F"), ("EDA080", 3, "3F3F3F")] {
            let (input, out) = (format!("{chars}{bad}{chars}"), format!("{codes}{out}{codes}"));
            l.from(&format!("{bad} among {n}"), K, &input, 4000, STRICT, 52, read / 2, &codes);
            l.from(&format!("{bad} among {n}"), K, &input, 4000, SKIP, 0, read + skipped, &out);
        }
    }
}

/// The audit beyond document 01's cases (R30, R31 among them).
fn audits(l: &mut List) {
    let begin = (0, 0);
    let at = position;
    let list = [("3F", 2), ("817D", 3), ("8180", 1)];
    // Fallback on writes the same for K.
    l.audit("K, fallback", K, true, begin, 99, 9, 0, &list, at("8180"), true, 7);
    l.audit("K, endless allowance", K, false, begin, u64::MAX, 9, 0, &list, at("8180"), true, 7);
    // Code by code: 2D 30 33 3F 817C 817D 8180.
    let codes = ["2D", "30", "33", "3F", "817C", "817D", "8180"];
    for n in 1..=7u64 {
        let listed = match n {
            ..=3 => 0,
            4 | 5 => 1,
            6 => 2,
            _ => 3,
        };
        let to = at(codes[n as usize - 1]);
        l.audit(&format!("allowance {n}"), K, false, begin, n, 9, 0, &list[..listed], to, n == 7, n);
    }
    l.audit("allowance of all but one more", K, false, begin, 8, 9, 0, &list, at("8180"), true, 7);
    for (space, to, count) in [(0, at("33"), 3), (1, at("817C"), 5), (2, at("817D"), 6), (3, at("8180"), 7)] {
        l.audit(&format!("space {space}"), K, false, begin, 99, space, 0, &list[..space], to, space == 3, count);
    }
    for (i, code) in codes.iter().enumerate() {
        let rest = match i {
            ..=2 => &list[..],
            3 | 4 => &list[1..],
            5 => &list[2..],
            _ => &[],
        };
        let left = 6 - i as u64;
        l.audit(&format!("from {code}"), K, false, at(code), 99, 9, 0, rest, at("8180"), true, left);
        // R30: finished is a fact about the position, with allowance 0 too.
        l.audit(&format!("R30: allowance 0 at {code}"), K, false, at(code), 0, 9, 0, &[], at(code), i == 6, 0);
        l.audit(&format!("R30: no allowance and no space at {code}"), K, false, at(code), 0, 0, 0, &[],
            at(code), i == 6, 0);
    }
    l.audit("R30: no space, looks at those that come home", K, false, begin, 2, 0, 0, &[], at("30"), false, 2);
    l.audit("R30: no space at the last", K, false, at("817D"), 99, 0, 0, &[], at("817D"), false, 0);
    l.audit("R30: no space, nothing left", K, false, at("8180"), 99, 0, 0, &[], at("8180"), true, 0);
    // Positions that are neither.
    for (bits, len, why) in [
        (0x8100_0000, 1, "a lead"),
        (0x3400_0000, 1, "illegal"),
        (0x817f_0000, 2, "illegal second byte"),
        (0x3333_0000, 2, "two codes"),
        (0x817c_3300, 3, "a code and more"),
        (0x3300_0001, 1, "unused bits"),
        (0x3380_0000, 1, "unused bits"),
        (0x817c_0000, 1, "too short a length"),
        (0x817c_0000, 3, "too long a length"),
        (0x3300_0000, 5, "length 5"),
        (0x3300_0000, 257, "length 257"),
        (0x3300_0000, u32::MAX, "length 2^32 - 1"),
        (0x3300_0000, 0, "no length"),
        (1, 0, "no length"),
        (0, 1, "00"),
        (0, 4, "00 00 00 00"),
        (0, 5, "no bits, length 5"),
    ] {
        let from = (bits, len);
        let name = format!("position {bits:08X}, {len}: {why}");
        l.audit(&name, K, false, from, 99, 9, 40, &[], from, false, 0);
        l.audit(&format!("{name}, allowance and space 0"), K, true, from, 0, 0, 40, &[], from, false, 0);
    }
    // R31 and the causes.
    let rows = ["30-3a, 90.u"];
    let sub = "<subchar> \\x30\n<subchar1> \\x3A";
    let lines = [
        "<U0030> \\x30 |0", // comes home
        "<U0031> \\x31 |3", // written by nothing: 4
        "<U0032> \\x32 |3", // a |2 code point: 4 (R31)
        "<U0032> \\x3A |2", // read by nothing: 2
        "<U0033> \\x33 |3", // written as 34 with fallback, else 4
        "<U0033> \\x34 |1",
        "<U0034> \\x34 |0", // comes home, whatever else is written as 34
        "<U0035> \\x35 |3", // comes home through |1 with fallback, else 4
        "<U0035> \\x35 |1",
        "<U0030> \\x36 |3", // written as 30: 3
        "<U0037> \\x37 |1",
        "<U0031> \\x37 |3", // reads as U+0031, not as U+0037: 4
    ];
    let t = text(1, 1, "MBCS", sub, &rows, &lines);
    let off = [("31", 4), ("32", 4), ("33", 4), ("35", 4), ("36", 3), ("37", 4), ("38", 2), ("39", 2), ("3A", 2),
        ("90", 1)];
    let on = [("31", 4), ("32", 4), ("33", 3), ("36", 3), ("37", 4), ("38", 2), ("39", 2), ("3A", 2), ("90", 1)];
    l.audit("causes, fallback off", &t, false, begin, 99, 20, 0, &off, at("90"), true, 12);
    l.audit("causes, fallback on", &t, true, begin, 99, 20, 0, &on, at("90"), true, 12);
    // 00, codes of all lengths, dead ends between.
    let rows = ["0, 1:1, 2:2, 3:4, ff", "0.u, 1:2, ff:4", "5:3, 6:4", "0-1", ""];
    let t = mbcs(4, "\\x00", &rows, &["<U0000> \\x00", "<UFFFF> \\xFF"]);
    let list = [("0100", 1), ("01010500", 2), ("01010501", 2), ("020500", 2), ("020501", 2)];
    l.audit("dead ends", &t, false, begin, 99, 9, 0, &list, at("FF"), true, 7);
    l.audit("dead ends, from 02 05 01", &t, false, at("020501"), 99, 9, 0, &[], at("FF"), true, 1);
    l.audit("00 is a position, not the beginning", &t, false, at("00"), 1, 9, 0, &list[..1], at("0100"), false, 1);
    l.audit("the end of a long code", &t, false, at("01010500"), 1, 9, 0, &list[2..3], at("01010501"), false, 1);
    let t = mbcs(2, "\\x00", &["0, 81:1", ""], &["<U0000> \\x00"]);
    l.audit("finished before a dead end", &t, false, at("00"), 0, 0, 0, &[], at("00"), true, 0);
    l.audit("the lead before a dead end", &t, false, at("81"), 0, 0, 40, &[], at("81"), false, 0);
    // 65,280 ways that end nowhere before the last code.
    let t = mbcs(3, "\\xFF", &["0-fe:1, ff", "0-ff:2", ""], &["<U0041> \\xFF"]);
    l.audit("many dead ends", &t, false, begin, 1, 0, 0, &[], at("FF"), true, 1);
    l.audit("many dead ends, allowance 0", &t, false, begin, 0, 0, 0, &[], begin, false, 0);
    // Four bytes deep, all bytes: only pieces of it.
    let t = mbcs(4, "\\x00\\x00\\x00\\x00", &["0-ff:1", "0-ff:2", "0-ff:3", "0-ff.p"],
        &["<U0041> \\xFF\\xFF\\xFF\\xFF"]);
    l.audit("2^32 codes, the first", &t, false, begin, 1, 9, 0, &[("00000000", 2)], at("00000000"), false, 1);
    l.audit("2^32 codes, a carry", &t, false, at("00FFFFFF"), 2, 9, 0, &[("01000000", 2), ("01000001", 2)],
        at("01000001"), false, 2);
    l.audit("2^32 codes, the last", &t, false, at("FFFFFFFE"), 9, 0, 0, &[], at("FFFFFFFF"), true, 1);
    l.audit("2^32 codes, behind the last", &t, false, at("FFFFFFFF"), 9, 9, 0, &[], at("FFFFFFFF"), true, 0);
    l.audit("2^32 codes, before the last two", &t, false, at("FFFFFFFD"), 9, 1, 0, &[("FFFFFFFE", 2)],
        at("FFFFFFFF"), true, 2);
}
