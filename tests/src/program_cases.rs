//! The program's hand-written cases. What is wanted is written out from
//! document 01; long outputs are put together from plain parts.

use crate::cases::{dressed, k_delete, k_insert, k_line, k_void, mbcs, text, with_cr_lf, K};
use crate::program::MAX_TABLE;
use crate::program_runs::{gives, reads_locked_files, Place, Program};

pub struct Case {
    pub name: String,
    place: Place,
    input: Vec<u8>,
    want: Vec<u8>,
}

impl Case {
    /// The same output in whatever way the input comes.
    pub fn run(&self, p: &dyn Program) -> Result<(), String> {
        for way in p.ways(self.input.len()) {
            gives(p, &self.place, &self.input, &way, &self.want)?;
        }
        Ok(())
    }
}

#[derive(Default)]
struct List {
    cases: Vec<Case>,
}

impl List {
    fn add(&mut self, name: impl Into<String>, place: Place, input: impl AsRef<[u8]>, want: impl AsRef<[u8]>) {
        let (input, want) = (input.as_ref().to_vec(), want.as_ref().to_vec());
        self.cases.push(Case { name: name.into(), place, input, want });
    }

    /// A table that is accepted with so many mappings: the frames' lines and
    /// the audit's.
    fn ok(&mut self, name: impl Into<String>, table: &Table, input: impl AsRef<[u8]>, lines: impl AsRef<str>) {
        let want = format!("TABLE OK {}\n{}{}", table.mappings, lines.as_ref(), table.audit);
        self.add(name, Place::Text(table.text.clone()), input, want);
    }

    /// Table K.
    fn k(&mut self, name: impl Into<String>, input: impl AsRef<[u8]>, lines: impl AsRef<str>) {
        self.ok(name, &k(), input, lines);
    }

    /// One line and nothing else, whatever frames there are.
    fn only(&mut self, name: &str, place: Place, line: impl AsRef<str>) {
        let want = format!("{}\n", line.as_ref());
        self.add(format!("{name}, no input"), place.clone(), "", &want);
        self.add(format!("{name}, frames"), place, "33\n817C33\n\n-", &want);
    }

    fn refused(&mut self, name: &str, text: impl AsRef<[u8]>, number: u32, line: usize) {
        self.only(name, Place::Text(text.as_ref().to_vec()), format!("TABLE REFUSED {number} {line}"));
    }
}

/// A table with what the program says of it: the count of mappings and all
/// that the audit writes.
struct Table {
    text: Vec<u8>,
    mappings: usize,
    audit: String,
}

/// Document 01's example.
const K_AUDIT: &str = "3F 2\n817D 3\n8180 1\nLOOKED 7 LISTED 3\n";

/// K, or a text that means the same.
fn as_k(text: impl AsRef<[u8]>) -> Table {
    Table { text: text.as_ref().to_vec(), mappings: 6, audit: K_AUDIT.into() }
}

fn k() -> Table {
    as_k(K)
}

pub fn all() -> Vec<Case> {
    let mut l = List::default();
    document_example(&mut l);
    no_table(&mut l);
    table_sizes(&mut l);
    refused_tables(&mut l);
    accepted_tables(&mut l);
    frames(&mut l);
    bad_frames(&mut l);
    ends_of_input(&mut l);
    long_lines(&mut l);
    places_in_the_input(&mut l);
    long_outputs(&mut l);
    audits(&mut l);
    l.cases
}

/// Document 01's six lines.
fn document_example(l: &mut List) {
    let want = "TABLE OK 6\n0 3 E2889233\n3F 2\n817D 3\n8180 1\nLOOKED 7 LISTED 3\n";
    l.add("K with 817C33", Place::Text(K.into()), "817C33\n", want);
}

fn no_table(l: &mut List) {
    l.only("no table.ucm", Place::Missing, "NO TABLE");
    l.only("table.ucm is a folder", Place::Folder, "NO TABLE");
    l.only("table.ucm leads nowhere", Place::Link("nowhere"), "NO TABLE");
    l.only("table.ucm leads to itself", Place::Link("table.ucm"), "NO TABLE");
    // Some users read what is locked.
    let locked = if reads_locked_files() { "TABLE REFUSED 27 1" } else { "NO TABLE" };
    l.only("no permission to read table.ucm", Place::Locked(Vec::new()), locked);
    l.add("no table.ucm, a long input", Place::Missing, "33\n".repeat(100_000), "NO TABLE\n");
}

/// The text with this byte behind it up to a length.
fn padded(text: &str, with: u8, length: usize) -> Vec<u8> {
    let mut text = text.as_bytes().to_vec();
    text.resize(length, with);
    text
}

/// A comment line before the text, so that the whole has this length.
fn padded_before(text: &str, length: usize) -> Vec<u8> {
    let comment = format!("#{}\n", "x".repeat(length - text.len() - 2));
    [comment.as_bytes(), text.as_bytes()].concat()
}

fn table_sizes(l: &mut List) {
    let k_and_comment = format!("{K}#");
    let k_no_end = K.trim_end();
    for (name, text) in [
        ("comment", padded(&k_and_comment, b'x', MAX_TABLE)),
        ("blank lines", padded(K, b'\n', MAX_TABLE)),
        ("blanks", padded(K, b' ', MAX_TABLE)),
        ("zero bytes in a comment", padded(&k_and_comment, 0, MAX_TABLE)),
        ("END CHARMAP up to the last byte", padded_before(k_no_end, MAX_TABLE)),
    ] {
        assert_eq!(text.len(), 32_768);
        l.ok(format!("K of 32,768 bytes, {name}"), &as_k(text), "817C33\n", "0 3 E2889233\n");
    }
    for (name, text) in [
        ("K of 32,769 bytes, comment", padded(&k_and_comment, b'x', MAX_TABLE + 1)),
        ("K of 32,769 bytes, blank lines", padded(K, b'\n', MAX_TABLE + 1)),
        ("K of 32,769 bytes, END CHARMAP up to the last byte", padded_before(k_no_end, MAX_TABLE + 1)),
        ("K of 32,769 bytes, one LF too much", padded_before(K, MAX_TABLE + 1)),
        ("32,769 bytes of no form", padded("", b'x', 32_769)),
        ("65,536 bytes", padded(K, b'\n', 65_536)),
        ("a million bytes", padded(K, b'\n', 1_000_000)),
        // Over the limit that number 2 is about.
        ("1,048,577 bytes", padded(K, b'\n', 1_048_577)),
    ] {
        l.only(name, Place::Text(text), "TABLE TOO LONG");
    }
    l.only("a table without end", Place::Link("/dev/zero"), "TABLE TOO LONG");
    l.only("a table through a pipe, too long", Place::Pipe(padded(K, b'\n', 40_000)), "TABLE TOO LONG");
    let want = format!("TABLE OK 6\n0 1 33\n{K_AUDIT}");
    l.add("K through a pipe", Place::Pipe(K.into()), "33\n", &want);
    l.add("K of 32,768 bytes through a pipe", Place::Pipe(padded(K, b'\n', MAX_TABLE)), "33\n", &want);
}

fn refused_tables(l: &mut List) {
    l.refused("empty table", "", 27, 1);
    l.only("the empty device", Place::Link("/dev/null"), "TABLE REFUSED 27 1");
    l.refused("only LF", "\n", 27, 2);
    l.refused("only a comment", "#", 27, 2);
    l.refused("line 1 of no form", "x\n", 10, 1);
    l.refused("a byte order mark", [b"\xef\xbb\xbf", K.as_bytes()].concat(), 10, 1);
    l.refused("key again", k_insert(3, "<mb_cur_min> 1"), 11, 3);
    l.refused("unknown class", k_line(4, "<uconv_class> \"XBCS\""), 12, 4);
    l.refused("subchar absent", k_delete(5), 13, 7);
    l.refused("icu:base", k_insert(2, "<icu:base> \"x\""), 14, 2);
    l.refused("falling range", k_line(6, "<icu:state> 33-30"), 15, 6);
    // Document 01, case 9.
    l.refused("mb_cur_max 1", k_line(3, "<mb_cur_max> 1"), 16, 8);
    l.refused("a surrogate", k_line(9, "<UD800> \\x2D |0"), 20, 9);
    l.refused("no complete code", k_line(9, "<U002D> \\x2E |0"), 21, 9);
    let zero_lead = mbcs(2, "\\x41", &["41, 0:1", "41"], &["<U0041> \\x41 |0", "<U0042> \\x00\\x41 |0"]);
    l.refused("two bytes that begin 00", zero_lead, 22, 10);
    l.refused("|2 without subchar1", k_insert(9, "<U0041> \\x3F |2"), 23, 9);
    // Document 01, case 9.
    l.refused("bytes again", k_line(13, "<UFF0D> \\x81\\x7C |3"), 24, 13);
    l.refused("code point again", k_line(14, "<U2212> \\x81\\x7D |0"), 25, 14);
    // Eight lines up to CHARMAP.
    l.refused("2,049 mappings", full(2_049).text, 26, 2_057);
    l.refused("no END CHARMAP", k_delete(15), 27, 15);
    l.refused("a fallback that nothing reads", k_void(), 28, 15);
    l.refused("a fallback that nothing reads, a line after END CHARMAP", [&k_void()[..], b"x\n"].concat(), 28, 15);
    l.refused("a fallback that nothing reads, CR LF", with_cr_lf(&k_void()), 28, 15);
    l.refused("the last of 2,048 mappings a fallback that nothing reads", full_and_void(), 28, 2_057);
    l.refused("a line after END CHARMAP", format!("{K}x"), 10, 16);
    l.refused("CHARMAP again", format!("{K}CHARMAP\n"), 14, 16);
    l.refused("line 10,000", format!("{}x", "\n".repeat(9_999)), 10, 10_000);
    l.refused("32,768 bytes of no form", "x".repeat(32_768), 10, 1);
    l.refused("32,768 LF", "\n".repeat(32_768), 27, 32_769);
    // K's 15 lines, blank ones up to byte 32,767, then the line refused.
    let blank = 32_767 - K.len();
    l.refused("refused at byte 32,768", format!("{K}{}x", "\n".repeat(blank)), 10, 15 + blank + 1);
}

/// Other texts with K's meaning, and tables of other kinds.
fn accepted_tables(l: &mut List) {
    let (frames, lines) = ("817C33\n817D\n8180\n", "0 3 E2889233\n0 2 E28892\n0 2 EFBFBD\n");
    l.ok("K with CR LF", &as_k(with_cr_lf(K.as_bytes())), frames, lines);
    l.ok("K with comments and blanks", &as_k(dressed(K.as_bytes())), frames, lines);
    l.ok("K without the last LF", &as_k(K.trim_end()), frames, lines);
    l.ok("K with a zero byte in a comment", &as_k([b"#\0\n", K.as_bytes()].concat()), frames, lines);
    // U+001A for a one-byte code where subchar1 is given, else U+FFFD.
    let sub1 = as_k(k_insert(6, "<subchar1> \\x3F"));
    l.ok("K with subchar1", &sub1, "3F\n8180\n3F81803F\n", "0 1 1A\n0 2 EFBFBD\n0 4 1AEFBFBD1A\n");

    let none = mbcs(1, "\\x3F", &["3f"], &[]);
    let none = Table { text: none, mappings: 0, audit: "3F 2\nLOOKED 1 LISTED 1\n".into() };
    l.ok("no mappings", &none, "3F\n30\n-\n", "0 1 EFBFBD\n52 0 -\n0 0 -\n");

    let (codes, answer) = all_bytes();
    l.ok("every byte, capital digits", &latin(), format!("{codes}\n"), format!("0 256 {answer}\n"));
    l.ok("every byte, small digits", &latin(), codes.to_lowercase() + "\n", format!("0 256 {answer}\n"));
    l.ok("both cases of digits", &latin(), "aB\nAb\nab\nAB\n", "0 1 C2AB\n".repeat(4));

    l.ok(
        "2,048 mappings",
        &full(2_048),
        "0100\n08FF0800\n0900\n01000A\n0A\n08\n",
        "0 2 C480\n0 4 E0A3BFE0A080\n0 2 EFBFBD\n52 2 C480\n52 0 -\n51 0 -\n",
    );
    let mut longest = full(2_048);
    longest.text.resize(MAX_TABLE, b'\n');
    l.ok("2,048 mappings in 32,768 bytes", &longest, "0100\n", "0 2 C480\n");
}

/// Byte b is U+00bb, every code comes home.
fn latin() -> Table {
    let lines: Vec<String> = (0..=255).map(|b| format!("<U{b:X}> \\x{b:02X} |0")).collect();
    let lines: Vec<&str> = lines.iter().map(|l| l.as_str()).collect();
    let text = text(1, 1, "SBCS", "<subchar> \\x1A", &[], &lines);
    Table { text, mappings: 256, audit: "LOOKED 256 LISTED 0\n".into() }
}

/// A frame of all bytes, and what `latin` makes of it: two bytes from 80 up.
fn all_bytes() -> (String, String) {
    let codes = (0..=255).map(|b| format!("{b:02X}")).collect();
    let low: String = (0..0x80).map(|b| format!("{b:02X}")).collect();
    let high: String = (0x80..=0xff).map(|b| format!("{:02X}{:02X}", 0xc0 + b / 64, 0x80 + b % 64)).collect();
    (codes, low + &high)
}

/// U+0100 and on for 01 00, 01 01 and on: `n` mappings in short lines, the
/// 2,304 codes from 01 00 to 09 FF. The mapped ones come home.
fn full(n: usize) -> Table {
    let mut text = "<code_set_name>\"f\"\n<mb_cur_min>1\n<mb_cur_max>2\n<uconv_class>\"MBCS\"\n\
                    <subchar>\\x01\\x00\n<icu:state>1-9:1\n<icu:state>0-ff\nCHARMAP\n"
        .to_string();
    for i in 0..n {
        text += &format!("<U{:X}>\\x{:02X}\\x{:02X}\n", 0x100 + i, 1 + i / 256, i % 256);
    }
    text += "END CHARMAP\n";
    let rest: String = (n..2_304).map(|i| format!("{:02X}{:02X} 2\n", 1 + i / 256, i % 256)).collect();
    let audit = format!("{rest}LOOKED 2304 LISTED {}\n", 2_304 - n);
    Table { text: text.into_bytes(), mappings: n, audit }
}

/// 2,047 of them, and a fallback to 09 00, which nothing reads.
fn full_and_void() -> String {
    let text = String::from_utf8(full(2_047).text).expect("ASCII");
    text.replace("END CHARMAP", "<U41>\\x09\\x00|1\nEND CHARMAP")
}

fn frames(l: &mut List) {
    for (name, frame, line) in [
        ("no bytes", "-", "0 0 -"),
        ("the byte 2D", "2D", "0 1 2D"),
        ("one byte", "33", "0 1 33"),
        ("small digits", "817c33", "0 3 E2889233"),
        ("digits of both cases", "2d817c2D817C", "0 6 2DE288922DE28892"),
        ("a |3 line", "817D", "0 2 E28892"),
        ("ended by u", "8180", "0 2 EFBFBD"),
        ("without a line", "3F", "0 1 EFBFBD"),
        ("unassigned between others", "33818030", "0 4 33EFBFBD30"),
        ("cut short", "81", "51 0 -"),
        ("cut short behind others", "33817C81", "51 3 33E28892"),
        ("cut short behind a substitute", "818081", "51 2 EFBFBD"),
        ("illegal second byte", "812D33", "52 0 -"),
        ("illegal second byte behind others", "3033812D33", "52 2 3033"),
        ("illegal first byte", "00", "52 0 -"),
        ("illegal first byte FF", "FF33", "52 0 -"),
        ("illegal first byte behind others", "2D8180FF33", "52 3 2DEFBFBD"),
        ("a lead byte twice", "8181", "52 0 -"),
    ] {
        l.k(format!("frame: {name}"), format!("{frame}\n"), format!("{line}\n"));
    }
    // A frame stopped early leaves nothing behind for the next.
    l.k(
        "frames one after the other",
        "3381\n7C33\n812D\n-\n33\n81\n81\n7D\n",
        "51 1 33\n52 0 -\n52 0 -\n0 0 -\n0 1 33\n51 0 -\n51 0 -\n52 0 -\n",
    );
}

const BAD: &[(&str, &[u8])] = &[
    ("empty line", b""),
    ("CR LF", b"33\r"),
    ("CR alone", b"\r"),
    ("CR before", b"\r33"),
    ("CR between", b"33\r30"),
    ("no bytes and CR", b"-\r"),
    ("blank alone", b" "),
    ("two blanks", b"  "),
    ("blank before", b" 33"),
    ("blank behind", b"33 "),
    ("blank between bytes", b"33 30"),
    ("blank inside a byte", b"3 3"),
    ("tab alone", b"\t"),
    ("tab behind", b"33\t"),
    ("one digit", b"3"),
    ("three digits", b"333"),
    ("five digits", b"33303"),
    ("two signs for no bytes", b"--"),
    ("sign before digits", b"-33"),
    ("sign behind digits", b"33-"),
    ("sign between digits", b"3-"),
    ("sign and blank", b"- "),
    ("blank and sign", b" -"),
    ("the byte before 0", b"3/"),
    ("the byte behind 9", b"3:"),
    ("the byte before A", b"3@"),
    ("the byte behind F", b"3G"),
    ("the byte before a", b"3`"),
    ("the byte behind f", b"3g"),
    ("the other digit wrong", b"G3"),
    ("a later digit wrong", b"3330333G"),
    ("0x", b"0x33"),
    ("escaped", b"\\x33"),
    ("plus", b"+3"),
    ("comma", b"33,30"),
    ("comment", b"33#3"),
    ("zero byte alone", b"\0"),
    ("two zero bytes", b"\0\0"),
    ("zero byte behind", b"33\0"),
    ("zero byte before", b"\x0033"),
    ("zero bytes between", b"33\0\x0030"),
    ("vertical tab", b"33\x0b0"),
    ("form feed", b"33\x0c0"),
    ("bytes from 80 up", b"\xb3\xb3"),
    ("FF", b"\xff\xff"),
    ("other digits", b"\xef\xbc\x93\xef\xbc\x93"),
    ("byte order mark", b"\xef\xbb\xbf33"),
    ("words", b"BAD FRAME"),
];

fn bad_frames(l: &mut List) {
    for (name, line) in BAD {
        let input = [b"33\n", *line, b"\n30\n"].concat();
        l.k(format!("bad frame: {name}"), input, "0 1 33\nBAD FRAME\n0 1 30\n");
    }
    let all: Vec<u8> = BAD.iter().flat_map(|(_, line)| [line, &b"\n817C33\n"[..]].concat()).collect();
    l.k("bad frames of every kind", all, "BAD FRAME\n0 3 E2889233\n".repeat(BAD.len()));
    l.k("CR LF everywhere", "33\r\n817C33\r\n-\r\n\r\n", "BAD FRAME\n".repeat(4));
    l.k("a byte over two lines", "3\n3\n", "BAD FRAME\nBAD FRAME\n");
}

fn ends_of_input(l: &mut List) {
    l.k("no input", "", "");
    l.k("only LF", "\n", "BAD FRAME\n");
    l.k("only two LF", "\n\n", "BAD FRAME\nBAD FRAME\n");
    l.k("a good last line without LF", "30\n33", "0 1 30\n0 1 33\n");
    l.k("no bytes without LF", "-", "0 0 -\n");
    l.k("a bad last line without LF", "30\n3", "0 1 30\nBAD FRAME\n");
    l.k("CR at the end", "33\r", "BAD FRAME\n");
    l.k("a zero byte at the end", "33\n\0", "0 1 33\nBAD FRAME\n");
    l.k("an empty last line", "33\n\n", "0 1 33\nBAD FRAME\n");
}

/// 8,192 digits are the most; longer lines are bad, however long, and the next
/// line goes on.
fn long_lines(l: &mut List) {
    let all = |bytes: usize| format!("0 {bytes} {}\n", "33".repeat(bytes));
    for (digits, line) in [
        (8_190, all(4_095)),
        (8_191, "BAD FRAME\n".into()),
        (8_192, all(4_096)),
        (8_193, "BAD FRAME\n".into()),
        (8_194, "BAD FRAME\n".into()),
    ] {
        let input = "3".repeat(digits);
        l.k(format!("{digits} digits"), format!("30\n{input}\n30\n"), format!("0 1 30\n{line}0 1 30\n"));
        l.k(format!("{digits} digits without LF"), input, line);
    }
    for digits in [8_195, 16_384, 16_386, 65_534, 65_535, 65_536, 65_537, 65_538, 131_072, 1_000_000, 1_000_001] {
        let input = "3".repeat(digits);
        l.k(format!("{digits} digits"), format!("{input}\n30\n"), "BAD FRAME\n0 1 30\n");
        l.k(format!("{digits} digits without LF"), format!("30\n{input}"), "0 1 30\nBAD FRAME\n");
    }
    let most = "33".repeat(4_096);
    for (name, line) in [
        ("CR", format!("{most}\r")),
        ("a blank", format!("{most} ")),
        ("a sign before", format!("-{most}")),
        ("the last digit wrong", format!("{}G", &most[1..])),
        ("the first digit wrong", format!("G{}", &most[1..])),
        ("two lines' worth and CR", format!("{most}{most}\r")),
    ] {
        l.k(format!("8,192 digits and {name}"), format!("{line}\n{most}\n"), format!("BAD FRAME\n{}", all(4_096)));
    }
    for (name, byte) in [("blanks", b" "), ("zero bytes", b"\0"), ("CR", b"\r"), ("signs", b"-"), ("FF", b"\xff")] {
        let input = [&byte.repeat(1_000_000)[..], b"\n33\n"].concat();
        l.k(format!("a million {name}"), input, "BAD FRAME\n0 1 33\n");
    }
    l.k("a million LF", "\n".repeat(1_000_000), "BAD FRAME\n".repeat(1_000_000));

    let most_but_one = "33".repeat(4_095);
    l.k("cut short at byte 4,096", format!("{most_but_one}81\n"), format!("51 4095 {most_but_one}\n"));
    l.k("illegal at byte 4,096", format!("{most_but_one}FF\n"), format!("52 4095 {most_but_one}\n"));
    l.k("4,096 bytes, nothing read", format!("FF{most_but_one}\n"), "52 0 -\n");
    let answer = format!("0 4096 {}\n", "E28892".repeat(2_048));
    l.k("2,048 codes of two bytes", format!("{}\n", "817C".repeat(2_048)), answer);
    let answer = format!("0 4096 {}\n", "EFBFBD".repeat(4_096));
    l.k("4,096 substitutes", format!("{}\n", "3F".repeat(4_096)), answer);
}

/// Lines of together `n` bytes, and what is written for them.
fn filling(n: usize) -> (String, String) {
    let short = [0, 2, 1][n % 3];
    let long = (n - 2 * short) / 3;
    ("33\n".repeat(long) + &"-\n".repeat(short), "0 1 33\n".repeat(long) + &"0 0 -\n".repeat(short))
}

/// A line at every place around bytes 65,536 and 131,072 of the input.
fn places_in_the_input(l: &mut List) {
    for end in [65_536, 131_072] {
        for before in 0..=7 {
            let (input, lines) = filling(end - before);
            let name = format!("a frame {before} bytes before byte {end}");
            l.k(name, format!("{input}817C33\n30\n"), format!("{lines}0 3 E2889233\n0 1 30\n"));
        }
        let (input, lines) = filling(end - 1);
        l.k(format!("a last byte at {end}"), format!("{input}3"), format!("{lines}BAD FRAME\n"));
        let (input, lines) = filling(end);
        l.k(format!("the input ends at {end}"), input, lines);
    }
    // Lines of 8,193 bytes: the eighth goes over byte 65,536.
    let (frame, line) = ("3".repeat(8_192), format!("0 4096 {}\n", "33".repeat(4_096)));
    l.k("20 frames of 4,096 bytes", format!("{frame}\n").repeat(20), line.repeat(20));
}

/// One-byte codes, 41 of them U+10000: the widest line is 4,096 times F0 90
/// 80 80.
fn wide() -> Table {
    let text = text(1, 1, "SBCS", "<subchar> \\x41", &["0-ff.p"], &["<U10000> \\x41 |0"]);
    let list: String = (0..=255).filter(|&b| b != 0x41).map(|b| format!("{b:02X} 2\n")).collect();
    Table { text, mappings: 1, audit: list + "LOOKED 256 LISTED 255\n" }
}

fn long_outputs(l: &mut List) {
    let (frame, line) = ("41".repeat(4_096), format!("0 4096 {}\n", "F0908080".repeat(4_096)));
    l.ok("the widest line", &wide(), &frame, &line);
    l.ok("the widest line 20 times", &wide(), format!("{frame}\n").repeat(20), line.repeat(20));
    // Ever more short lines between wide ones, so that these begin anywhere.
    let (mut input, mut lines) = (String::new(), String::new());
    for between in 0..60 {
        input += &format!("{frame}\n{}", "-\n".repeat(between));
        lines += &format!("{line}{}", "0 0 -\n".repeat(between));
    }
    l.ok("wide and short lines", &wide(), input, lines);
    // Each byte of length, one digit at a time longer.
    let (mut input, mut lines) = (String::new(), String::new());
    for bytes in 1..=400 {
        input += &format!("{}\n", "41".repeat(bytes));
        lines += &format!("0 {bytes} {}\n", "F0908080".repeat(bytes));
    }
    l.ok("lines of rising length", &wide(), input, lines);

    let (input, lines) = ("33\n817C33\n-\nxx\n81\n\n", "0 1 33\n0 3 E2889233\n0 0 -\nBAD FRAME\n51 0 -\nBAD FRAME\n");
    l.k("120,000 lines", input.repeat(20_000), lines.repeat(20_000));
}

/// Rows, and no mappings: the list has every code with cause 2 (or 1).
fn unmapped(max: u32, subchar: &str, rows: &[&str], cause: u32, codes: Vec<String>) -> Table {
    let list: String = codes.iter().map(|code| format!("{code} {cause}\n")).collect();
    let audit = format!("{list}LOOKED {0} LISTED {0}\n", codes.len());
    Table { text: mbcs(max, subchar, rows, &[]), mappings: 0, audit }
}

/// Every code from 0000 to FFFF with something before it.
fn two_bytes(before: &str) -> Vec<String> {
    (0..65_536).map(|n| format!("{before}{n:04X}")).collect()
}

/// `n` codes that are listed, those of two bytes first, then those of one;
/// `home` adds FF at the end, which comes home.
fn listed(n: usize, home: bool) -> Table {
    // Bytes up to `width` follow a lead byte; 255 is tried where 256 leaves
    // too many over for single bytes.
    let width = if n / 256 + n % 256 < 255 { 256 } else { 255 };
    let (leads, single) = (n / width, n % width);
    let mut list: String = (0..leads).flat_map(|a| (0..width).map(move |b| format!("{a:02X}{b:02X} 2\n"))).collect();
    list.extend((leads..leads + single).map(|b| format!("{b:02X} 2\n")));

    let mut row = format!("0-{:x}:1", leads - 1);
    if single > 0 {
        row += &format!(", {:x}-{:x}", leads, leads + single - 1);
    }
    let mut lines = Vec::new();
    if home {
        row += ", ff";
        lines.push("<U0041> \\xFF |0");
    }
    let text = mbcs(2, "\\x00\\x00", &[&row, &format!("0-{:x}", width - 1)], &lines);
    let audit = format!("{list}LOOKED {} LISTED {n}\n", n + lines.len());
    Table { text, mappings: lines.len(), audit }
}

fn audits(l: &mut List) {
    causes(l);
    let (input, lines) = ("0000\n", "0 2 EFBFBD\n");
    for n in [1_023, 1_024, 1_025, 2_047, 2_048, 2_049, 4_095, 4_096, 4_097, 5_957, 5_958, 8_192, 16_384] {
        l.ok(format!("{n} codes listed"), &listed(n, false), input, lines);
        l.ok(format!("{n} codes listed, one more comes home"), &listed(n, true), input, lines);
    }
    let rows = ["0-ff:1", "0-ff"];
    l.ok("65,536 codes of two bytes", &unmapped(2, "\\x00\\x00", &rows, 2, two_bytes("")), input, lines);
    let rows = ["0-ff:1", "0-ff.u"];
    l.ok("65,536 codes ended by u", &unmapped(2, "\\x00\\x00", &rows, 1, two_bytes("")), input, lines);
    let rows = ["7f:1", "80:2", "0-ff:3", "0-ff"];
    let long = unmapped(4, "\\x7F\\x80\\x00\\x00", &rows, 2, two_bytes("7F80"));
    l.ok("65,536 codes of four bytes", &long, "7F80FFFF\n7F8000\n", "0 4 EFBFBD\n51 0 -\n");
    let rows = ["fe:1", "0-ff:2", "0-ff"];
    let three = unmapped(3, "\\xFE\\x00\\x00", &rows, 2, two_bytes("FE"));
    l.ok("65,536 codes of three bytes, no input", &three, "", "");
}

/// Codes of one to four bytes, every cause.
fn causes(l: &mut List) {
    let subchars = "<subchar> \\x41\n<subchar1> \\x42";
    let rows = ["41-45, 46.u, 81:1", "40, 41:2", "50, 51:3", "60-61.p"];
    let lines = [
        "<U0041> \\x41 |0",
        "<U0042> \\x42 |3", // U+0042 is not written: 4
        "<U0043> \\x43 |3",
        "<U0043> \\x41 |1", // nor U+0043 with fallback off: 4
        "<U0041> \\x44 |3", // written as 41: 3
        "<U00E9> \\x81\\x40 |0",
        "<U20AC> \\x81\\x41\\x50 |3",
        "<U20AC> \\x42 |2", // not mappable, so not written: 4
        "<U1F600> \\x81\\x41\\x51\\x60 |0",
        "<U1F600> \\x81\\x41\\x51\\x61 |3", // written as 81 41 51 60: 3
    ];
    let table = Table {
        text: text(1, 4, "MBCS", subchars, &rows, &lines),
        mappings: 10,
        audit: "42 4\n43 4\n44 3\n45 2\n46 1\n814150 4\n81415161 3\nLOOKED 10 LISTED 7\n".into(),
    };
    l.ok(
        "codes of one to four bytes",
        &table,
        "414243444546\n8140814150\n8141516081415161\n41814151\n814162\n448141516F\n",
        "0 6 414243411A1A\n0 5 C3A9E282AC\n0 8 F09F9880F09F9880\n51 1 41\n52 0 -\n52 1 41\n",
    );
    l.ok("no input, every cause", &table, "", "");
}
