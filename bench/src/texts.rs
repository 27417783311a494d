//! Tables and texts.

use crate::timing::Amount;

pub const FRAME: usize = 4_096;
pub const TEXT: usize = 1 << 20;
/// The most mappings a table can have.
pub const MAPPINGS: usize = 2_048;

/// splitmix64.
pub struct Rng(pub u64);

impl Rng {
    pub fn below(&mut self, n: usize) -> usize {
        self.0 = self.0.wrapping_add(0x9e37_79b9_7f4a_7c15);
        let mut z = self.0;
        z = (z ^ (z >> 30)).wrapping_mul(0xbf58_476d_1ce4_e5b9);
        z = (z ^ (z >> 27)).wrapping_mul(0x94d0_49bb_1331_11eb);
        ((z ^ (z >> 31)) % n as u64) as usize
    }
}

pub struct Mapping {
    pub cp: u32,
    pub code: Vec<u8>,
    pub kind: u8,
}

impl Mapping {
    fn code(&self) -> Vec<u8> {
        self.code.clone()
    }

    fn utf8(&self) -> Vec<u8> {
        char::from_u32(self.cp).expect("a character").to_string().into_bytes()
    }

    fn utf32be(&self) -> Vec<u8> {
        self.cp.to_be_bytes().to_vec()
    }
}

/// The bytes of a character in the one or the other text.
type Side = fn(&Mapping) -> Vec<u8>;

/// How Unicode text stands in bytes.
#[derive(Clone, Copy)]
pub enum Scheme {
    Utf8,
    Utf32Be,
}

impl Scheme {
    pub const ALL: [Scheme; 2] = [Scheme::Utf8, Scheme::Utf32Be];

    pub fn name(self) -> &'static str {
        match self {
            Scheme::Utf8 => "UTF-8",
            Scheme::Utf32Be => "UTF-32BE",
        }
    }

    fn side(self) -> Side {
        match self {
            Scheme::Utf8 => Mapping::utf8,
            Scheme::Utf32Be => Mapping::utf32be,
        }
    }
}

/// The codes of Shift-JIS in order, single bytes first.
pub fn codes() -> impl Iterator<Item = Vec<u8>> {
    let singles = (0..0x7f).chain(0xa1..=0xdf).map(|b| vec![b]);
    let leads = (0x81..=0x9f).chain(0xe0..=0xfc);
    let doubles = leads.flat_map(|lead| (0x40..=0x7e).chain(0x80..=0xfc).map(move |trail| vec![lead, trail]));
    singles.chain(doubles)
}

/// 2,048 mappings over the states of Shift-JIS: single bytes, half-width
/// letters, two-byte codes, some of them one way only.
pub fn mappings() -> Vec<Mapping> {
    let mut next = 0x3000;
    let mut out: Vec<Mapping> = Vec::new();
    for code in codes().take(MAPPINGS) {
        let cp = match code[..] {
            [b] if b < 0x80 => b as u32,
            [b] => 0xff61 + b as u32 - 0xa1,
            _ => {
                next += 1;
                next - 1
            }
        };
        // Of every 64 two-byte codes: one fallback, to the code before it, and one only to Unicode.
        let (code, kind) = match (out.len() % 64, out.last()) {
            (7, Some(Mapping { code: read, .. })) if code.len() == 2 => (read.clone(), 1),
            (9, _) if code.len() == 2 => (code, 3),
            _ => (code, 0),
        };
        out.push(Mapping { cp, code, kind });
    }
    out
}

pub fn shuffle<T>(what: &mut [T]) {
    let mut rng = Rng(3);
    for i in (1..what.len()).rev() {
        what.swap(i, rng.below(i + 1));
    }
}

pub fn table_text(mappings: &[Mapping]) -> Vec<u8> {
    let mut text = String::from(
        "<code_set_name> \"bench-sjis\"\n<mb_cur_min> 1\n<mb_cur_max> 2\n<uconv_class> \"MBCS\"\n\
         <subchar> \\xFC\\xFC\n<subchar1> \\x7F\n\
         <icu:state> 0-7f, 81-9f:1, a0-df, e0-fc:1\n<icu:state> 40-7e, 80-fc\nCHARMAP\n",
    );
    for m in mappings {
        let code: String = m.code.iter().map(|b| format!("\\x{b:02X}")).collect();
        text += &format!("<U{:04X}> {code} |{}\n", m.cp, m.kind);
    }
    text += "END CHARMAP\n";
    text.into_bytes()
}

/// Two-byte codes picked by chance for a table, and all others: what is mapped
/// and what is not lie among each other.
pub fn scattered() -> (Vec<Mapping>, Vec<Mapping>) {
    let doubles = codes().filter(|code| code.len() == 2);
    let mut mapped: Vec<Mapping> = doubles.zip(0x3000..).map(|(code, cp)| Mapping { cp, code, kind: 0 }).collect();
    shuffle(&mut mapped);
    let others = mapped.split_off(MAPPINGS);
    (mapped, others)
}

/// The text of the same table with its lines in three orders, under the names
/// of the figures. ICU's own tables are sorted by code point.
pub fn load_texts() -> [(&'static str, Vec<u8>); 3] {
    let ordered = mappings();
    let mut by_point = mappings();
    by_point.sort_by_key(|m| m.cp);
    let mut shuffled = mappings();
    shuffle(&mut shuffled);
    [
        ("load, lines in order", table_text(&ordered)),
        ("load, lines by code point", table_text(&by_point)),
        ("load, lines shuffled", table_text(&shuffled)),
    ]
}

/// The shares of ASCII, of other single bytes and of two-byte codes.
#[derive(Clone, Copy)]
pub struct Blend {
    name: &'static str,
    shares: [usize; 3],
}

pub const BLENDS: [Blend; 2] = [MIXED, MOSTLY_DOUBLE];
/// Two characters in five ASCII, one in ten of another single byte.
pub const MIXED: Blend = Blend { name: "mixed text", shares: [4, 1, 5] };
/// Nineteen characters in twenty of two bytes, the others ASCII.
const MOSTLY_DOUBLE: Blend = Blend { name: "mostly two-byte text", shares: [1, 0, 19] };
/// Nothing but two-byte codes.
const DOUBLE: [usize; 3] = [0, 0, 1];

/// A text in each direction, in pieces that hold whole sequences.
pub struct Texts {
    blend: &'static str,
    cut: String,
    /// Of either direction.
    pub amount: Amount,
    /// Of the characters.
    pub scheme: Scheme,
    pub codes: Vec<Vec<u8>>,
    pub chars: Vec<Vec<u8>>,
}

impl Texts {
    pub fn name(&self) -> String {
        format!("{}, {}", self.blend, self.cut)
    }

    fn made(blend: &'static str, cut: String, amount: Amount, text: impl Fn(Side) -> Vec<Vec<u8>>) -> Texts {
        let scheme = Scheme::Utf8;
        Texts { blend, cut, amount, scheme, codes: text(Mapping::code), chars: text(scheme.side()) }
    }

    pub fn in_pieces(mappings: &[Mapping], blend: Blend, size: usize, count: usize) -> Texts {
        let cut = format!("{count} pieces of {size} bytes");
        Texts::made(blend.name, cut, Amount::bytes(size * count), |side| {
            bytes(&pieces(mappings, blend, size, count, side), side)
        })
    }

    /// 1 MiB.
    pub fn in_frames(mappings: &[Mapping], blend: Blend) -> Texts {
        let cut = "1 MiB in frames".into();
        Texts { cut, ..Texts::in_pieces(mappings, blend, FRAME, TEXT / FRAME) }
    }

    /// The same characters in both directions: codes in frames, 1 MiB of them.
    pub fn in_scheme(mappings: &[Mapping], blend: Blend, scheme: Scheme) -> Texts {
        let frames = pieces(mappings, blend, FRAME, TEXT / FRAME, Mapping::code);
        Texts {
            blend: blend.name,
            cut: "1 MiB of codes in frames".into(),
            amount: Amount::bytes(TEXT),
            scheme,
            codes: bytes(&frames, Mapping::code),
            chars: bytes(&frames, scheme.side()),
        }
    }

    /// Frames joined to one piece.
    pub fn in_one_call(self) -> Texts {
        let cut = self.cut.replace("in frames", "in one call");
        Texts { cut, codes: vec![self.codes.concat()], chars: vec![self.chars.concat()], ..self }
    }

    /// One byte in 64 replaced by another by chance. The last one of a piece is a
    /// space, so that none ends inside a sequence.
    pub fn damaged(mut self) -> Texts {
        let mut rng = Rng(5);
        for piece in self.codes.iter_mut().chain(&mut self.chars) {
            for _ in 0..piece.len() / 64 {
                let at = rng.below(piece.len());
                piece[at] = rng.below(256) as u8;
            }
            if let Some(last) = piece.last_mut() {
                *last = b' ';
            }
        }
        Texts { cut: format!("damaged, {}", self.cut), ..self }
    }

    /// One piece of two-byte codes alone, 1 MiB of them: the same characters in
    /// both directions.
    pub fn of_look_ups(name: &'static str, mappings: &[Mapping]) -> Texts {
        let count = TEXT / 2;
        Texts::made(name, format!("{count} look-ups in one call"), Amount::look_ups(count), |side| {
            vec![characters(mappings, DOUBLE).take(count).flat_map(side).collect()]
        })
    }
}

/// Characters of the list by chance, without end; none that is mapped one way
/// only.
fn characters(mappings: &[Mapping], shares: [usize; 3]) -> impl Iterator<Item = &Mapping> {
    let both = || mappings.iter().filter(|m| m.kind == 0);
    let groups: [Vec<&Mapping>; 3] = [
        both().filter(|m| (0x20..0x7f).contains(&m.cp)).collect(),
        both().filter(|m| m.code.len() == 1 && m.cp > 0x7f).collect(),
        both().filter(|m| m.code.len() == 2).collect(),
    ];
    let mut rng = Rng(7);
    std::iter::repeat_with(move || {
        let (mut group, mut left) = (0, rng.below(shares.iter().sum()));
        while left >= shares[group] {
            left -= shares[group];
            group += 1;
        }
        groups[group][rng.below(groups[group].len())]
    })
}

/// Pieces of exactly that size on one side; where a character does not fit
/// stands a space.
fn pieces(mappings: &[Mapping], blend: Blend, size: usize, count: usize, side: Side) -> Vec<Vec<&Mapping>> {
    let space = mappings.iter().find(|m| m.cp == 0x20).expect("every table has a space");
    let mut characters = characters(mappings, blend.shares);
    let mut piece = || {
        let (mut piece, mut length) = (Vec::new(), 0);
        while length < size {
            let next = characters.next().expect("without end");
            let next = if length + side(next).len() <= size { next } else { space };
            length += side(next).len();
            piece.push(next);
        }
        piece
    };
    (0..count).map(|_| piece()).collect()
}

fn bytes(pieces: &[Vec<&Mapping>], side: Side) -> Vec<Vec<u8>> {
    pieces.iter().map(|piece| piece.iter().flat_map(|m| side(m)).collect()).collect()
}
