//! Edition 2, which the original has not: its literals against a reader made from the documents, what both editions read alike, and 34.
use super::generate::vocabulary;
use super::random::Random;
use super::reader::{self, Bad};
use super::sides::{Lent, decode};
use super::tally::Tally;
use super::texts::{small, strings};
use bombrezen::ffi::{self, Decoding};

/// A kind of literal: what it opens with, and its quote.
type Kind = (&'static str, char);
const KINDS: [Kind; 4] = [("", '\''), ("b", '"'), ("", '"'), ("b", '\'')];

/// Literals to be loaded: those that the reader takes many in one text, each other alone.
struct Literals<'a> {
    tally: &'a mut Tally,
    one: Lent,
    many: Lent,
    good: Vec<(String, Vec<u8>)>,
    text: String,
    len: usize,
}

impl<'a> Literals<'a> {
    fn new(tally: &'a mut Tally) -> Self {
        let many = Lent::new(70_000, 70_000, 1024);
        Self { tally, one: small(), many, good: Vec::new(), text: String::new(), len: 0 }
    }

    /// What stands inside a literal of a kind. To be a token of its own, a good one gets four digits in front, which escape nothing.
    fn inside(&mut self, (open, quote): Kind, inner: &str) {
        let literal = format!("{open}{quote}{inner}{quote}");
        let Ok(bytes) = reader::literal(literal.as_bytes()) else { return self.alone(&literal) };
        if bytes.len() > 251 {
            return self.alone(&literal);
        }
        let id = self.good.len() + 1;
        let len = bytes.len() + 4;
        self.text += &format!("{id} {open}{quote}{id:04}{inner}{quote} {len}\n");
        self.good.push((literal, [format!("{id:04}").into_bytes(), bytes].concat()));
        self.len += len;
        if id == 4096 || self.len > 65_000 {
            self.load();
        }
    }

    /// Loads the good ones: each id has the reader's bytes. If the text is refused, each is loaded alone, to tell which it is.
    fn load(&mut self) {
        let (number, [_, _, tokens, _, len, _]) = self.many.load_edition(self.text.as_bytes(), 2, true);
        let good = std::mem::take(&mut self.good);
        if (number, tokens as usize, len as usize) == (0, good.len(), self.len) {
            for ((literal, bytes), id) in good.iter().zip(1..) {
                let answer = decode(self.many.memory(), Decoding::Bytes, &[id], bytes.len());
                let same = answer.0 == 0 && answer.1 == *bytes;
                self.tally.case(0, same, || format!("{literal} behind four digits gave {:x?} and not {bytes:x?}", answer.1));
            }
        } else if !good.is_empty() {
            self.tally.case(number, false, || format!("a text of {} good literals gave {number}", good.len()));
            good.iter().for_each(|(literal, _)| self.alone(literal));
        }
        self.text.clear();
        self.len = 0;
    }

    /// A literal in a line of its own, with its length.
    fn alone(&mut self, literal: &str) {
        let len = reader::literal(literal.as_bytes()).map_or(1, |bytes| bytes.len());
        self.declared(literal, len);
    }

    /// A literal in a line of its own, with a length that may be another.
    fn declared(&mut self, literal: &str, len: usize) {
        let read = reader::literal(literal.as_bytes());
        let wanted = match &read {
            Err(_) => 12,
            Ok(bytes) if bytes.is_empty() => 13,
            Ok(bytes) if bytes.len() != len => 14,
            Ok(bytes) if bytes.len() > 255 => 15,
            Ok(_) => 0,
        };
        let (number, report) = self.one.load_edition(format!("1 {literal} {len}").as_bytes(), 2, true);
        let same = match &read {
            Ok(bytes) if wanted == 0 => {
                let counts = [0, 0, 1, len as u64, len as u64];
                number == 0 && report[..5] == counts && decode(self.one.memory(), Decoding::Bytes, &[1], 255).1 == *bytes
            }
            _ => (number, report) == (wanted, [1, 1, 0, 0, 0, 0]),
        };
        self.tally.case(number, same, || format!("1 {literal} {len} gave {number} {report:?} and not {wanted}, {read:x?}"));
    }

    /// Every inside of up to `most` parts that is good. Of the bad ones, those with fewer parts, and one in `one_in` of those with `most`;
    /// but where the parts before the last are bad already, whatever follows them, only some.
    fn every(&mut self, kind: Kind, parts: &[&str], most: usize, one_in: usize) {
        let mut random = Random::new(9);
        self.further(kind, parts, most, one_in, &mut random, &mut String::new());
    }

    /// What is made so far, and what up to `left` more parts make of it.
    fn further(&mut self, kind: Kind, parts: &[&str], left: usize, one_in: usize, random: &mut Random, made: &mut String) {
        let read = reader::inside(made.as_bytes(), kind.1 as u8, !kind.0.is_empty());
        if read.is_ok() || left > 0 || random.chance(one_in) {
            self.inside(kind, made);
        }
        if left == 0 || read == Err(Bad::Ever) && !random.chance(20) {
            return;
        }
        for part in parts {
            let len = made.len();
            made.push_str(part);
            self.further(kind, parts, left - 1, one_in, random, made);
            made.truncate(len);
        }
    }
}

/// Short literals: the quotes and what stands before them; insides of up to five parts, all good ones and some bad, and of up to four with
/// more parts, among them what other readers take for the end of a line; and all insides of up to four.
pub fn short(tally: &mut Tally) {
    let mut literals = Literals::new(tally);
    let mut whole = |literal: &str| {
        if !literal.is_empty() {
            literals.alone(literal)
        }
    };
    strings(&["'", "\"", "\\", "b", "U", "0", "a", "8", "é"], 4, &mut whole);
    let five = ["\\", "0", "1", "4", "7", "8", "a", "v", "x", "u", "U", "'", "\"", "A", "\r"];
    let more = ["b", "f", "N", "n", "9", "g", "\u{b}", "\u{2028}", "é"];
    for kind in &KINDS[..2] {
        literals.every(*kind, &five, 5, 12);
        literals.every(*kind, &[&five[..], &more[..]].concat(), 4, 4);
        literals.load();
    }
    // Every one of up to four parts, good or bad, with nothing before the first escape; with the other quotes up to three.
    for ((open, quote), most) in KINDS.into_iter().zip([4, 4, 3, 3]) {
        strings(&five, most, &mut |inner| literals.alone(&format!("{open}{quote}{inner}{quote}")));
    }
}

/// Code points around which something changes: the bytes of a character, surrogates, the last.
const POINTS: [u32; 18] = [
    0, 0x7f, 0x80, 0xff, 0x100, 0x7ff, 0x800, 0xd7ff, 0xd800, 0xdbff, 0xdc00, 0xdfff, 0xe000, 0xffff, 0x10000, 0x10ffff,
    0x110000, !0,
];

/// All octals and `\U`, with what may follow them; parts at random, one after the other; lengths that are others, 255 and more.
pub fn long(tally: &mut Tally) {
    let mut literals = Literals::new(tally);
    for kind in &KINDS[..2] {
        octals(&mut literals, *kind);
        points(&mut literals, *kind);
        literals.load();
    }
    random_parts(&mut literals);
    literals.load();
    for (part, len) in [("\\0", 1), ("\\177", 1), ("\\400", 2), ("\\U0000d7ff", 3), ("\\U0010ffff", 4), ("\\a", 1)] {
        for count in [1, 2, 255 / len, 256 / len, 256 / len + 1] {
            for declared in [count * len - 1, count * len, count * len + 1, count, 255] {
                literals.declared(&format!("'{}'", part.repeat(count)), declared);
                literals.declared(&format!("b'{}'", part.repeat(count)), declared);
            }
        }
    }
}

/// One to three octal digits, and then a byte of each class, an escape, the end of the literal, or something bad.
fn octals(literals: &mut Literals<'_>, kind: Kind) {
    let behind = [
        "", "0", "7", "8", "9", "a", "f", "A", "x", " ", "/", ":", "\0", "\r", "\u{7f}", "é", "\u{2028}", "'", "\"", "\\",
        "\\\\", "\\n", "\\0", "\\377", "\\400", "\\x41", "\\8", "\\U41",
    ];
    for len in 1..=3 {
        for number in 0..8usize.pow(len as u32) {
            for after in behind {
                literals.inside(kind, &format!("\\{number:0len$o}{after}"));
            }
        }
    }
}

/// `\U` and `\u` with a code point in either case: with too few digits and too many, another byte in the place of each, and every 61st
/// code point.
fn points(literals: &mut Literals<'_>, kind: Kind) {
    for point in POINTS {
        for digits in [format!("{point:08x}"), format!("{point:08X}"), format!("{:04x}", point & 0xffff)] {
            for after in ["", "0", "g", "é", "\\1", "\\U00000041"] {
                for len in 0..=digits.len() {
                    literals.inside(kind, &format!("\\U{}{after}", &digits[..len]));
                    literals.inside(kind, &format!("a\\u{}{after}", &digits[..len]));
                }
            }
            for (at, other) in (0..digits.len()).flat_map(|at| "gG/:@`+- é\\'\"_x".chars().map(move |other| (at, other))) {
                literals.inside(kind, &format!("\\U{}{other}{}", &digits[..at], &digits[at + 1..]));
            }
        }
    }
    if kind.0.is_empty() {
        (0..=0x10_ffff).step_by(61).for_each(|point| literals.inside(kind, &format!("\\U{point:08x}")));
    }
}

/// Parts of every sort, a bad one now and then.
fn random_parts(literals: &mut Literals<'_>) {
    let mut random = Random::new(10);
    let bad =
        ["\\8", "\\N", "\\N{DIGIT ONE}", "\\U00110000", "\\U0000dfff", "\\Uffffffff", "\\ud800", "\\x4", "\\u004", "\\\r", "\\é"];
    let good =
        ["a", "0", "7", "8", " ", "\\a", "\\b", "\\f", "\\v", "\\n", "\\t", "\\r", "\\\\", "\\'", "\\\"", "\\x7f", "\\xff"];
    let wide = ["é", "€", "𝄞", "\\u0000", "\\uFFFF", "\\u20ac", "\\U0001d11e", "\\U0010FFFF", "\\U00000080"];
    for _ in 0..60_000 {
        let kind = *random.pick(&KINDS);
        let below = if random.chance(8) { 512 } else { 256 };
        let mut inner = String::new();
        for _ in 0..1 + random.below(14) {
            match random.below(6) {
                0 if random.chance(16) => inner += *random.pick(&bad),
                0 | 1 if kind.0.is_empty() || random.chance(40) => inner += *random.pick(&wide),
                2 => inner += &format!("\\{:o}", random.below(8)),
                3 => inner += &format!("\\{:02o}", random.below(64)),
                4 => inner += &format!("\\{:03o}", random.below(below)),
                _ => inner += *random.pick(&good),
            }
        }
        literals.inside(kind, &inner);
    }
}

/// Whether a backslash stands before anything that edition 2 reads otherwise.
fn differs(text: &str) -> bool {
    text.as_bytes().windows(2).any(|pair| matches!(pair, [b'\\', b'0'..=b'7' | b'a' | b'b' | b'f' | b'v' | b'U']))
}

/// Texts without the escapes in which the editions differ give the same number, report and tables in both.
pub fn both(tally: &mut Tally) {
    let (mut first, mut second) = (small(), small());
    let mut same = |text: &str, partial: bool| {
        if differs(text) {
            return;
        }
        let wanted = first.load_edition(text.as_bytes(), 1, partial);
        let answer = second.load_edition(text.as_bytes(), 2, partial);
        let same = answer == wanted && (answer.0 != 0 || second.holds_as(&first));
        tally.case(answer.0, same, || format!("{text:?} gave {answer:?} and {wanted:?}"));
    };
    for (open, quote) in &KINDS[..2] {
        strings(&["\\", "'", "\"", "n", "x", "u", "4", "e", "é"], 4, &mut |inner| {
            let literal = format!("{open}{quote}{inner}{quote}");
            let len = reader::literal(literal.as_bytes()).map_or(1, |bytes| bytes.len());
            same(&format!("1 {literal} {len}"), true);
        });
    }
    let mut random = Random::new(11);
    for round in 0..200 {
        let text = vocabulary(&mut random, b"ab'\\ \n\x00\xc3\xa9", 12, 4);
        same(&text, round % 8 > 0);
        let places: Vec<usize> = text.char_indices().map(|(at, _)| at).collect();
        for _ in 0..30 {
            let at = *random.pick(&places);
            let part = *random.pick(&["\\", "'", "x", "u00e9", "\\x", "é", " ", "\n", "\r\n", "1", "n"]);
            same(&format!("{}{part}{}", &text[..at], &text[at..]), true);
        }
    }
}

/// Any edition but 1 and 2 is 34: before 1, whatever the text, with nothing in the report and nothing changed in any memory.
pub fn no_such_edition(tally: &mut Tally) {
    let editions = [0, 1, 2, 3, 4, 34, 255, 256, 257, 258, 65_537, 65_538, 1 << 31, (1 << 31) + 1, u32::MAX - 1, u32::MAX];
    let texts =
        [(&b"1 'a' 1\n"[..], [0, 0]), (b"", [19; 2]), (b"\xff", [2; 2]), (b"0 'a' 1\n", [8; 2]), (b"1 '\\01' 1", [14, 0])];
    let mut loaded = Lent::new(64, 64, 4);
    loaded.load(b"1 'a' 1\n2 'b' 1\n3 'ab' 2\n4 'abcd' 4\n5 'bc' 2\n", true);
    for (single, offsets, roots) in
        [(257, 65_538, 65_537), (255, 65_538, 65_537), (257, 65_536, 65_537), (257, 65_538, 65_535), (0, 0, 0)]
    {
        let mut before = loaded.clone();
        before.single.truncate(single);
        before.offsets.truncate(offsets);
        before.roots.truncate(roots);
        for (edition, (text, numbers), partial) in combinations(&editions, &texts) {
            let wanted = match edition {
                1 | 2 if single < 257 || offsets < 65_538 || roots < 65_537 => 1,
                1 | 2 => match numbers[edition as usize - 1] {
                    0 if !partial => 20,
                    number => number,
                },
                _ => 34,
            };
            let mut after = before.clone();
            let (number, report) = ffi::load(text, edition, partial, after.lend());
            let kept = match wanted {
                1 | 34 => report == [0; 6] && after == before,
                2 => after == before,
                _ => true,
            };
            tally.case(number, number == wanted && kept, || format!("edition {edition} of {text:x?} gave {number} {report:?}"));
        }
    }
}

/// Every edition with every text in both modes.
fn combinations<T: Copy>(editions: &[u32], texts: &[T]) -> Vec<(u32, T, bool)> {
    let with_text = editions.iter().flat_map(|&edition| texts.iter().map(move |&text| (edition, text)));
    with_text.flat_map(|(edition, text)| [true, false].map(|partial| (edition, text, partial))).collect()
}
