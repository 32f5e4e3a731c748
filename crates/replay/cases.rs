//! Writes `stdin`, the cases, and `stdout`, the answers. Numbers, places, ids, bytes and tables are what the original Rust crate
//! gives, of a text of edition 2 in edition 1's spelling; where it has no refusal (1, 17, 18, 21, 23, 28, 34) the documents give the
//! number, and 2 is the standard library's `from_utf8`. The bytes looked at, which it does not tell, are document 02's sentence over the
//! set of all beginnings of tokens. Nothing here is taken from the library. `main.rt` says what a case is. Run in `rust/`, with
//! RWKV_ORIGINAL naming the original's folder:
//!
//!     cargo run --release --bin replay_cases

#[cfg(not(original))]
fn main() {
    eprintln!("nothing to ask: RWKV_ORIGINAL named no folder with the original crate when this was built");
    std::process::exit(1);
}

#[cfg(original)]
extern crate original;
#[cfg(original)]
#[path = "../../rust/tests/comparison/groups/generate.rs"]
mod generate;
#[cfg(original)]
#[path = "../../rust/tests/comparison/groups/looked.rs"]
mod looked;
#[cfg(original)]
#[path = "../../rust/tests/comparison/groups/random.rs"]
mod random;
#[cfg(original)]
#[path = "../../rust/tests/comparison/groups/theirs.rs"]
mod theirs;

#[cfg(original)]
fn main() -> std::io::Result<()> {
    asked::write(&std::path::Path::new(env!("CARGO_MANIFEST_DIR")).join("../crates/replay"))
}

#[cfg(original)]
mod asked {
    use super::generate::{counts, full_vocabulary, id, input, tokens_of, vocabulary};
    use super::looked::Looking;
    use super::original::RwkvTokenizer as Original;
    use super::random::Random;
    use super::theirs::{decoded, encoded, original_load};
    use bombrezen::ffi::Decoding;
    use std::path::Path;

    /// Room for a load: nodes, blob bytes, blocks of the table, blocks of the marks.
    type Room = [usize; 4];
    const ROOM: Room = [4096, 4096, 16, 16];

    /// The cases, their answers, and what the vocabulary memory holds (but for `single`) after them.
    struct Asked {
        cases: String,
        answers: String,
        numbers: [u64; 35],
        original: Option<Original>,
        offsets: Vec<u32>,
        blob: Vec<u8>,
        roots: Vec<u64>,
        table: Vec<u64>,
    }

    pub fn write(folder: &Path) -> std::io::Result<()> {
        let mut asked = Asked::new();
        asked.examples();
        asked.lines();
        asked.damaged();
        asked.not_utf8();
        asked.room();
        asked.short();
        asked.vocabularies();
        asked.editions();
        for (number, count) in asked.numbers.iter().enumerate() {
            asked.answers += &format!("number {number}: {count} cases\n");
        }
        std::fs::write(folder.join("stdin"), asked.cases)?;
        std::fs::write(folder.join("stdout"), asked.answers)
    }

    fn hex(bytes: &[u8]) -> String {
        bytes.iter().map(|byte| format!("{byte:02x}")).collect()
    }

    /// The sum of `sums.rt`, over these numbers.
    fn sum(start: u64, numbers: impl Iterator<Item = u64>) -> u64 {
        numbers.fold(start, |sum, x| (sum.rotate_left(5) ^ x).wrapping_add(sum))
    }

    impl Asked {
        fn new() -> Self {
            Self {
                cases: String::new(),
                answers: String::new(),
                numbers: [0; 35],
                original: None,
                offsets: vec![0; 65_537],
                blob: vec![0; ROOM[1]],
                roots: vec![0; 65_536],
                table: vec![0; ROOM[2] * 256],
            }
        }

        fn case(&mut self, kind: char, bytes: &[u8], number: u32, report: &[u64], rest: &str) {
            assert!(bytes.len() <= 8192, "main.rt has room for 8192 bytes of a case");
            self.cases += &format!("{kind} {}\n", hex(bytes));
            let report: String = report.iter().map(|value| format!(" {value}")).collect();
            self.answers += &format!("{number}{report}{rest}\n");
            self.numbers[number as usize] += 1;
        }

        /// A load of edition 1 in this room, with a part of the memory a cell short if `short` is not 0.
        fn load_in(&mut self, text: &[u8], partial: bool, room: Room, short: u8) {
            self.load_as(1, text, text, partial, room, short);
        }

        /// A load of a text of this edition, which the original reads in the spelling `known`.
        fn load_as(&mut self, edition: u8, text: &[u8], known: &[u8], partial: bool, room: Room, short: u8) {
            let [nodes, blob, blocks, marks] = room;
            let (number, report, loaded) = match std::str::from_utf8(known) {
                _ if edition > 2 => (34, [0; 6], None),
                _ if short > 0 => (1, [0; 6], None),
                Err(error) => (2, [2, error.valid_up_to() as u64, 0, 0, 0, 0], None),
                Ok(known) => loading(known, partial, room),
            };
            let halts = matches!(number, 1 | 2 | 34);
            if !halts {
                self.leave(loaded.as_ref(), blob, blocks * 256);
            }
            let words = &self.table[..blocks * 256];
            let (offsets, roots) = (65_537 - usize::from(short == 2), 65_536 - usize::from(short == 3));
            let left = sum(1, self.offsets[..offsets].iter().map(|&offset| u64::from(offset)));
            let left = sum(left, self.blob[..blob].iter().map(|&byte| u64::from(byte)));
            let left = sum(left, self.roots[..roots].iter().chain(words).copied());
            let pair = |n: usize| [(n / 256) as u8, n as u8];
            let mut case = vec![short, u8::from(partial) + 2 * (edition - 1)];
            case.extend([pair(nodes), pair(blob), [blocks as u8, marks as u8]].concat());
            case.extend_from_slice(text);
            self.case('L', &case, number, &report, &format!(" {left:016x}"));
            if !halts {
                self.original = loaded;
            }
        }

        /// What a load leaves in the parts that it was lent: the original's tables and zeros after, or zeros.
        fn leave(&mut self, loaded: Option<&Original>, blob: usize, words: usize) {
            self.offsets.fill(0);
            self.blob[..blob].fill(0);
            self.roots.fill(0);
            self.table[..words].fill(0);
            if let Some(original) = loaded {
                let (bytes, offsets, _, roots, table) = original.raw();
                self.offsets.copy_from_slice(offsets);
                self.blob[..bytes.len() - 8].copy_from_slice(&bytes[..bytes.len() - 8]);
                self.roots.copy_from_slice(roots);
                self.table[..table.len()].copy_from_slice(table);
            }
        }

        fn load(&mut self, text: &str, partial: bool) {
            self.load_in(text.as_bytes(), partial, ROOM, 0);
        }

        fn encode(&mut self, src: &[u8], cells: usize) {
            let (number, ids, offset, byte) = match &self.original {
                Some(original) => encoded(original, src, cells),
                // Emptied memory: nothing matches.
                None => src.first().map_or((0, vec![], 0, 0), |&byte| (22, vec![], 0, u64::from(byte))),
            };
            let looked = self.original.as_ref().map_or(0, |original| Looking::new(&tokens_of(original)).sum(src, &ids));
            let shown: String = ids.iter().map(|id| format!(" {id}")).collect();
            let case = [&[0, cells as u8], src].concat();
            self.case('E', &case, number, &[ids.len() as u64, offset, byte, looked], &shown);
        }

        fn decode(&mut self, ids: &[u32], cells: usize) {
            for (kind, how) in [('D', Decoding::Bytes), ('U', Decoding::Text), ('Y', Decoding::Lossy)] {
                let (number, bytes, index, id) = match &self.original {
                    Some(original) => decoded(original, how, ids, cells),
                    None => ids.first().map_or((0, vec![], 0, 0), |&id| (27, vec![], 0, u64::from(id))),
                };
                let mut case = vec![0, cells as u8];
                case.extend(ids.iter().flat_map(|id| id.to_be_bytes()[1..].to_vec()));
                let report = [bytes.len() as u64, index, id];
                self.case(kind, &case, number, &report, &format!(" [{}]", hex(&bytes)));
            }
        }

        /// Document 01's examples.
        fn examples(&mut self) {
            self.load("1 'a' 1\n2 'b' 1\n3 'ab' 2\n4 'abcd' 4\n5 'bc' 2\n", true);
            for src in ["abcd", "aab", "abbc", "abc", "", "c"] {
                self.encode(src.as_bytes(), 255);
            }
            for ids in [&[4, 1][..], &[3, 0], &[6], &[65_536], &[]] {
                self.decode(ids, 255);
            }
            let long = "k".repeat(256);
            let texts = [
                r"1 '\x80' 2",
                r"1 b'\x80' 1",
                r"1 '\01' 2",
                r"1 '\ud800' 3",
                r"1 b'\u0041' 1",
                r"1 'a\' 1",
                "1 ' ' 1",
                "1 'a'  1",
                "1 'a'",
                "+1 'a' 1",
                "65535 'a' 1",
                "65536 'a' 1",
                "4294967295 'a' 1",
                "4294967296 'a' 1",
                &format!("1 '{}' 255", &long[1..]),
                &format!("1 '{long}' 256"),
                &format!("1 '{long}' 255"),
            ];
            for text in texts {
                self.load(text, true);
                self.encode(b"a\x80 ", 255);
            }
        }

        /// Every combination of some fields and line ends, and both modes.
        fn lines(&mut self) {
            for id in ["0", "1", "007", "65536", "4294967296", "x", ""] {
                for literal in ["''", "'a'", "\"a b\"", "b'\\xff\\x00'", "'\\u20ac'", "'a", "b'é'"] {
                    for len in ["1", "02", "3", "", "18446744073709551616"] {
                        self.load(&format!("{id} {literal} {len}"), true);
                    }
                }
            }
            for end in [
                "",
                "\n",
                "\r\n",
                "\r\r\n",
                "\r\r\r\n",
                "\r",
                "\r\r",
                "\n\n",
                "\n\u{3000}\u{85}\n",
                "\n1",
                "\n 1",
                "\n1 'b' 1",
                "\n2 'b' 1",
                "\n3 'a' 1",
            ] {
                self.load(&format!("2 'a' 1{end}"), true);
                self.load(&format!("2 'a' 1{end}"), false);
            }
            self.load("", true);
            self.load("", false);
        }

        /// Generated vocabularies with a character replaced, put in or taken out.
        fn damaged(&mut self) {
            let mut random = Random::new(11);
            let parts = ["0", "9", " ", "'", "\"", "\\", "b", "x", "\n", "\r\n", "a", "é", "\u{a0}", "\\u", "65536"];
            for round in 0..700 {
                let text = vocabulary(&mut random, b"ab'\\ \n", 4, 4);
                let places: Vec<usize> = text.char_indices().map(|(at, _)| at).collect();
                let at = *random.pick(&places);
                let past = at + text[at..].chars().next().map_or(0, char::len_utf8);
                let (from, part) = match random.below(3) {
                    0 => (past, *random.pick(&parts)),
                    1 => (at, *random.pick(&parts)),
                    _ => (past, ""),
                };
                self.load(&format!("{}{part}{}", &text[..at], &text[from..]), round % 8 != 0);
            }
        }

        fn not_utf8(&mut self) {
            let mut random = Random::new(12);
            let bytes = [0x41, 0x80, 0x9f, 0xa0, 0xbf, 0xc1, 0xc2, 0xe0, 0xe1, 0xed, 0xef, 0xf0, 0xf4, 0xf5];
            for _ in 0..150 {
                let len = 1 + random.below(5);
                let text = [b"1 '".to_vec(), random.bytes(&bytes, len), b"' 1\n".to_vec()].concat();
                self.load_in(&text, true, ROOM, 0);
            }
        }

        /// Just room enough, and one less.
        fn room(&mut self) {
            let mut random = Random::new(13);
            for _ in 0..25 {
                let text = vocabulary(&mut random, b"abcd", 12, 5);
                let original = original_load(&text, true).expect("generated vocabularies load");
                let tokens = tokens_of(&original);
                let (nodes, blob) = counts(&tokens, tokens.len());
                let blocks = original.raw().4.len() / 256;
                for less in [[0, 0, 0, 0], [1, 0, 0, 0], [0, 1, 0, 0], [0, 0, 1, 0], [0, 0, 0, 1], [nodes, blob, 0, 0]] {
                    let room = [nodes - less[0], blob - less[1], blocks - less[2], blocks - less[3]];
                    self.load_in(text.as_bytes(), true, room, 0);
                }
            }
        }

        /// Every call with a part of the memory a cell short: number 1, and nothing changes.
        fn short(&mut self) {
            self.load("1 'a' 1\n2 'ab' 2\n", true);
            for short in 1..=3 {
                self.load_in(b"1 'a' 1\n", true, ROOM, short);
                self.load_in(b"\xff", true, ROOM, short);
                for kind in ['E', 'D', 'U', 'Y'] {
                    let (report, rest) = if kind == 'E' { (&[0; 4][..], "") } else { (&[0; 3][..], " []") };
                    self.case(kind, &[short, 9, 0, 0, 1], 1, report, rest);
                }
            }
            self.encode(b"aab", 9);
        }

        /// Inputs and id lists over generated vocabularies.
        fn vocabularies(&mut self) {
            let mut random = Random::new(14);
            let alphabets: [&[u8]; 4] = [b"ab", b"abcd", &[0, 255], &[0x41, 0xc3, 0xa9, 0xe2, 0x82, 0xac, 0xf0, 0x9f]];
            for round in 0..24 {
                let alphabet = alphabets[round % 4];
                let longest = *random.pick(&[3, 5, 20]);
                let full = round % 12 == 5;
                let text = if full {
                    full_vocabulary(&mut random, alphabet, 20, 3)
                } else {
                    vocabulary(&mut random, alphabet, 14, longest)
                };
                self.load(&text, !full);
                let tokens = self.original.as_ref().map(tokens_of).expect("generated vocabularies load");
                for _ in 0..45 {
                    let src = input(&mut random, &tokens, alphabet, 20);
                    let cells = if random.chance(3) { random.below(src.len() + 1) } else { 255 };
                    self.encode(&src, cells);
                }
                for _ in 0..16 {
                    let count = random.below(6);
                    let ids: Vec<u32> = (0..count).map(|_| id(&mut random, &tokens) % (1 << 24)).collect();
                    let cells = if random.chance(3) { random.below(12) } else { 255 };
                    self.decode(&ids, cells);
                }
            }
        }

        /// Document 02's edition 2, where edition 1 spells the same tokens, and 34 before all else.
        fn editions(&mut self) {
            let pairs = [
                (r"1 '\01' 1", r"1 '\x01' 1"),
                (r"1 '\0012' 2", r"1 '\x012' 2"),
                (r"1 '\08' 2", r"1 '\x008' 2"),
                (r"1 '\400' 2", r"1 '\u0100' 2"),
                (r"1 b'\377' 1", r"1 b'\xff' 1"),
                (r"1 '\a\b\f\v' 4", r"1 '\x07\x08\x0c\x0b' 4"),
                (r"1 '\U0001f600' 4", "1 '\u{1f600}' 4"),
                (r"1 '\x80\u20ac\n\t\r\\\'' 10", r"1 '\x80\u20ac\n\t\r\\\'' 10"),
                (r"1 b'\400' 1", r"1 '\' 1"),
                (r"1 '\8' 1", r"1 '\' 1"),
                (r"1 b'\U00000041' 1", r"1 '\' 1"),
                (r"1 '\U00110000' 1", r"1 '\' 1"),
                (r"1 '\N{DASH}' 1", r"1 '\' 1"),
                (r"1 '\01' 2", r"1 '\x01' 2"),
                ("", ""),
            ];
            for (text, known) in pairs {
                self.load_as(2, text.as_bytes(), known.as_bytes(), true, ROOM, 0);
                self.encode("\u{1}\u{7}\u{100}\u{1f600}".as_bytes(), 9);
                self.load_as(3, text.as_bytes(), known.as_bytes(), true, ROOM, 0);
            }
            self.load("1 'a' 1\n2 'ab' 2\n", true);
            for edition in [3, 4, 128] {
                for short in 0..=3 {
                    self.load_as(edition, b"\xff", b"\xff", false, ROOM, short);
                }
            }
            self.load_as(2, b"1 '\xff' 1", b"1 '\xff' 1", true, ROOM, 0);
            self.load_as(2, b"1 'a' 1", b"1 'a' 1", false, ROOM, 3);
            self.encode(b"aab", 9);
        }
    }

    /// A load of UTF-8 text with all parts long enough: number, report, and what was loaded.
    fn loading(text: &str, partial: bool, [nodes, blob, blocks, marks]: Room) -> (u32, [u64; 6], Option<Original>) {
        let original = match original_load(text, partial) {
            Ok(original) => original,
            Err((number, kind, place)) => return (number, [kind, place, 0, 0, 0, 0], None),
        };
        let tokens = tokens_of(&original);
        for line in 1..=tokens.len() {
            let (some_nodes, some_blob) = counts(&tokens, line);
            if nodes < some_nodes || blob < some_blob {
                return (if nodes < some_nodes { 17 } else { 18 }, [1, line as u64, 0, 0, 0, 0], None);
            }
        }
        let words = original.raw().4.len();
        if blocks.min(marks) * 256 < words {
            return (21, [0; 6], None);
        }
        let (all_nodes, all_blob) = counts(&tokens, tokens.len());
        let report = [0, 0, tokens.len() as u64, all_nodes as u64, all_blob as u64, words as u64];
        (0, report, Some(original))
    }
}
