//! Texts, good and damaged at every rule, and exhaustive short literals and lines.
use super::generate::{full_vocabulary, vocabulary};
use super::original::RwkvTokenizer as Original;
use super::random::Random;
use super::sides::Lent;
use super::tally::Tally;
use super::theirs::original_load;

/// A place to load small texts.
pub fn small() -> Lent {
    Lent::new(2048, 2048, 8)
}

/// One text on both sides, in both modes: the same number and place, or the same tables.
fn same_load(lent: &mut Lent, tally: &mut Tally, text: &str) {
    for partial in [true, false] {
        let (number, report) = lent.load(text.as_bytes(), partial);
        let same = match original_load(text, partial) {
            Err((refusal, kind, place)) => (number, report) == (refusal, [kind, place, 0, 0, 0, 0]),
            Ok(original) => number == 0 && lent.equals(&original),
        };
        tally.case(number, same, || format!("load, partial {partial}: {text:?} gave {number} {report:?}"));
        if number != 0 {
            break; // the full mode has one more refusal, after the others
        }
    }
}

/// Every string over an alphabet up to a length, in turn.
pub fn strings(alphabet: &[&str], most: usize, visit: &mut impl FnMut(&str)) {
    fn go(alphabet: &[&str], left: usize, made: &mut String, visit: &mut impl FnMut(&str)) {
        visit(made);
        if left > 0 {
            for part in alphabet {
                let len = made.len();
                made.push_str(part);
                go(alphabet, left - 1, made, visit);
                made.truncate(len);
            }
        }
    }
    go(alphabet, most, &mut String::new(), visit);
}

/// A line with this literal and the length that the original gives it (1 if it takes it for bad).
fn line_of(literal: &str) -> String {
    let len = Original::literal_exposed(literal).map_or(1, |bytes| bytes.len());
    format!("1 {literal} {len}")
}

/// Short literals, all of them, and every pair of characters after an escape that takes digits.
pub fn literals(tally: &mut Tally) {
    let mut lent = small();
    let mut one = |literal: &str| same_load(&mut lent, tally, &line_of(literal));
    strings(&["'", "\"", "\\", "b", "x", "u", "0", "a", "é"], 4, &mut one);
    strings(&["\\", "'", "\"", "n", "0", "x", "u", "4", "g", " ", "é"], 4, &mut |inner| one(&format!("'{inner}'")));
    strings(&["\\", "'", "\"", "t", "0", "x", "u", "F", "é"], 4, &mut |inner| one(&format!("b\"{inner}\"")));
    for first in 0..=0x7fu8 {
        for second in ['0', '9', 'a', 'f', 'A', 'F', 'g', '/', ':', '@', '`', '\\', '\'', 'é'] {
            let first = char::from(first);
            for literal in [format!("'\\x{first}{second}'"), format!("b'\\x{second}{first}'"), format!("'\\{first}{second}0'")] {
                one(&literal);
            }
        }
    }
    for code in (0..=0xffffu32).step_by(7).chain([0x7f, 0x80, 0x7ff, 0x800, 0xd7ff, 0xd800, 0xdfff, 0xe000, 0xffff]) {
        one(&format!("'\\u{code:04x}'"));
        one(&format!("'a\\u{code:04X}b'"));
    }
}

/// Short lines, all of them; lines of every combination of fields; characters that may be White_Space.
pub fn lines(tally: &mut Tally) {
    let mut lent = small();
    let mut one = |text: &str| same_load(&mut lent, tally, text);
    strings(&["1", " ", "'", "\r", "\n", "\u{85}", "\t"], 6, &mut one);
    let ids =
        ["", "0", "00", "1", "001", "65535", "65536", "4294967295", "4294967296", "99999999999999999999", "+1", "-1", "1a", "١"];
    let literals = ["''", "'a'", "\"a b\"", "' '", "b'\\xff'", "'\\xff'", "'a", "x", "' ' ", " 'a'", "'\r'", "'a' 'b'"];
    let lens = ["", "0", "1", "01", "2", "1 ", "+1", "1\u{85}", "18446744073709551615", "18446744073709551616", "1\t"];
    let ends = ["", "\n", "\r\n", "\r\r\n", "\r\r\r\n", "\r", "\r\r", "\n\n", "\n2 'b' 1"];
    for id in ids {
        for literal in literals {
            for len in lens {
                for end in ends {
                    one(&format!("{id} {literal} {len}{end}"));
                }
            }
        }
    }
    for code in (0..=0x3100u32).filter_map(char::from_u32).chain(['\u{feff}', '\u{10000}', '\u{10ffff}']) {
        one(&format!("{code}"));
        one(&format!("1 'a' 1\n {code}\r\n"));
    }
}

/// Two lines of every combination of a few: ids equal, falling, tokens seen before.
pub fn pairs_of_lines(tally: &mut Tally) {
    let mut lent = small();
    let mut lines = Vec::new();
    for id in ["1", "2", "3"] {
        for token in ["'a' 1", "'b' 1", "'ab' 2", "'abc' 3", "b'ab' 2", "'\\x61' 1", "'ab' 3", "'' 0"] {
            lines.push(format!("{id} {token}"));
        }
    }
    for first in &lines {
        for second in &lines {
            same_load(&mut lent, tally, &format!("{first}\n{second}\n"));
            same_load(&mut lent, tally, &format!("{first}\n{second}\n3 'c' 1"));
        }
    }
}

/// Generated vocabularies, whole, and each with single characters damaged.
pub fn damaged(tally: &mut Tally) {
    let mut random = Random::new(1);
    let mut lent = small();
    let parts = [
        "0", "1", "9", " ", "  ", "'", "\"", "\\", "b", "x", "u", "\n", "\r", "\r\n", "a", "é", "\u{a0}", "\t", "-", "\\x",
        "65536",
    ];
    for round in 0..600 {
        let full = round % 10 == 0;
        let text = if full { full_vocabulary(&mut random, b"abc", 8, 3) } else { vocabulary(&mut random, b"ab'\\ \n", 8, 4) };
        same_load(&mut lent, tally, &text);
        let places: Vec<usize> = text.char_indices().map(|(at, _)| at).collect();
        for _ in 0..60 {
            let at = *random.pick(&places);
            let past = at + text[at..].chars().next().map_or(0, char::len_utf8);
            let part = *random.pick(&parts);
            let damaged = match random.below(3) {
                0 => format!("{}{part}{}", &text[..at], &text[past..]),
                1 => format!("{}{part}{}", &text[..at], &text[at..]),
                _ => format!("{}{}", &text[..at], &text[past..]),
            };
            same_load(&mut lent, tally, &damaged);
        }
    }
}

/// Texts that are not UTF-8, in one place or in two: number 2 at the place where Rust's standard library finds the first fault.
pub fn not_utf8(tally: &mut Tally) {
    let mut random = Random::new(2);
    let mut lent = small();
    let bytes = [
        0x00, 0x41, 0x7f, 0x80, 0x8f, 0x90, 0x9f, 0xa0, 0xbf, 0xc0, 0xc1, 0xc2, 0xdf, 0xe0, 0xe1, 0xed, 0xee, 0xef, 0xf0, 0xf1,
        0xf4, 0xf5, 0xff,
    ];
    for _ in 0..40_000 {
        let (len, more) = (random.below(7), random.below(4));
        let mut text = b"1 'a' 1\n2 '".to_vec();
        text.extend(random.bytes(&bytes, len));
        text.extend_from_slice(b"' 1\n3 '");
        text.extend(random.bytes(&bytes, more));
        text.extend_from_slice(b"' 1\n");
        let (number, report) = lent.load(&text, true);
        let (same, offset) = match std::str::from_utf8(&text) {
            Ok(_) => (number != 2, 0),
            Err(error) => (number == 2 && report == [2, error.valid_up_to() as u64, 0, 0, 0, 0], error.valid_up_to()),
        };
        tally.case(number, same, || format!("{text:x?} gave {number} {report:?}, first fault at {offset}"));
    }
}

/// Long tokens and long numbers: 255 bytes and more, leading zeros.
pub fn long(tally: &mut Tally) {
    let mut lent = Lent::new(2048, 2048, 8);
    for len in [1, 2, 3, 253, 254, 255, 256, 257, 300, 1000] {
        for declared in [len - 1, len, len + 1, 255] {
            for zeros in [0, 1, 40] {
                same_load(&mut lent, tally, &format!("{:0>zeros$} '{}' {:0>zeros$}\n", 7, "k".repeat(len), declared));
                same_load(&mut lent, tally, &format!("{:0>zeros$} b'{}' {:0>zeros$}", 7, "\\xff".repeat(len), declared));
            }
        }
    }
}
