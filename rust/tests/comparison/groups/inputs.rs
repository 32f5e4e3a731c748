//! Inputs and id lists over generated vocabularies, with outputs long enough and too short.
use super::generate::{full_vocabulary, id, input, tokens_of, vocabulary};
use super::looked::Looking;
use super::original::RwkvTokenizer as Original;
use super::random::Random;
use super::sides::{Lent, decode, encode};
use super::tally::Tally;
use super::theirs::{decoded, encoded, original_load};
use bombrezen::ffi::{Decoding, Memory};

const ALPHABETS: [&[u8]; 5] =
    [b"ab", b"abc", b"abcdefgh", &[0, 1, 255], &[0x41, 0xc3, 0xa9, 0xe2, 0x82, 0xac, 0xf0, 0x9f, 0x98, 0x80]];

/// A generated vocabulary, loaded on both sides with the same tables.
pub fn generated(random: &mut Random, tally: &mut Tally, lent: &mut Lent) -> (Original, &'static [u8]) {
    let alphabet = *random.pick(&ALPHABETS);
    let longest = *random.pick(&[2, 3, 5, 9, 40, 255]);
    let tokens = 1 + random.below(60);
    let full = random.chance(3);
    let text = if full {
        full_vocabulary(random, alphabet, tokens, longest.min(254))
    } else {
        vocabulary(random, alphabet, tokens, longest)
    };
    let original = original_load(&text, !full).unwrap_or_else(|refusal| panic!("{text:?} was refused with {refusal:?}"));
    let answer = lent.load(text.as_bytes(), !full);
    tally.case(answer.0, answer.0 == 0 && lent.equals(&original), || format!("load of {text:?} gave {answer:?}"));
    (original, alphabet)
}

/// Encoding, whole, and with some cells.
fn same_encoding(tally: &mut Tally, memory: Memory<'_>, original: &Original, looking: &Looking, src: &[u8], cells: usize) {
    for cells in [src.len(), cells] {
        let wanted = encoded(original, src, cells);
        let wanted = (wanted.clone(), looking.sum(src, &wanted.1));
        let answer = encode(memory, src, cells);
        tally.case(answer.0.0, answer == wanted, || format!("encoding {src:x?} gave {answer:?} and not {wanted:?}"));
    }
}

/// The three decodings, whole, and with some cells.
fn same_decoding(tally: &mut Tally, memory: Memory<'_>, original: &Original, ids: &[u32], cells: usize) {
    for how in [Decoding::Bytes, Decoding::Text, Decoding::Lossy] {
        for cells in [3 * 255 * ids.len(), cells] {
            let (answer, wanted) = (decode(memory, how, ids, cells), decoded(original, how, ids, cells));
            tally.case(answer.0, answer == wanted, || format!("{how:?} of {ids:?} gave {answer:?} and not {wanted:?}"));
        }
    }
}

/// Some hundreds of vocabularies, some hundreds of inputs and id lists over each.
pub fn inputs(tally: &mut Tally) {
    let mut random = Random::new(4);
    let mut lent = Lent::new(16_384, 16_384, 256);
    for _ in 0..400 {
        let (original, alphabet) = generated(&mut random, tally, &mut lent);
        let tokens = tokens_of(&original);
        let looking = Looking::new(&tokens);
        for _ in 0..250 {
            let src = input(&mut random, &tokens, alphabet, 40);
            let cells = random.below(src.len() + 1);
            same_encoding(tally, lent.memory(), &original, &looking, &src, cells);
        }
        for _ in 0..100 {
            let count = random.below(12);
            let ids: Vec<u32> = (0..count).map(|_| id(&mut random, &tokens)).collect();
            let cells = random.below(30);
            same_decoding(tally, lent.memory(), &original, &ids, cells);
        }
    }
}

/// Every input up to a length over a few letters.
pub fn short_inputs(tally: &mut Tally) {
    let mut lent = Lent::new(64, 64, 4);
    let text = "1 'a' 1\n2 'b' 1\n3 'ab' 2\n4 'abcd' 4\n5 'bc' 2\n";
    let original = original_load(text, true).expect("V loads");
    assert_eq!(lent.load(text.as_bytes(), true), (0, [0, 0, 5, 5, 10, 512]), "V");
    let looking = Looking::new(&tokens_of(&original));
    for len in 0..=7 {
        for mut number in 0..4usize.pow(len) {
            let src: Vec<u8> = (0..len).map(|_| (b'a' + (number % 4) as u8, number /= 4).0).collect();
            same_encoding(tally, lent.memory(), &original, &looking, &src, src.len() / 2);
        }
    }
}
