//! Other memory: any contents that no load left. The original's answers count where it does not panic and no match and no pair is longer
//! than 255 bytes; those of encoding are also held to document 01's walk.
use super::original::RwkvTokenizer as Original;
use super::random::Random;
use super::sides::{decode, encode};
use super::tally::Tally;
use super::theirs::{decoded, encoded};
use super::walk;
use bombrezen::ffi::{Decoding, Memory};
use std::panic::{AssertUnwindSafe, catch_unwind};

/// Words that walk about in a table of a few blocks, some out of it.
fn word(random: &mut Random, blocks: usize) -> u64 {
    if random.chance(3) {
        return 0;
    }
    let base = if random.chance(40) { random.next() >> 40 } else { random.below(blocks * 256) as u64 };
    let base = if random.chance(3) { 0 } else { base };
    let id = if random.chance(3) { 0 } else { random.below(8) as u64 };
    let odd = if random.chance(10) { random.below(256) as u64 } else { 0 };
    base << 32 | odd << 24 | id << 8
}

/// A table in which many slots have the byte that leads to them from some base.
fn table(random: &mut Random, blocks: usize) -> Vec<u64> {
    (0..blocks * 256)
        .map(|_| {
            let label = if random.chance(8) { random.next() as u8 } else { *random.pick(&[0, 1, 2, 3]) };
            let word = word(random, blocks);
            if word == 0 && random.chance(2) { 0 } else { word | u64::from(label) }
        })
        .collect()
}

/// Encoding over any words, against the original and against walks that count the bytes they read.
pub fn encoding(tally: &mut Tally) {
    let mut random = Random::new(5);
    for _ in 0..400 {
        let blocks = 1 + random.below(3);
        let table = table(&mut random, blocks);
        let mut roots = vec![0; 65_536];
        for first in 0..4 {
            for second in 0..4 {
                roots[first * 256 + second] = word(&mut random, blocks) | random.below(2) as u64;
            }
        }
        let mut single = [-1; 256];
        for (byte, id) in single.iter_mut().enumerate().take(4) {
            *id = *random.pick(&[-1, 0, 1, 70_000, i32::MAX, i32::MIN, byte as i32]);
        }
        let offsets = vec![0; 65_537];
        let original = Original::from_raw(vec![0; 8], offsets.clone(), single, roots.clone(), table.clone());
        let memory = Memory { single: &single, offsets: &offsets, blob: &[], roots: &roots, table: &table };
        for _ in 0..200 {
            let len = random.below(30);
            let src = random.bytes(&[0, 1, 2, 3], len);
            let wanted = walk::encoded(memory, &src, src.len());
            let answer = encode(memory, &src, src.len());
            let theirs = catch_unwind(AssertUnwindSafe(|| encoded(&original, &src, src.len())));
            let same = answer == wanted && theirs.as_ref().map_or(true, |theirs| *theirs == wanted.0);
            tally.case(answer.0.0, same, || format!("encoding {src:?} gave {answer:?} and not {theirs:?}, {wanted:?}"));
        }
    }
}

/// Long inputs over words that mostly lead on, past 255 bytes and out of the table, against the same walks.
pub fn long_walks(tally: &mut Tally) {
    let mut random = Random::new(15);
    let offsets = vec![0; 65_537];
    for round in 0..300 {
        let blocks = 1 + random.below(3);
        // Bases are multiples of 4 and bytes are below 4, so that a slot's last two bits are the byte that leads to it.
        let mut any_word = |odds: usize, label: u64| {
            let base = 4 * random.below(blocks * 64) as u64;
            let base = if random.chance(4 * odds) { base + 256 * blocks as u64 } else { base };
            let base = if random.chance(odds) { 0 } else { base };
            let id = if random.chance(1 + round % 4) { random.below(9) as u64 } else { 0 };
            if random.chance(odds) { random.below(2) as u64 } else { base << 32 | id << 8 | label }
        };
        let odds = [9, 60, 2000][round % 3];
        let table: Vec<u64> = (0..blocks as u64 * 256).map(|slot| any_word(odds, slot % 4)).collect();
        let mut roots = vec![0; 65_536];
        for (first, second) in (0..16).map(|pair| (pair / 4, pair % 4)) {
            roots[first * 256 + second] = any_word(6, 0);
        }
        let single: Vec<i32> = (0..256).map(|byte| if byte == round % 8 { -1 } else { byte as i32 }).collect();
        let memory = Memory { single: &single, offsets: &offsets, blob: &[], roots: &roots, table: &table };
        for _ in 0..30 {
            let len = random.below(700);
            let src = random.bytes(&[0, 1, 2, 3], len);
            for cells in [len, random.below(len / 32 + 2)] {
                let (wanted, answer) = (walk::encoded(memory, &src, cells), encode(memory, &src, cells));
                tally.case(answer.0.0, answer == wanted, || format!("encoding {src:?} gave {answer:?} and not {wanted:?}"));
            }
        }
    }
}

/// Decoding over any offsets.
pub fn decoding(tally: &mut Tally) {
    let mut random = Random::new(6);
    for _ in 0..300 {
        let size = *random.pick(&[8, 60, 300, 700]);
        let blob = random.bytes(&[b'a', 0xc3, 0xa9, 0x80, 0xff], size);
        let mut offsets = vec![0; 65_537];
        for offset in &mut offsets[..64] {
            *offset = random.below(size + 2) as u32;
        }
        if random.chance(2) {
            offsets[..64].sort_unstable();
        }
        let original = Original::from_raw(blob.clone(), offsets.clone(), [-1; 256], vec![0; 65_536], vec![0; 256]);
        let memory = Memory { single: &[-1; 256], offsets: &offsets, blob: &blob, roots: &[0; 65_536], table: &[0; 256] };
        for _ in 0..60 {
            let ids: Vec<u32> = (0..random.below(4)).map(|_| random.below(66) as u32).collect();
            if ids.iter().any(|&id| offsets[id as usize + 1].abs_diff(offsets[id as usize]) > 255) {
                continue;
            }
            for how in [Decoding::Bytes, Decoding::Text, Decoding::Lossy] {
                let Ok(wanted) = catch_unwind(AssertUnwindSafe(|| decoded(&original, how, &ids, 4096))) else { continue };
                let answer = decode(memory, how, &ids, 4096);
                tally.case(answer.0, answer == wanted, || format!("{how:?} of {ids:?} gave {answer:?} and not {wanted:?}"));
            }
        }
    }
}
