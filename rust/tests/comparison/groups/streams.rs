//! Streams, cut everywhere, against the original's ids for the whole and a plain stream made from the tokens alone.
use super::generate::{input, tokens_of};
use super::inputs::generated;
use super::looked::Looking;
use super::original::RwkvTokenizer as Original;
use super::random::Random;
use super::sides::Lent;
use super::tally::Tally;
use super::theirs::original_load;
use bombrezen::ffi::{self, Memory};
use std::collections::HashMap;

/// Document 01's plain stream over tokens: a position is decided when the bytes from it are no proper prefix of a token.
struct Plain {
    ids: HashMap<Vec<u8>, u32>,
    prefixes: std::collections::HashSet<Vec<u8>>,
    looking: Looking,
}

impl Plain {
    fn new(tokens: &[(u32, Vec<u8>)]) -> Self {
        let ids = tokens.iter().map(|(id, token)| (token.clone(), *id)).collect();
        let prefixes = tokens.iter().flat_map(|(_, token)| (0..token.len()).map(|k| token[..k].to_vec())).collect();
        Self { ids, prefixes, looking: Looking::new(tokens) }
    }

    /// From a position: the ids decided, and the next position, or the one that fails.
    fn go(&self, taken: &[u8], mut at: usize, end: bool, ids: &mut Vec<u32>) -> Result<usize, usize> {
        while at < taken.len() && (end || !self.prefixes.contains(&taken[at..])) {
            let most = (taken.len() - at).min(255);
            let len = (1..=most).rev().find(|&len| self.ids.contains_key(&taken[at..at + len])).ok_or(at)?;
            ids.push(self.ids[&taken[at..at + len]]);
            at += len;
        }
        Ok(at)
    }
}

/// One stream over these pieces, call by call, and its end: number, ids, offset, byte, bytes looked at and record against the plain
/// stream.
fn same_stream(tally: &mut Tally, memory: Memory<'_>, plain: &Plain, pieces: &[&[u8]]) -> Vec<u32> {
    let mut record = ffi::fresh();
    let (mut taken, mut at, mut all, mut stopped) = (Vec::new(), 0, Vec::new(), None);
    for piece in pieces.iter().map(Some).chain([None]) {
        let room = usize::from(record.held_len) + piece.map_or(0, |piece| piece.len());
        let mut out = vec![7; room + 1];
        let (number, [count, offset, byte, looked]) = match piece {
            Some(piece) => ffi::add(memory, &mut record, piece, &mut out),
            None => ffi::end(memory, &mut record, &mut out),
        };
        let (mut ids, from) = (Vec::new(), at);
        if stopped.is_none() {
            taken.extend_from_slice(piece.map_or(&[][..], |piece| piece));
            match plain.go(&taken, at, piece.is_none(), &mut ids) {
                Ok(next) => at = next,
                Err(place) => stopped = Some((place, taken[place])),
            }
        }
        let held = if stopped.is_some() { &[][..] } else { &taken[at..] };
        let (place, value) = stopped.map_or((0, 0), |(place, byte)| (place as u64, u64::from(byte)));
        let phase = if stopped.is_some() { 1 } else { u8::from(piece.is_none()) * 2 };
        let same = number == if stopped.is_some() { 22 } else { 0 }
            && (count as usize, offset, byte) == (ids.len(), place, value)
            && looked == plain.looking.sum(&taken[from..], &ids)
            && out[..ids.len()] == ids[..]
            && out[ids.len()..].iter().all(|&cell| cell == 7)
            && (record.total, record.phase) == (taken.len() as u32, phase)
            && (u64::from(record.stop_offset), u64::from(record.stop_byte)) == (place, value)
            && record.held[..usize::from(record.held_len)] == *held
            && record.held[usize::from(record.held_len)..].iter().all(|&byte| byte == 0);
        tally.case(number, same, || format!("{pieces:x?}: {piece:x?} gave {number}, {count} ids, {record:?}"));
        all.extend(ids);
    }
    all
}

/// The stream's ids joined are the original's for the whole, or those before its failure.
fn same_whole(tally: &mut Tally, original: &Original, src: &[u8], ids: &[u32]) {
    let same = match original.encode_bytes(src) {
        Ok(whole) => whole == ids,
        Err(error) => original.decode_bytes(ids).is_ok_and(|bytes| bytes == src[..error.byte_offset]),
    };
    tally.case(0, same, || format!("streams of {src:x?} joined gave {ids:?}"));
}

/// Every cut into two pieces, into three for short inputs, and into single bytes.
fn every_cut(tally: &mut Tally, memory: Memory<'_>, original: &Original, plain: &Plain, src: &[u8]) {
    for cut in 0..=src.len() {
        let ids = same_stream(tally, memory, plain, &[&src[..cut], &src[cut..]]);
        same_whole(tally, original, src, &ids);
        if src.len() <= 12 {
            for second in cut..=src.len() {
                same_stream(tally, memory, plain, &[&src[..cut], &src[cut..second], &src[second..]]);
            }
        }
    }
    let bytes: Vec<&[u8]> = src.chunks(1).collect();
    let ids = same_stream(tally, memory, plain, &bytes);
    same_whole(tally, original, src, &ids);
}

/// Inputs over generated vocabularies at every cut, and long ones in pieces at random.
pub fn streams(tally: &mut Tally) {
    let mut random = Random::new(7);
    let mut lent = Lent::new(16_384, 16_384, 256);
    for _ in 0..120 {
        let (original, alphabet) = generated(&mut random, tally, &mut lent);
        let tokens = tokens_of(&original);
        let plain = Plain::new(&tokens);
        for _ in 0..12 {
            let src = input(&mut random, &tokens, alphabet, 24);
            every_cut(tally, lent.memory(), &original, &plain, &src);
        }
        for most in [300, 600, 1200] {
            let src = input(&mut random, &tokens, alphabet, most);
            let mut pieces = Vec::new();
            let mut rest = &src[..];
            while !rest.is_empty() {
                let below = *random.pick(&[2, 4, 300]);
                let len = random.below(below).min(rest.len());
                pieces.push(&rest[..len]);
                rest = &rest[len..];
            }
            let ids = same_stream(tally, lent.memory(), &plain, &pieces);
            same_whole(tally, &original, &src, &ids);
        }
    }
}

/// V with every input of up to seven letters, at every cut.
pub fn short_streams(tally: &mut Tally) {
    let text = "1 'a' 1\n2 'b' 1\n3 'ab' 2\n4 'abcd' 4\n5 'bc' 2\n";
    let original = original_load(text, true).expect("V loads");
    let mut lent = Lent::new(64, 64, 4);
    lent.load(text.as_bytes(), true);
    let plain = Plain::new(&tokens_of(&original));
    for len in 0..=6 {
        for mut number in 0..4usize.pow(len) {
            let src: Vec<u8> = (0..len).map(|_| (b'a' + (number % 4) as u8, number /= 4).0).collect();
            every_cut(tally, lent.memory(), &original, &plain, &src);
        }
    }
}
