//! Generated vocabularies, inputs and id lists.
use super::original::RwkvTokenizer as Original;
use super::random::Random;

/// A vocabulary text: distinct tokens over an alphabet, ids rising by one or more.
pub fn vocabulary(random: &mut Random, alphabet: &[u8], tokens: usize, longest: usize) -> String {
    let mut seen = std::collections::HashSet::new();
    let mut text = String::new();
    let mut id = 0;
    for _ in 0..tokens {
        let len = 1 + random.below(longest);
        let token = random.bytes(alphabet, len);
        if seen.insert(token.clone()) {
            id += 1 + if random.chance(5) { random.below(9) } else { 0 };
            text += &format!("{id} {} {len}\n", literal_of(random, &token));
        }
    }
    text
}

/// All 256 bytes, then tokens of two bytes and more.
pub fn full_vocabulary(random: &mut Random, alphabet: &[u8], tokens: usize, longest: usize) -> String {
    let mut text: String = (0..=255u8).map(|byte| format!("{} b'\\x{byte:02x}' 1\n", u32::from(byte) + 1)).collect();
    let mut seen = std::collections::HashSet::new();
    let mut id = 256;
    for _ in 0..tokens {
        let len = 2 + random.below(longest);
        let token = random.bytes(alphabet, len);
        if seen.insert(token.clone()) {
            id += 1;
            text += &format!("{id} {} {len}\n", literal_of(random, &token));
        }
    }
    text
}

/// One of the ways to write a token.
fn literal_of(random: &mut Random, token: &[u8]) -> String {
    let quote = *random.pick(&['\'', '"']);
    match std::str::from_utf8(token) {
        Ok(text) if random.chance(2) => {
            let inner: String = text
                .chars()
                .map(|c| match c {
                    '\\' => "\\\\".to_string(),
                    '\n' => "\\n".to_string(),
                    '\r' => "\\r".to_string(),
                    '\0' => "\\0".to_string(),
                    c if c == quote => format!("\\{c}"),
                    c if u32::from(c) < 0x20 => format!("\\x{:02x}", u32::from(c)),
                    c if u32::from(c) < 0x1_0000 && u32::from(c) >= 0x80 => format!("\\u{:04x}", u32::from(c)),
                    c => c.to_string(),
                })
                .collect();
            format!("{quote}{inner}{quote}")
        }
        _ => {
            let inner: String = token.iter().map(|byte| format!("\\x{byte:02x}")).collect();
            format!("b{quote}{inner}{quote}")
        }
    }
}

/// An input of tokens and of bytes at random.
pub fn input(random: &mut Random, tokens: &[(u32, Vec<u8>)], alphabet: &[u8], most: usize) -> Vec<u8> {
    let mut input = Vec::new();
    let len = random.below(most + 1);
    while input.len() < len {
        match random.below(4) {
            0 => input.push(*random.pick(alphabet)),
            1 if random.chance(20) => input.push(random.next() as u8),
            _ => {
                let token = &random.pick(tokens).1;
                let cut = if random.chance(3) { random.below(token.len() + 1) } else { token.len() };
                input.extend_from_slice(&token[..cut]);
            }
        }
    }
    input.truncate(len);
    input
}

/// Mostly ids of the vocabulary; else absent, 0, or above all.
pub fn id(random: &mut Random, tokens: &[(u32, Vec<u8>)]) -> u32 {
    match random.below(40) {
        0 => 0,
        1 => random.below(70_000) as u32,
        2 => *random.pick(&[65_535, 65_536, 65_537, 1 << 31, u32::MAX]),
        _ => random.pick(tokens).0,
    }
}

/// The tokens of a loaded vocabulary, in the order of ids.
pub fn tokens_of(original: &Original) -> Vec<(u32, Vec<u8>)> {
    let (blob, offsets, ..) = original.raw();
    let pairs = offsets.windows(2).enumerate().filter(|(_, pair)| pair[0] < pair[1]);
    pairs.map(|(id, pair)| (id as u32, blob[pair[0] as usize..pair[1] as usize].to_vec())).collect()
}

/// Nodes (one, and the distinct prefixes of two or more bytes) and blob bytes of the first n tokens.
pub fn counts(tokens: &[(u32, Vec<u8>)], n: usize) -> (usize, usize) {
    let taken = || tokens[..n].iter().map(|(_, token)| token);
    let prefixes: std::collections::HashSet<&[u8]> = taken().flat_map(|token| (2..=token.len()).map(|k| &token[..k])).collect();
    (1 + prefixes.len(), taken().map(Vec::len).sum())
}
