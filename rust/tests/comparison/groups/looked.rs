//! The bytes looked at, which the original does not tell, by document 02's sentence over the set of all beginnings of tokens.
use std::collections::HashMap;

/// Each beginning of a token, and whether it is a proper one of some token; each token's length.
pub struct Looking {
    beginnings: HashMap<Vec<u8>, bool>,
    lens: HashMap<u32, usize>,
}

impl Looking {
    pub fn new(tokens: &[(u32, Vec<u8>)]) -> Self {
        let mut beginnings = HashMap::new();
        for (_, token) in tokens {
            for len in 0..=token.len() {
                *beginnings.entry(token[..len].to_vec()).or_default() |= len < token.len();
            }
        }
        Self { beginnings, lens: tokens.iter().map(|(id, token)| (*id, token.len())).collect() }
    }

    /// "The longest prefix of the rest that begins some token, and one more if a byte follows and that prefix is a proper prefix of a
    /// token; but never fewer than the smaller of two and the bytes left."
    fn looked(&self, rest: &[u8]) -> usize {
        let begins = |len: &usize| self.beginnings.contains_key(&rest[..*len]);
        let longest = (0..=rest.len()).take_while(begins).last().expect("the empty beginning");
        let more = longest < rest.len() && self.beginnings[&rest[..longest]];
        (longest + usize::from(more)).max(rest.len().min(2))
    }

    /// Added up for these ids, whose tokens the bytes begin with.
    pub fn sum(&self, mut rest: &[u8], ids: &[u32]) -> u64 {
        let mut sum = 0;
        for id in ids {
            sum += self.looked(rest) as u64;
            rest = &rest[self.lens[id]..];
        }
        sum
    }
}
