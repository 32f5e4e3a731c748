//! A tokenizer for RWKV models over a library whose every function is proved to meet its contract.
//!
//! The names are those of the crate that it was ported from, so that whoever uses that one changes a line of Cargo.toml;
//! docs/DIFFERENCES.md lists what is missing. This layer owns the memory that the library is lent, and turns its numbers into
//! errors. It adds streams, which encode text as it comes.
//!
//! ```
//! use bombrezen::RwkvTokenizer;
//!
//! let tokenizer = RwkvTokenizer::from_vocab_str_partial("1 'a' 1\n2 'b' 1\n3 'ab' 2\n").unwrap();
//! assert_eq!(tokenizer.encode("aab").unwrap(), [1, 3]);
//! assert_eq!(tokenizer.decode_utf8(&[1, 3]).unwrap(), "aab");
//!
//! let mut stream = tokenizer.stream();
//! let mut ids = Vec::new();
//! stream.add(b"aa", &mut ids).unwrap();
//! assert_eq!(ids, [1]); // the second a may still become ab
//! stream.add(b"b", &mut ids).unwrap();
//! stream.end(&mut ids).unwrap();
//! assert_eq!(ids, [1, 3]);
//! ```

mod errors;
#[rustfmt::skip]
pub mod ffi;
mod load;
mod stream;

pub use errors::{DecodeError, EncodeError, Place, Refusal, StreamError, VocabError, reason};
use std::path::Path;
use std::sync::Arc;
pub use stream::Stream;

/// Number of token ids (0..65536); id 0 is reserved.
pub const VOCAB_SIZE: usize = 65_536;
/// Token id 0 has no text; treat it as end-of-text.
pub const RESERVED_TOKEN_ID: u32 = 0;
/// A small full vocabulary: the 256 bytes, and words and phrases of radiotelephony.
pub const PHRASEOLOGY: &str = include_str!("../../data/phraseology.txt");

/// The counts of an accepted load.
#[derive(Debug, Clone, Copy, PartialEq, Eq)]
pub struct Counts {
    /// Tokens, one a line.
    pub tokens: u64,
    /// Trie nodes: distinct prefixes of two or more bytes, and one.
    pub nodes: u64,
    /// Bytes of all tokens.
    pub blob_bytes: u64,
    /// Words of the packed trie.
    pub table_words: u64,
}

/// Greedy longest-match RWKV World tokenizer. Cloning shares the vocabulary.
#[derive(Debug, Clone)]
pub struct RwkvTokenizer {
    tables: Arc<load::Tables>,
    partial: bool,
}

impl RwkvTokenizer {
    /// Loads a vocabulary file; same rules as [`Self::from_vocab_str`].
    pub fn from_file(path: &Path) -> Result<Self, VocabError> {
        let text = std::fs::read(path).map_err(|source| VocabError::Io { path: path.to_path_buf(), source })?;
        Self::from_vocab_bytes(&text, false)
    }

    /// Loads a normal vocabulary: every byte must have a token of its own.
    pub fn from_vocab_str(text: &str) -> Result<Self, VocabError> {
        Self::from_vocab_bytes(text.as_bytes(), false)
    }

    /// Explicit partial-vocabulary mode: bytes without a token of their own are allowed, and encoding reports the first it meets.
    pub fn from_vocab_str_partial(text: &str) -> Result<Self, VocabError> {
        Self::from_vocab_bytes(text.as_bytes(), true)
    }

    /// Loads a text that need not be UTF-8; if it isn't, it is refused with number 2 at its first bad byte.
    pub fn from_vocab_bytes(text: &[u8], partial: bool) -> Result<Self, VocabError> {
        Self::from_vocab_edition(text, 1, partial)
    }

    /// Loads a text of an edition, 1 or 2; any other is refused with number 34. The other calls that load take a text for edition 1.
    ///
    /// Edition 2 has more of Python's escapes: `\a`, `\b`, `\f`, `\v`, one to three octal digits, and `\U` with eight hexadecimal
    /// digits. Of what edition 1 takes it reads one thing otherwise: `\01` is the byte 1, where edition 1 has a zero and the digit 1.
    ///
    /// ```
    /// use bombrezen::RwkvTokenizer;
    ///
    /// let tokenizer = RwkvTokenizer::from_vocab_edition(br"1 '\01\U0001f6eb' 5", 2, true).unwrap();
    /// assert_eq!(tokenizer.decode_utf8(&[1]).unwrap(), "\u{1}\u{1f6eb}");
    /// ```
    pub fn from_vocab_edition(text: &[u8], edition: u32, partial: bool) -> Result<Self, VocabError> {
        let tables = Arc::new(load::load(text, edition, partial).map_err(VocabError::Invalid)?);
        Ok(Self { tables, partial })
    }

    /// Always [`VOCAB_SIZE`].
    pub fn vocab_size(&self) -> usize {
        VOCAB_SIZE
    }

    /// True if loaded as partial.
    pub fn is_partial(&self) -> bool {
        self.partial
    }

    /// The counts of the load.
    pub fn counts(&self) -> Counts {
        self.tables.counts
    }

    /// The vocabulary memory, as the library's calls take it.
    pub fn memory(&self) -> ffi::Memory<'_> {
        let t = &*self.tables;
        ffi::Memory { single: &t.single, offsets: &t.offsets, blob: &t.blob, roots: &t.roots, table: &t.table }
    }

    /// Encodes text.
    pub fn encode(&self, src: &str) -> Result<Vec<u32>, EncodeError> {
        self.encode_bytes(src.as_bytes())
    }

    /// Encodes any bytes; fails only on a partial vocabulary.
    pub fn encode_bytes(&self, src: &[u8]) -> Result<Vec<u32>, EncodeError> {
        self.encode_looked(src).map(|(ids, _)| ids)
    }

    /// Encodes any bytes, and says how many bytes the matcher looked at for all the ids together.
    ///
    /// For one id that is the longest beginning of the bytes left that begins some token, and one byte more if one follows and a
    /// longer token begins so too; but never fewer than the smaller of two and the bytes left, and never more than 255.
    ///
    /// ```
    /// use bombrezen::RwkvTokenizer;
    ///
    /// let tokenizer = RwkvTokenizer::from_vocab_str_partial("1 'a' 1\n2 'b' 1\n3 'ab' 2\n4 'abcd' 4\n5 'bc' 2\n").unwrap();
    /// // Two bytes for a, since b may follow, and the two of ab, after which the input ends.
    /// assert_eq!(tokenizer.encode_looked(b"aab").unwrap(), (vec![1, 3], 2 + 2));
    /// // Three for ab, since abcd may come, and the two of bc.
    /// assert_eq!(tokenizer.encode_looked(b"abbc").unwrap(), (vec![3, 5], 3 + 2));
    /// ```
    pub fn encode_looked(&self, src: &[u8]) -> Result<(Vec<u32>, u64), EncodeError> {
        let mut out = vec![0; src.len()];
        let (number, [count, offset, byte, looked]) = ffi::encode(self.memory(), src, &mut out);
        match number {
            0 => {
                out.truncate(count as usize);
                Ok((out, looked))
            }
            22 => Err(EncodeError { byte_offset: offset as usize, byte: byte as u8 }),
            number => unreachable!("memory and output of full length were refused: {}", reason(number)),
        }
    }

    /// A stream over this vocabulary, with nothing taken yet.
    pub fn stream(&self) -> Stream {
        Stream::new(self.clone())
    }

    /// Joins the tokens' bytes; fails on an id without a token.
    pub fn decode_bytes(&self, tokens: &[u32]) -> Result<Vec<u8>, DecodeError> {
        self.decode(ffi::Decoding::Bytes, tokens, 6 * tokens.len())
    }

    /// Decodes to text; fails on an id without a token and on bytes that are not UTF-8.
    pub fn decode_utf8(&self, tokens: &[u32]) -> Result<String, DecodeError> {
        self.decode(ffi::Decoding::Text, tokens, 6 * tokens.len()).map(text_of)
    }

    /// Decodes to text with U+FFFD for each ill-formed part; fails only on an id without a token. What is UTF-8 is its own lossy
    /// text, and found faster as such; otherwise a byte becomes three at most.
    pub fn decode_lossy(&self, tokens: &[u32]) -> Result<String, DecodeError> {
        match self.decode_utf8(tokens) {
            Err(DecodeError::InvalidUtf8(e)) => self.decode(ffi::Decoding::Lossy, tokens, 3 * e.as_bytes().len()).map(text_of),
            text => text,
        }
    }

    /// Decodes with room for so many bytes, and with more where the library says that this is too little: bytes then go on
    /// where they stopped, and text, which is looked at as a whole, starts anew.
    fn decode(&self, how: ffi::Decoding, tokens: &[u32], room: usize) -> Result<Vec<u8>, DecodeError> {
        let mut out = vec![0; room];
        let (mut done, mut len) = (0, 0);
        loop {
            let (number, [more, index, id]) = ffi::decode(self.memory(), how, &tokens[done..], &mut out[len..]);
            match number {
                27 => return Err(DecodeError::MissingToken { token_index: done + index as usize, token_id: id as u32 }),
                28 if how == ffi::Decoding::Bytes => (done, len) = (done + index as usize, len + more as usize),
                28 => {}
                number => {
                    out.truncate(len + more as usize);
                    return decoded(number, out);
                }
            }
            out.resize(2 * out.len() + 255, 0);
        }
    }
}

/// What a decoding gives that was not refused for its ids or its room.
fn decoded(number: u32, out: Vec<u8>) -> Result<Vec<u8>, DecodeError> {
    match number {
        0 => Ok(out),
        29 => {
            Err(DecodeError::InvalidUtf8(String::from_utf8(out).expect_err("the library's contract says that it is not UTF-8")))
        }
        number => unreachable!("memory of full length was refused: {}", reason(number)),
    }
}

/// The same bytes as text. They are looked through once more, since a `String` made without that asks for unsafe code.
fn text_of(bytes: Vec<u8>) -> String {
    String::from_utf8(bytes).expect("the library's contract says that these bytes are UTF-8")
}
