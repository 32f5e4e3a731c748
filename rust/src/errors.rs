//! What can go wrong, in the original's types where it has them; each but `VocabError::Io` tells the number of document 01 or 02.
use std::fmt;
use std::path::PathBuf;

/// What a number means, in words. 0 is no refusal.
pub fn reason(number: u32) -> &'static str {
    match number {
        0 => "accepted",
        1 => "a part of the vocabulary memory is too short",
        2 => "the text is not UTF-8",
        3 => "the line is blank",
        4 => "the line has no space",
        5 => "the spaces do not part the line into id, literal and length",
        6 => "the id is not a number in digits, or it is above 4294967295",
        7 => "the id is above 65535",
        8 => "the id is 0, which is reserved",
        9 => "the id equals the one before it",
        10 => "the id is below the one before it",
        11 => "the length is not a number in digits, or it is too large",
        12 => "the literal is not one of this format",
        13 => "the token is empty",
        14 => "the token has another length than the line says",
        15 => "the token is longer than 255 bytes",
        16 => "another token has the same bytes",
        17 => "there is no room for the token's nodes",
        18 => "there is no room for the token's bytes",
        19 => "the vocabulary is empty",
        20 => "a byte has no token of its own",
        21 => "there is no room for the table",
        22 => "no token matches",
        23 => "the output for ids is full",
        24 => "the output is shorter than the bytes that may be handed out",
        25 => "a stream takes at most 4294967295 bytes",
        26 => "the stream has ended",
        27 => "no token has this id",
        28 => "the output for bytes is full",
        29 => "the bytes are not UTF-8",
        34 => "the vocabulary's edition is neither 1 nor 2",
        _ => "unknown number",
    }
}

/// Where a load met its refusal.
#[derive(Debug, Clone, Copy, PartialEq, Eq)]
pub enum Place {
    /// The text as a whole.
    None,
    /// A line, counted from 1.
    Line(u64),
    /// An offset in the text: that of the first bad byte, where the first ill-formed sequence starts. All before it is UTF-8.
    Offset(u64),
    /// A byte value.
    Byte(u8),
}

/// Why a vocabulary text was refused.
#[derive(Debug, Clone, Copy, PartialEq, Eq)]
pub struct Refusal {
    /// The number of document 01 or 02.
    pub number: u32,
    /// Where.
    pub place: Place,
}

impl fmt::Display for Refusal {
    fn fmt(&self, f: &mut fmt::Formatter<'_>) -> fmt::Result {
        match self.place {
            Place::None => {}
            Place::Line(line) => write!(f, "line {line}: ")?,
            Place::Offset(offset) => write!(f, "byte offset {offset}: ")?,
            Place::Byte(byte) => write!(f, "byte 0x{byte:02x}: ")?,
        }
        write!(f, "{} (number {})", reason(self.number), self.number)
    }
}
impl std::error::Error for Refusal {}

/// Why a vocabulary could not be loaded.
#[derive(Debug)]
#[non_exhaustive]
pub enum VocabError {
    /// The vocabulary file could not be read.
    Io {
        /// The file that failed to load.
        path: PathBuf,
        /// The underlying I/O error.
        source: std::io::Error,
    },
    /// The vocabulary text was refused.
    Invalid(Refusal),
}

impl fmt::Display for VocabError {
    fn fmt(&self, f: &mut fmt::Formatter<'_>) -> fmt::Result {
        match self {
            Self::Io { path, source } => write!(f, "{path:?}: {source}"),
            Self::Invalid(refusal) => refusal.fmt(f),
        }
    }
}
impl std::error::Error for VocabError {
    fn source(&self) -> Option<&(dyn std::error::Error + 'static)> {
        match self {
            Self::Io { source, .. } => Some(source),
            Self::Invalid(refusal) => Some(refusal),
        }
    }
}

/// A byte with no matching token (partial vocabularies only): number 22.
#[derive(Debug, Clone, PartialEq, Eq)]
#[non_exhaustive]
pub struct EncodeError {
    /// Offset of the unencodable byte in the input.
    pub byte_offset: usize,
    /// The unencodable byte.
    pub byte: u8,
}

impl EncodeError {
    /// Document 01's number.
    pub fn number(&self) -> u32 {
        22
    }
}

impl fmt::Display for EncodeError {
    fn fmt(&self, f: &mut fmt::Formatter<'_>) -> fmt::Result {
        write!(f, "no token for byte 0x{:02x} at byte offset {}", self.byte, self.byte_offset)
    }
}
impl std::error::Error for EncodeError {}

/// Why decoding failed.
#[derive(Debug, Clone, PartialEq, Eq)]
#[non_exhaustive]
pub enum DecodeError {
    /// The id is out of range or has no token (including reserved id 0): number 27.
    MissingToken {
        /// Position in the input slice.
        token_index: usize,
        /// The offending id.
        token_id: u32,
    },
    /// The decoded bytes are not valid UTF-8: number 29. `utf8_error().valid_up_to()` is its offset.
    InvalidUtf8(std::string::FromUtf8Error),
}

impl DecodeError {
    /// Document 01's number.
    pub fn number(&self) -> u32 {
        match self {
            Self::MissingToken { .. } => 27,
            Self::InvalidUtf8(_) => 29,
        }
    }
}

impl fmt::Display for DecodeError {
    fn fmt(&self, f: &mut fmt::Formatter<'_>) -> fmt::Result {
        match self {
            Self::MissingToken { token_index, token_id } => write!(f, "missing token ID {token_id} at token index {token_index}"),
            Self::InvalidUtf8(error) => write!(f, "decoded bytes are not UTF-8: {error}"),
        }
    }
}
impl std::error::Error for DecodeError {
    fn source(&self) -> Option<&(dyn std::error::Error + 'static)> {
        match self {
            Self::InvalidUtf8(error) => Some(error),
            Self::MissingToken { .. } => None,
        }
    }
}

/// Why a stream's call was refused.
#[derive(Debug, Clone, PartialEq, Eq)]
#[non_exhaustive]
pub enum StreamError {
    /// No token matches: at an add whatever bytes may follow, at an end with none to come. The stream has stopped, and every later
    /// call says so again: number 22.
    NoToken(EncodeError),
    /// More bytes than a stream can count; the call changed nothing: number 25.
    TooLong,
    /// The stream has ended: number 26.
    Ended,
}

impl StreamError {
    /// Document 01's number.
    pub fn number(&self) -> u32 {
        match self {
            Self::NoToken(error) => error.number(),
            Self::TooLong => 25,
            Self::Ended => 26,
        }
    }
}

impl fmt::Display for StreamError {
    fn fmt(&self, f: &mut fmt::Formatter<'_>) -> fmt::Result {
        match self {
            Self::NoToken(error) => error.fmt(f),
            Self::TooLong | Self::Ended => f.write_str(reason(self.number())),
        }
    }
}
impl std::error::Error for StreamError {
    fn source(&self) -> Option<&(dyn std::error::Error + 'static)> {
        match self {
            Self::NoToken(error) => Some(error),
            Self::TooLong | Self::Ended => None,
        }
    }
}
