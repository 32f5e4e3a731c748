//! A stream: text that comes in pieces, encoded as it comes.
use crate::errors::{EncodeError, StreamError, reason};
use crate::{RwkvTokenizer, ffi};

/// Takes bytes piece by piece and hands out each id as soon as no later byte can change it. Made by [`RwkvTokenizer::stream`].
#[derive(Debug, Clone)]
pub struct Stream {
    tokenizer: RwkvTokenizer,
    record: ffi::Stream,
    looked: u64,
}

impl Stream {
    pub(crate) fn new(tokenizer: RwkvTokenizer) -> Self {
        Self { tokenizer, record: ffi::fresh(), looked: 0 }
    }

    /// Takes a piece; the ids that it decides go to the end of `ids`, those before a stop too.
    pub fn add(&mut self, piece: &[u8], ids: &mut Vec<u32>) -> Result<(), StreamError> {
        let room = self.held().len() + piece.len();
        self.call(room, ids, |memory, record, out| ffi::add(memory, record, piece, out))
    }

    /// No more bytes come: the remaining ids go to the end of `ids`.
    pub fn end(&mut self, ids: &mut Vec<u32>) -> Result<(), StreamError> {
        self.call(self.held().len(), ids, ffi::end)
    }

    /// How many bytes were taken.
    pub fn total(&self) -> u32 {
        self.record.total
    }

    /// The bytes taken whose ids are not decided yet: at most 254.
    pub fn held(&self) -> &[u8] {
        &self.record.held[..usize::from(self.record.held_len)]
    }

    /// How many bytes the matcher looked at for the ids that the last call handed out, those before a stop too: as in
    /// [`RwkvTokenizer::encode_looked`], but of the bytes then at hand, held and new. So the figures of the calls need not add up to
    /// that of the whole. It is 0 before the first call, and after one that is refused or says again that the stream has stopped.
    ///
    /// ```
    /// use bombrezen::RwkvTokenizer;
    ///
    /// let tokenizer = RwkvTokenizer::from_vocab_str_partial("1 'a' 1").unwrap();
    /// assert_eq!(tokenizer.encode_looked(b"aa").unwrap(), (vec![1, 1], 3));
    /// let (mut stream, mut ids) = (tokenizer.stream(), Vec::new());
    /// for piece in [b"a", b"a"] {
    ///     stream.add(piece, &mut ids).unwrap();
    ///     assert_eq!(stream.looked(), 1);
    /// }
    /// stream.end(&mut ids).unwrap();
    /// assert_eq!(stream.looked(), 0);
    /// ```
    pub fn looked(&self) -> u64 {
        self.looked
    }

    /// One call, lent `room` cells behind the ids that are there.
    fn call(
        &mut self,
        room: usize,
        ids: &mut Vec<u32>,
        call: impl FnOnce(ffi::Memory<'_>, &mut ffi::Stream, &mut [u32]) -> (u32, [u64; 4]),
    ) -> Result<(), StreamError> {
        let before = ids.len();
        ids.resize(before + room, 0);
        let (number, [count, offset, byte, looked]) = call(self.tokenizer.memory(), &mut self.record, &mut ids[before..]);
        ids.truncate(before + count as usize);
        self.looked = looked;
        match number {
            0 => Ok(()),
            22 => Err(StreamError::NoToken(EncodeError { byte_offset: offset as usize, byte: byte as u8 })),
            25 => Err(StreamError::TooLong),
            26 => Err(StreamError::Ended),
            number => unreachable!("memory and output of full length were refused: {}", reason(number)),
        }
    }
}
