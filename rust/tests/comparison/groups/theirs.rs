//! The original's answers, in document 01's numbers. Where it has no refusal, for want of room, document 01's table gives it.
use super::original::{DecodeError, RwkvTokenizer as Original};
use bombrezen::ffi::Decoding;

/// The original's answer to a text, in document 01's number and place.
pub fn original_load(text: &str, partial: bool) -> Result<Original, (u32, u64, u64)> {
    let loaded = if partial { Original::from_vocab_str_partial(text) } else { Original::from_vocab_str(text) };
    loaded.map_err(|error| number_of(&error.to_string()))
}

/// Number, place kind and place from the original's message.
fn number_of(message: &str) -> (u32, u64, u64) {
    if message == "vocabulary is empty" {
        return (19, 0, 0);
    }
    if let Some(byte) = message.strip_prefix("missing singleton byte 0x") {
        return (20, 3, u64::from_str_radix(byte, 16).expect("a byte in the message"));
    }
    let starts = |start: &str| message.starts_with(start);
    let number = match () {
        () if starts("malformed") && message.ends_with(": blank line") => 3,
        () if starts("malformed") && message.ends_with(": missing separator") => 4,
        () if starts("malformed") => 5,
        () if starts("bad token ID") => 6,
        () if starts("token ID 0 is reserved") => 8,
        () if starts("duplicate token ID") => 9,
        () if starts("token IDs out of ascending order") => 10,
        () if starts("bad token length") => 11,
        () if starts("bad literal") => 12,
        () if starts("empty token") => 13,
        () if starts("length mismatch") => 14,
        () if starts("duplicate token bytes") => 16,
        () if message.ends_with("exceeds u8 storage") => 15,
        () if message.ends_with("exceeds 65536") => 7,
        () => panic!("no number for {message:?}"),
    };
    (number, 1, line_in(message))
}

fn line_in(message: &str) -> u64 {
    let at = message.find("line ").expect("a line in the message") + 5;
    let digits: String = message[at..].chars().take_while(char::is_ascii_digit).collect();
    digits.parse().expect("a line's number in the message")
}

/// An encoding with so many cells for ids: number, ids, offset, byte.
pub fn encoded(original: &Original, src: &[u8], cells: usize) -> (u32, Vec<u32>, u64, u64) {
    let (number, ids, offset, byte) = match original.encode_bytes(src) {
        Ok(ids) => (0, ids, 0, 0),
        Err(error) => {
            // It drops the ids before a failure: they are those of the bytes before it.
            let ids = original.encode_bytes(&src[..error.byte_offset]).expect("what comes before a failure is encoded");
            (22, ids, error.byte_offset as u64, u64::from(error.byte))
        }
    };
    if cells < ids.len() {
        let bytes = original.decode_bytes(&ids[..cells]).expect("ids of an encoding");
        return (23, ids[..cells].to_vec(), bytes.len() as u64, 0);
    }
    (number, ids, offset, byte)
}

/// A decoding with so many cells for bytes: number, bytes, index or offset, id.
pub fn decoded(original: &Original, how: Decoding, ids: &[u32], cells: usize) -> (u32, Vec<u8>, u64, u64) {
    let (present, absent) = match original.decode_bytes(ids) {
        Ok(_) => (ids, None),
        Err(DecodeError::MissingToken { token_index, token_id }) => (&ids[..token_index], Some(u64::from(token_id))),
        Err(error) => panic!("{error:?} from decode_bytes"),
    };
    let bytes = original.decode_bytes(present).expect("present ids");
    let (fit, len) = fitting(original, present, cells);
    match (how, absent) {
        (Decoding::Lossy, Some(id)) => (27, vec![], present.len() as u64, id),
        (Decoding::Lossy, None) => {
            let text = original.decode_lossy(ids).expect("present ids").into_bytes();
            if text.len() > cells { (28, vec![], ids.len() as u64, 0) } else { (0, text, 0, 0) }
        }
        _ if fit < present.len() => (28, bytes[..len].to_vec(), fit as u64, 0),
        (_, Some(id)) => (27, bytes, present.len() as u64, id),
        (Decoding::Bytes, None) => (0, bytes, 0, 0),
        (Decoding::Text, None) => match original.decode_utf8(ids) {
            Err(DecodeError::InvalidUtf8(error)) => (29, bytes, error.utf8_error().valid_up_to() as u64, 0),
            text => (0, text.expect("present ids").into_bytes(), 0, 0),
        },
    }
}

/// How many ids fit into so many bytes, and their bytes.
fn fitting(original: &Original, ids: &[u32], cells: usize) -> (usize, usize) {
    let mut len = 0;
    for (index, &id) in ids.iter().enumerate() {
        let more = original.decode_bytes(&[id]).map_or(0, |bytes| bytes.len());
        if len + more > cells {
            return (index, len);
        }
        len += more;
    }
    (ids.len(), len)
}
