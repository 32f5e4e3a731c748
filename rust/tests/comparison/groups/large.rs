//! The large vocabulary: its tables word for word, every token, and long inputs.
use super::generate::tokens_of;
use super::looked::Looking;
use super::random::Random;
use super::sides::{Lent, decode, encode};
use super::tally::Tally;
use super::theirs::original_load;
use bombrezen::ffi::Decoding;
use bombrezen::{RwkvTokenizer, StreamError};

pub fn large(tally: &mut Tally, text: &str) {
    let original =
        original_load(text, false).unwrap_or_else(|refusal| panic!("the large vocabulary was refused with {refusal:?}"));
    let mut lent = Lent::new(200_000, 1 << 20, 1024);
    let answer = lent.load(text.as_bytes(), false);
    tally.case(answer.0, answer.0 == 0 && lent.equals(&original), || format!("load gave {answer:?}"));
    let tokenizer = RwkvTokenizer::from_vocab_str(text).expect("what the calls take, the wrapper takes");
    let tokens = tokens_of(&original);
    let looking = Looking::new(&tokens);
    for (id, token) in &tokens {
        let ids = encode(lent.memory(), token, token.len());
        let wanted = ((0, vec![*id], 0, 0), token.len() as u64);
        tally.case(ids.0.0, ids == wanted, || format!("encoding the token of {id} gave {ids:?}"));
        let bytes = decode(lent.memory(), Decoding::Bytes, &[*id], 255);
        tally.case(bytes.0, bytes == (0, token.clone(), 0, 0), || format!("decoding {id} gave {bytes:?}"));
    }
    let mut random = Random::new(8);
    for round in 0..300 {
        let mut src = Vec::new();
        while src.len() < 20_000 {
            if round % 3 == 0 || random.chance(30) {
                src.push(random.next() as u8);
            } else {
                src.extend_from_slice(&random.pick(&tokens).1);
            }
        }
        let whole = original.encode_bytes(&src).expect("a full vocabulary");
        let (ids, looked) = tokenizer.encode_looked(&src).expect("a full vocabulary");
        tally.case(0, ids == whole, || format!("encoding of round {round}"));
        tally.case(0, looked == looking.sum(&src, &whole), || format!("bytes looked at of round {round}: {looked}"));
        tally.case(0, tokenizer.decode_bytes(&ids).is_ok_and(|bytes| bytes == src), || format!("decoding of round {round}"));
        let (ours, theirs) = (tokenizer.decode_lossy(&ids).ok(), original.decode_lossy(&ids).ok());
        tally.case(0, ours.is_some() && ours == theirs, || format!("lossy decoding of round {round}"));
        let size = 1 + random.below(5000);
        let streamed = streamed(&tokenizer, &looking, &src, size);
        tally.case(0, streamed == Ok((whole, true)), || format!("stream of round {round} in pieces of {size}"));
    }
}

/// The ids of a stream in pieces of a size, and whether each call told the bytes looked at of those that were at hand.
fn streamed(tokenizer: &RwkvTokenizer, looking: &Looking, src: &[u8], size: usize) -> Result<(Vec<u32>, bool), StreamError> {
    let (mut ids, mut same) = (Vec::new(), true);
    let mut stream = tokenizer.stream();
    for piece in src.chunks(size).map(Some).chain([None]) {
        let (at_hand, before) = ([stream.held(), piece.unwrap_or_default()].concat(), ids.len());
        match piece {
            Some(piece) => stream.add(piece, &mut ids)?,
            None => stream.end(&mut ids)?,
        }
        same &= stream.looked() == looking.sum(&at_hand, &ids[before..]);
    }
    Ok((ids, same))
}
