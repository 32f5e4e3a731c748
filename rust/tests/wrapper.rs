//! The wrapper on the documents' examples, and where it has to lend more memory.
use bombrezen::ffi::{self, LoadMemory, Memory, Node};
use bombrezen::{DecodeError, PHRASEOLOGY, Place, Refusal, RwkvTokenizer, StreamError, VocabError, reason};

/// Document 01's vocabulary V.
fn v() -> RwkvTokenizer {
    RwkvTokenizer::from_vocab_str_partial("1 'a' 1\n2 'b' 1\n3 'ab' 2\n4 'abcd' 4\n5 'bc' 2\n").expect("V loads")
}

/// The number and place of a refused text of edition 1.
fn refusal(text: &[u8], partial: bool) -> (u32, Place) {
    number_and_place(RwkvTokenizer::from_vocab_bytes(text, partial))
}

fn number_and_place(refused: Result<RwkvTokenizer, VocabError>) -> (u32, Place) {
    match refused {
        Err(VocabError::Invalid(Refusal { number, place })) => (number, place),
        other => panic!("{other:?}"),
    }
}

/// The bytes of a literal of an edition, or the number of the line with it and with this length.
fn literal(literal: &str, edition: u32, len: usize) -> Result<Vec<u8>, u32> {
    match RwkvTokenizer::from_vocab_edition(format!("1 {literal} {len}").as_bytes(), edition, true) {
        Ok(tokenizer) => Ok(tokenizer.decode_bytes(&[1]).unwrap()),
        refused => Err(number_and_place(refused).0),
    }
}

#[test]
fn v_encodes() {
    let counts = v().counts();
    assert_eq!((counts.tokens, counts.nodes, counts.blob_bytes, counts.table_words), (5, 5, 10, 512));
    assert_eq!(v().encode("abcd").unwrap(), [4]);
    assert_eq!(v().encode("aab").unwrap(), [1, 3]);
    assert_eq!(v().encode("abbc").unwrap(), [3, 5]);
    assert_eq!(v().encode("").unwrap(), []);
    let error = v().encode("abc").unwrap_err();
    assert_eq!((error.byte_offset, error.byte), (2, b'c'));
}

#[test]
fn v_decodes() {
    assert_eq!(v().decode_bytes(&[4, 1]).unwrap(), b"abcda");
    assert_eq!(v().decode_utf8(&[4, 1]).unwrap(), "abcda");
    assert_eq!(v().decode_lossy(&[]).unwrap(), "");
    for (ids, index) in [(&[3, 0][..], 1), (&[6], 0), (&[65_536], 0)] {
        let missing = DecodeError::MissingToken { token_index: index, token_id: ids[index] };
        assert_eq!(v().decode_bytes(ids), Err(missing.clone()));
        assert_eq!(v().decode_lossy(ids), Err(missing));
    }
}

#[test]
fn v_streams() {
    let mut stream = v().stream();
    let mut ids = Vec::new();
    for (piece, decided) in [("ab", &[][..]), ("b", &[3]), ("c", &[3, 5])] {
        stream.add(piece.as_bytes(), &mut ids).unwrap();
        assert_eq!(ids, decided);
    }
    stream.end(&mut ids).unwrap();
    assert_eq!((ids.as_slice(), stream.total(), stream.held()), (&[3, 5][..], 4, &b""[..]));
    assert_eq!(stream.add(b"a", &mut ids), Err(StreamError::Ended));
}

#[test]
fn a_stream_that_stops_says_so_again() {
    let mut stream = v().stream();
    let mut ids = Vec::new();
    stream.add(b"abc", &mut ids).unwrap();
    assert_eq!(stream.held(), b"abc");
    for _ in 0..2 {
        let Err(StreamError::NoToken(error)) = stream.end(&mut ids) else { panic!("abc can't be encoded") };
        assert_eq!((error.byte_offset, error.byte, ids.as_slice()), (2, b'c', &[3][..]));
    }
}

/// Document 02's bytes looked at over V, for each id of a whole input.
#[test]
fn v_tells_the_bytes_looked_at() {
    for (src, ids, looked) in [
        ("", &[][..], 0),
        ("a", &[1], 1),
        ("ab", &[3], 2),
        ("aab", &[1, 3], 2 + 2),
        ("abbc", &[3, 5], 3 + 2),
        ("abcd", &[4], 4),
        ("abcda", &[4, 1], 4 + 1),
        ("abcdab", &[4, 3], 4 + 2),
        ("babb", &[2, 3, 2], 2 + 3 + 1),
    ] {
        assert_eq!(v().encode_looked(src.as_bytes()).unwrap(), (ids.to_vec(), looked), "{src}");
    }
    assert_eq!(v().encode_looked(b"abc").unwrap_err(), v().encode("abc").unwrap_err());
}

/// The report of a refused encoding has the figure of the ids that stand, without the place that is refused.
#[test]
fn a_refused_encoding_reports_the_bytes_of_its_ids() {
    let tokenizer = v();
    let memory = tokenizer.memory();
    for (src, cells, wanted) in [
        ("abc", 3, (22, [1, 2, 99, 3])),
        ("c", 1, (22, [0, 0, 99, 0])),
        ("abbc", 1, (23, [1, 2, 0, 3])),
        ("abbc", 0, (23, [0; 4])),
        ("abcb", 1, (22, [1, 2, 99, 4])),
        ("abbc", 2, (0, [2, 0, 0, 5])),
    ] {
        assert_eq!(ffi::encode(memory, src.as_bytes(), &mut vec![0; cells]), wanted, "{src} in {cells} cells");
    }
    let short = Memory { roots: &[], ..memory };
    assert_eq!(ffi::encode(short, b"a", &mut [0]), (1, [0; 4]));
}

/// A stream's call tells those of the bytes then at hand: of its ids alone, of none where it gives none or is refused.
#[test]
fn a_stream_tells_the_bytes_looked_at() {
    let mut stream = v().stream();
    let mut ids = Vec::new();
    assert_eq!(stream.looked(), 0);
    for (piece, looked) in [("ab", 0), ("b", 3), ("c", 2), ("abcdab", 4), ("", 0), ("a", 3)] {
        stream.add(piece.as_bytes(), &mut ids).unwrap();
        assert_eq!(stream.looked(), looked, "{piece}");
    }
    stream.end(&mut ids).unwrap();
    assert_eq!((stream.looked(), ids.as_slice()), (1, &[3, 5, 4, 3, 1][..]));
    assert_eq!(stream.add(b"a", &mut ids), Err(StreamError::Ended));
    assert_eq!(stream.looked(), 0);
    // The call that stops carries the figure of the ids before the stop, and those after it 0.
    let mut stream = v().stream();
    stream.add(b"aabc", &mut ids).unwrap();
    assert_eq!(stream.looked(), 2);
    for looked in [3, 0, 0] {
        assert!(matches!(stream.end(&mut ids), Err(StreamError::NoToken(_))));
        assert_eq!(stream.looked(), looked);
    }
}

/// Pieces need not add up to the whole.
#[test]
fn bytes_looked_at_in_pieces_are_of_what_is_at_hand() {
    let tokenizer = RwkvTokenizer::from_vocab_str_partial("1 'a' 1").unwrap();
    assert_eq!(tokenizer.encode_looked(b"aa").unwrap(), (vec![1, 1], 3));
    let (mut stream, mut ids) = (tokenizer.stream(), Vec::new());
    for looked in [1, 1] {
        stream.add(b"a", &mut ids).unwrap();
        assert_eq!(stream.looked(), looked);
    }
    stream.end(&mut ids).unwrap();
    assert_eq!((stream.looked(), ids.as_slice()), (0, &[1, 1][..]));
}

/// No match looks at more than 255 bytes.
#[test]
fn at_most_255_bytes_are_looked_at() {
    let text = format!("1 'a' 1\n2 '{}' 255\n", "a".repeat(255));
    let tokenizer = RwkvTokenizer::from_vocab_str_partial(&text).unwrap();
    let to = |most: u64| (1..=most).sum::<u64>();
    assert_eq!(tokenizer.encode_looked(&[b'a'; 264]).unwrap(), ([&[2][..], &[1; 9]].concat(), 255 + to(9)));
    assert_eq!(tokenizer.encode_looked(&[b'a'; 254]).unwrap().1, to(254));
}

#[test]
fn refusals_have_number_place_and_words() {
    assert_eq!(refusal(b"1 'a' 1\n2 'b 1", true), (12, Place::Line(2)));
    assert_eq!(refusal(b"1 'a' 1\n2 '\xff' 1", true), (2, Place::Offset(11)));
    // Two ill-formed places, a last character that is cut, one that is broken off: the start of the first.
    assert_eq!(refusal(b"A\xc3\xa9\xffA\x80", true), (2, Place::Offset(3)));
    assert_eq!(refusal(b"A\xe2\x82", false), (2, Place::Offset(1)));
    assert_eq!(refusal(b"\xe2\x82A", true), (2, Place::Offset(0)));
    assert_eq!(refusal(b"1 'a' 1", false), (20, Place::Byte(0)));
    assert_eq!(refusal(b"", true), (19, Place::None));
    let error = RwkvTokenizer::from_vocab_str_partial("0 'a' 1").unwrap_err();
    assert_eq!(error.to_string(), "line 1: the id is 0, which is reserved (number 8)");
}

#[test]
fn edition_2_has_more_escapes() {
    assert_eq!(literal(r"'\01'", 2, 1), Ok(vec![1]));
    assert_eq!(literal(r"'\01'", 1, 1), Err(14));
    assert_eq!(literal(r"'\01'", 1, 2), Ok(vec![0, b'1']));
    assert_eq!(literal(r"'\01'", 2, 2), Err(14));
    for (text, bytes) in [
        (r"'\a\b\f\v'", &b"\x07\x08\x0c\x0b"[..]),
        (r"'\0012\08\7'", b"\x012\x008\x07"),
        (r"'\400\777'", "\u{100}\u{1ff}".as_bytes()),
        (r"b'\377\0'", b"\xff\0"),
        (r"'\U0010ffff\U0000D7FF'", "\u{10ffff}\u{d7ff}".as_bytes()),
    ] {
        assert_eq!(literal(text, 2, bytes.len()), Ok(bytes.to_vec()), "{text}");
    }
    for text in
        [r"'\8'", r"b'\400'", r"'\U0000d800'", r"'\U00110000'", r"b'\U00000041'", r"'\U0000041'", r"'\N{DIGIT ONE}'", r"'\ud800'"]
    {
        assert_eq!(literal(text, 2, 1), Err(12), "{text}");
    }
    let phraseology = |edition| RwkvTokenizer::from_vocab_edition(PHRASEOLOGY.as_bytes(), edition, false).unwrap().counts();
    assert_eq!(phraseology(2), phraseology(1));
}

#[test]
fn other_editions_are_refused() {
    for edition in [0, 3, 257, u32::MAX] {
        for text in [&b"1 'a' 1\n"[..], b"\xff", b""] {
            assert_eq!(number_and_place(RwkvTokenizer::from_vocab_edition(text, edition, true)), (34, Place::None));
        }
    }
    let error = RwkvTokenizer::from_vocab_edition(b"1 'a' 1\n", 3, true).unwrap_err();
    assert_eq!(error.to_string(), format!("{} (number 34)", reason(34)));
    assert!(reason(34).contains("neither 1 nor 2"));
}

/// 34 comes before 1, and changes none of the memory that is lent: neither the vocabulary's nor the work memory.
#[test]
fn other_editions_change_nothing() {
    for cells in [0, 255, 256] {
        let (mut single, mut blob, mut table) = (vec![3; cells], [3; 64], [3; 1024]);
        let (mut offsets, mut roots) = (vec![3; 65_537], vec![3; 65_536]);
        let (mut nodes, mut used, mut used_bases) = ([Node::default(); 8], [9; 16], [9; 16]);
        for (edition, wanted) in [(0, 34), (3, 34), (u32::MAX, 34), (1, u32::from(cells < 256)), (0, 34)] {
            let before = (single.clone(), offsets.clone(), blob, roots.clone(), table, nodes, used, used_bases);
            let lent = LoadMemory {
                single: &mut single,
                offsets: &mut offsets,
                blob: &mut blob,
                roots: &mut roots,
                table: &mut table,
                nodes: &mut nodes,
                used: &mut used,
                used_bases: &mut used_bases,
            };
            let (number, report) = ffi::load(b"1 'a' 1\n2 'ab' 2\n", edition, true, lent);
            assert_eq!(number, wanted, "edition {edition}, {cells} cells");
            if number != 0 {
                let after = (single.clone(), offsets.clone(), blob, roots.clone(), table, nodes, used, used_bases);
                assert!(report == [0; 6] && after == before, "edition {edition}, {cells} cells");
            }
        }
    }
}

#[test]
fn bytes_that_are_no_text() {
    let tokenizer = RwkvTokenizer::from_vocab_str_partial("1 'a' 1\n2 b'\\xe2\\x82' 2\n3 b'\\xac' 1\n").unwrap();
    assert_eq!(tokenizer.decode_utf8(&[1, 2, 3]).unwrap(), "a€");
    assert_eq!(tokenizer.decode_lossy(&[2, 1, 3]).unwrap(), "\u{fffd}a\u{fffd}");
    let Err(DecodeError::InvalidUtf8(error)) = tokenizer.decode_utf8(&[1, 2, 1]) else { panic!("not UTF-8") };
    assert_eq!((error.as_bytes(), error.utf8_error().valid_up_to()), (&b"a\xe2\x82a"[..], 1));
}

#[test]
fn more_memory_is_lent_where_it_is_needed() {
    // One long token has more nodes and bytes than most texts of its length; five such with one label have more blocks.
    let token = |first: char| format!("{first}{}", "a".repeat(254));
    let text: String = "bcdefgh".chars().zip(1..).map(|(first, id)| format!("{id} '{}' 255\n", token(first))).collect();
    let tokenizer = RwkvTokenizer::from_vocab_str_partial(&text).unwrap();
    assert_eq!(tokenizer.counts().nodes, 1 + 7 * 254);
    assert_eq!(tokenizer.encode(&(token('h') + &token('b'))).unwrap(), [7, 1]);
    assert_eq!(tokenizer.decode_utf8(&[3; 9]).unwrap(), token('d').repeat(9));
    assert_eq!(tokenizer.decode_lossy(&[3; 9]).unwrap(), token('d').repeat(9));
}

#[test]
fn held_bytes_are_254_at_most() {
    let text = format!("1 'a' 1\n2 '{}' 255\n", "a".repeat(255));
    let mut stream = RwkvTokenizer::from_vocab_str_partial(&text).unwrap().stream();
    let mut ids = Vec::new();
    for _ in 0..254 {
        stream.add(b"a", &mut ids).unwrap();
    }
    assert_eq!((stream.held().len(), ids.len()), (254, 0));
    stream.add(b"a", &mut ids).unwrap();
    assert_eq!((stream.held().len(), ids.as_slice()), (0, &[2][..]));
}

#[test]
fn phraseology_is_full() {
    let tokenizer = RwkvTokenizer::from_vocab_str(PHRASEOLOGY).unwrap();
    let every: Vec<u8> = (0..=255).collect();
    assert_eq!(tokenizer.decode_bytes(&tokenizer.encode_bytes(&every).unwrap()).unwrap(), every);
    let clone = tokenizer.clone();
    std::thread::spawn(move || assert_eq!(clone.encode(", cleared for takeoff").unwrap().len(), 2)).join().unwrap();
}
