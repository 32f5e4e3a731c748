//! Refusals that the original hasn't, against document 01's table: 1, 17, 18, 21, and 24 to 26.
use super::generate::{counts, tokens_of, vocabulary};
use super::random::Random;
use super::sides::Lent;
use super::tally::Tally;
use super::theirs::original_load;
use bombrezen::ffi::{self, Decoding, Memory, Stream};

/// Number 1: each part a cell too short, for every call; nothing changes.
pub fn short_memory(tally: &mut Tally) {
    for (single, offsets, roots) in
        [(255, 65_537, 65_536), (256, 65_536, 65_536), (256, 65_537, 65_535), (0, 0, 0), (256, 65_537, 65_536)]
    {
        let wanted = u32::from((single, offsets, roots) != (256, 65_537, 65_536));
        let (mut single, mut offsets, mut roots) = (vec![3; single], vec![3; offsets], vec![3; roots]);
        let (mut blob, mut table) = (vec![3; 64], vec![3; 512]);
        let memory = Memory { single: &single, offsets: &offsets, blob: &blob, roots: &roots, table: &table };
        let (ids, bytes) = (&mut [5; 4], &mut [5; 4]);
        let mut stream = Stream { phase: 2, ..ffi::fresh() };
        let mut numbers = vec![ffi::encode(memory, b"a", ids).0 == 1];
        numbers
            .extend([Decoding::Bytes, Decoding::Text, Decoding::Lossy].map(|how| ffi::decode(memory, how, &[1], bytes).0 == 1));
        numbers.push(ffi::add(memory, &mut stream, b"a", ids).0 == 1);
        numbers.push(ffi::end(memory, &mut stream, ids).0 == 1);
        let (nodes, used, used_bases) = (&mut [ffi::Node::default(); 8], &mut [9; 8], &mut [9; 8]);
        let (single, offsets, blob, roots, table) =
            (&mut single[..], &mut offsets[..], &mut blob[..], &mut roots[..], &mut table[..]);
        let lent = ffi::LoadMemory { single, offsets, blob, roots, table, nodes, used, used_bases };
        let (number, report) = ffi::load(b"\xff", 1, true, lent);
        numbers.push(number == 1);
        let changed =
            *used != [9; 8] || *used_bases != [9; 8] || wanted == 1 && (*ids, *bytes, report) != ([5; 4], [5; 4], [0; 6]);
        for one in numbers {
            tally.case(u32::from(one), u32::from(one) == wanted && !changed, || format!("short memory: {one} and not {wanted}"));
        }
    }
}

/// 26, 22, 25 and 24 in this order, over records of every kind; a refused call changes nothing.
pub fn calls(tally: &mut Tally) {
    let mut lent = Lent::new(64, 64, 4);
    lent.load(b"1 'a' 1\n2 'b' 1\n3 'ab' 2\n", true);
    for phase in [0, 1, 2, 3, 255] {
        for held_len in [0, 1, 2, 254, 255] {
            for total in [0, 1, 2, 254, 255, u32::MAX - 2, u32::MAX] {
                for (piece, room) in [(0, 0), (0, 1), (1, 255), (2, 256), (3, 257), (3, 4), (2, 1)] {
                    let record = Stream { total, stop_offset: 77, held: [b'a'; 254], held_len, stop_byte: 78, phase };
                    let held = usize::from(held_len);
                    for end in [false, true] {
                        let (piece, out) = (if end { 0 } else { piece }, &mut vec![5; room][..]);
                        let mut after = record.clone();
                        let (number, report) = match end {
                            false => ffi::add(lent.memory(), &mut after, &b"aaa"[..piece], out),
                            true => ffi::end(lent.memory(), &mut after, out),
                        };
                        let wanted = match () {
                            () if phase > 1 || held > 254 || held > total as usize => 26,
                            () if phase == 1 => 22,
                            () if piece > (u32::MAX - total) as usize => 25,
                            () if room < held + piece => 24,
                            () => 0,
                        };
                        let carried = if wanted == 22 { [0, 77, 78, 0] } else { [0; 4] };
                        let kept = after == record && report == carried && out.iter().all(|&cell| cell == 5);
                        tally.case(number, number == wanted && (wanted == 0 || kept), || {
                            format!("{record:?}, {piece}, {room}: {number}")
                        });
                    }
                }
            }
        }
    }
}

/// 17, 18 and 21, which the original hasn't: with just room enough a text loads; with one less it gives the number, at the line
/// where document 01's counts pass the room.
pub fn room(tally: &mut Tally) {
    let mut random = Random::new(3);
    for round in 0..150 {
        let longest = *random.pick(&[2, 4, 12]);
        let text = vocabulary(&mut random, if round % 2 == 0 { b"abcd" } else { b"ab" }, 40, longest);
        let original = original_load(&text, true).unwrap_or_else(|refusal| panic!("{text:?} was refused with {refusal:?}"));
        let tokens = tokens_of(&original);
        let (nodes, blob) = (counts(&tokens, tokens.len()).0, counts(&tokens, tokens.len()).1);
        let blocks = original.raw().4.len() / 256;
        for (less_nodes, less_blob, less_blocks) in
            [(0, 0, 0), (1, 0, 0), (0, 1, 0), (0, 0, 1), (1, 1, 1), (nodes, 0, 0), (0, blob, 0)]
        {
            let (room_nodes, room_blob) = (nodes - less_nodes, blob - less_blob);
            let line = (1..=tokens.len()).find(|&n| counts(&tokens, n).0 > room_nodes || counts(&tokens, n).1 > room_blob);
            let wanted = match line {
                Some(n) if counts(&tokens, n).0 > room_nodes => (17, [1, n as u64, 0, 0, 0, 0]),
                Some(n) => (18, [1, n as u64, 0, 0, 0, 0]),
                None if less_blocks > 0 => (21, [0; 6]),
                None => (0, [0, 0, tokens.len() as u64, nodes as u64, blob as u64, blocks as u64 * 256]),
            };
            let mut lent = Lent::new(room_nodes, room_blob, blocks - less_blocks);
            let answer = lent.load(text.as_bytes(), true);
            let same = answer == wanted && (answer.0 != 0 || lent.equals(&original));
            tally.case(answer.0, same, || format!("{text:?} gave {answer:?} and not {wanted:?}"));
        }
    }
}
