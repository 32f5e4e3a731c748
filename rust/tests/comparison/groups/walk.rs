//! Document 01's walk on any memory, with the bytes counted as it reads them: what the original would do if it did not panic past the
//! table, nor count lengths in 8 bits.
use bombrezen::ffi::Memory;
use std::cell::Cell;

/// The original's `match_at`, with an index past the table reading 0 and a stop at 255 bytes: the id and length, if there is a match, and
/// how many bytes were read.
fn walk(memory: Memory<'_>, rest: &[u8]) -> (Option<(u32, usize)>, u64) {
    let read = Cell::new(0);
    let mut bytes = rest.iter().copied().take(255).inspect(|_| read.set(read.get() + 1));
    let first = usize::from(bytes.next().expect("a byte at the place"));
    let mut best = (0, 0);
    let mut word = bytes.next().map_or(0, |second| memory.roots[first * 256 + usize::from(second)]);
    let mut used = 2;
    while word != 0 {
        let id = (word >> 8) as u16;
        if id != 0 {
            best = (u32::from(id), used);
        }
        // A root of base 0 with no token goes on through block 0.
        if word >> 32 == 0 && (used > 2 || id != 0) {
            break;
        }
        let Some(byte) = bytes.next() else { break };
        let next = memory.table.get((word >> 32) as usize ^ usize::from(byte)).copied().unwrap_or(0);
        word = if next as u8 == byte { next } else { 0 };
        used += 1;
    }
    let one = u32::try_from(memory.single[first]).ok().map(|id| (id, 1));
    (if best.0 != 0 { Some(best) } else { one }, read.get())
}

/// Encoding by walks, with so many cells: number, ids, offset and byte, and the bytes read for the ids.
pub fn encoded(memory: Memory<'_>, src: &[u8], cells: usize) -> ((u32, Vec<u32>, u64, u64), u64) {
    let (mut ids, mut at, mut looked) = (Vec::new(), 0, 0);
    while at < src.len() {
        let (found, read) = walk(memory, &src[at..]);
        let Some((id, len)) = found else { return ((22, ids, at as u64, u64::from(src[at])), looked) };
        if ids.len() == cells {
            return ((23, ids, at as u64, 0), looked);
        }
        ids.push(id);
        looked += read;
        at += len;
    }
    ((0, ids, 0, 0), looked)
}
