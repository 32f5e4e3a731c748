//! The exported calls, as `include/rwkv_tokenizer.h` has them, each made safe. All that is unsafe in this package stands here.
//! Nothing checks these declarations against the library: they are one of the things that its users trust. A slice goes as a
//! pointer and a length.

/// One trie node of the work memory that a load is lent. What it holds before and after is anything.
#[repr(C)]
#[derive(Debug, Clone, Copy, Default, PartialEq, Eq)]
pub struct Node {
    head: u32,
    tail: u32,
    next: u32,
    term: u16,
    count: u16,
    label: u8,
}

/// The vocabulary memory, shared.
#[derive(Clone, Copy)]
pub struct Memory<'a> {
    pub single: &'a [i32],
    pub offsets: &'a [u32],
    pub blob: &'a [u8],
    pub roots: &'a [u64],
    pub table: &'a [u64],
}

/// The vocabulary memory that a load writes, and the work memory that it is lent.
pub struct LoadMemory<'a> {
    pub single: &'a mut [i32],
    pub offsets: &'a mut [u32],
    pub blob: &'a mut [u8],
    pub roots: &'a mut [u64],
    pub table: &'a mut [u64],
    pub nodes: &'a mut [Node],
    pub used: &'a mut [u64],
    pub used_bases: &'a mut [u64],
}

/// A stream between two calls. Phase: 0 open, 1 stopped, 2 ended.
#[repr(C)]
#[derive(Debug, Clone, PartialEq, Eq)]
pub struct Stream {
    pub total: u32,
    pub stop_offset: u32,
    pub held: [u8; 254],
    pub held_len: u8,
    pub stop_byte: u8,
    pub phase: u8,
}

/// Which decoding.
#[derive(Clone, Copy, Debug, PartialEq, Eq)]
pub enum Decoding {
    Bytes,
    Text,
    Lossy,
}

type DecodeCall = unsafe extern "C" fn(
    *const i32, usize, *const u32, usize, *const u8, usize, *const u64, usize, *const u64, usize,
    *const u32, usize, *mut u8, usize, *mut [u64; 3],
) -> u32;

unsafe extern "C" {
    fn rwkv_load(
        text: *const u8, text_len: usize, edition: u32, partial: bool,
        single: *mut i32, single_len: usize, offsets: *mut u32, offsets_len: usize, blob: *mut u8, blob_len: usize,
        roots: *mut u64, roots_len: usize, table: *mut u64, table_len: usize,
        nodes: *mut Node, nodes_len: usize, used: *mut u64, used_len: usize, used_bases: *mut u64, used_bases_len: usize,
        report: *mut [u64; 6],
    ) -> u32;
    fn rwkv_encode(
        single: *const i32, single_len: usize, offsets: *const u32, offsets_len: usize, blob: *const u8, blob_len: usize,
        roots: *const u64, roots_len: usize, table: *const u64, table_len: usize,
        src: *const u8, src_len: usize, out: *mut u32, out_len: usize, report: *mut [u64; 4],
    ) -> u32;
    fn rwkv_decode(
        single: *const i32, single_len: usize, offsets: *const u32, offsets_len: usize, blob: *const u8, blob_len: usize,
        roots: *const u64, roots_len: usize, table: *const u64, table_len: usize,
        ids: *const u32, ids_len: usize, out: *mut u8, out_len: usize, report: *mut [u64; 3],
    ) -> u32;
    fn rwkv_decode_utf8(
        single: *const i32, single_len: usize, offsets: *const u32, offsets_len: usize, blob: *const u8, blob_len: usize,
        roots: *const u64, roots_len: usize, table: *const u64, table_len: usize,
        ids: *const u32, ids_len: usize, out: *mut u8, out_len: usize, report: *mut [u64; 3],
    ) -> u32;
    fn rwkv_decode_lossy(
        single: *const i32, single_len: usize, offsets: *const u32, offsets_len: usize, blob: *const u8, blob_len: usize,
        roots: *const u64, roots_len: usize, table: *const u64, table_len: usize,
        ids: *const u32, ids_len: usize, out: *mut u8, out_len: usize, report: *mut [u64; 3],
    ) -> u32;
    fn rwkv_fresh(stream: *mut Stream);
    fn rwkv_add(
        single: *const i32, single_len: usize, offsets: *const u32, offsets_len: usize, blob: *const u8, blob_len: usize,
        roots: *const u64, roots_len: usize, table: *const u64, table_len: usize,
        stream: *mut Stream, piece: *const u8, piece_len: usize, out: *mut u32, out_len: usize, report: *mut [u64; 4],
    ) -> u32;
    fn rwkv_end(
        single: *const i32, single_len: usize, offsets: *const u32, offsets_len: usize, blob: *const u8, blob_len: usize,
        roots: *const u64, roots_len: usize, table: *const u64, table_len: usize,
        stream: *mut Stream, out: *mut u32, out_len: usize, report: *mut [u64; 4],
    ) -> u32;
}

/// `rwkv_load`: the refusal's number, and place kind, place, tokens, nodes, blob bytes and table words.
pub fn load(text: &[u8], edition: u32, partial: bool, m: LoadMemory<'_>) -> (u32, [u64; 6]) {
    let mut report = [0; 6];
    // SAFETY: each pointer and length is that of a slice that lives until the call returns; those written are lent to it alone.
    let number = unsafe {
        rwkv_load(
            text.as_ptr(), text.len(), edition, partial,
            m.single.as_mut_ptr(), m.single.len(), m.offsets.as_mut_ptr(), m.offsets.len(), m.blob.as_mut_ptr(), m.blob.len(),
            m.roots.as_mut_ptr(), m.roots.len(), m.table.as_mut_ptr(), m.table.len(),
            m.nodes.as_mut_ptr(), m.nodes.len(), m.used.as_mut_ptr(), m.used.len(), m.used_bases.as_mut_ptr(), m.used_bases.len(),
            &mut report,
        )
    };
    (number, report)
}

/// `rwkv_encode`: the refusal's number, and count, offset, byte and bytes looked at.
pub fn encode(m: Memory<'_>, src: &[u8], out: &mut [u32]) -> (u32, [u64; 4]) {
    let mut report = [0; 4];
    // SAFETY: each pointer and length is that of a slice that lives until the call returns; `out` and `report` are lent to it alone.
    let number = unsafe {
        rwkv_encode(
            m.single.as_ptr(), m.single.len(), m.offsets.as_ptr(), m.offsets.len(), m.blob.as_ptr(), m.blob.len(),
            m.roots.as_ptr(), m.roots.len(), m.table.as_ptr(), m.table.len(),
            src.as_ptr(), src.len(), out.as_mut_ptr(), out.len(), &mut report,
        )
    };
    (number, report)
}

/// `rwkv_decode`, `rwkv_decode_utf8` or `rwkv_decode_lossy`: the refusal's number, and bytes written, index (29: the offset), id.
pub fn decode(m: Memory<'_>, how: Decoding, ids: &[u32], out: &mut [u8]) -> (u32, [u64; 3]) {
    let mut report = [0; 3];
    let call: DecodeCall = match how {
        Decoding::Bytes => rwkv_decode,
        Decoding::Text => rwkv_decode_utf8,
        Decoding::Lossy => rwkv_decode_lossy,
    };
    // SAFETY: each pointer and length is that of a slice that lives until the call returns; `out` and `report` are lent to it alone.
    let number = unsafe {
        call(
            m.single.as_ptr(), m.single.len(), m.offsets.as_ptr(), m.offsets.len(), m.blob.as_ptr(), m.blob.len(),
            m.roots.as_ptr(), m.roots.len(), m.table.as_ptr(), m.table.len(),
            ids.as_ptr(), ids.len(), out.as_mut_ptr(), out.len(), &mut report,
        )
    };
    (number, report)
}

/// `rwkv_fresh`: a new stream.
pub fn fresh() -> Stream {
    let mut stream = Stream { total: 0, stop_offset: 0, held: [0; 254], held_len: 0, stop_byte: 0, phase: 0 };
    // SAFETY: the record lives until the call returns, and is lent to it alone.
    unsafe { rwkv_fresh(&mut stream) };
    stream
}

/// `rwkv_add`: the refusal's number, and count, offset, byte and bytes looked at.
pub fn add(m: Memory<'_>, stream: &mut Stream, piece: &[u8], out: &mut [u32]) -> (u32, [u64; 4]) {
    let mut report = [0; 4];
    // SAFETY: each pointer and length is that of a slice that lives until the call returns; the record, `out` and `report` are lent
    // to it alone.
    let number = unsafe {
        rwkv_add(
            m.single.as_ptr(), m.single.len(), m.offsets.as_ptr(), m.offsets.len(), m.blob.as_ptr(), m.blob.len(),
            m.roots.as_ptr(), m.roots.len(), m.table.as_ptr(), m.table.len(),
            stream, piece.as_ptr(), piece.len(), out.as_mut_ptr(), out.len(), &mut report,
        )
    };
    (number, report)
}

/// `rwkv_end`: the refusal's number, and count, offset, byte and bytes looked at.
pub fn end(m: Memory<'_>, stream: &mut Stream, out: &mut [u32]) -> (u32, [u64; 4]) {
    let mut report = [0; 4];
    // SAFETY: as in `add`.
    let number = unsafe {
        rwkv_end(
            m.single.as_ptr(), m.single.len(), m.offsets.as_ptr(), m.offsets.len(), m.blob.as_ptr(), m.blob.len(),
            m.roots.as_ptr(), m.roots.len(), m.table.as_ptr(), m.table.len(),
            stream, out.as_mut_ptr(), out.len(), &mut report,
        )
    };
    (number, report)
}
