//! Both sides: the library through its plain calls, over memory that is lent again and again, and the original.
use super::original::RwkvTokenizer as Original;
use bombrezen::ffi::{self, Decoding, Memory};

/// Fills cells that no call may touch, and outputs before a call.
const FILL: u64 = 0x5a5a_5a5a_5a5a_5a5a;

/// Lent memory; `single`, offsets and roots have a cell more than they need, which no call may touch.
#[derive(Clone, PartialEq)]
pub struct Lent {
    pub single: Vec<i32>,
    pub offsets: Vec<u32>,
    pub blob: Vec<u8>,
    pub roots: Vec<u64>,
    pub table: Vec<u64>,
    pub nodes: Vec<ffi::Node>,
    pub used: Vec<u64>,
    pub used_bases: Vec<u64>,
}

/// A load's number, place kind, place, tokens, nodes, blob bytes and table words.
pub type Loaded = (u32, [u64; 6]);

impl Lent {
    pub fn new(nodes: usize, blob: usize, blocks: usize) -> Self {
        Self {
            single: vec![FILL as i32; 257],
            offsets: vec![FILL as u32; 65_538],
            blob: vec![FILL as u8; blob],
            roots: vec![FILL; 65_537],
            table: vec![FILL; blocks * 256],
            nodes: vec![ffi::Node::default(); nodes],
            used: vec![FILL; blocks * 4],
            used_bases: vec![FILL; blocks * 4],
        }
    }

    /// The library's load of a text of edition 1, the original's.
    pub fn load(&mut self, text: &[u8], partial: bool) -> Loaded {
        self.load_edition(text, 1, partial)
    }

    /// The library's load. What must be untouched, and what must be empty after a refusal, is tested in passing.
    pub fn load_edition(&mut self, text: &[u8], edition: u32, partial: bool) -> Loaded {
        let (number, report) = ffi::load(text, edition, partial, self.lend());
        let past = (self.single[256], self.offsets[65_537], self.roots[65_536]);
        assert_eq!(past, (FILL as i32, FILL as u32, FILL), "a cell past the fixed lengths was touched");
        if (3..=21).contains(&number) {
            assert!(self.is_empty(), "number {number} left something in the memory");
        }
        (number, report)
    }

    /// All of it, for a load.
    pub fn lend(&mut self) -> ffi::LoadMemory<'_> {
        ffi::LoadMemory {
            single: &mut self.single,
            offsets: &mut self.offsets,
            blob: &mut self.blob,
            roots: &mut self.roots,
            table: &mut self.table,
            nodes: &mut self.nodes,
            used: &mut self.used,
            used_bases: &mut self.used_bases,
        }
    }

    fn is_empty(&self) -> bool {
        self.single[..256].iter().all(|&id| id == -1)
            && self.offsets[..65_537].iter().all(|&offset| offset == 0)
            && self.blob.iter().all(|&byte| byte == 0)
            && self.roots[..65_536].iter().all(|&word| word == 0)
            && self.table.iter().all(|&word| word == 0)
    }

    pub fn memory(&self) -> Memory<'_> {
        Memory { single: &self.single, offsets: &self.offsets, blob: &self.blob, roots: &self.roots, table: &self.table }
    }

    /// The same in all five tables.
    pub fn holds_as(&self, other: &Self) -> bool {
        self.single == other.single
            && self.offsets == other.offsets
            && self.blob == other.blob
            && self.roots == other.roots
            && self.table == other.table
    }

    /// All five tables against the original's, word for word, with zeros past the content.
    pub fn equals(&self, original: &Original) -> bool {
        let (blob, offsets, single, roots, table) = original.raw();
        let blob = &blob[..blob.len() - 8];
        self.single[..256] == single[..]
            && self.offsets[..65_537] == *offsets
            && self.roots[..65_536] == *roots
            && starts_with_then_zeros(&self.blob, blob)
            && starts_with_then_zeros(&self.table, table)
    }
}

fn starts_with_then_zeros<T: PartialEq + Default>(all: &[T], start: &[T]) -> bool {
    all.starts_with(start) && all[start.len()..].iter().all(|x| *x == T::default())
}

/// The library's encoding with so many output cells: number, ids, offset and byte, and the bytes looked at. Cells past the ids must be
/// untouched.
pub fn encode(memory: Memory<'_>, src: &[u8], cells: usize) -> ((u32, Vec<u32>, u64, u64), u64) {
    let mut out = vec![FILL as u32; cells];
    let (number, [count, offset, byte, looked]) = ffi::encode(memory, src, &mut out);
    let rest = out.split_off(count as usize);
    assert!(rest.iter().all(|&cell| cell == FILL as u32), "a cell past the ids was touched");
    ((number, out, offset, byte), looked)
}

/// The library's decoding with so many output bytes: number, bytes, index or offset, id.
pub fn decode(memory: Memory<'_>, how: Decoding, ids: &[u32], cells: usize) -> (u32, Vec<u8>, u64, u64) {
    let mut out = vec![FILL as u8; cells];
    let (number, [len, index, id]) = ffi::decode(memory, how, ids, &mut out);
    let rest = out.split_off(len as usize);
    assert!(rest.iter().all(|&cell| cell == FILL as u8), "a cell past the bytes was touched");
    (number, out, index, id)
}
