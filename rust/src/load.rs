//! A load: memory is lent, and more of it where the library says that there is too little.
use crate::errors::{Place, Refusal};
use crate::{Counts, VOCAB_SIZE, ffi};

/// The vocabulary memory, owned.
#[derive(Debug)]
pub struct Tables {
    pub single: Vec<i32>,
    pub offsets: Vec<u32>,
    pub blob: Vec<u8>,
    pub roots: Vec<u64>,
    pub table: Vec<u64>,
    pub counts: Counts,
}

/// How much memory a load is lent: nodes, blob bytes, and blocks of 256 table words.
#[derive(Clone, Copy)]
struct Lent {
    nodes: usize,
    blob: usize,
    blocks: usize,
}

impl Lent {
    /// Enough for most texts of this length.
    fn likely(text: usize) -> Self {
        Self { nodes: text / 8 + 64, blob: text / 2 + 64, blocks: text / 2048 + 4 }
    }

    /// Twice as much of what a number says there is too little of; none if there can't be too little. A token is no longer than
    /// its line, and a node takes a block at most, so that the text's length bounds all three.
    fn grown(self, number: u32, text: usize) -> Option<Self> {
        let most = text + 2;
        let more = |lent: usize| (lent < most).then(|| (2 * lent).min(most));
        match number {
            17 => more(self.nodes).map(|nodes| Self { nodes, ..self }),
            18 => more(self.blob).map(|blob| Self { blob, ..self }),
            21 => more(self.blocks).map(|blocks| Self { blocks, ..self }),
            _ => None,
        }
    }
}

/// Loads a vocabulary text of an edition; it need not be UTF-8.
pub fn load(text: &[u8], edition: u32, partial: bool) -> Result<Tables, Refusal> {
    let mut lent = Lent::likely(text.len());
    loop {
        let refusal = match load_within(text, edition, partial, lent) {
            Ok(tables) => return Ok(tables),
            Err(refusal) => refusal,
        };
        lent = lent.grown(refusal.number, text.len()).ok_or(refusal)?;
    }
}

/// One call of the library, with that much memory.
fn load_within(text: &[u8], edition: u32, partial: bool, lent: Lent) -> Result<Tables, Refusal> {
    let mut single = vec![0; 256];
    let mut offsets = vec![0; VOCAB_SIZE + 1];
    let mut blob = vec![0; lent.blob];
    let mut roots = vec![0; VOCAB_SIZE];
    let mut table = vec![0; lent.blocks * 256];
    let memory = ffi::LoadMemory {
        single: &mut single,
        offsets: &mut offsets,
        blob: &mut blob,
        roots: &mut roots,
        table: &mut table,
        nodes: &mut vec![ffi::Node::default(); lent.nodes],
        used: &mut vec![0; lent.blocks * 4],
        used_bases: &mut vec![0; lent.blocks * 4],
    };
    let (number, [kind, place, tokens, nodes, blob_bytes, table_words]) = ffi::load(text, edition, partial, memory);
    if number != 0 {
        return Err(Refusal { number, place: place_of(kind, place) });
    }
    blob.truncate(blob_bytes as usize);
    blob.shrink_to_fit();
    table.truncate(table_words as usize);
    table.shrink_to_fit();
    Ok(Tables { single, offsets, blob, roots, table, counts: Counts { tokens, nodes, blob_bytes, table_words } })
}

fn place_of(kind: u64, place: u64) -> Place {
    match kind {
        1 => Place::Line(place),
        2 => Place::Offset(place),
        3 => Place::Byte(place as u8),
        _ => Place::None,
    }
}
