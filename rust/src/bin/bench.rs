//! Times of the library against those of the Rust crate that it was ported from: one process, the same vocabulary, in turns, the
//! least of many rounds. A call is lent its output; the wrapper makes it anew, as the Rust does. RWKV_ORIGINAL names the crate's folder
//! when this is built, RWKV_LARGE a large vocabulary when it is run. The machine should be quiet: the Rust gives way to others every
//! millisecond, and so seems slower on a busy one.

#[cfg(not(original))]
fn main() {
    eprintln!("nothing to compare with: RWKV_ORIGINAL named no folder with the original crate when this was built");
    std::process::exit(1);
}

#[cfg(original)]
extern crate original;

#[cfg(original)]
fn main() {
    compare::all();
}

#[cfg(original)]
mod compare {
    use bombrezen::ffi::{self, Decoding};
    use bombrezen::{PHRASEOLOGY, RwkvTokenizer};
    use original::RwkvTokenizer as Original;
    use std::hint::black_box;
    use std::time::Instant;

    /// Bytes of each input.
    const SIZE: usize = 1 << 22;
    const ROUNDS: usize = 30;

    /// The least nanoseconds of each, taken in turns.
    fn race<const N: usize>(rounds: usize, mut runs: [&mut dyn FnMut(); N]) -> [f64; N] {
        let mut least = [f64::MAX; N];
        for _ in 0..rounds {
            for (run, least) in runs.iter_mut().zip(&mut least) {
                let start = Instant::now();
                run();
                *least = least.min(start.elapsed().as_nanos() as f64);
            }
        }
        least
    }

    /// Prints a row: both sides per unit, and the ratio.
    fn row(name: &str, [ours, theirs]: [f64; 2], count: usize, unit: &str) {
        let per = |nanos: f64| nanos / count as f64;
        println!("{name:<34} {:>9.2} {:>9.2}  ns {unit:<6} {:>6.2}", per(ours), per(theirs), ours / theirs);
    }

    /// Two rows: the call and the wrapper.
    fn rows(name: &str, [call, wrapper, theirs]: [f64; 3], count: usize, unit: &str) {
        row(name, [call, theirs], count, unit);
        row(&format!("{name}, wrapper"), [wrapper, theirs], count, unit);
    }

    pub fn all() {
        let large = std::env::var_os("RWKV_LARGE").map(|path| std::fs::read_to_string(path).expect("RWKV_LARGE names a text"));
        let text = large.as_deref().unwrap_or_else(|| {
            println!("RWKV_LARGE names no file: the small vocabulary is used");
            PHRASEOLOGY
        });
        let ours = RwkvTokenizer::from_vocab_str(text).expect("a full vocabulary");
        let theirs = Original::from_vocab_str(text).expect("a full vocabulary");
        println!("{:<34} {:>9} {:>9}  {:<9} {:>6}", "", "library", "Rust", "a", "ratio");
        load(text);
        let inputs = [("mixed", mixed(&ours)), ("prose", prose()), ("random", random_bytes())];
        for (name, src) in &inputs {
            encode(name, &ours, &theirs, src);
        }
        for (name, src) in &inputs {
            decode(name, &ours, &theirs, &ours.encode_bytes(src).expect("a full vocabulary"));
        }
        decode("random ids", &ours, &theirs, &random_ids(&ours));
        for (name, src) in &inputs {
            stream(name, &ours, src);
        }
        for size in [1, 8, 64] {
            small_pieces(&ours, &inputs[0].1, size);
        }
        sizes(&ours, &theirs);
    }

    fn load(text: &str) {
        let times = race(
            ROUNDS / 2,
            [&mut || drop(black_box(RwkvTokenizer::from_vocab_str(black_box(text)))), &mut || {
                drop(black_box(Original::from_vocab_str(black_box(text))))
            }],
        );
        row("load", times, text.len(), "byte");
    }

    fn encode(name: &str, ours: &RwkvTokenizer, theirs: &Original, src: &[u8]) {
        let mut out = vec![0; src.len()];
        let times = race(
            ROUNDS,
            [
                &mut || _ = black_box(ffi::encode(ours.memory(), black_box(src), &mut out)),
                &mut || drop(black_box(ours.encode_bytes(black_box(src)))),
                &mut || drop(black_box(theirs.encode_bytes(black_box(src)))),
            ],
        );
        rows(&format!("encode, {name}"), times, src.len(), "byte");
    }

    fn decode(name: &str, ours: &RwkvTokenizer, theirs: &Original, ids: &[u32]) {
        let bytes = ours.decode_bytes(ids).expect("ids of the vocabulary").len();
        let mut out = vec![0; 3 * bytes];
        let times = race(
            ROUNDS,
            [
                &mut || _ = black_box(ffi::decode(ours.memory(), Decoding::Bytes, black_box(ids), &mut out)),
                &mut || drop(black_box(ours.decode_bytes(black_box(ids)))),
                &mut || drop(black_box(theirs.decode_bytes(black_box(ids)))),
            ],
        );
        rows(&format!("decode, {name}"), times, bytes, "byte");
        let times = race(
            ROUNDS / 3,
            [
                &mut || _ = black_box(ffi::decode(ours.memory(), Decoding::Lossy, black_box(ids), &mut out)),
                &mut || drop(black_box(ours.decode_lossy(black_box(ids)))),
                &mut || drop(black_box(theirs.decode_lossy(black_box(ids)))),
            ],
        );
        rows(&format!("decode lossy, {name}"), times, bytes, "byte");
    }

    /// A stream in pieces of 64 KiB against the library's own encoding of the whole, both into lent cells.
    fn stream(name: &str, ours: &RwkvTokenizer, src: &[u8]) {
        let (mut some, mut all) = (vec![0; src.len()], vec![0; src.len()]);
        let times = race(
            ROUNDS,
            [&mut || streamed(ours, src, 1 << 16, &mut some), &mut || {
                black_box(ffi::encode(ours.memory(), black_box(src), &mut all));
            }],
        );
        row(&format!("stream/encode, {name}"), times, src.len(), "byte");
    }

    /// Every piece of a size through a stream, its ids into the same cells.
    fn streamed(ours: &RwkvTokenizer, src: &[u8], size: usize, out: &mut [u32]) {
        let mut record = ffi::fresh();
        for piece in src.chunks(size) {
            black_box(ffi::add(ours.memory(), &mut record, black_box(piece), out));
        }
        black_box(ffi::end(ours.memory(), &mut record, out));
    }

    fn small_pieces(ours: &RwkvTokenizer, src: &[u8], size: usize) {
        let src = &src[..src.len() / 4];
        let mut out = vec![0; 1024];
        let [nanos] = race(ROUNDS / 2, [&mut || streamed(ours, src, size, &mut out)]);
        let calls = src.len().div_ceil(size);
        let name = format!("stream, pieces of {size}");
        println!("{name:<34} {:>9.2} ns a call, {:.2} ns a byte", nanos / calls as f64, nanos / src.len() as f64);
    }

    fn sizes(ours: &RwkvTokenizer, theirs: &Original) {
        let m = ours.memory();
        let bytes =
            size_of_val(m.single) + size_of_val(m.offsets) + size_of_val(m.blob) + size_of_val(m.roots) + size_of_val(m.table);
        let (blob, offsets, single, roots, table) = theirs.raw();
        let other = size_of_val(blob) + size_of_val(offsets) + size_of_val(single) + size_of_val(roots) + size_of_val(table);
        println!("vocabulary memory: {bytes} bytes, the Rust's {other}");
        println!("a stream's record: {} bytes; a node: {} bytes", size_of::<ffi::Stream>(), size_of::<ffi::Node>());
    }

    /// Ids at random that have a token: words, code, several scripts.
    fn random_ids(ours: &RwkvTokenizer) -> Vec<u32> {
        let mut seed = 1;
        let mut ids = Vec::new();
        while ids.len() < SIZE / 8 {
            let id = (next(&mut seed) % 65_536) as u32;
            if ours.decode_bytes(&[id]).is_ok() {
                ids.push(id);
            }
        }
        ids
    }

    /// Their bytes.
    fn mixed(ours: &RwkvTokenizer) -> Vec<u8> {
        ours.decode_bytes(&random_ids(ours)).expect("ids of the vocabulary")
    }

    /// The pages of this repository, again and again.
    fn prose() -> Vec<u8> {
        let pages = [
            include_str!("../../../README.md"),
            include_str!("../../../NOTICE"),
            include_str!("../../../docs/DECISIONS.md"),
            include_str!("../../../docs/DIFFERENCES.md"),
            include_str!("../../../docs/PROOFS.md"),
        ];
        pages.concat().into_bytes().into_iter().cycle().take(SIZE).collect()
    }

    fn random_bytes() -> Vec<u8> {
        let mut seed = 2;
        (0..SIZE).map(|_| next(&mut seed) as u8).collect()
    }

    /// The next of a run of numbers (xorshift).
    fn next(seed: &mut u64) -> u64 {
        *seed ^= *seed << 13;
        *seed ^= *seed >> 7;
        *seed ^= *seed << 17;
        *seed
    }
}
