//! Compares the library with the Rust crate that it was ported from, and in edition 2, which that crate has not, with a reader of
//! literals made from the documents. The environment variable RWKV_ORIGINAL names that crate's folder, RWKV_LARGE a large vocabulary's
//! file; where the first is missing when this is built, the comparison is skipped.

#[cfg(not(original))]
fn main() {
    println!("comparison skipped: RWKV_ORIGINAL names no folder with the original crate");
}

#[cfg(original)]
mod groups;

#[cfg(original)]
fn main() {
    groups::all();
}
