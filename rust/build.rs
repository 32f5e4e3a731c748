//! Builds the proved static library with `rt lib`, if it isn't there or is older than its code, and links it. Where the environment
//! variable RWKV_ORIGINAL names a folder with the Rust crate that this was ported from, that is built too, for comparison.
use std::path::{Path, PathBuf};
use std::process::Command;
use std::time::SystemTime;
use std::{env, fs};

fn main() {
    let top = Path::new(env!("CARGO_MANIFEST_DIR")).join("..");
    link_library(&top);
    println!("cargo:rustc-check-cfg=cfg(original)");
    println!("cargo:rerun-if-env-changed=RWKV_ORIGINAL");
    if let Some(folder) = env::var_os("RWKV_ORIGINAL") {
        build_original(Path::new(&folder));
    }
}

/// Has cargo link `target/staticlib/librwkv_tokenizer.a`, a copy of what `rt lib` writes for the crate `rwkv_tokenizer_c`.
fn link_library(top: &Path) {
    let library = top.join("crates").join("rwkv_tokenizer_c");
    let folder = top.join("target").join("staticlib");
    let archive = folder.join("librwkv_tokenizer.a");
    let code = code_of(&top.join("crates"));
    if changed(&archive) < code.iter().filter_map(|file| changed(file)).max() {
        match Command::new("rt").arg("lib").current_dir(&library).status() {
            Ok(status) if status.success() => {}
            Ok(status) => panic!("`rt lib` in {} ended with {status}", library.display()),
            Err(error) => panic!("`rt` could not be run, and {} is missing or old: {error}", archive.display()),
        }
        fs::create_dir_all(&folder)
            .and_then(|()| fs::copy(library.join("out").join("librwkv_tokenizer_c.a"), &archive))
            .expect("a copy of the archive");
    }
    for file in code.iter().chain([&archive]) {
        println!("cargo:rerun-if-changed={}", file.display());
    }
    println!("cargo:rustc-link-search=native={}", folder.display());
    println!("cargo:rustc-link-lib=static=rwkv_tokenizer");
}

/// Every file of Rattle code under a folder, but for what `rt` keeps in folders named out.
fn code_of(folder: &Path) -> Vec<PathBuf> {
    let mut files = Vec::new();
    for entry in fs::read_dir(folder).into_iter().flatten().flatten() {
        let path = entry.path();
        if path.is_dir() {
            if entry.file_name() != "out" {
                files.extend(code_of(&path));
            }
        } else if path.extension().is_some_and(|extension| extension == "rt") {
            files.push(path);
        }
    }
    files
}

/// When a file was last written; none if it isn't there.
fn changed(file: &Path) -> Option<SystemTime> {
    fs::metadata(file).and_then(|meta| meta.modified()).ok()
}

/// Builds the original as the crate `original`, its private parts opened by `tests/comparison/expose.rs`, and sets the cfg of that name.
fn build_original(folder: &Path) {
    let out = PathBuf::from(env::var_os("OUT_DIR").expect("cargo sets OUT_DIR"));
    let copy = out.join("original");
    fs::create_dir_all(copy.join("src"))
        .and_then(|()| fs::create_dir_all(copy.join("vocab")))
        .expect("a folder for the original");
    let mut code = fs::read_to_string(folder.join("src/lib.rs")).expect("RWKV_ORIGINAL has src/lib.rs");
    if !code.contains("fn from_raw") {
        code += include_str!("tests/comparison/expose.rs");
    }
    fs::write(copy.join("src/lib.rs"), code).expect("the original's copy");
    fs::copy(folder.join("src/cooperate.rs"), copy.join("src/cooperate.rs")).expect("RWKV_ORIGINAL has src/cooperate.rs");
    // The vocabulary that the original has inside is never asked for.
    fs::write(copy.join("vocab/rwkv_vocab_v20230424.txt"), "").expect("the original's copy");
    let status = Command::new(env::var_os("RUSTC").expect("cargo sets RUSTC"))
        .args([
            "--edition",
            "2024",
            "--crate-name",
            "original",
            "--crate-type",
            "rlib",
            "-C",
            "opt-level=3",
            "--cap-lints",
            "allow",
        ])
        .arg("--out-dir")
        .arg(&out)
        .arg(copy.join("src/lib.rs"))
        .status();
    assert!(status.is_ok_and(|status| status.success()), "the original does not compile");
    println!("cargo:rerun-if-changed={}", folder.display());
    println!("cargo:rerun-if-changed=tests/comparison/expose.rs");
    println!("cargo:rustc-link-search=all={}", out.display());
    println!("cargo:rustc-cfg=original");
}
