//! Lays out the compared Rust for the compiler: lib.rs as it is, bucketed.rs with document 02's patches, and an empty `allocator` module for the
//! part that is left out. Both texts are in OUT_DIR alone: copies, since rt ci refuses a link anywhere below the checkout, in a build's folder too. The package `unpatched` is laid out the same, with no patch.
//! The Rust's folder is ETAGERE_SRC, or else shared/docs/src beside one of the folders above this one.

use std::path::{Path, PathBuf};
use std::{env, fs};

/// The request of document 02, a piece of a line of bucketed.rs, and what stands there in its place.
const PATCHES: [(&str, &str, &str); 2] = [
    // at least 4 for a ratio above 32, before the cap
    ("T-06", "(n /16 - 1).next_power_of_two()", "(n /16 - 1).next_power_of_two().max(4)"),
    // where the reference count reaches 0, in deallocate
    (
        "T-08",
        "bucket.free_space = shelf.bucket_width;",
        "bucket.free_space = shelf.bucket_width; bucket.item_count = 0; bucket.generation += Wrapping(1);",
    ),
];

fn main() {
    println!("cargo:rerun-if-env-changed=ETAGERE_SRC");
    let out = PathBuf::from(env::var("OUT_DIR").unwrap());
    let [whole, bucketed] = ["lib.rs", "bucketed.rs"].map(source);
    let patches = if env::var("CARGO_PKG_NAME").unwrap() == "unpatched" { &[] } else { &PATCHES[..] };
    fs::write(emptied(&out, "lib.rs"), fs::read(whole).unwrap()).unwrap();
    fs::write(emptied(&out, "bucketed.rs"), patched(&bucketed, patches)).unwrap();
    fs::write(out.join("allocator.rs"), "").unwrap();
    fs::write(out.join("root.rs"), root(&out)).unwrap();
}

/// A file of the compared Rust, where it lies.
fn source(name: &str) -> PathBuf {
    let file = folder().join("src").join(name);
    assert!(file.is_file(), "no {}: set ETAGERE_SRC to the folder that has src/", file.display());
    println!("cargo:rerun-if-changed={}", file.display());
    file
}

fn folder() -> PathBuf {
    if let Some(given) = env::var_os("ETAGERE_SRC") {
        return fs::canonicalize(given).expect("the folder that ETAGERE_SRC names");
    }
    let here = env::var("CARGO_MANIFEST_DIR").unwrap();
    let found = Path::new(&here).ancestors().map(|a| a.join("shared/docs/src")).find(|p| p.is_dir());
    found.expect("set ETAGERE_SRC to the folder that has src/bucketed.rs of etagere 0.2.15")
}

/// A name in the folder with no file behind it. What was there may be a link to the Rust itself, which must not be written to.
fn emptied(out: &Path, name: &str) -> PathBuf {
    let file = out.join(name);
    let _ = fs::remove_file(&file);
    file
}

/// Each piece must be there once, and no line may be added or lost: a panic is known by its line.
fn patched(file: &Path, patches: &[(&str, &str, &str)]) -> String {
    let mut text = fs::read_to_string(file).unwrap();
    for (request, piece, ours) in patches {
        let times = text.matches(piece).count();
        assert!(times == 1, "{request}'s patch does not apply: {} has {times} times {piece:?}", file.display());
        assert_eq!(piece.lines().count(), ours.lines().count(), "{request}'s patch moves the lines behind it");
        text = text.replace(piece, ours);
    }
    text
}

/// The root cannot name a path by an environment variable, so it is written here with the path in it.
fn root(out: &Path) -> String {
    let at = |name: &str| out.join(name).display().to_string();
    format!(
        "#[path = {:?}]\nmod whole;\npub use whole::*;\npub const BUCKETED: &str = include_str!({:?});\n",
        at("lib.rs"),
        at("bucketed.rs")
    )
}
