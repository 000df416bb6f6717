//! Links with nothing but the wrapper: no start files, no C library.

fn main() {
    for word in ["-nostdlib", "-nostartfiles", "-static", "-no-pie"] {
        println!("cargo:rustc-link-arg-bins={word}");
    }
}
