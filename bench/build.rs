//! Links libleaf.a, which bench/run puts beside libtreadwharf.a.

fn main() {
    println!("cargo:rerun-if-env-changed=RATTLE_LIBDIR");
    let folder = std::env::var("RATTLE_LIBDIR").expect("RATTLE_LIBDIR, the folder of both archives, which bench/run sets");
    println!("cargo:rerun-if-changed={folder}/libleaf.a");
    println!("cargo:rustc-link-search=native={folder}");
    println!("cargo:rustc-link-lib=static=leaf");
}
