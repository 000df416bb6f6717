//! Links libtreadwharf.a: from the folder that RATTLE_LIBDIR names, or else from where the repository's tools/archive leaves it.
//! A missing archive, and one for another architecture than the target's, are told here: the linker's words would say less.

use std::path::{Path, PathBuf};
use std::{env, fs, process};

fn main() {
    println!("cargo:rerun-if-env-changed=RATTLE_LIBDIR");
    let folder = folder();
    let archive = folder.join("libtreadwharf.a");
    println!("cargo:rerun-if-changed={}", archive.display());
    if let Err(why) = fits(&archive) {
        eprintln!("{why}");
        process::exit(1);
    }
    println!("cargo:rustc-link-search=native={}", folder.display());
    println!("cargo:rustc-link-lib=static=treadwharf");
}

/// Whole, since the compiler may run in another folder than this script.
fn folder() -> PathBuf {
    let named = env::var_os("RATTLE_LIBDIR").map_or_else(left, PathBuf::from);
    fs::canonicalize(&named).unwrap_or(named)
}

fn left() -> PathBuf {
    let target = Path::new(&env::var_os("CARGO_MANIFEST_DIR").unwrap()).join("../../target");
    target.join("archive").join(env::var("CARGO_CFG_TARGET_ARCH").unwrap())
}

fn fits(archive: &Path) -> Result<(), String> {
    let target = env::var("CARGO_CFG_TARGET_ARCH").unwrap();
    let Ok(bytes) = fs::read(archive) else {
        let made = format!("make it by `tools/archive {target}`, or name the folder that has it in RATTLE_LIBDIR");
        return Err(format!("no {}: {made}", archive.display()));
    };
    match machine(&bytes) {
        Some(its) if its != target => {
            let made = format!("`tools/archive {target} FOLDER` makes one for it; name FOLDER in RATTLE_LIBDIR");
            Err(format!("{} is for {its}, and the target is {target}: {made}", archive.display()))
        }
        _ => Ok(()),
    }
}

/// The architecture of the archive's first ELF member, by Rust's name; nothing where it can not be told.
fn machine(archive: &[u8]) -> Option<&'static str> {
    let mut rest = archive.strip_prefix(b"!<arch>\n")?;
    // a member: 60 bytes of header with the size in decimal at 48, then the member, at even places
    while rest.len() > 60 {
        let size: usize = std::str::from_utf8(&rest[48..58]).ok()?.trim_end().parse().ok()?;
        let member = rest.get(60..60 + size)?;
        if member.starts_with(b"\x7fELF") {
            return match member.get(18..20)? {
                [62, 0] => Some("x86_64"),
                [183, 0] => Some("aarch64"),
                _ => None,
            };
        }
        rest = rest.get(60 + size + size % 2..)?;
    }
    None
}
