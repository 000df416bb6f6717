//! Building with the wrapper: a program with no std and no C library, the list's room by the environment, and what build.rs says of a
//! missing archive and of another architecture's. Each runs cargo in a target folder of its own, on packages of this repository alone.

use std::path::{Path, PathBuf};
use std::process::{Command, Output};
use std::{env, fs};

const HERE: &str = env!("CARGO_MANIFEST_DIR");

fn folder(name: &str) -> PathBuf {
    let folder = Path::new(env!("CARGO_TARGET_TMPDIR")).join(name);
    fs::create_dir_all(&folder).unwrap();
    folder
}

fn cargo(words: &[&str], package: &str, name: &str) -> Command {
    let mut command = Command::new(env!("CARGO"));
    command.args(words).args(["--quiet", "--offline", "--manifest-path"]).arg(Path::new(HERE).join(package));
    command.env("CARGO_TARGET_DIR", folder(name).join("target"));
    command
}

fn said(output: &Output) -> String {
    String::from_utf8_lossy(&output.stderr).into_owned()
}

/// Its exit status is 0 where document 01's marked case comes out.
#[test]
fn a_program_with_no_std_runs() {
    let output = cargo(&["run", "--release"], "no_std/Cargo.toml", "no_std").output().unwrap();
    assert!(output.status.success(), "{:?}\n{}", output.status.code(), said(&output));
}

/// The program has two labels out at most; with room for one its third answer is another.
#[test]
fn the_list_has_the_room_that_the_environment_names() {
    for (room, status) in [("2", 0), ("1", 3)] {
        let output =
            cargo(&["run"], "no_std/Cargo.toml", "room").arg("--release").env("TREADWHARF_HELD", room).output();
        let output = output.unwrap();
        assert_eq!(output.status.code(), Some(status), "room for {room}\n{}", said(&output));
    }
    for (room, told) in [("4k", "TREADWHARF_HELD is not a number"), ("0", "TREADWHARF_HELD has no room for an entry")] {
        let output = cargo(&["check"], "Cargo.toml", "room").env("TREADWHARF_HELD", room).output().unwrap();
        assert!(!output.status.success() && said(&output).contains(told), "{}", said(&output));
    }
}

#[test]
fn a_missing_archive_is_told() {
    let empty = folder("empty");
    let output = cargo(&["check"], "Cargo.toml", "missing").env("RATTLE_LIBDIR", &empty).output().unwrap();
    let archive = fs::canonicalize(empty).unwrap().join("libtreadwharf.a");
    let told = format!("no {}: make it by `tools/archive {}`", archive.display(), env::consts::ARCH);
    assert!(!output.status.success() && said(&output).contains(&told), "{}", said(&output));
}

#[test]
fn an_archive_for_another_machine_is_told() {
    let (other, code) = if cfg!(target_arch = "x86_64") { ("aarch64", 183) } else { ("x86_64", 62) };
    let folder = folder("other");
    fs::write(folder.join("libtreadwharf.a"), archive(code)).unwrap();
    let output = cargo(&["check"], "Cargo.toml", "other").env("RATTLE_LIBDIR", &folder).output().unwrap();
    let told = format!("is for {other}, and the target is {}: ", env::consts::ARCH);
    assert!(!output.status.success() && said(&output).contains(&told), "{}", said(&output));
}

/// An archive with a symbol table of odd length and an object that is a header for one machine.
fn archive(machine: u8) -> Vec<u8> {
    let mut object = b"\x7fELF\x02\x01\x01".to_vec();
    object.resize(64, 0);
    object[18] = machine;
    let mut bytes = b"!<arch>\n".to_vec();
    for (name, member) in [("/", &b"\0\0\0\0\n"[..]), ("treadwharf.o/", &object)] {
        bytes.extend(format!("{name:<16}{:<12}{:<6}{:<6}{:<8}{:<10}`\n", 0, 0, 0, 644, member.len()).as_bytes());
        bytes.extend(member);
        bytes.extend(&b"\n"[..member.len() % 2]);
    }
    bytes
}
