//! The compared Rust: its lib.rs with its bucketed.rs, the latter with document 02's patches, and as it is in the package `unpatched` (see build.rs).
//! BUCKETED is the text of bucketed.rs as it is compiled, by which the oracle knows the line that a panic came from.
#![allow(dead_code, unused_imports)]

include!(concat!(env!("OUT_DIR"), "/root.rs"));
