//! The oracle: the crate's own answers as document 01's numbers and lines.
//! `atlas` makes the calls, `undo` takes back one that panicked, `panics` tells what a panic stands for, `replay` reads traces and writes lines.

pub mod atlas;
pub mod panics;
pub mod replay;
pub mod undo;
