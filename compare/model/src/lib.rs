//! A second opinion: document 01's rules written again, from the document alone, on plain numbers; of document 02, T-01, T-02 and
//! T-04 to T-08.
//! `tables` is the state, `sizes` modules 1 and 2, `place` 4 to 8, `calls` the public calls, 3, 9 and 10,
//! `sound` the tables test, `files` write and read, `repair` what a read mends, `picture` the SVG, `held` the list and its test, `listed` the calls
//! with it, `replay` the trace.

pub mod calls;
pub mod files;
pub mod held;
pub mod listed;
pub mod picture;
pub mod place;
pub mod repair;
pub mod replay;
pub mod sizes;
pub mod sound;
pub mod tables;

#[cfg(test)]
mod files_tests;
#[cfg(test)]
mod held_tests;
#[cfg(test)]
mod picture_tests;
#[cfg(test)]
mod repair_tests;
#[cfg(test)]
mod sound_tests;
