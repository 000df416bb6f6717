// The safe wrapper of the C functions in include/treadwharf.h. `Tables` makes the calls on any numbers; `Atlas` is over tables that are
// known to be sound, and a list that fits them. The crate's page is README.md, whose code is tested with the rest.
#![doc = include_str!("../README.md")]
#![no_std]
#![deny(missing_docs, unsafe_code)]

mod atlas;
#[allow(unsafe_code)]
mod ffi;
mod geometry;
mod given;
mod held;
mod refusal;
mod tables;

pub use atlas::Atlas;
pub use geometry::{size2, Rectangle, Size};
pub use given::{AllocId, Allocation, Options};
pub use held::Held;
pub use refusal::{NoRefusal, Refusal};
pub use tables::{Tables, BUCKETS, FILE_MOST, HEADER, HELD, PICTURE_MOST, SHELVES};

/// docs/ETAGERE.md, whose code is held to this crate by the documentation tests.
#[cfg(doctest)]
#[doc = include_str!("../../../docs/ETAGERE.md")]
pub struct EtagerePage;
