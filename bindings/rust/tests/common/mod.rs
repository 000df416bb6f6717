//! What the tests share: tables on the heap that never were on the stack, answers by their numbers, every call on tables, seeded numbers.
#![allow(dead_code)] // each test file takes what it needs

use std::alloc::{alloc_zeroed, handle_alloc_error, Layout};
use treadwharf::{size2, AllocId, Allocation, Atlas, Held, Options, Rectangle, Refusal, Size, Tables};

/// README.md's way.
pub fn boxed() -> Box<Tables> {
    let layout = Layout::new::<Tables>();
    // SAFETY: the layout is that of Tables and not of size 0, and zeros are a value of each number in it
    unsafe {
        let room = alloc_zeroed(layout).cast::<Tables>();
        if room.is_null() {
            handle_alloc_error(layout);
        }
        Box::from_raw(room)
    }
}

/// Numbers of no atlas, so that nothing can rest on zeros past the counts.
pub fn junk() -> Box<Tables> {
    let mut tables = boxed();
    tables.header.iter_mut().enumerate().for_each(|(i, n)| *n = (i as u32 + 3).wrapping_mul(2_654_435_761));
    tables.shelves.iter_mut().enumerate().for_each(|(i, n)| *n = (i * 40_503) as u16);
    tables.buckets.iter_mut().enumerate().for_each(|(i, n)| *n = (i * 30_011 + 7) as u16);
    tables.held.iter_mut().enumerate().for_each(|(i, n)| *n = Held::from_bytes([(i * 89 + 5) as u8; 12]));
    tables
}

pub fn atlas(width: i32, height: i32) -> Atlas<Box<Tables>> {
    Atlas::new(junk(), size2(width, height)).unwrap()
}

pub fn given(id: u32, left: i32, top: i32, right: i32, bottom: i32) -> Result<Allocation, Refusal> {
    Ok(Allocation { id: AllocId::deserialize(id), rectangle: Rectangle { left, top, right, bottom } })
}

pub fn id(number: u32) -> AllocId {
    AllocId::deserialize(number)
}

pub fn entry(number: u32, [left, top, right, bottom]: [u16; 4]) -> Held {
    Held { id: id(number), left, top, right, bottom }
}

/// A list that fits sound tables, of whatever history: each bucket's items 1 and on, a pixel wide each from its left end on.
pub fn made_up(tables: &Tables) -> Vec<Held> {
    let buckets = tables.buckets.chunks(7).take(tables.header[9] as usize).enumerate();
    let entries = buckets.flat_map(|(place, bucket)| {
        let shelf = &tables.shelves[5 * bucket[5] as usize..];
        let (x, generation, y, top) = (bucket[0], u32::from(bucket[6]), shelf[1], shelf[1] + shelf[2]);
        (0..bucket[3]).map(move |i| {
            let number = (generation << 24) + ((u32::from(i) + 1) << 12) + place as u32;
            entry(number, [x + i, y, x + i + 1, top])
        })
    });
    entries.collect()
}

/// A call, for tests that make it on several atlases.
#[derive(Clone, Copy, Debug)]
pub enum Call {
    Renew(Size, Options),
    Clear,
    Grow(Size),
    Allocate(Size),
    Deallocate(AllocId),
}

/// What the call answers on the tables themselves; the allocation where it hands one out.
pub fn on_tables(tables: &mut Tables, call: Call) -> Result<Option<Allocation>, Refusal> {
    match call {
        Call::Renew(size, options) => tables.renew(size, &options).map(|()| None),
        Call::Clear => tables.clear().map(|()| None),
        Call::Grow(size) => tables.grow(size).map(|()| None),
        Call::Allocate(size) => tables.allocate(size).map(Some),
        Call::Deallocate(id) => tables.deallocate(id).map(|()| None),
    }
}

/// The same on an atlas, wherever its tables are.
pub fn on_atlas<T: std::borrow::BorrowMut<Tables>>(
    atlas: &mut Atlas<T>, call: Call,
) -> Result<Option<Allocation>, Refusal> {
    match call {
        Call::Renew(size, options) => atlas.renew(size, &options).map(|()| None),
        Call::Clear => atlas.clear().map(|()| None),
        Call::Grow(size) => atlas.grow(size).map(|()| None),
        Call::Allocate(size) => atlas.allocate(size).map(Some),
        Call::Deallocate(id) => atlas.deallocate(id).map(|()| None),
    }
}

/// The same numbers on every machine (splitmix64).
pub struct Random(pub u64);

impl Random {
    pub fn next(&mut self) -> u64 {
        self.0 = self.0.wrapping_add(0x9e37_79b9_7f4a_7c15);
        let z = (self.0 ^ (self.0 >> 30)).wrapping_mul(0xbf58_476d_1ce4_e5b9);
        let z = (z ^ (z >> 27)).wrapping_mul(0x94d0_49bb_1331_11eb);
        z ^ (z >> 31)
    }

    /// From `low` to `high`, both included.
    pub fn from(&mut self, low: i32, high: i32) -> i32 {
        low + (self.next() % (high - low + 1) as u64) as i32
    }

    pub fn one_of<T: Copy>(&mut self, of: &[T]) -> T {
        of[(self.next() % of.len() as u64) as usize]
    }
}
