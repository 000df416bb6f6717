//! The functions of libtreadwharf.a over `Tables`. This is all that is unsafe in the crate, and for one reason throughout: each pointer is
//! that of an array of as many numbers, bytes or entries as the count beside it says, and what is written is borrowed exclusively, so that
//! it overlaps nothing else. Nothing more is asked of a caller: every function answers on any numbers.

use crate::refusal::accepted;
use crate::{Held, Options, Refusal, Size, Tables, BUCKETS, HEADER, HELD, SHELVES};

extern "C" {
    fn treadwharf_new(
        header: *mut u32, header_count: usize, shelves: *const u16, shelves_count: usize, buckets: *const u16,
        buckets_count: usize, width: i32, height: i32, align_width: i32, align_height: i32, columns: i32, vertical: u8,
    ) -> u32;
    fn treadwharf_clear(
        header: *mut u32, header_count: usize, shelves: *const u16, shelves_count: usize, buckets: *const u16,
        buckets_count: usize, list: *const Held, list_count: usize,
    ) -> u32;
    fn treadwharf_grow(
        header: *mut u32, header_count: usize, shelves: *mut u16, shelves_count: usize, buckets: *mut u16,
        buckets_count: usize, list: *const Held, list_count: usize, width: i32, height: i32,
    ) -> u32;
    fn treadwharf_allocate(
        header: *mut u32, header_count: usize, shelves: *mut u16, shelves_count: usize, buckets: *mut u16,
        buckets_count: usize, list: *mut Held, list_count: usize, out: *mut u32, out_count: usize, width: i32,
        height: i32,
    ) -> u32;
    fn treadwharf_deallocate(
        header: *mut u32, header_count: usize, shelves: *const u16, shelves_count: usize, buckets: *mut u16,
        buckets_count: usize, list: *mut Held, list_count: usize, id: u32,
    ) -> u32;
    fn treadwharf_is_sound(
        header: *const u32, header_count: usize, shelves: *const u16, shelves_count: usize, buckets: *const u16,
        buckets_count: usize,
    ) -> bool;
    fn treadwharf_fits(
        header: *const u32, header_count: usize, shelves: *const u16, shelves_count: usize, buckets: *const u16,
        buckets_count: usize, list: *const Held, list_count: usize,
    ) -> bool;
    fn treadwharf_size(
        header: *const u32, header_count: usize, shelves: *const u16, shelves_count: usize, buckets: *const u16,
        buckets_count: usize, list: *const Held, list_count: usize, out: *mut u32, out_count: usize,
    ) -> u32;
    fn treadwharf_is_empty(
        header: *const u32, header_count: usize, shelves: *const u16, shelves_count: usize, buckets: *const u16,
        buckets_count: usize, list: *const Held, list_count: usize, out: *mut u32, out_count: usize,
    ) -> u32;
    fn treadwharf_allocated_space(
        header: *const u32, header_count: usize, shelves: *const u16, shelves_count: usize, buckets: *const u16,
        buckets_count: usize, list: *const Held, list_count: usize, out: *mut u32, out_count: usize,
    ) -> u32;
    fn treadwharf_free_space(
        header: *const u32, header_count: usize, shelves: *const u16, shelves_count: usize, buckets: *const u16,
        buckets_count: usize, list: *const Held, list_count: usize, out: *mut u32, out_count: usize,
    ) -> u32;
    fn treadwharf_write(
        header: *const u32, header_count: usize, shelves: *const u16, shelves_count: usize, buckets: *const u16,
        buckets_count: usize, list: *const Held, list_count: usize, file: *mut u8, file_count: usize, out: *mut u32,
        out_count: usize,
    ) -> u32;
    fn treadwharf_picture(
        header: *const u32, header_count: usize, shelves: *const u16, shelves_count: usize, buckets: *const u16,
        buckets_count: usize, list: *const Held, list_count: usize, text: *mut u8, text_count: usize, out: *mut u32,
        out_count: usize,
    ) -> u32;
    fn treadwharf_read(
        header: *mut u32, header_count: usize, shelves: *mut u16, shelves_count: usize, buckets: *mut u16,
        buckets_count: usize, file: *const u8, file_count: usize,
    ) -> u32;
}

pub fn new(t: &mut Tables, size: Size, o: &Options) -> Result<(), Refusal> {
    let (h, s, b) = (t.header.as_mut_ptr(), t.shelves.as_ptr(), t.buckets.as_ptr());
    let (aw, ah, vertical) = (o.align_width, o.align_height, o.vertical.into());
    let number = unsafe {
        treadwharf_new(h, HEADER, s, SHELVES, b, BUCKETS, size.width, size.height, aw, ah, o.columns, vertical)
    };
    accepted(number, ())
}

pub fn clear(t: &mut Tables) -> Result<(), Refusal> {
    let (h, s, b, l) = (t.header.as_mut_ptr(), t.shelves.as_ptr(), t.buckets.as_ptr(), t.held.as_ptr());
    accepted(unsafe { treadwharf_clear(h, HEADER, s, SHELVES, b, BUCKETS, l, HELD) }, ())
}

pub fn grow(t: &mut Tables, size: Size) -> Result<(), Refusal> {
    let (h, s, b, l) = (t.header.as_mut_ptr(), t.shelves.as_mut_ptr(), t.buckets.as_mut_ptr(), t.held.as_ptr());
    accepted(unsafe { treadwharf_grow(h, HEADER, s, SHELVES, b, BUCKETS, l, HELD, size.width, size.height) }, ())
}

/// The id, then the rectangle's left, top, right and bottom.
pub fn allocate(t: &mut Tables, size: Size) -> Result<[u32; 5], Refusal> {
    let (h, s, b, l) = (t.header.as_mut_ptr(), t.shelves.as_mut_ptr(), t.buckets.as_mut_ptr(), t.held.as_mut_ptr());
    let mut out = [0; 5];
    let (o, n, Size { width, height }) = (out.as_mut_ptr(), out.len(), size);
    let number = unsafe { treadwharf_allocate(h, HEADER, s, SHELVES, b, BUCKETS, l, HELD, o, n, width, height) };
    accepted(number, out)
}

pub fn deallocate(t: &mut Tables, id: u32) -> Result<(), Refusal> {
    let (h, s, b, l) = (t.header.as_mut_ptr(), t.shelves.as_ptr(), t.buckets.as_mut_ptr(), t.held.as_mut_ptr());
    accepted(unsafe { treadwharf_deallocate(h, HEADER, s, SHELVES, b, BUCKETS, l, HELD, id) }, ())
}

pub fn is_sound(t: &Tables) -> bool {
    let (h, s, b) = (t.header.as_ptr(), t.shelves.as_ptr(), t.buckets.as_ptr());
    unsafe { treadwharf_is_sound(h, HEADER, s, SHELVES, b, BUCKETS) }
}

/// Whether the tables are sound and this list fits them, which need not be their own.
pub fn fits(t: &Tables, list: &[Held]) -> bool {
    let (h, s, b) = (t.header.as_ptr(), t.shelves.as_ptr(), t.buckets.as_ptr());
    unsafe { treadwharf_fits(h, HEADER, s, SHELVES, b, BUCKETS, list.as_ptr(), list.len()) }
}

/// Width, height.
pub fn size(t: &Tables) -> Result<[u32; 2], Refusal> {
    told(treadwharf_size, t)
}

/// 1 where there is no shelf, else 0.
pub fn is_empty(t: &Tables) -> Result<[u32; 1], Refusal> {
    told(treadwharf_is_empty, t)
}

pub fn allocated_space(t: &Tables) -> Result<[u32; 1], Refusal> {
    told(treadwharf_allocated_space, t)
}

pub fn free_space(t: &Tables) -> Result<[u32; 1], Refusal> {
    told(treadwharf_free_space, t)
}

/// How many bytes.
pub fn write(t: &Tables, file: &mut [u8]) -> Result<[u32; 1], Refusal> {
    saved(treadwharf_write, t, file)
}

/// How many bytes.
pub fn picture(t: &Tables, text: &mut [u8]) -> Result<[u32; 1], Refusal> {
    saved(treadwharf_picture, t, text)
}

pub fn read(t: &mut Tables, file: &[u8]) -> Result<(), Refusal> {
    let (h, s, b) = (t.header.as_mut_ptr(), t.shelves.as_mut_ptr(), t.buckets.as_mut_ptr());
    accepted(unsafe { treadwharf_read(h, HEADER, s, SHELVES, b, BUCKETS, file.as_ptr(), file.len()) }, ())
}

type Reading = unsafe extern "C" fn(
    *const u32,
    usize,
    *const u16,
    usize,
    *const u16,
    usize,
    *const Held,
    usize,
    *mut u32,
    usize,
) -> u32;

fn told<const N: usize>(reading: Reading, t: &Tables) -> Result<[u32; N], Refusal> {
    let (h, s, b, l) = (t.header.as_ptr(), t.shelves.as_ptr(), t.buckets.as_ptr(), t.held.as_ptr());
    let mut out = [0; N];
    accepted(unsafe { reading(h, HEADER, s, SHELVES, b, BUCKETS, l, HELD, out.as_mut_ptr(), N) }, ())?;
    Ok(out)
}

type Saving = unsafe extern "C" fn(
    *const u32,
    usize,
    *const u16,
    usize,
    *const u16,
    usize,
    *const Held,
    usize,
    *mut u8,
    usize,
    *mut u32,
    usize,
) -> u32;

fn saved(saving: Saving, t: &Tables, bytes: &mut [u8]) -> Result<[u32; 1], Refusal> {
    let (h, s, b, l) = (t.header.as_ptr(), t.shelves.as_ptr(), t.buckets.as_ptr(), t.held.as_ptr());
    let mut out = [0; 1];
    let (to, o) = (bytes.as_mut_ptr(), out.as_mut_ptr());
    let number = unsafe { saving(h, HEADER, s, SHELVES, b, BUCKETS, l, HELD, to, bytes.len(), o, out.len()) };
    accepted(number, out)
}
