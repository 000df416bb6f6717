//! The port by the archive's own functions: header, tables and list as a caller lends them, each call's refusal as its number. What the wrapper
//! makes of them is tried by its own tests.

use treadwharf::{AllocId, Allocation, Options, Rectangle, Size};

pub const HEADER: usize = 12;
pub const SHELVES: usize = 5 * 4_095;
pub const BUCKETS: usize = 7 * 4_095;
/// The bytes of the longest file.
pub const FILE_MOST: usize = 37 + (14 + 18) * 4_095;
/// A buffer of so many is long enough for any picture.
pub const PICTURE_MOST: usize = 72 * (2 * 4_095 + 2);
/// The entries of a list where a test asks for no other number.
const LIST: usize = 4_096;

/// An entry of the list.
#[derive(Clone, Copy, Debug, Default, PartialEq, Eq, PartialOrd, Ord)]
#[repr(C)]
pub struct Held {
    pub id: u32,
    pub left: u16,
    pub top: u16,
    pub right: u16,
    pub bottom: u16,
}

impl Held {
    pub fn of(a: Allocation) -> Held {
        let [left, top, right, bottom] = [a.rectangle.left, a.rectangle.top, a.rectangle.right, a.rectangle.bottom].map(|n| n as u16);
        Held { id: a.id.serialize(), left, top, right, bottom }
    }

    pub fn allocation(self) -> Allocation {
        let [left, top, right, bottom] = [self.left, self.top, self.right, self.bottom].map(i32::from);
        Allocation { id: AllocId::deserialize(self.id), rectangle: Rectangle { left, top, right, bottom } }
    }
}

#[rustfmt::skip]
extern "C" {
    fn treadwharf_new(
        header: *mut u32, header_count: usize, shelves: *const u16, shelves_count: usize, buckets: *const u16, buckets_count: usize,
        width: i32, height: i32, align_width: i32, align_height: i32, columns: i32, vertical: u8,
    ) -> u32;
    fn treadwharf_clear(
        header: *mut u32, header_count: usize, shelves: *const u16, shelves_count: usize, buckets: *const u16, buckets_count: usize,
        list: *const Held, list_count: usize,
    ) -> u32;
    fn treadwharf_grow(
        header: *mut u32, header_count: usize, shelves: *mut u16, shelves_count: usize, buckets: *mut u16, buckets_count: usize,
        list: *const Held, list_count: usize, width: i32, height: i32,
    ) -> u32;
    fn treadwharf_allocate(
        header: *mut u32, header_count: usize, shelves: *mut u16, shelves_count: usize, buckets: *mut u16, buckets_count: usize,
        list: *mut Held, list_count: usize, out: *mut u32, out_count: usize, width: i32, height: i32,
    ) -> u32;
    fn treadwharf_deallocate(
        header: *mut u32, header_count: usize, shelves: *const u16, shelves_count: usize, buckets: *mut u16, buckets_count: usize,
        list: *mut Held, list_count: usize, id: u32,
    ) -> u32;
    fn treadwharf_is_sound(
        header: *const u32, header_count: usize, shelves: *const u16, shelves_count: usize, buckets: *const u16, buckets_count: usize,
    ) -> bool;
    pub fn treadwharf_fits(
        header: *const u32, header_count: usize, shelves: *const u16, shelves_count: usize, buckets: *const u16, buckets_count: usize,
        list: *const Held, list_count: usize,
    ) -> bool;
    fn treadwharf_size(
        header: *const u32, header_count: usize, shelves: *const u16, shelves_count: usize, buckets: *const u16, buckets_count: usize,
        list: *const Held, list_count: usize, out: *mut u32, out_count: usize,
    ) -> u32;
    fn treadwharf_is_empty(
        header: *const u32, header_count: usize, shelves: *const u16, shelves_count: usize, buckets: *const u16, buckets_count: usize,
        list: *const Held, list_count: usize, out: *mut u32, out_count: usize,
    ) -> u32;
    fn treadwharf_allocated_space(
        header: *const u32, header_count: usize, shelves: *const u16, shelves_count: usize, buckets: *const u16, buckets_count: usize,
        list: *const Held, list_count: usize, out: *mut u32, out_count: usize,
    ) -> u32;
    fn treadwharf_free_space(
        header: *const u32, header_count: usize, shelves: *const u16, shelves_count: usize, buckets: *const u16, buckets_count: usize,
        list: *const Held, list_count: usize, out: *mut u32, out_count: usize,
    ) -> u32;
    pub fn treadwharf_write(
        header: *const u32, header_count: usize, shelves: *const u16, shelves_count: usize, buckets: *const u16, buckets_count: usize,
        list: *const Held, list_count: usize, file: *mut u8, file_count: usize, out: *mut u32, out_count: usize,
    ) -> u32;
    pub fn treadwharf_picture(
        header: *const u32, header_count: usize, shelves: *const u16, shelves_count: usize, buckets: *const u16, buckets_count: usize,
        list: *const Held, list_count: usize, text: *mut u8, text_count: usize, out: *mut u32, out_count: usize,
    ) -> u32;
    pub fn treadwharf_read(
        header: *mut u32, header_count: usize, shelves: *mut u16, shelves_count: usize, buckets: *mut u16, buckets_count: usize,
        file: *const u8, file_count: usize,
    ) -> u32;
}

/// A call that puts a text of the atlas into a lent buffer: write, picture.
#[rustfmt::skip]
pub type Saving = unsafe extern "C" fn(
    *const u32, usize, *const u16, usize, *const u16, usize, *const Held, usize, *mut u8, usize, *mut u32, usize,
) -> u32;

/// A call over header and tables, and over the list too where it stands behind a semicolon. SAFETY: each part has as many numbers as the count
/// beside it, and what is written is borrowed exclusively.
macro_rules! over {
    (mut $t:ident, $call:ident($($more:expr),*)) => {
        unsafe { $call($t.header.as_mut_ptr(), HEADER, $t.shelves.as_mut_ptr(), SHELVES, $t.buckets.as_mut_ptr(), BUCKETS $(, $more)*) }
    };
    (mut $t:ident; $call:ident($($more:expr),*)) => {
        over!(mut $t, $call($t.list.as_mut_ptr(), $t.list.len() $(, $more)*))
    };
    ($t:ident, $call:ident($($more:expr),*)) => {
        unsafe { $call($t.header.as_ptr(), HEADER, $t.shelves.as_ptr(), SHELVES, $t.buckets.as_ptr(), BUCKETS $(, $more)*) }
    };
    ($t:ident; $call:ident($($more:expr),*)) => {
        over!($t, $call($t.list.as_ptr(), $t.list.len() $(, $more)*))
    };
}

/// Header, tables and the list beside them.
#[derive(Clone, PartialEq)]
pub struct Tables {
    pub header: [u32; HEADER],
    pub shelves: [u16; SHELVES],
    pub buckets: [u16; BUCKETS],
    pub list: Vec<Held>,
}

fn told<T>(number: u32, value: T) -> Result<T, u32> {
    if number == 0 { Ok(value) } else { Err(number) }
}

impl Tables {
    pub fn new() -> Tables {
        Tables { header: [0; HEADER], shelves: [0; SHELVES], buckets: [0; BUCKETS], list: vec![Held::default(); LIST] }
    }

    /// Header and tables are the same numbers, whatever the list.
    pub fn same_tables(&self, other: &Tables) -> bool {
        self.header == other.header && self.shelves == other.shelves && self.buckets == other.buckets
    }

    /// How many entries of the list are in use, by sound tables.
    pub fn entries(&self) -> usize {
        self.buckets.chunks(7).take(self.header[9] as usize).map(|b| b[3] as usize).sum()
    }

    pub fn renew(&mut self, size: Size, o: &Options) -> Result<(), u32> {
        let new = over!(mut self, treadwharf_new(size.width, size.height, o.align_width, o.align_height, o.columns, o.vertical.into()));
        told(new, ())
    }

    pub fn clear(&mut self) -> Result<(), u32> {
        told(over!(mut self; treadwharf_clear()), ())
    }

    pub fn grow(&mut self, size: Size) -> Result<(), u32> {
        told(over!(mut self; treadwharf_grow(size.width, size.height)), ())
    }

    pub fn allocate(&mut self, size: Size) -> Result<Allocation, u32> {
        let mut out = [0; 5];
        told(over!(mut self; treadwharf_allocate(out.as_mut_ptr(), 5, size.width, size.height)), ())?;
        let [left, top, right, bottom] = std::array::from_fn(|i| out[1 + i] as i32);
        Ok(Allocation { id: AllocId::deserialize(out[0]), rectangle: Rectangle { left, top, right, bottom } })
    }

    pub fn deallocate(&mut self, id: AllocId) -> Result<(), u32> {
        told(over!(mut self; treadwharf_deallocate(id.serialize())), ())
    }

    pub fn is_sound(&self) -> bool {
        over!(self, treadwharf_is_sound())
    }

    pub fn fits(&self) -> bool {
        over!(self; treadwharf_fits())
    }

    pub fn size(&self) -> Result<Size, u32> {
        let mut out = [0; 2];
        told(over!(self; treadwharf_size(out.as_mut_ptr(), 2)), ())?;
        Ok(Size { width: out[0] as i32, height: out[1] as i32 })
    }

    pub fn is_empty(&self) -> Result<bool, u32> {
        let mut out = [7];
        told(over!(self; treadwharf_is_empty(out.as_mut_ptr(), 1)), ())?;
        assert!(out[0] < 2, "DIFFERENCE: is_empty tells {}", out[0]);
        Ok(out[0] == 1)
    }

    pub fn allocated_space(&self) -> Result<u32, u32> {
        let mut out = [0];
        told(over!(self; treadwharf_allocated_space(out.as_mut_ptr(), 1)), ())?;
        Ok(out[0])
    }

    pub fn free_space(&self) -> Result<u32, u32> {
        let mut out = [0];
        told(over!(self; treadwharf_free_space(out.as_mut_ptr(), 1)), ())?;
        Ok(out[0])
    }

    pub fn write(&self, file: &mut [u8]) -> Result<usize, u32> {
        let mut out = [0];
        told(over!(self; treadwharf_write(file.as_mut_ptr(), file.len(), out.as_mut_ptr(), 1)), ())?;
        Ok(out[0] as usize)
    }

    pub fn picture(&self, text: &mut [u8]) -> Result<usize, u32> {
        let mut out = [0];
        told(over!(self; treadwharf_picture(text.as_mut_ptr(), text.len(), out.as_mut_ptr(), 1)), ())?;
        Ok(out[0] as usize)
    }

    /// Takes no list; the one that is there stays, and may not fit any more.
    pub fn read(&mut self, file: &[u8]) -> Result<(), u32> {
        told(over!(mut self, treadwharf_read(file.as_ptr(), file.len())), ())
    }
}

impl Default for Tables {
    fn default() -> Tables {
        Tables::new()
    }
}
