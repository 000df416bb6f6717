//! Header, tables and list as plain numbers, and the calls on them. Any numbers are answered: each call tests them first, and refuses what
//! is not sound or does not fit.

use crate::{ffi, AllocId, Allocation, Held, Options, Rectangle, Refusal, Size};
use core::fmt;

/// The header's numbers, in this order: width, height, width alignment, height alignment, columns, column width, current column, room,
/// shelf count, bucket count, first released bucket, occupied figure.
///
/// ```
/// assert_eq!(treadwharf::Tables::new().header.len(), treadwharf::HEADER);
/// ```
pub const HEADER: usize = 12;

/// The shelves' numbers: x, y, height, bucket width and first bucket of each of 4,095.
///
/// ```
/// assert_eq!(treadwharf::Tables::new().shelves.len(), treadwharf::SHELVES);
/// ```
pub const SHELVES: usize = 5 * 4095;

/// The buckets' numbers: x, free width, next, reference count, item count, shelf and generation of each of 4,095.
///
/// ```
/// assert_eq!(treadwharf::Tables::new().buckets.len(), treadwharf::BUCKETS);
/// ```
pub const BUCKETS: usize = 7 * 4095;

/// The entries of the list: one for each rectangle that is out at the same time. One more is refused as [`Refusal::Full`].
///
/// 4,096, or the number that `TREADWHARF_HELD` has in the environment when this crate is built, for instance by `[env]` in a program's
/// `.cargo/config.toml`. Each entry takes 12 bytes.
///
/// ```
/// assert_eq!(treadwharf::Tables::new().held.len(), treadwharf::HELD);
/// ```
pub const HELD: usize = match option_env!("TREADWHARF_HELD") {
    Some(digits) => number(digits.as_bytes()),
    None => 4096,
};

const fn number(digits: &[u8]) -> usize {
    let (mut value, mut place) = (0, 0);
    while place < digits.len() {
        assert!(digits[place].is_ascii_digit(), "TREADWHARF_HELD is not a number");
        value = 10 * value + (digits[place] - b'0') as usize;
        place += 1;
    }
    assert!(value > 0, "TREADWHARF_HELD has no room for an entry");
    value
}

/// The bytes of the longest file that [`Tables::write`] makes: a buffer of so many is long enough for any atlas.
///
/// ```
/// assert_eq!(treadwharf::FILE_MOST, 131_077);
/// ```
pub const FILE_MOST: usize = 37 + 14 * 4095 + 18 * 4095;

/// The bytes of a buffer that is long enough for the [`Tables::picture`] of any atlas: two lines of at most 72 for each of 4,095 buckets, and at most
/// 144 for the other three.
///
/// ```
/// assert_eq!(treadwharf::PICTURE_MOST, 589_824);
/// ```
pub const PICTURE_MOST: usize = 72 * (2 * 4095 + 2);

/// The header and the two tables of one atlas, and the list of what is held: 147,480 bytes, laid out as in C.
///
/// Any numbers may stand in it, and every call answers: it tests them first, in one pass over what is in use, and refuses what is not sound
/// as [`Refusal::Tables`] and a list that does not fit as [`Refusal::List`]. So these calls are the ones for memory that something else may
/// write between two of them: another core, DMA, a debugger, code in C. During a call nothing else may write it, by Rust's own rule for
/// references.
///
/// Where nothing else writes it, put an [`Atlas`](crate::Atlas) over it: its reading calls are plain values, with no test.
///
/// All zeros are a value of this type (of no atlas: not sound until [`renew`](Tables::renew)), so a `static` costs no room in an image.
///
/// ```
/// use treadwharf::{size2, Options, Refusal, Tables};
///
/// let mut tables = Tables::new();
/// tables.renew(size2(64, 64), &Options::default())?;
/// tables.allocate(size2(10, 7))?;
///
/// tables.buckets[3] = 5; // something else writes a bucket's reference count
/// assert_eq!(tables.size(), Err(Refusal::Tables));
/// assert_eq!(tables.allocate(size2(1, 1)), Err(Refusal::Tables));
/// # Ok::<(), Refusal>(())
/// ```
///
/// Memory that something else writes is best held by its address, with a reference for the length of each call and no longer:
///
/// ```
/// # use treadwharf::{size2, Options, Refusal, Tables};
/// # let memory = Box::new(Tables::new());
/// let shared: *mut Tables = Box::into_raw(memory);
/// // SAFETY: valid for reads and writes, and the other side writes between these calls alone
/// unsafe { (*shared).renew(size2(64, 64), &Options::default())? };
/// unsafe { shared.cast::<u32>().write(63) }; // the other side: a width of 63
/// assert_eq!(unsafe { (*shared).size() }, Err(Refusal::Tables));
/// # drop(unsafe { Box::from_raw(shared) });
/// # Ok::<(), Refusal>(())
/// ```
#[derive(Clone, PartialEq, Eq)]
#[repr(C)]
pub struct Tables {
    /// See [`HEADER`].
    pub header: [u32; HEADER],
    /// See [`SHELVES`].
    pub shelves: [u16; SHELVES],
    /// See [`BUCKETS`].
    pub buckets: [u16; BUCKETS],
    /// See [`HELD`]. [`held`](Tables::held) has those of them that are held.
    pub held: [Held; HELD],
}

/// Places in the header.
pub(crate) const WIDTH: usize = 0;
pub(crate) const HEIGHT: usize = 1;
pub(crate) const COLUMNS: usize = 4;
pub(crate) const SHELF_COUNT: usize = 8;
pub(crate) const BUCKET_COUNT: usize = 9;
pub(crate) const OCCUPIED: usize = 11;

/// A bucket's numbers, and the place of the reference count among them.
const BUCKET: usize = 7;
const REFS: usize = 3;

impl Tables {
    /// Room for an atlas, all zeros: of no atlas yet.
    ///
    /// ```
    /// use treadwharf::Tables;
    /// use std::sync::Mutex;
    ///
    /// static ROOM: Mutex<Tables> = Mutex::new(Tables::new());
    ///
    /// assert!(!ROOM.lock().unwrap().is_sound());
    /// assert_eq!(core::mem::size_of::<Tables>(), 147_480);
    /// ```
    pub const fn new() -> Tables {
        Tables { header: [0; HEADER], shelves: [0; SHELVES], buckets: [0; BUCKETS], held: [Held::NONE; HELD] }
    }

    /// Makes a new, empty atlas, whatever stood here before, the list too: nothing is held. It writes the header alone. Refused, what stood
    /// here stays.
    ///
    /// ```
    /// use treadwharf::{size2, Options, Refusal, Tables};
    ///
    /// let mut tables = Tables::new();
    /// assert_eq!(tables.renew(size2(64, 46_341), &Options::DEFAULT), Err(Refusal::Side));
    /// assert_eq!(tables.renew(size2(64, 46_340), &Options::DEFAULT), Ok(()));
    /// ```
    pub fn renew(&mut self, size: Size, options: &Options) -> Result<(), Refusal> {
        ffi::new(self, size, options)
    }

    /// Empties the atlas. Ids given before are of no use after it, and are given again.
    ///
    /// ```
    /// # use treadwharf::{size2, Options, Refusal, Tables};
    /// # let mut tables = Tables::new();
    /// assert_eq!(tables.clear(), Err(Refusal::Tables)); // no atlas yet
    /// tables.renew(size2(64, 64), &Options::DEFAULT)?;
    /// tables.allocate(size2(10, 7))?;
    /// tables.clear()?;
    /// assert_eq!(tables.is_empty(), Ok(true));
    /// # Ok::<(), Refusal>(())
    /// ```
    pub fn clear(&mut self) -> Result<(), Refusal> {
        ffi::clear(self)
    }

    /// Makes the atlas larger; what is held stays where it is.
    ///
    /// ```
    /// # use treadwharf::{size2, Options, Refusal, Tables};
    /// # let mut tables = Tables::new();
    /// tables.renew(size2(64, 64), &Options::DEFAULT)?;
    /// tables.grow(size2(64, 128))?;
    /// assert_eq!(tables.size(), Ok(size2(64, 128)));
    /// assert_eq!(tables.grow(size2(64, 64)), Err(Refusal::Shrink));
    /// # Ok::<(), Refusal>(())
    /// ```
    pub fn grow(&mut self, size: Size) -> Result<(), Refusal> {
        ffi::grow(self, size)
    }

    /// Hands out a rectangle at least as large as asked for.
    ///
    /// ```
    /// # use treadwharf::{size2, Options, Refusal, Tables};
    /// # let mut tables = Tables::new();
    /// tables.renew(size2(64, 64), &Options::DEFAULT)?;
    /// assert_eq!(tables.allocate(size2(10, 7))?.rectangle.size(), size2(10, 8));
    /// assert_eq!(tables.allocate(size2(0, 7)), Err(Refusal::Small));
    /// assert_eq!(tables.allocate(size2(65, 7)), Err(Refusal::Wide));
    /// # Ok::<(), Refusal>(())
    /// ```
    pub fn allocate(&mut self, size: Size) -> Result<Allocation, Refusal> {
        let [id, left, top, right, bottom] = ffi::allocate(self, size)?;
        let [left, top, right, bottom] = [left, top, right, bottom].map(|corner| corner as i32); // at most 46,340
        Ok(Allocation { id: AllocId::deserialize(id), rectangle: Rectangle { left, top, right, bottom } })
    }

    /// Takes the rectangle of an id back, and its entry out of the list. Its bucket's pixels are free again once nothing of the bucket is held.
    ///
    /// An id that is not held is refused, one that was handed back already among them: as [`Refusal::Unknown`], [`Refusal::Stale`] or
    /// [`Refusal::Unheld`] where its bucket says so much, as [`Refusal::NotHeld`] where the bucket has other held rectangles. A bucket's
    /// generation rises each time that nothing of it is held any more, and once more when it is laid again. Generations count to 255, so an id comes
    /// again in time, 128 rounds of laying and emptying at the soonest, and is then the new rectangle's.
    ///
    /// ```
    /// # use treadwharf::{size2, Options, Refusal, Tables};
    /// # let mut tables = Tables::new();
    /// tables.renew(size2(64, 64), &Options::DEFAULT)?;
    /// let [label, other] = [tables.allocate(size2(10, 7))?, tables.allocate(size2(12, 7))?]; // in one bucket
    /// assert_eq!(tables.deallocate(label.id), Ok(()));
    /// assert_eq!(tables.deallocate(label.id), Err(Refusal::NotHeld));
    /// assert_eq!(tables.deallocate(other.id), Ok(()));
    /// assert_eq!(tables.deallocate(other.id), Err(Refusal::Stale)); // the bucket's last
    /// # Ok::<(), Refusal>(())
    /// ```
    pub fn deallocate(&mut self, id: AllocId) -> Result<(), Refusal> {
        ffi::deallocate(self, id.serialize())
    }

    /// The tables test: whether header and tables are those of an atlas, undamaged as far as document 01's "Sound tables" can tell.
    ///
    /// ```
    /// # use treadwharf::{size2, Options, Refusal, Tables};
    /// # let mut tables = Tables::new();
    /// assert!(!tables.is_sound());
    /// tables.renew(size2(64, 64), &Options::DEFAULT)?;
    /// assert!(tables.is_sound());
    /// # Ok::<(), Refusal>(())
    /// ```
    pub fn is_sound(&self) -> bool {
        ffi::is_sound(self)
    }

    /// The list's test: whether header and tables are sound and the list fits them. By document 02's T-02 each bucket has as many entries as
    /// its reference count says; each entry names a bucket of its generation, with an item number that was given there, and a rectangle that
    /// lies in the bucket's used part; and no two entries share an id or a pixel.
    ///
    /// ```
    /// # use treadwharf::{size2, Options, Refusal, Tables};
    /// # let mut tables = Tables::new();
    /// tables.renew(size2(64, 64), &Options::DEFAULT)?;
    /// tables.allocate(size2(10, 7))?;
    /// assert!(tables.fits());
    /// tables.held[0].right += 1; // something else makes the rectangle wider than what is used
    /// assert!(tables.is_sound() && !tables.fits());
    /// assert_eq!(tables.size(), Err(Refusal::List));
    /// # Ok::<(), Refusal>(())
    /// ```
    pub fn fits(&self) -> bool {
        ffi::fits(self, &self.held)
    }

    /// What is held: the list's first entries, as many as the buckets' reference counts add up to. They stand bucket by bucket, and in each
    /// from left to right; a list that was lent keeps the order it had. Refused as every reading call, where the tables are not sound or the
    /// list does not fit.
    ///
    /// ```
    /// # use treadwharf::{size2, Options, Refusal, Tables};
    /// # let mut tables = Tables::new();
    /// assert_eq!(tables.held(), Err(Refusal::Tables)); // no atlas yet
    /// tables.renew(size2(64, 64), &Options::DEFAULT)?;
    /// let [label, other] = [tables.allocate(size2(10, 7))?, tables.allocate(size2(12, 7))?];
    /// tables.deallocate(label.id)?;
    /// let ids: Vec<_> = tables.held()?.iter().map(|entry| entry.id).collect();
    /// assert_eq!(ids, [other.id]);
    /// # Ok::<(), Refusal>(())
    /// ```
    pub fn held(&self) -> Result<&[Held], Refusal> {
        self.tested()?;
        Ok(self.listed())
    }

    /// Lends a list anew after a [`read`](Tables::read): the one that was [`held`](Tables::held) at the writing. It is copied; of a longer one
    /// the first entries count, as many as are held. Refused as [`Refusal::List`] where it does not fit the tables, or where they have not
    /// the room ([`HELD`]); then all stays as it is.
    ///
    /// What the list says is held from here on: its ids are taken back, its rectangles are not handed out. Other rectangles than were
    /// issued may fit too. So lend the list that was kept, and no other.
    ///
    /// ```
    /// # use treadwharf::{size2, Options, Refusal, Tables};
    /// # let mut tables = Tables::new();
    /// tables.renew(size2(64, 64), &Options::DEFAULT)?;
    /// let label = tables.allocate(size2(10, 7))?;
    /// let mut buffer = [0; 128];
    /// let bytes = tables.write(&mut buffer)?;
    /// let list = tables.held()?.to_vec();
    ///
    /// tables.read(&buffer[..bytes])?;
    /// assert_eq!(tables.deallocate(label.id), Err(Refusal::List));
    /// assert_eq!(tables.lend(&[]), Err(Refusal::List));
    /// tables.lend(&list)?;
    /// tables.deallocate(label.id)?;
    /// # Ok::<(), Refusal>(())
    /// ```
    pub fn lend(&mut self, list: &[Held]) -> Result<(), Refusal> {
        if !self.is_sound() {
            return Err(Refusal::Tables);
        }
        let (fits, held) = (ffi::fits(self, list), self.entries());
        match (self.held.get_mut(..held), list.get(..held)) {
            (Some(room), Some(entries)) if fits => {
                room.copy_from_slice(entries);
                Ok(())
            }
            _ => Err(Refusal::List),
        }
    }

    /// The atlas's sides.
    ///
    /// ```
    /// # use treadwharf::{size2, Options, Refusal, Tables};
    /// # let mut tables = Tables::new();
    /// assert_eq!(tables.size(), Err(Refusal::Tables));
    /// tables.renew(size2(90, 50), &Options::DEFAULT)?;
    /// assert_eq!(tables.size(), Ok(size2(90, 50)));
    /// # Ok::<(), Refusal>(())
    /// ```
    pub fn size(&self) -> Result<Size, Refusal> {
        let [width, height] = ffi::size(self)?;
        Ok(Size { width: width as i32, height: height as i32 }) // at most 46,340
    }

    /// Whether there is no shelf, so that nothing is held.
    ///
    /// ```
    /// # use treadwharf::{size2, Options, Refusal, Tables};
    /// # let mut tables = Tables::new();
    /// tables.renew(size2(64, 64), &Options::DEFAULT)?;
    /// assert_eq!(tables.is_empty(), Ok(true));
    /// tables.allocate(size2(10, 7))?;
    /// assert_eq!(tables.is_empty(), Ok(false));
    /// # Ok::<(), Refusal>(())
    /// ```
    pub fn is_empty(&self) -> Result<bool, Refusal> {
        let [empty] = ffi::is_empty(self)?;
        Ok(empty != 0)
    }

    /// The occupied figure, in pixels: what is held, and what was handed back in buckets that still have something held.
    ///
    /// ```
    /// # use treadwharf::{size2, Options, Refusal, Tables};
    /// # let mut tables = Tables::new();
    /// tables.renew(size2(64, 64), &Options::DEFAULT)?;
    /// tables.allocate(size2(10, 7))?;
    /// assert_eq!(tables.allocated_space(), Ok(80));
    /// # Ok::<(), Refusal>(())
    /// ```
    pub fn allocated_space(&self) -> Result<u32, Refusal> {
        let [pixels] = ffi::allocated_space(self)?;
        Ok(pixels)
    }

    /// Width times height less the occupied figure. Not all of it can be handed out as one rectangle.
    ///
    /// ```
    /// # use treadwharf::{size2, Options, Refusal, Tables};
    /// # let mut tables = Tables::new();
    /// tables.renew(size2(64, 64), &Options::DEFAULT)?;
    /// tables.allocate(size2(10, 7))?;
    /// assert_eq!(tables.free_space(), Ok(64 * 64 - 80));
    /// # Ok::<(), Refusal>(())
    /// ```
    pub fn free_space(&self) -> Result<u32, Refusal> {
        let [pixels] = ffi::free_space(self)?;
        Ok(pixels)
    }

    /// Writes the atlas as the bytes of a file, from the buffer's start on, and tells how many. What is past them in the buffer stays.
    /// Refused, all of the buffer stays: as [`Refusal::Buffer`] where it is shorter than the file ([`FILE_MOST`] is always enough), as
    /// [`Refusal::Tables`] or [`Refusal::List`] where the tables are not sound or the list does not fit.
    ///
    /// Header and records in use alone stand in a file, so equal atlases give equal bytes whatever is past their counts. The list is not in
    /// it: keep [`held`](Tables::held) beside it. A file has no sum to check it by: a changed byte is refused where what it stands for is not
    /// sound, and else is read. Put one over both.
    ///
    /// ```
    /// # use treadwharf::{size2, Options, Refusal, Tables};
    /// # let mut tables = Tables::new();
    /// let mut buffer = [0; 128];
    /// assert_eq!(tables.write(&mut buffer), Err(Refusal::Tables)); // no atlas yet
    /// tables.renew(size2(64, 64), &Options::DEFAULT)?;
    /// assert_eq!(tables.write(&mut buffer), Ok(37));
    /// assert_eq!(tables.write(&mut buffer[..36]), Err(Refusal::Buffer));
    /// # Ok::<(), Refusal>(())
    /// ```
    pub fn write(&self, buffer: &mut [u8]) -> Result<usize, Refusal> {
        let [bytes] = ffi::write(self, buffer)?;
        Ok(bytes as usize)
    }

    /// Draws the atlas as SVG into the buffer, from its start on, and hands the text back: ASCII, a line for the whole atlas and, shelf by shelf, one
    /// for the used part of each bucket and one for its free part, if it has one. The used areas add up to
    /// [`allocated_space`](Tables::allocated_space). What is past the text in the buffer stays. Refused, all of the buffer stays: as
    /// [`Refusal::Output`] where it is shorter than the text ([`PICTURE_MOST`] is always enough), as [`Refusal::Tables`] or [`Refusal::List`] where
    /// the tables are not sound or the list does not fit.
    ///
    /// ```
    /// # use treadwharf::{size2, Options, Refusal, Tables};
    /// # let mut tables = Tables::new();
    /// let mut buffer = [0; 512];
    /// assert_eq!(tables.picture(&mut buffer), Err(Refusal::Tables)); // no atlas yet
    /// tables.renew(size2(64, 64), &Options::DEFAULT)?;
    /// tables.allocate(size2(10, 7))?;
    /// let text = tables.picture(&mut buffer)?;
    /// assert!(text.contains(r##"<rect x="32" y="0" width="10" height="8" fill="#4646b4"/>"##));
    /// assert_eq!(tables.picture(&mut buffer[..100]), Err(Refusal::Output));
    /// # Ok::<(), Refusal>(())
    /// ```
    pub fn picture<'b>(&self, buffer: &'b mut [u8]) -> Result<&'b str, Refusal> {
        let [bytes] = ffi::picture(self, buffer)?;
        let text = buffer.get(..bytes as usize).unwrap_or(&[]); // the archive tells no more bytes than there are
        Ok(core::str::from_utf8(text).unwrap_or("")) // and writes ASCII alone
    }

    /// Makes the atlas that a file's bytes are of, whatever stood here before; `file` is all of them and no others. What is past its counts
    /// stays. Refused, all that stood here stays.
    ///
    /// It takes no list, and ends the one before: where something was held at the writing every call but [`renew`](Tables::renew) and `read`
    /// is refused as [`Refusal::List`] from here on, until [`lend`](Tables::lend) has brought the list of that moment. Held is then what was
    /// held at the writing, what was handed back since among it. Ids given after it are not held, and are refused until they are given again.
    /// [`Atlas::read`](crate::Atlas::read) does both.
    ///
    /// ```
    /// # use treadwharf::{size2, Options, Refusal, Tables};
    /// # let mut tables = Tables::new();
    /// tables.renew(size2(64, 64), &Options::DEFAULT)?;
    /// let label = tables.allocate(size2(10, 7))?;
    /// let mut buffer = [0; 128];
    /// let bytes = tables.write(&mut buffer)?;
    /// let list = tables.held()?.to_vec();
    /// let late = tables.allocate(size2(10, 20))?;
    ///
    /// let mut tables = Tables::new(); // after a restart
    /// assert_eq!(tables.read(&buffer), Err(Refusal::Broken)); // with what is behind the file
    /// tables.read(&buffer[..bytes])?;
    /// assert_eq!(tables.clear(), Err(Refusal::List));
    /// tables.lend(&list)?;
    /// assert_eq!(tables.deallocate(late.id), Err(Refusal::Unknown));
    /// assert_eq!(tables.allocate(size2(10, 20)), Ok(late)); // given again
    /// tables.deallocate(label.id)?;
    /// # Ok::<(), Refusal>(())
    /// ```
    pub fn read(&mut self, file: &[u8]) -> Result<(), Refusal> {
        ffi::read(self, file)?;
        self.held[0] = Held::NONE; // the first of what is held, if anything is
        Ok(())
    }

    /// 1, 21, or neither.
    pub(crate) fn tested(&self) -> Result<(), Refusal> {
        match self.fits() {
            true => Ok(()),
            false if self.is_sound() => Err(Refusal::List),
            false => Err(Refusal::Tables),
        }
    }

    /// How many are held by the buckets' reference counts.
    fn entries(&self) -> usize {
        let counts = self.buckets.iter().skip(REFS).step_by(BUCKET);
        counts.take(self.header[BUCKET_COUNT] as usize).map(|&count| usize::from(count)).sum()
    }

    /// What is held, untested: none where there is no room for as many as the counts say.
    pub(crate) fn listed(&self) -> &[Held] {
        self.held.get(..self.entries()).unwrap_or(&[])
    }
}

/// [`Tables::new`].
impl Default for Tables {
    fn default() -> Tables {
        Tables::new()
    }
}

/// The header alone: the tables are 49,140 numbers, and the list 4,096 entries.
///
/// ```
/// let shown = format!("{:?}", treadwharf::Tables::new());
/// assert_eq!(shown, "Tables { header: [0, 0, 0, 0, 0, 0, 0, 0, 0, 0, 0, 0], .. }");
/// ```
impl fmt::Debug for Tables {
    fn fmt(&self, f: &mut fmt::Formatter<'_>) -> fmt::Result {
        f.debug_struct("Tables").field("header", &self.header).finish_non_exhaustive()
    }
}
