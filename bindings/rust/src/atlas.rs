//! An atlas over sound tables and a list that fits them, lent or owned. The changing calls are those of `Tables`; the reading calls take
//! the numbers as they stand, with no test.

use crate::tables::{BUCKET_COUNT, COLUMNS, HEIGHT, OCCUPIED, SHELF_COUNT, WIDTH};
use crate::{size2, AllocId, Allocation, Held, Options, Refusal, Size, Tables};
use core::borrow::{Borrow, BorrowMut};
use core::fmt;

/// An atlas: rectangles in one texture, handed out and taken back, over [`Tables`] that are sound and have a list that fits them.
///
/// `T` says where the tables are: `&mut Tables` lent, `Box<Tables>` on a heap that the caller has, or `Tables` inside the atlas itself
/// (then it is 147,480 bytes large, and each move copies them).
///
/// # Why the reading calls need no test
///
/// The tables are sound from the first on: [`new`](Atlas::new) makes them so, [`from_parts`](Atlas::from_parts) tests them, and
/// [`read`](Atlas::read) stores a file only where they are sound then (`read_sound_law`). A call on sound tables leaves them sound, whatever is
/// asked and whatever ids are handed back (`step_sound`, with `stepped` for a header in lent numbers), and is never refused as
/// [`Refusal::Tables`] (`sound_never_1`). What the tested reads tell of sound tables are the header's own numbers (`space_told` of the
/// figures). The list fits in the same way: it has no entry after new and is tested by `from_parts` and by `read`. A call on sound tables
/// with a list that fits leaves one that fits, wherever both came from (`step_fits`), and is never refused as [`Refusal::List`]
/// (`fits_never_21`). These are theorems in crates/promises and crates/boundary of the repository. docs/PROMISES.md has `never_1` and
/// `panel_never_1`, which say the same of every atlas from its making on, and `listed_exact`: then the list has exactly what is held.
///
/// They speak of the functions behind this wrapper and not of the Rust here, whose part is that nothing else writes tables or list: the
/// atlas borrows them exclusively or owns them, and hands out shared references alone.
///
/// In safe Rust this can not be broken, but by a `T` of one's own that hands out other tables each time. Where memory is written behind
/// the atlas's back all the same, a reading call tells what the numbers say: nonsense at worst, never a panic and never a read outside
/// the tables. [`allocate`](Atlas::allocate), [`deallocate`](Atlas::deallocate), [`grow`](Atlas::grow), [`clear`](Atlas::clear),
/// [`write`](Atlas::write), [`picture`](Atlas::picture) and [`fits`](Atlas::fits) test tables and list each time, and so do
/// [`parts`](Atlas::parts)`().size()` and its like. For memory that others write by design make the calls on [`Tables`].
///
/// ```
/// use treadwharf::{size2, Atlas, Refusal, Tables};
///
/// let mut tables = Tables::new();
/// let mut atlas = Atlas::new(&mut tables, size2(64, 64))?;
/// let label = atlas.allocate(size2(10, 7))?;
/// assert_eq!((atlas.size(), atlas.allocated_space()), (size2(64, 64), label.rectangle.area()));
/// atlas.deallocate(label.id)?;
/// assert!(atlas.is_empty());
/// # Ok::<(), Refusal>(())
/// ```
///
/// Two atlases are equal where all numbers of their tables and all entries of their lists are, those past the counts too.
#[derive(Clone, PartialEq, Eq)]
pub struct Atlas<T = Tables> {
    tables: T,
}

impl<T: BorrowMut<Tables>> Atlas<T> {
    /// A new, empty atlas with the default options, whatever stood in tables and list before.
    ///
    /// ```
    /// use treadwharf::{size2, Atlas, Refusal, Tables};
    ///
    /// // lent
    /// let mut tables = Tables::new();
    /// let lent = Atlas::new(&mut tables, size2(64, 64))?;
    /// // owned, on the heap
    /// let owned: Atlas<Box<Tables>> = Atlas::new(Box::new(Tables::new()), size2(64, 64))?;
    /// assert_eq!(lent.parts(), owned.parts());
    ///
    /// assert_eq!(Atlas::new(&mut tables, size2(0, 64)), Err(Refusal::Side));
    /// # Ok::<(), Refusal>(())
    /// ```
    pub fn new(tables: T, size: Size) -> Result<Atlas<T>, Refusal> {
        Atlas::with_options(tables, size, &Options::DEFAULT)
    }

    /// A new, empty atlas, whatever stood in tables and list before. Refused, lent tables keep what stood there.
    ///
    /// ```
    /// use treadwharf::{size2, Atlas, Options, Refusal, Tables};
    ///
    /// let mut tables = Tables::new();
    /// let two = Options { columns: 2, ..Options::default() };
    /// let mut atlas = Atlas::with_options(&mut tables, size2(64, 64), &two)?;
    /// atlas.allocate(size2(24, 46))?;
    /// assert_eq!(atlas.allocate(size2(24, 32))?.rectangle.left, 32); // in the second column
    /// # Ok::<(), Refusal>(())
    /// ```
    pub fn with_options(mut tables: T, size: Size, options: &Options) -> Result<Atlas<T>, Refusal> {
        tables.borrow_mut().renew(size, options)?;
        Ok(Atlas { tables })
    }

    /// The atlas of a file that [`write`](Atlas::write) made, and of the list that was [`held`](Atlas::held) then, whatever stood in the
    /// tables before. `file` is all of its bytes and no others; `list` is empty where nothing was held. What was given since is not held.
    ///
    /// First the file is tested: one that is malformed or cut is refused as [`Refusal::Broken`], one of another version as
    /// [`Refusal::UnknownVersion`], one of tables that are not sound as [`Refusal::Tables`], and lent tables keep what stood there. Then the
    /// list: one that does not fit the file's tables is refused as [`Refusal::List`]. The file stands in lent tables then, with no list, so
    /// that another can be lent ([`Tables::lend`]) or a new atlas made. An atlas that must live through that stays in other tables:
    /// `atlas = Atlas::read(other, file, list)?`.
    ///
    /// A file of a version before 0.7.0 is repaired before it is tested: a bucket in which nothing is held and which has had rectangles gets item count
    /// 0 and the next generation. What was held stays, under its ids.
    ///
    /// ```
    /// use treadwharf::{size2, Atlas, Refusal, Tables};
    ///
    /// let mut tables = Tables::new();
    /// let mut atlas = Atlas::new(&mut tables, size2(64, 64))?;
    /// let label = atlas.allocate(size2(10, 7))?;
    /// let mut buffer = [0; 128];
    /// let bytes = atlas.write(&mut buffer)?;
    /// let list = atlas.held().to_vec();
    ///
    /// let mut tables = Tables::new(); // after a restart
    /// let mut atlas = Atlas::read(&mut tables, &buffer[..bytes], &list)?;
    /// assert_eq!(atlas.allocated_space(), 80);
    /// atlas.deallocate(label.id)?;
    ///
    /// assert_eq!(Atlas::read(&mut tables, &buffer[..bytes], &[]), Err(Refusal::List));
    /// assert_eq!(Atlas::read(&mut tables, &buffer[..bytes - 1], &list), Err(Refusal::Broken));
    /// buffer[4] = 2;
    /// assert_eq!(Atlas::read(&mut tables, &buffer[..bytes], &list), Err(Refusal::UnknownVersion));
    /// # Ok::<(), Refusal>(())
    /// ```
    pub fn read(mut tables: T, file: &[u8], list: &[Held]) -> Result<Atlas<T>, Refusal> {
        let read = tables.borrow_mut();
        read.read(file)?;
        read.lend(list)?;
        Ok(Atlas { tables })
    }

    /// Starts again with other sides or options on the same tables. Refused, the atlas stays as it is.
    ///
    /// ```
    /// # use treadwharf::{size2, Atlas, Options, Refusal, Tables};
    /// # let mut tables = Tables::new();
    /// let mut atlas = Atlas::new(&mut tables, size2(64, 64))?;
    /// atlas.renew(size2(32, 32), &Options::DEFAULT)?;
    /// assert_eq!(atlas.renew(size2(-1, 32), &Options::DEFAULT), Err(Refusal::Side));
    /// assert_eq!(atlas.size(), size2(32, 32));
    /// # Ok::<(), Refusal>(())
    /// ```
    pub fn renew(&mut self, size: Size, options: &Options) -> Result<(), Refusal> {
        self.tables.borrow_mut().renew(size, options)
    }

    /// Empties the atlas. Ids given before are of no use after it, and are given again. On an atlas it is never refused; the `Result` is
    /// that of the C function.
    ///
    /// ```
    /// # use treadwharf::{size2, Atlas, Refusal, Tables};
    /// # let mut tables = Tables::new();
    /// let mut atlas = Atlas::new(&mut tables, size2(64, 64))?;
    /// let first = atlas.allocate(size2(10, 7))?;
    /// atlas.clear()?;
    /// assert!(atlas.is_empty());
    /// assert_eq!(atlas.allocate(size2(10, 7))?, first);
    /// # Ok::<(), Refusal>(())
    /// ```
    pub fn clear(&mut self) -> Result<(), Refusal> {
        self.tables.borrow_mut().clear()
    }

    /// Makes the atlas larger; what is held stays where it is.
    ///
    /// ```
    /// # use treadwharf::{size2, Atlas, Refusal, Tables};
    /// # let mut tables = Tables::new();
    /// let mut atlas = Atlas::new(&mut tables, size2(64, 64))?;
    /// atlas.allocate(size2(64, 64))?;
    /// assert_eq!(atlas.allocate(size2(64, 64)), Err(Refusal::NoPlace));
    /// atlas.grow(size2(64, 128))?;
    /// assert_eq!(atlas.allocate(size2(64, 64))?.rectangle.top, 64);
    /// assert_eq!(atlas.grow(size2(63, 128)), Err(Refusal::Shrink));
    /// # Ok::<(), Refusal>(())
    /// ```
    pub fn grow(&mut self, size: Size) -> Result<(), Refusal> {
        self.tables.borrow_mut().grow(size)
    }

    /// Hands out a rectangle at least as large as asked for, and enters it in the list.
    ///
    /// ```
    /// # use treadwharf::{size2, Atlas, Refusal, Tables};
    /// # let mut tables = Tables::new();
    /// let mut atlas = Atlas::new(&mut tables, size2(1000, 1000))?;
    /// let all = atlas.allocate(size2(1000, 1000))?;
    /// assert_eq!(all.rectangle.size(), size2(1000, 1000));
    /// assert_eq!(atlas.allocate(size2(1, 1)), Err(Refusal::NoPlace));
    /// assert_eq!(atlas.allocate(size2(1001, 1)), Err(Refusal::Wide));
    /// assert_eq!(atlas.allocate(size2(1, -5)), Err(Refusal::Small));
    /// # Ok::<(), Refusal>(())
    /// ```
    pub fn allocate(&mut self, size: Size) -> Result<Allocation, Refusal> {
        self.tables.borrow_mut().allocate(size)
    }

    /// Takes the rectangle of an id back. An id that is not held is refused; [`Tables::deallocate`] says by which names.
    ///
    /// ```
    /// # use treadwharf::{size2, Atlas, Refusal, Tables};
    /// # let mut tables = Tables::new();
    /// let mut atlas = Atlas::new(&mut tables, size2(64, 64))?;
    /// let [label, other] = [atlas.allocate(size2(10, 7))?, atlas.allocate(size2(12, 7))?]; // in one bucket
    /// atlas.deallocate(label.id)?;
    /// assert_eq!(atlas.deallocate(label.id), Err(Refusal::NotHeld)); // a second time
    /// assert_eq!(atlas.held().len(), 1); // the other is untouched
    /// atlas.deallocate(other.id)?;
    /// atlas.allocate(size2(10, 7))?; // lays the bucket again
    /// assert_eq!(atlas.deallocate(label.id), Err(Refusal::Stale));
    /// # Ok::<(), Refusal>(())
    /// ```
    pub fn deallocate(&mut self, id: AllocId) -> Result<(), Refusal> {
        self.tables.borrow_mut().deallocate(id)
    }
}

impl<T: Borrow<Tables>> Atlas<T> {
    /// The atlas that stands in the tables, as [`into_parts`](Atlas::into_parts) or a copy of the numbers left it. Tables and list are tested
    /// once: what is not sound is refused as [`Refusal::Tables`], a list that does not fit as [`Refusal::List`]. With `&Tables` it can be
    /// read alone.
    ///
    /// ```
    /// use treadwharf::{size2, Atlas, Refusal, Tables};
    ///
    /// let mut tables = Tables::new();
    /// let label = Atlas::new(&mut tables, size2(64, 64))?.allocate(size2(10, 7))?;
    ///
    /// let mut again = Atlas::from_parts(&mut tables)?;
    /// again.deallocate(label.id)?;
    ///
    /// tables.header[11] += 1; // the occupied figure
    /// assert_eq!(Atlas::from_parts(&tables), Err(Refusal::Tables));
    /// # Ok::<(), Refusal>(())
    /// ```
    pub fn from_parts(tables: T) -> Result<Atlas<T>, Refusal> {
        tables.borrow().tested()?;
        Ok(Atlas { tables })
    }

    /// The tables, for keeping elsewhere and for the tested reads.
    ///
    /// ```
    /// # use treadwharf::{size2, Atlas, Refusal, Tables};
    /// # let mut tables = Tables::new();
    /// let atlas = Atlas::new(&mut tables, size2(64, 64))?;
    /// let kept: Box<Tables> = Box::new(atlas.parts().clone());
    /// assert_eq!(atlas.parts().size(), Ok(atlas.size()));
    /// assert_eq!(Atlas::from_parts(kept)?.size(), size2(64, 64));
    /// # Ok::<(), Refusal>(())
    /// ```
    pub fn parts(&self) -> &Tables {
        self.tables.borrow()
    }

    /// What the atlas was made over.
    ///
    /// ```
    /// # use treadwharf::{size2, Atlas, Refusal, Tables};
    /// let atlas = Atlas::new(Box::new(Tables::new()), size2(64, 64))?;
    /// let tables: Box<Tables> = atlas.into_parts();
    /// assert!(tables.is_sound());
    /// # Ok::<(), Refusal>(())
    /// ```
    pub fn into_parts(self) -> T {
        self.tables
    }

    /// The tables test, over all that is in use: true, unless something else wrote the tables.
    ///
    /// ```
    /// # use treadwharf::{size2, Atlas, Refusal, Tables};
    /// # let mut tables = Tables::new();
    /// assert!(Atlas::new(&mut tables, size2(64, 64))?.is_sound());
    /// # Ok::<(), Refusal>(())
    /// ```
    pub fn is_sound(&self) -> bool {
        self.parts().is_sound()
    }

    /// The list's test, over all that is in use: true, unless something else wrote tables or list. [`Tables::fits`] says what it asks.
    ///
    /// ```
    /// # use treadwharf::{size2, Atlas, Refusal, Tables};
    /// # let mut tables = Tables::new();
    /// assert!(Atlas::new(&mut tables, size2(64, 64))?.fits());
    /// # Ok::<(), Refusal>(())
    /// ```
    pub fn fits(&self) -> bool {
        self.parts().fits()
    }

    /// What is held: each rectangle that was handed out and not handed back, as issued, with its id. They stand bucket by bucket, and in
    /// each from left to right; a list that was lent keeps the order it had. This is what to keep beside a file.
    ///
    /// ```
    /// # use treadwharf::{size2, Allocation, Atlas, Refusal, Tables};
    /// # let mut tables = Tables::new();
    /// let mut atlas = Atlas::new(&mut tables, size2(64, 64))?;
    /// let [label, other] = [atlas.allocate(size2(10, 7))?, atlas.allocate(size2(12, 7))?];
    /// assert!(atlas.held().iter().copied().map(Allocation::from).eq([label, other]));
    /// atlas.deallocate(label.id)?;
    /// assert!(atlas.held().iter().copied().map(Allocation::from).eq([other]));
    /// # Ok::<(), Refusal>(())
    /// ```
    pub fn held(&self) -> &[Held] {
        self.parts().listed()
    }

    /// The atlas's sides.
    ///
    /// ```
    /// # use treadwharf::{size2, Atlas, Refusal, Tables};
    /// # let mut tables = Tables::new();
    /// assert_eq!(Atlas::new(&mut tables, size2(90, 50))?.size(), size2(90, 50));
    /// # Ok::<(), Refusal>(())
    /// ```
    pub fn size(&self) -> Size {
        let [width, height] = [WIDTH, HEIGHT].map(|place| self.parts().header[place] as i32); // at most 46,340
        size2(width, height)
    }

    /// Whether there is no shelf, so that nothing is held.
    ///
    /// ```
    /// # use treadwharf::{size2, Atlas, Refusal, Tables};
    /// # let mut tables = Tables::new();
    /// let mut atlas = Atlas::new(&mut tables, size2(64, 64))?;
    /// assert!(atlas.is_empty());
    /// atlas.allocate(size2(10, 7))?;
    /// assert!(!atlas.is_empty());
    /// # Ok::<(), Refusal>(())
    /// ```
    pub fn is_empty(&self) -> bool {
        self.parts().header[SHELF_COUNT] == 0
    }

    /// The occupied figure, in pixels: what is held, and what was handed back in buckets that still have something held.
    ///
    /// ```
    /// # use treadwharf::{size2, Atlas, Refusal, Tables};
    /// # let mut tables = Tables::new();
    /// let mut atlas = Atlas::new(&mut tables, size2(64, 64))?;
    /// atlas.allocate(size2(10, 7))?;
    /// assert_eq!(atlas.allocated_space(), 80);
    /// # Ok::<(), Refusal>(())
    /// ```
    pub fn allocated_space(&self) -> u32 {
        self.parts().header[OCCUPIED]
    }

    /// Width times height less the occupied figure. Not all of it can be handed out as one rectangle.
    ///
    /// ```
    /// # use treadwharf::{size2, Atlas, Refusal, Tables};
    /// # let mut tables = Tables::new();
    /// let mut atlas = Atlas::new(&mut tables, size2(64, 64))?;
    /// atlas.allocate(size2(10, 7))?;
    /// assert_eq!(atlas.free_space(), 4016);
    /// # Ok::<(), Refusal>(())
    /// ```
    pub fn free_space(&self) -> u32 {
        self.size().area().saturating_sub(self.allocated_space())
    }

    /// Writes the atlas as the bytes of a file, from the buffer's start on, and tells how many: [`file_len`](Atlas::file_len). What is past
    /// them in the buffer stays. Refused as [`Refusal::Buffer`] where the buffer is shorter, and then all of it stays. The list is not in the
    /// file: keep [`held`](Atlas::held) beside it, for [`read`](Atlas::read) takes both.
    ///
    /// ```
    /// # use treadwharf::{size2, Atlas, Refusal, Tables};
    /// # let mut tables = Tables::new();
    /// let mut atlas = Atlas::new(&mut tables, size2(64, 64))?;
    /// atlas.allocate(size2(10, 7))?;
    /// let mut buffer = [7; 88];
    /// assert_eq!(atlas.write(&mut buffer[..86]), Err(Refusal::Buffer));
    /// assert_eq!(buffer, [7; 88]);
    /// assert_eq!(atlas.write(&mut buffer), Ok(87));
    /// assert_eq!(buffer[87], 7);
    /// # Ok::<(), Refusal>(())
    /// ```
    pub fn write(&self, buffer: &mut [u8]) -> Result<usize, Refusal> {
        self.parts().write(buffer)
    }

    /// How many bytes [`write`](Atlas::write) takes: 37, 14 for each shelf and 18 for each bucket. At most [`FILE_MOST`](crate::FILE_MOST).
    ///
    /// ```
    /// # use treadwharf::{size2, Atlas, Refusal, Tables};
    /// # let mut tables = Tables::new();
    /// let mut atlas = Atlas::new(&mut tables, size2(64, 64))?;
    /// atlas.allocate(size2(10, 7))?;
    /// let mut file = vec![0; atlas.file_len()];
    /// assert_eq!(atlas.write(&mut file), Ok(file.len()));
    /// # Ok::<(), Refusal>(())
    /// ```
    pub fn file_len(&self) -> usize {
        let [shelves, buckets] = [SHELF_COUNT, BUCKET_COUNT].map(|place| self.parts().header[place] as usize);
        37 + 14 * shelves + 18 * buckets // any 32-bit counts: the archive is for 64-bit targets alone
    }

    /// Draws the atlas as SVG into the buffer, from its start on, and hands the text back: the whole atlas, then each bucket's used part and its
    /// free part, if it has one. The used areas add up to [`allocated_space`](Atlas::allocated_space). What is past the text in the buffer stays.
    /// Refused as [`Refusal::Output`] where the buffer is shorter, and then all of it stays; [`PICTURE_MOST`](crate::PICTURE_MOST) bytes are enough
    /// for any atlas.
    ///
    /// ```
    /// # use treadwharf::{size2, Atlas, Refusal, Tables};
    /// # let mut tables = Tables::new();
    /// let mut atlas = Atlas::new(&mut tables, size2(64, 64))?;
    /// atlas.allocate(size2(10, 7))?;
    /// let mut buffer = [0; 512];
    /// let lines: Vec<&str> = atlas.picture(&mut buffer)?.lines().collect();
    /// assert_eq!(lines[1..4], [
    ///     r##"<rect x="0" y="0" width="64" height="64" fill="#282828"/>"##,
    ///     r##"<rect x="32" y="0" width="10" height="8" fill="#4646b4"/>"##,
    ///     r##"<rect x="42" y="0" width="22" height="8" fill="#323232"/>"##,
    /// ]);
    /// assert_eq!(atlas.picture(&mut [0; 100]), Err(Refusal::Output));
    /// # Ok::<(), Refusal>(())
    /// ```
    pub fn picture<'b>(&self, buffer: &'b mut [u8]) -> Result<&'b str, Refusal> {
        self.parts().picture(buffer)
    }
}

/// Sides, columns, counts and figures; not the tables.
///
/// ```
/// # use treadwharf::{size2, Atlas, Refusal, Tables};
/// # let mut tables = Tables::new();
/// let mut atlas = Atlas::new(&mut tables, size2(64, 64))?;
/// atlas.allocate(size2(10, 7))?;
/// assert_eq!(
///     format!("{atlas:?}"),
///     "Atlas { size: Size { width: 64, height: 64 }, columns: 1, shelf_count: 1, bucket_count: 2, \
///      allocated_space: 80, free_space: 4016, .. }"
/// );
/// # Ok::<(), Refusal>(())
/// ```
impl<T: Borrow<Tables>> fmt::Debug for Atlas<T> {
    fn fmt(&self, f: &mut fmt::Formatter<'_>) -> fmt::Result {
        let header = &self.parts().header;
        f.debug_struct("Atlas")
            .field("size", &self.size())
            .field("columns", &header[COLUMNS])
            .field("shelf_count", &header[SHELF_COUNT])
            .field("bucket_count", &header[BUCKET_COUNT])
            .field("allocated_space", &self.allocated_space())
            .field("free_space", &self.free_space())
            .finish_non_exhaustive()
    }
}
