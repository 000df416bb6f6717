//! What a caller gives for a new atlas, and what an atlas gives for a request: options; ids and allocations.

use crate::Rectangle;

/// How an atlas is divided. Each number is 1 to 46,340 and a column at least 1 wide, or the making is refused as
/// [`Refusal::Options`](crate::Refusal::Options).
///
/// ```
/// use treadwharf::{size2, Atlas, Options, Refusal, Tables};
///
/// let mut tables = Tables::new();
/// let options = Options { columns: 2, align_width: 4, ..Options::default() };
/// assert!(Atlas::with_options(&mut tables, size2(64, 64), &options).is_ok());
///
/// let none = Options { columns: 0, ..options };
/// assert_eq!(Atlas::with_options(&mut tables, size2(64, 64), &none), Err(Refusal::Options));
/// ```
#[derive(Clone, Copy, Debug, PartialEq, Eq, Hash)]
pub struct Options {
    /// Widths are rounded up to a multiple of it. 1 by default.
    pub align_width: i32,
    /// Heights are rounded up to a multiple of it, before they are rounded up to a shelf's. 1 by default.
    pub align_height: i32,
    /// The columns that the width is split into; shelves do not cross from one to the next. 1 by default.
    pub columns: i32,
    /// Upright shelves, which document 01 leaves out: true is refused. False by default.
    pub vertical: bool,
}

impl Options {
    /// No alignment, one column, horizontal shelves: the default, for constants.
    ///
    /// ```
    /// use treadwharf::Options;
    ///
    /// const TWO: Options = Options { columns: 2, ..Options::DEFAULT };
    /// assert_eq!(TWO, Options { align_width: 1, align_height: 1, columns: 2, vertical: false });
    /// ```
    pub const DEFAULT: Options = Options { align_width: 1, align_height: 1, columns: 1, vertical: false };
}

impl Default for Options {
    fn default() -> Options {
        Options::DEFAULT
    }
}

/// Names a rectangle that was handed out, until it is handed back.
///
/// ```
/// use treadwharf::{size2, Atlas, Refusal, Tables};
///
/// let mut tables = Tables::new();
/// let mut atlas = Atlas::new(&mut tables, size2(64, 64))?;
/// let label = atlas.allocate(size2(10, 7))?;
/// atlas.deallocate(label.id)?;
/// assert_eq!(atlas.deallocate(label.id), Err(Refusal::Stale));
/// # Ok::<(), Refusal>(())
/// ```
#[derive(Clone, Copy, Debug, PartialEq, Eq, PartialOrd, Ord, Hash)]
#[repr(transparent)]
pub struct AllocId(u32);

impl AllocId {
    /// The id as a number, for keeping or for a trace.
    ///
    /// ```
    /// # use treadwharf::{size2, Atlas, Refusal, Tables};
    /// # let mut tables = Tables::new();
    /// # let mut atlas = Atlas::new(&mut tables, size2(64, 64))?;
    /// assert_eq!(atlas.allocate(size2(10, 7))?.id.serialize(), 4097);
    /// # Ok::<(), Refusal>(())
    /// ```
    pub const fn serialize(self) -> u32 {
        self.0
    }

    /// The id of a number. Any number will do: one that is not held is refused (see [`Tables::deallocate`](crate::Tables::deallocate)).
    ///
    /// ```
    /// # use treadwharf::{size2, AllocId, Atlas, Refusal, Tables};
    /// # let mut tables = Tables::new();
    /// # let mut atlas = Atlas::new(&mut tables, size2(64, 64))?;
    /// # let label = atlas.allocate(size2(10, 7))?;
    /// let kept: u32 = label.id.serialize();
    /// assert_eq!(AllocId::deserialize(kept), label.id);
    /// assert_eq!(atlas.deallocate(AllocId::deserialize(99)), Err(Refusal::Unknown));
    /// # Ok::<(), Refusal>(())
    /// ```
    pub const fn deserialize(number: u32) -> AllocId {
        AllocId(number)
    }
}

/// A rectangle that was handed out, and the id that takes it back.
///
/// ```
/// use treadwharf::{size2, Allocation, Atlas, Rectangle, Refusal, Tables};
///
/// let mut tables = Tables::new();
/// let mut atlas = Atlas::new(&mut tables, size2(64, 64))?;
/// let Allocation { id, rectangle } = atlas.allocate(size2(10, 7))?;
/// assert_eq!(rectangle, Rectangle { left: 32, top: 0, right: 42, bottom: 8 });
/// atlas.deallocate(id)?;
/// # Ok::<(), Refusal>(())
/// ```
#[derive(Clone, Copy, Debug, PartialEq, Eq, Hash)]
pub struct Allocation {
    /// What [`Atlas::deallocate`](crate::Atlas::deallocate) takes.
    pub id: AllocId,
    /// As wide as the aligned request and as high as its shelf, which may be higher than was asked for.
    pub rectangle: Rectangle,
}
