//! An entry of the list of what is held: its layout is C's, its bytes are for keeping it beside a file.

use crate::{AllocId, Allocation, Rectangle};
use core::num::TryFromIntError;

/// A held rectangle as the list has it: its id, and the corners that were handed out under it. 12 bytes, laid out as in C.
///
/// ```
/// use treadwharf::{size2, Atlas, Rectangle, Refusal, Tables};
///
/// let mut tables = Tables::new();
/// let mut atlas = Atlas::new(&mut tables, size2(64, 64))?;
/// let label = atlas.allocate(size2(10, 7))?;
/// let [held] = atlas.held() else { panic!("one rectangle is held") };
/// assert_eq!(held.id, label.id);
/// assert_eq!(held.rectangle(), Rectangle { left: 32, top: 0, right: 42, bottom: 8 });
/// # Ok::<(), Refusal>(())
/// ```
#[derive(Clone, Copy, Debug, PartialEq, Eq, Hash)]
#[repr(C)]
pub struct Held {
    /// What [`Atlas::deallocate`](crate::Atlas::deallocate) takes.
    pub id: AllocId,
    /// The first column of pixels.
    pub left: u16,
    /// The first row of pixels.
    pub top: u16,
    /// The column after the last.
    pub right: u16,
    /// The row after the last.
    pub bottom: u16,
}

impl Held {
    /// An entry of no rectangle, which fits no tables.
    pub(crate) const NONE: Held = Held { id: AllocId::deserialize(0), left: 0, top: 0, right: 0, bottom: 0 };

    /// The corners as a rectangle.
    ///
    /// ```
    /// # use treadwharf::{AllocId, Held};
    /// let held = Held { id: AllocId::deserialize(4097), left: 32, top: 0, right: 42, bottom: 8 };
    /// assert_eq!(held.rectangle().area(), 80);
    /// ```
    pub const fn rectangle(&self) -> Rectangle {
        let Held { left, top, right, bottom, .. } = *self;
        Rectangle { left: left as i32, top: top as i32, right: right as i32, bottom: bottom as i32 }
    }

    /// The entry as 12 bytes, for keeping: the id, left, top, right and bottom, little-endian, as they lie in C's struct on the archive's targets.
    ///
    /// ```
    /// # use treadwharf::{AllocId, Held};
    /// let held = Held { id: AllocId::deserialize(4097), left: 32, top: 0, right: 42, bottom: 8 };
    /// assert_eq!(held.to_bytes(), [1, 16, 0, 0, 32, 0, 0, 0, 42, 0, 8, 0]);
    /// ```
    pub const fn to_bytes(self) -> [u8; 12] {
        let [a, b, c, d] = self.id.serialize().to_le_bytes();
        let [[e, f], [g, h]] = [self.left.to_le_bytes(), self.top.to_le_bytes()];
        let [[i, j], [k, l]] = [self.right.to_le_bytes(), self.bottom.to_le_bytes()];
        [a, b, c, d, e, f, g, h, i, j, k, l]
    }

    /// The entry that [`to_bytes`](Held::to_bytes) made 12 bytes of. Any bytes are of an entry; [`Tables::lend`](crate::Tables::lend) tests it.
    ///
    /// ```
    /// # use treadwharf::{AllocId, Held};
    /// let held = Held { id: AllocId::deserialize(4097), left: 32, top: 0, right: 42, bottom: 8 };
    /// assert_eq!(Held::from_bytes(held.to_bytes()), held);
    /// ```
    pub const fn from_bytes(bytes: [u8; 12]) -> Held {
        let [a, b, c, d, e, f, g, h, i, j, k, l] = bytes;
        Held {
            id: AllocId::deserialize(u32::from_le_bytes([a, b, c, d])),
            left: u16::from_le_bytes([e, f]),
            top: u16::from_le_bytes([g, h]),
            right: u16::from_le_bytes([i, j]),
            bottom: u16::from_le_bytes([k, l]),
        }
    }
}

/// What [`Atlas::allocate`](crate::Atlas::allocate) answered when it was handed out.
///
/// ```
/// # use treadwharf::{size2, Allocation, Atlas, Refusal, Tables};
/// # let mut tables = Tables::new();
/// let mut atlas = Atlas::new(&mut tables, size2(64, 64))?;
/// let label = atlas.allocate(size2(10, 7))?;
/// assert_eq!(Allocation::from(atlas.held()[0]), label);
/// # Ok::<(), Refusal>(())
/// ```
impl From<Held> for Allocation {
    fn from(held: Held) -> Allocation {
        Allocation { id: held.id, rectangle: held.rectangle() }
    }
}

/// The entry of an answer that the caller has kept, so that a list can be made of them. An error where a corner is no number of 16 bits,
/// which none of an atlas's is.
///
/// ```
/// # use treadwharf::{size2, Atlas, Held, Refusal, Tables};
/// # let mut tables = Tables::new();
/// let mut atlas = Atlas::new(&mut tables, size2(64, 64))?;
/// let mut label = atlas.allocate(size2(10, 7))?;
/// assert_eq!(Held::try_from(label), Ok(atlas.held()[0]));
/// label.rectangle.left = -1;
/// assert!(Held::try_from(label).is_err());
/// # Ok::<(), Refusal>(())
/// ```
impl TryFrom<Allocation> for Held {
    type Error = TryFromIntError;

    fn try_from(allocation: Allocation) -> Result<Held, TryFromIntError> {
        let Allocation { id, rectangle: r } = allocation;
        let [left, top] = [u16::try_from(r.left)?, u16::try_from(r.top)?];
        let [right, bottom] = [u16::try_from(r.right)?, u16::try_from(r.bottom)?];
        Ok(Held { id, left, top, right, bottom })
    }
}
