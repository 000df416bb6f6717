//! The state that document 01 speaks of: the header and the two tables, records up to the counts only.

use std::fmt::{Display, Formatter, Result};

/// Wide enough that no sum or product in the domain, or of a junk table, can overflow.
pub type N = i64;

/// The end of a chain.
pub const NONE: N = 65_535;
/// The most buckets, and so the most shelves.
pub const MOST: usize = 4_095;
/// The largest side.
pub const SIDE: N = 46_340;

/// What a build makes of a bucket whose reference count reaches 0, and what it asks of one: before T-08 the item count stayed, and buckets wore out.
#[derive(Clone, Copy, Debug, PartialEq)]
pub enum Build {
    Wearing,
    Renewing,
}

#[derive(Clone, Debug, PartialEq)]
pub struct Shelf {
    pub x: N,
    pub y: N,
    pub height: N,
    pub width: N,
    pub first: N,
}

#[derive(Clone, Debug, PartialEq)]
pub struct Bucket {
    pub x: N,
    pub free: N,
    pub next: N,
    pub refs: N,
    pub items: N,
    pub shelf: N,
    pub generation: N,
}

#[derive(Clone, Debug, PartialEq)]
pub struct Atlas {
    pub width: N,
    pub height: N,
    pub align_width: N,
    pub align_height: N,
    pub columns: N,
    pub column_width: N,
    pub column: N,
    pub room: N,
    pub released: N,
    pub occupied: N,
    pub shelves: Vec<Shelf>,
    pub buckets: Vec<Bucket>,
}

impl Atlas {
    /// The buckets of a chain, in its order. A chain that rings is cut after as many as there are buckets.
    pub fn chain(&self, first: N) -> impl Iterator<Item = usize> + '_ {
        let next = |&i: &usize| self.index(self.buckets[i].next);
        std::iter::successors(self.index(first), next).take(self.buckets.len() + 1)
    }

    fn index(&self, link: N) -> Option<usize> {
        usize::try_from(link).ok().filter(|&i| i < self.buckets.len())
    }

    pub fn top(&self, shelf: usize) -> N {
        self.shelves[shelf].y + self.shelves[shelf].height
    }

    pub fn is_unreferenced(&self, shelf: usize) -> bool {
        self.chain(self.shelves[shelf].first).all(|b| self.buckets[b].refs == 0)
    }
}

/// The whole state in numbers, a record a line.
impl Display for Atlas {
    fn fmt(&self, f: &mut Formatter) -> Result {
        writeln!(f, "size {} {} align {} {}", self.width, self.height, self.align_width, self.align_height)?;
        write!(f, "columns {} of {} now {}", self.columns, self.column_width, self.column)?;
        writeln!(f, " room {} released {} occupied {}", self.room, self.released, self.occupied)?;
        for (i, s) in self.shelves.iter().enumerate() {
            writeln!(f, "shelf {i}: {} {} {} {} {}", s.x, s.y, s.height, s.width, s.first)?;
        }
        for (i, b) in self.buckets.iter().enumerate() {
            write!(f, "bucket {i}: {} {} {}", b.x, b.free, b.next)?;
            writeln!(f, " {} {} {} {}", b.refs, b.items, b.shelf, b.generation)?;
        }
        Ok(())
    }
}
