//! The calls on the crate's BucketedAtlasAllocator, answered as document 01 numbers them.
//! A call that panics is undone; the crate alone decides what is given and where. T-02's 19 and 20 are ours: the crate knows no list.

use crate::panics::{guard, No};
use crate::undo::{Call, Undoable};
use etagere::{size2, Allocation, AllocatorOptions, BucketedAtlasAllocator, Size};
use std::collections::HashSet;

const SIDE: i32 = 46_340;
/// The entries of the list that a replay lends.
const LIST: usize = 65_536;

/// What new is given, as in a trace's record.
#[derive(Clone, Copy)]
pub struct New {
    pub size: Size,
    pub alignment: Size,
    pub columns: i32,
    pub vertical: u8,
}

/// The crate's atlas; the numbers of its header that 22 and 23 are told by, and the ids that 19 and 20 are.
pub struct Atlas {
    inner: Undoable,
    alignment: Size,
    columns: i32,
    column_width: i32,
    /// what the crate has given and not taken back since new or clear
    held: HashSet<u32>,
}

fn within(side: i32) -> bool {
    (1..=SIDE).contains(&side)
}

fn sides_within(size: Size) -> Result<(), No> {
    if within(size.width) && within(size.height) { Ok(()) } else { Err(No::Refused(2)) }
}

fn aligned(side: i32, alignment: i32) -> i32 {
    (side + alignment - 1) / alignment * alignment
}

impl Atlas {
    /// 2 and 3 are ours: the crate takes these, so they are told before it is called.
    pub fn new(n: New) -> Result<Atlas, No> {
        sides_within(n.size)?;
        if !(within(n.alignment.width) && within(n.alignment.height) && within(n.columns) && n.vertical == 0) {
            return Err(No::Refused(3));
        }
        let quotient = n.size.width / n.columns;
        let column_width = quotient - quotient % n.alignment.width;
        if column_width == 0 {
            return Err(No::Refused(3));
        }
        let options = AllocatorOptions { alignment: n.alignment, vertical_shelves: false, num_columns: n.columns };
        let inner = guard(&[], || BucketedAtlasAllocator::with_options(n.size, &options))?;
        Ok(Atlas { inner: Undoable::new(inner), alignment: n.alignment, columns: n.columns, column_width, held: HashSet::new() })
    }

    /// Where the list is full the crate is asked without being changed: what it would give is 19.
    pub fn allocate(&mut self, request: Size) -> Result<Allocation, No> {
        let (call, is_full) = (Call::Allocate(request), self.held.len() == LIST);
        let given = if is_full { self.inner.asked(&[7], call) } else { self.inner.call(&[7], call) }?;
        let given = given.ok_or_else(|| No::Refused(self.why_none(request)))?;
        if is_full {
            return Err(No::Refused(19));
        }
        if !self.held.insert(given.id.serialize()) {
            return Err(No::Panic(format!("{} is given, and held already", given.id.serialize())));
        }
        Ok(given)
    }

    /// The crate says None for 4, 5, 22, 23 and 6 alike. T-04: "5, 22 (width), 23 (height), in this order".
    fn why_none(&self, request: Size) -> u8 {
        if request.is_empty() {
            4
        } else if request.width > 65_535 || request.height > 65_535 {
            5
        } else if aligned(request.width, self.alignment.width) > self.column_width {
            22
        } else if aligned(request.height, self.alignment.height) > self.inner.atlas().size().height {
            23
        } else {
            6
        }
    }

    /// The crate takes an id that is not held where its bucket has other labels: it is asked, unchanged, whether one of 9 to 11 comes before 20.
    pub fn deallocate(&mut self, id: u32) -> Result<(), No> {
        let call = Call::Deallocate(id);
        if !self.held.contains(&id) {
            return self.inner.asked(&[9, 10, 11], call).and(Err(No::Refused(20)));
        }
        self.inner.call(&[], call)?;
        self.held.remove(&id);
        Ok(())
    }

    pub fn clear(&mut self) -> Result<(), No> {
        self.inner.call(&[], Call::Clear)?;
        self.held.clear();
        Ok(())
    }

    pub fn grow(&mut self, width: i32, height: i32) -> Result<(), No> {
        sides_within(size2(width, height))?;
        self.inner.call(&[12], Call::Grow(size2(width, height)))?;
        match self.columns {
            1 => self.column_width = width,
            _ => self.columns = width / self.column_width,
        }
        Ok(())
    }

    /// Occupied and free.
    pub fn space(&self) -> Result<(i32, i32), No> {
        guard(&[], || (self.inner.atlas().allocated_space(), self.inner.atlas().free_space()))
    }

    pub fn picture(&self) -> String {
        picture(self.inner.atlas())
    }
}

/// The crate's own picture, in the lines of our svg_fmt and without the crate's indents: the atlas, then each shelf's buckets in the order of the
/// chain, each as its used part and, where there is one, its free part. Fields that it does not draw are private to the crate.
pub fn picture(atlas: &BucketedAtlasAllocator) -> String {
    let mut drawn = Vec::new();
    atlas.dump_svg(&mut drawn).expect("a list takes every byte");
    let text = String::from_utf8(drawn).expect("our own stand-in writes ASCII");
    text.lines().map(|line| line.trim_start().to_string() + "\n").collect()
}
