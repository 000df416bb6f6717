//! T-02 of document 02: the list that is lent beside the tables, an entry for each held rectangle. Its test, clause by clause in the document's
//! order, each pair of entries compared; the answer names the first clause that fails. How an entry goes in and out.
//! "Used span": from the bucket's x, as wide as the bucket less its free width. "From the shelf's y to its top": it need not reach either.

use crate::place::Placed;
use crate::tables::{Atlas, N};

type Answer = Result<(), &'static str>;

fn ask(holds: bool, clause: &'static str) -> Answer {
    if holds { Ok(()) } else { Err(clause) }
}

/// The bucket, the item number and the generation that an id is made of.
fn parts(id: u32) -> [N; 3] {
    [id & 4_095, id >> 12 & 4_095, id >> 24].map(N::from)
}

fn share_a_pixel(a: &Placed, b: &Placed) -> bool {
    let [left, top, right, bottom] = a.rectangle;
    let [other_left, other_top, other_right, other_bottom] = b.rectangle;
    left.max(other_left) < right.min(other_right) && top.max(other_top) < bottom.min(other_bottom)
}

/// Puts an entry at a place of the first `count`; those behind it move up by one, into the first place that is the lender's.
pub fn enter<T: Copy>(list: &mut [T], count: usize, place: usize, entry: T) {
    list[place..=count].rotate_right(1);
    list[place] = entry;
}

/// Takes the entry at a place of the first `count` out; those behind it move down by one, and the last place keeps what it has.
pub fn leave<T: Copy>(list: &mut [T], count: usize, place: usize) {
    list.copy_within(place + 1..count, place);
}

impl Atlas {
    /// How many entries of a list are in use; what is past them is the lender's.
    pub fn entries(&self) -> usize {
        self.buckets.iter().map(|b| b.refs).sum::<N>() as usize
    }

    /// Where the entry of a rectangle that was just issued goes: behind those of its own bucket and of the buckets before it.
    pub fn place_in_list(&self, id: u32) -> usize {
        let [bucket, ..] = parts(id);
        self.buckets[..=bucket as usize].iter().map(|b| b.refs).sum::<N>() as usize - 1
    }

    /// The list's test. The tables are sound.
    pub fn fits(&self, list: &[Placed]) -> Answer {
        let held = list.get(..self.entries()).ok_or("room for the entries")?;
        for entry in held {
            self.entry_stands(entry)?;
        }
        for (i, a) in held.iter().enumerate() {
            for b in &held[..i] {
                ask(a.id != b.id, "no two share an id")?;
                ask(!share_a_pixel(a, b), "no two share a pixel")?;
            }
        }
        for (index, bucket) in self.buckets.iter().enumerate() {
            let its = held.iter().filter(|e| parts(e.id)[0] == index as N).count();
            ask(its as N == bucket.refs, "a bucket's entries number its reference count")?;
        }
        Ok(())
    }

    fn entry_stands(&self, entry: &Placed) -> Answer {
        let [index, item, generation] = parts(entry.id);
        let bucket = self.buckets.get(index as usize).ok_or("an entry names a bucket")?;
        ask(generation == bucket.generation, "of its generation")?;
        let shelf = self.shelves.get(bucket.shelf as usize).ok_or("an entry names a bucket on a shelf")?;
        let [left, top, right, bottom] = entry.rectangle;
        ask(left >= bucket.x, "a rectangle lies in the used span: left")?;
        ask(right <= bucket.x + shelf.width - bucket.free, "a rectangle lies in the used span: right")?;
        ask(top >= shelf.y, "from the shelf's y")?;
        ask(bottom <= shelf.y + shelf.height, "to its top")?;
        ask(left < right, "a rectangle is not empty: width")?;
        ask(top < bottom, "a rectangle is not empty: height")?;
        ask(bucket.items >= 4_095 || item >= 1, "an item number from 1 on")?;
        ask(bucket.items >= 4_095 || item <= bucket.items, "an item number to the item count")
    }
}
