//! Modules 4 to 8 of document 01: the bucket store, the new shelf, the search, merging and the issue.

use crate::sizes::{bucket_count, shelf_height};
use crate::tables::{Atlas, Bucket, Shelf, MOST, N, NONE};

/// The search's and the merging's result.
#[derive(Clone, Copy, Debug, PartialEq)]
pub struct Place {
    pub shelf: usize,
    pub bucket: usize,
}

/// An answer to allocate.
#[derive(Clone, Copy, Debug, PartialEq)]
pub struct Placed {
    pub id: u32,
    pub rectangle: [N; 4],
}

impl Atlas {
    /// Module 4: the head of the released chain, or else one more record.
    pub fn new_bucket(&mut self, shelf: usize, x: N, next: N) -> N {
        let free = self.shelves[shelf].width;
        let fresh = Bucket { x, free, next, refs: 0, items: 0, shelf: shelf as N, generation: 0 };
        if self.released == NONE {
            self.buckets.push(fresh);
            return self.buckets.len() as N - 1;
        }
        let taken = self.released;
        let old = &mut self.buckets[taken as usize];
        let generation = (old.generation + 1) % 256;
        self.released = old.next;
        *old = Bucket { generation, ..fresh };
        taken
    }

    /// Buckets laid left to right from x on, each at the head of the shelf's chain.
    pub fn lay_buckets(&mut self, shelf: usize, x: N, count: N) {
        for i in 0..count {
            let Shelf { first, width, .. } = self.shelves[shelf];
            self.shelves[shelf].first = self.new_bucket(shelf, x + i * width, first);
        }
    }

    fn has_next_column(&self) -> bool {
        self.column + 1 < self.columns
    }

    /// Module 5. Refused with 7 where the filler uses up the last records; the caller then undoes it.
    pub fn new_shelf(&mut self, w: N, h: N) -> Result<usize, u8> {
        if self.room != 0 && self.room < h && self.has_next_column() {
            self.new_shelf(0, self.room)?;
            if self.buckets.len() == MOST {
                return Err(7);
            }
        }
        if self.room == 0 && self.has_next_column() {
            self.column += 1;
            self.room = self.height;
        }
        let height = shelf_height(h).min(self.room);
        let count = bucket_count(self, w, height);
        let width = self.column_width / count;
        let width = width - width % self.align_width;
        let x = self.column * self.column_width;
        self.shelves.push(Shelf { x, y: self.height - self.room, height, width, first: NONE });
        self.room -= height;
        self.lay_buckets(self.shelves.len() - 1, x, count);
        Ok(self.shelves.len() - 1)
    }

    pub fn can_add(&self, h: N) -> bool {
        (self.room >= h || self.has_next_column()) && self.buckets.len() < MOST
    }

    /// Module 6.
    pub fn search(&self, w: N, h: N) -> Option<Place> {
        let can_add = self.can_add(h);
        let mut best: Option<(N, Place)> = None;
        for (i, s) in self.shelves.iter().enumerate() {
            let waste = s.height - h;
            if waste < 0 || s.width < w || best.is_some_and(|(b, _)| waste > b) || can_add && waste > h {
                continue;
            }
            for b in self.chain(s.first) {
                let bucket = &self.buckets[b];
                if bucket.free < w || bucket.items >= 4_095 {
                    continue;
                }
                let place = Place { shelf: i, bucket: b };
                if waste == 0 && bucket.free == w {
                    return Some(place);
                }
                if best.is_none_or(|(b, _)| waste < b) {
                    best = Some((waste, place));
                    break;
                }
            }
        }
        best.map(|(_, place)| place)
    }

    /// Module 7: the first shelf of the run that merges, and how many follow it.
    pub fn mergeable(&self, w: N, h: N) -> Option<(usize, usize)> {
        let firsts = (0..self.shelves.len()).filter(|&i| self.shelves[i].width >= w && self.is_unreferenced(i));
        firsts.filter_map(|i| Some((i, self.followers(i, h)?))).next()
    }

    /// How many of the shelves after this one, one or two, bring the sum of heights to h.
    fn followers(&self, first: usize, h: N) -> Option<usize> {
        let mut sum = self.shelves[first].height;
        for n in 1..=2 {
            let next = self.shelves.get(first + n)?;
            if next.x != self.shelves[first].x || !self.is_unreferenced(first + n) {
                return None;
            }
            sum += next.height;
            if sum >= h {
                return Some(n);
            }
        }
        None
    }

    /// Module 7: 6 where nothing merges. The bucket that the request goes to is unreferenced, so it has no items (T-08) and 8 can't arise.
    pub fn merge(&mut self, w: N, h: N) -> Result<Place, u8> {
        let (shelf, n) = self.mergeable(w, h).ok_or(6)?;
        let bucket = self.shelves[shelf].first as usize;
        let top = self.top(shelf + n);
        self.shelves[shelf].height = top - self.shelves[shelf].y;
        for follower in &mut self.shelves[shelf + 1..=shelf + n] {
            follower.height = 0;
            follower.y = top;
        }
        Ok(Place { shelf, bucket })
    }

    /// Modules 8 and 3.
    pub fn issue(&mut self, place: Place, w: N) -> Placed {
        let Shelf { y, height, width, .. } = self.shelves[place.shelf];
        let bucket = &mut self.buckets[place.bucket];
        let x = bucket.x + width - bucket.free;
        bucket.free -= w;
        bucket.refs += 1;
        bucket.items += 1;
        self.occupied += w * height;
        let id = place.bucket as N | (bucket.items % 4_096) << 12 | bucket.generation << 24;
        Placed { id: id as u32, rectangle: [x, y, x + w, y + height] }
    }
}
