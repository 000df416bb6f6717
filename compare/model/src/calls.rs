//! The public calls with their refusals in document 01's order; modules 9 and 10 stand with their calls.
//! A refused call changes nothing.

use crate::place::{Place, Placed};
use crate::sizes::round_up;
use crate::tables::{Atlas, Build, MOST, N, NONE, SIDE};

fn within(side: N) -> bool {
    (1..=SIDE).contains(&side)
}

impl Atlas {
    pub fn new(size: [N; 2], align: [N; 2], columns: N, vertical: N) -> Result<Atlas, u8> {
        if !size.into_iter().all(within) {
            return Err(2);
        }
        if !align.into_iter().all(within) || !within(columns) || vertical != 0 {
            return Err(3);
        }
        let column_width = size[0] / columns / align[0] * align[0];
        if column_width == 0 {
            return Err(3);
        }
        Ok(Atlas {
            width: size[0],
            height: size[1],
            align_width: align[0],
            align_height: align[1],
            columns,
            column_width,
            column: 0,
            room: size[1],
            released: NONE,
            occupied: 0,
            shelves: vec![],
            buckets: vec![],
        })
    }

    pub fn clear(&mut self) {
        self.shelves.clear();
        self.buckets.clear();
        self.column = 0;
        self.room = self.height;
        self.released = NONE;
        self.occupied = 0;
    }

    pub fn free(&self) -> N {
        self.width * self.height - self.occupied
    }

    pub fn allocate(&mut self, w: N, h: N) -> Result<Placed, u8> {
        if w < 1 || h < 1 {
            return Err(4);
        }
        if w > 65_535 || h > 65_535 {
            return Err(5);
        }
        let (aligned_w, aligned_h) = (round_up(w, self.align_width), round_up(h, self.align_height));
        if aligned_w > self.column_width {
            return Err(22);
        }
        if aligned_h > self.height {
            return Err(23);
        }
        let (w, h) = (aligned_w, aligned_h);
        let place = match self.search(w, h) {
            Some(place) => place,
            None if self.can_add(h) => {
                let mut after = self.clone();
                let shelf = after.new_shelf(w, h)?;
                *self = after;
                Place { shelf, bucket: self.shelves[shelf].first as usize }
            }
            None => self.merge(w, h)?,
        };
        Ok(self.issue(place, w))
    }

    pub fn deallocate(&mut self, id: u32) -> Result<(), u8> {
        self.deallocate_by(Build::Renewing, id)
    }

    /// Module 9, as a build does it. Item bits are not looked at.
    pub fn deallocate_by(&mut self, build: Build, id: u32) -> Result<(), u8> {
        let (index, generation) = ((id & 4_095) as usize, (id >> 24) as N);
        let bucket = self.buckets.get_mut(index).ok_or(9)?;
        if bucket.generation != generation {
            return Err(10);
        }
        if bucket.refs == 0 {
            return Err(11);
        }
        bucket.refs -= 1;
        if bucket.refs == 0 {
            let shelf = &self.shelves[bucket.shelf as usize];
            self.occupied -= (shelf.width - bucket.free) * shelf.height;
            bucket.free = shelf.width;
            if build == Build::Renewing {
                bucket.items = 0;
                bucket.generation = (bucket.generation + 1) % 256;
            }
            if bucket.shelf as usize == self.shelves.len() - 1 {
                self.clean_up();
            }
        }
        Ok(())
    }

    fn clean_up(&mut self) {
        while !self.shelves.is_empty() && self.is_unreferenced(self.shelves.len() - 1) {
            let shelf = self.shelves.pop().unwrap();
            let last = self.chain(shelf.first).last().unwrap();
            self.buckets[last].next = self.released;
            self.released = shelf.first;
            if shelf.y == 0 && self.column > 0 {
                self.column -= 1;
                self.room = self.height - self.top(self.shelves.len() - 1);
            } else {
                self.room += shelf.height;
            }
        }
    }

    /// Module 10.
    pub fn grow(&mut self, width: N, height: N) -> Result<(), u8> {
        if !within(width) || !within(height) {
            return Err(2);
        }
        if width < self.width || height < self.height {
            return Err(12);
        }
        self.room += height - self.height;
        (self.width, self.height) = (width, height);
        if self.columns > 1 {
            self.columns = width / self.column_width;
            return Ok(());
        }
        for shelf in 0..self.shelves.len() {
            let most = (MOST - self.buckets.len()) as N;
            let count = (width - self.column_width) / self.shelves[shelf].width;
            self.lay_buckets(shelf, self.column_width, count.min(most));
        }
        self.column_width = width;
        Ok(())
    }
}
