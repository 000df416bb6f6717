//! Document 01's 'Sound tables', clause by clause in its order, then what T-08 "now also" asks. The answer names the first clause that fails.
//! "Lie in its column" is read as: from the column's left edge, and ending not past its right edge.

use crate::tables::{Atlas, Bucket, Build, Shelf, MOST, N, NONE, SIDE};

type Answer = Result<(), &'static str>;

fn ask(holds: bool, clause: &'static str) -> Answer {
    if holds { Ok(()) } else { Err(clause) }
}

fn within(n: N) -> bool {
    (1..=SIDE).contains(&n)
}

impl Atlas {
    pub fn sound(&self) -> Answer {
        self.sound_by(Build::Renewing)
    }

    /// As a build asks it.
    pub fn sound_by(&self, build: Build) -> Answer {
        self.header()?;
        self.cells()?;
        self.columns_and_room()?;
        self.shelves_run()?;
        self.one_chain_each()?;
        for index in 0..self.shelves.len() {
            self.shelf_chain(index)?;
        }
        ask(self.chain(self.released).all(|b| self.buckets[b].refs == 0), "released: reference count 0")?;
        self.last_and_figure()?;
        let rests = |b: &Bucket| b.refs > 0 || b.items == 0;
        ask(build == Build::Wearing || self.buckets.iter().all(rests), "unreferenced: item count 0")
    }

    fn header(&self) -> Answer {
        let sides = [self.width, self.height, self.align_width, self.align_height, self.columns];
        ask(sides.into_iter().all(within) && self.column_width >= 1, "header: domain")?;
        ask(self.shelves.len() <= MOST && self.buckets.len() <= MOST, "header: counts")
    }

    /// What the numbers stand for at all: cells of 16 bits, a generation of 8, links to buckets or the end.
    fn cells(&self) -> Answer {
        let count = self.buckets.len() as N;
        let link = |n: N| n == NONE || (0..count).contains(&n);
        let cell = |n: N| (0..=65_535).contains(&n);
        let shelf = |s: &Shelf| [s.x, s.y, s.height, s.width].into_iter().all(cell) && link(s.first);
        ask(self.shelves.iter().all(shelf) && link(self.released), "cells: shelves")?;
        let bucket = |b: &Bucket| {
            let cells = [b.x, b.free, b.refs, b.items, b.shelf];
            cells.into_iter().all(cell) && link(b.next) && (0..256).contains(&b.generation)
        };
        ask(self.buckets.iter().all(bucket), "cells: buckets")
    }

    fn columns_and_room(&self) -> Answer {
        ask(self.columns * self.column_width <= self.width, "columns: within the width")?;
        ask((0..self.columns).contains(&self.column), "columns: current one below the number")?;
        let Some(last) = self.shelves.len().checked_sub(1) else {
            return ask(self.column == 0 && self.room == self.height, "no shelf: column 0, full room");
        };
        ask(self.shelves[last].x == self.column * self.column_width, "last shelf: in the current column")?;
        ask(self.room == self.height - self.top(last), "room: height less the last top")
    }

    fn shelves_run(&self) -> Answer {
        for (i, s) in self.shelves.iter().enumerate() {
            ask(self.top(i) <= self.height, "shelves: no top above the height")?;
            let before = i.checked_sub(1).map(|b| &self.shelves[b]);
            if before.is_some_and(|b| b.x == s.x) {
                ask(s.y == self.top(i - 1), "shelves: y is the last one's top")?;
                continue;
            }
            let left = before.map_or(0, |b| b.x + self.column_width);
            ask(s.x == left, "shelves: column by column from 0, none skipped")?;
            ask(s.y == 0 && s.height >= 1, "shelves: a column starts at 0, height at least 1")?;
        }
        Ok(())
    }

    fn one_chain_each(&self) -> Answer {
        let mut seen = vec![0; self.buckets.len()];
        let firsts = self.shelves.iter().map(|s| s.first).chain([self.released]);
        for bucket in firsts.flat_map(|first| self.chain(first)) {
            seen[bucket] += 1;
            ask(seen[bucket] == 1, "chains: each bucket in one")?;
        }
        ask(seen.into_iter().all(|n| n == 1), "chains: each bucket in one")
    }

    fn shelf_chain(&self, index: usize) -> Answer {
        let s = &self.shelves[index];
        ask(s.first != NONE, "chain: not empty")?;
        ask(self.columns > 1 || s.width >= 1, "one column: bucket width at least 1")?;
        for b in self.chain(s.first).map(|b| &self.buckets[b]) {
            ask(b.shelf == index as N, "chain: names its shelf")?;
            ask(s.x <= b.x && b.x + s.width <= s.x + self.column_width, "chain: lies in its column")?;
            let apart = b.next == NONE || b.x >= self.buckets[b.next as usize].x + s.width;
            ask(apart, "chain: x at least the next one's plus the width")?;
            ask(b.free <= s.width, "bucket: free width at most the width")?;
            ask((b.free == s.width) == (b.refs == 0), "bucket: all free exactly when unreferenced")?;
            ask(b.refs <= b.items, "bucket: reference count at most item count")?;
            ask(s.height > 0 || b.refs == 0, "height 0: reference count 0")?;
        }
        Ok(())
    }

    fn last_and_figure(&self) -> Answer {
        let last = self.shelves.len().checked_sub(1);
        ask(last.is_none_or(|l| !self.is_unreferenced(l)), "last shelf: referenced")?;
        let used = |s: &Shelf| self.chain(s.first).map(|b| (s.width - self.buckets[b].free) * s.height).sum::<N>();
        ask(self.occupied == self.shelves.iter().map(used).sum::<N>(), "occupied: the used widths times heights")
    }
}
