//! Which sizes are asked for, and which ids come back.

use crate::maker::Maker;
use model::tables::N;

/// A style of requests, kept for a stretch so that shelves of a kind come together.
#[derive(Clone, Copy)]
pub enum Style {
    /// A line of text: a few heights, any width up to a quarter of the column.
    Label,
    /// Few sizes, so that exact fits come up.
    Icon,
    Any,
    Tiny,
    /// Whole rows.
    Row,
    /// At and past the largest that fits.
    Brim,
}

pub const STYLES: [Style; 8] =
    [Style::Label, Style::Label, Style::Icon, Style::Icon, Style::Any, Style::Tiny, Style::Row, Style::Brim];

impl Maker {
    pub fn request(&mut self, style: Style) -> Option<u32> {
        let [_, height, column] = self.sides();
        let r = &mut self.random;
        let (w, h) = match style {
            Style::Label => (r.range(1, 1 + column / 4), r.pick(&[7, 8, 9, 12, 16, 17, 24, 31, 32, 33, 48])),
            Style::Icon => (r.pick(&[8, 16, 24, 32]), r.pick(&[8, 16, 32, 64])),
            Style::Any => (r.range(1, column), r.range(1, height)),
            Style::Tiny => (r.range(1, 8), r.range(1, 9)),
            Style::Row => (column, r.range(1, 1 + height / 4)),
            Style::Brim => (column - r.range(-1, 2), height - r.range(-1, 9)),
        };
        self.alloc(w, h)
    }

    /// Mostly a held id; now and then a stale one, one of another generation or item number, one of no bucket.
    pub fn give_some_back(&mut self) {
        let held = self.held.len() as N;
        let id = match self.random.range(0, 99) {
            0..=89 if held > 0 => self.held[self.random.range(0, held - 1) as usize],
            90..=94 if !self.stale.is_empty() => self.random.pick(&self.stale),
            95..=96 if held > 0 => self.random.pick(&self.held) ^ 1 << self.random.range(12, 31),
            97..=98 => self.near_the_count(),
            _ => self.random.next() as u32,
        };
        self.give_back(id);
    }

    /// An id with all but the bucket 0, at the bucket count or one or two below.
    fn near_the_count(&mut self) -> u32 {
        let count = self.atlas.as_ref().map_or(0, |a| a.buckets.len() as N);
        (count - self.random.range(0, 2)).clamp(0, 4_095) as u32
    }

    /// So many calls, filling and draining in turns.
    pub fn churn(&mut self, calls: N) {
        let mut left = calls;
        while left > 0 {
            let stretch = self.random.range(1, 40).min(left);
            let asking = self.random.pick(&[95, 80, 60, 50, 30, 10]);
            let style = self.random.pick(&STYLES);
            for _ in 0..stretch {
                if self.random.percent(4) {
                    self.report();
                } else if self.random.percent(asking) {
                    self.request(style);
                } else {
                    self.give_some_back();
                }
            }
            left -= stretch;
        }
    }

    /// Returns every held id, in order or mixed.
    pub fn give_all_back(&mut self) {
        while let Some(last) = self.held.len().checked_sub(1) {
            let at = if self.random.percent(50) { 0 } else { self.random.range(0, last as N) as usize };
            self.give_back(self.held[at]);
        }
    }
}
