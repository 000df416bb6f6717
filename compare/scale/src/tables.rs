//! The port's lent numbers as the model's tables and list, and the model's as lent numbers.

use crate::port::{Held, Tables};
use model::listed::Lent;
use model::place::Placed;
use model::tables::{Atlas as Model, Bucket, Shelf};

pub fn placed(e: Held) -> Placed {
    Placed { id: e.id, rectangle: [e.left, e.top, e.right, e.bottom].map(i64::from) }
}

pub fn held(p: &Placed) -> Held {
    let [left, top, right, bottom] = p.rectangle.map(|n| n as u16);
    Held { id: p.id, left, top, right, bottom }
}

/// Tables and the whole list.
pub fn lent_of(tables: &Tables) -> Lent {
    Lent { atlas: model_of(tables), list: tables.list.iter().copied().map(placed).collect() }
}

pub fn model_of(tables: &Tables) -> Model {
    let (h, s, b) = (tables.header.map(i64::from), &tables.shelves, &tables.buckets);
    let shelf = |c: &[u16]| Shelf { x: c[0].into(), y: c[1].into(), height: c[2].into(), width: c[3].into(), first: c[4].into() };
    let bucket = |c: &[u16]| {
        let [x, free, next, refs, items, shelf, generation] = std::array::from_fn(|i| c[i].into());
        Bucket { x, free, next, refs, items, shelf, generation }
    };
    Model {
        width: h[0],
        height: h[1],
        align_width: h[2],
        align_height: h[3],
        columns: h[4],
        column_width: h[5],
        column: h[6],
        room: h[7],
        released: h[10],
        occupied: h[11],
        shelves: s.chunks(5).take(h[8] as usize).map(shelf).collect(),
        buckets: b.chunks(7).take(h[9] as usize).map(bucket).collect(),
    }
}

/// Writes a sound atlas of the model into lent numbers; records past its counts stay.
pub fn put(tables: &mut Tables, m: &Model) {
    let counts = [m.shelves.len() as i64, m.buckets.len() as i64];
    let sides = [m.width, m.height, m.align_width, m.align_height, m.columns, m.column_width, m.column, m.room];
    let header = sides.into_iter().chain(counts).chain([m.released, m.occupied]);
    tables.header.iter_mut().zip(header).for_each(|(cell, n)| *cell = n as u32);
    for (cells, s) in tables.shelves.chunks_mut(5).zip(&m.shelves) {
        cells.copy_from_slice(&[s.x, s.y, s.height, s.width, s.first].map(|n| n as u16));
    }
    for (cells, b) in tables.buckets.chunks_mut(7).zip(&m.buckets) {
        cells.copy_from_slice(&[b.x, b.free, b.next, b.refs, b.items, b.shelf, b.generation].map(|n| n as u16));
    }
}

/// A list of junk: what is past the entries in use.
pub fn junk_list(length: usize) -> Vec<Held> {
    let number = |i: usize| (i * 40_503) as u16;
    let id = |i: usize| (i as u32).wrapping_mul(2_654_435_761);
    let entry = |i: usize| Held { id: id(i), left: number(i), top: number(i + 1), right: number(i + 2), bottom: number(i + 3) };
    (0..length).map(entry).collect()
}

/// Tables and list of junk, so that nothing can rest on zeros past the counts.
pub fn junk() -> Box<Tables> {
    let mut tables = Box::new(Tables::new());
    tables.shelves.iter_mut().enumerate().for_each(|(i, n)| *n = (i * 40_503) as u16);
    tables.buckets.iter_mut().enumerate().for_each(|(i, n)| *n = (i * 40_503) as u16);
    tables.list = junk_list(tables.list.len());
    tables
}
