//! Lists for tables alone: entries that fit them and were never issued. A bucket's rectangles lie anywhere in its used span, and its item
//! numbers are any that the test takes.

use crate::port::Held;
use crate::random::Random;
use model::tables::{Atlas as Model, Bucket, Shelf};

/// More entries than this are made up for no tables.
const MOST: usize = 70_000;

/// The used span of a bucket: left, top, width, height.
fn span(bucket: &Bucket, shelf: &Shelf) -> [i64; 4] {
    [bucket.x, shelf.y, shelf.width - bucket.free, shelf.height]
}

/// The item numbers that a bucket's ids may have: the first and how many.
fn numbers(bucket: &Bucket) -> (i64, i64) {
    if bucket.items < 4_095 { (1, bucket.items) } else { (0, 4_096) }
}

fn id(index: usize, item: i64, bucket: &Bucket) -> u32 {
    index as u32 | (item as u32) << 12 | (bucket.generation as u32) << 24
}

fn entry(id: u32, [left, top, right, bottom]: [i64; 4]) -> Held {
    let [left, top, right, bottom] = [left, top, right, bottom].map(|n| n as u16);
    Held { id, left, top, right, bottom }
}

/// The buckets with a held rectangle; nothing where one can have no list, for want of pixels or of item numbers.
fn referenced(model: &Model) -> Option<Vec<(usize, &Bucket, &Shelf)>> {
    let all = model.buckets.iter().enumerate().filter(|(_, b)| b.refs > 0);
    let some: Vec<_> = all.map(|(i, b)| (i, b, &model.shelves[b.shelf as usize])).collect();
    let possible = |(_, b, s): &(usize, &Bucket, &Shelf)| {
        let [_, _, width, height] = span(b, s);
        b.refs <= width * height && b.refs <= numbers(b).1
    };
    (model.entries() <= MOST && some.iter().all(possible)).then_some(some)
}

/// A pixel for each, bucket by bucket, each bucket's from left to right and from its top on.
pub fn made_up(model: &Model) -> Option<Vec<Held>> {
    let pixels = |(index, b, s): (usize, &Bucket, &Shelf)| {
        let ([x, y, width, _], (first, _)) = (span(b, s), numbers(b));
        let pixel = |i: i64| [x + i % width, y + i / width, x + i % width + 1, y + i / width + 1];
        (0..b.refs).map(|i| entry(id(index, first + i, b), pixel(i))).collect::<Vec<_>>()
    };
    Some(referenced(model)?.into_iter().flat_map(pixels).collect())
}

/// Rectangles of all shapes, in any order.
pub fn others(model: &Model, r: &mut Random) -> Option<Vec<Held>> {
    let mut list = Vec::new();
    for (index, b, s) in referenced(model)? {
        let (first, many) = numbers(b);
        let from = (r.next() % many as u64) as i64;
        for (i, rectangle) in cut(span(b, s), b.refs, r).into_iter().enumerate() {
            let item = first + (from + i as i64) % many;
            list.push(entry(id(index, item, b), rectangle));
        }
    }
    shuffle(&mut list, r);
    Some(list)
}

/// The span cut into so many parts, one over another, side by side, or in rows of pixels; some are made smaller.
fn cut([x, y, width, height]: [i64; 4], count: i64, r: &mut Random) -> Vec<[i64; 4]> {
    let part = |i: i64, of: i64| [i * of / count, (i + 1) * of / count];
    let stacked = |i: i64| [x, y + part(i, height)[0], x + width, y + part(i, height)[1]];
    let beside = |i: i64| [x + part(i, width)[0], y, x + part(i, width)[1], y + height];
    let pixel = |i: i64| [x + i % width, y + i / width, x + i % width + 1, y + i / width + 1];
    let whole: Vec<[i64; 4]> = match r.from(0, 2) {
        0 if count <= height => (0..count).map(stacked).collect(),
        1 if count <= width => (0..count).map(beside).collect(),
        _ => (0..count).map(pixel).collect(),
    };
    whole.into_iter().map(|rectangle| smaller(rectangle, r)).collect()
}

fn smaller([left, top, right, bottom]: [i64; 4], r: &mut Random) -> [i64; 4] {
    let mut less = |size: i64| if r.once_in(2) { 0 } else { (r.next() % size as u64) as i64 };
    let (x, y) = (left + less(right - left), top + less(bottom - top));
    [x, y, right - less(right - x), bottom - less(bottom - y)]
}

pub fn shuffle(list: &mut [Held], r: &mut Random) {
    for i in (1..list.len()).rev() {
        list.swap(i, (r.next() % (i as u64 + 1)) as usize);
    }
}
