//! Small files of each shape, as calls make them; ../sample/files has those of earlier builds, made with their archives. So no more is asked of the
//! tables here than holds of every build: what was worn before T-08 is not since.

use crate::damage::rows;
use crate::kept::lines;
use crate::port::{Held, Tables, FILE_MOST};
use std::collections::VecDeque;
use std::fs;
use treadwharf::{size2, AllocId, Options, Size};

fn written(tables: &Tables) -> Vec<u8> {
    let mut file = vec![0; FILE_MOST];
    let length = tables.write(&mut file).unwrap();
    file.truncate(length);
    file
}

/// As many allocates of one size as are placed, at most `most`; then the file.
pub fn filled(atlas: Size, columns: i32, request: Size, most: usize) -> Vec<u8> {
    let mut tables = Box::new(Tables::new());
    tables.renew(atlas, &Options { columns, ..Options::DEFAULT }).unwrap();
    for _ in 0..most {
        if tables.allocate(request).is_err() {
            break;
        }
    }
    written(&tables)
}

/// Two columns: a filler, then also two shelves that are popped again.
fn columns() -> [Vec<u8>; 2] {
    let mut tables = Box::new(Tables::new());
    tables.renew(size2(64, 64), &Options { columns: 2, ..Options::DEFAULT }).unwrap();
    for request in [size2(24, 46), size2(24, 32)] {
        tables.allocate(request).unwrap();
    }
    let filler = written(&tables);
    let ids = [size2(32, 20), size2(32, 7)].map(|request| tables.allocate(request).unwrap().id);
    for id in ids.into_iter().rev() {
        tables.deallocate(id).unwrap();
    }
    assert!((tables.header[9], tables.header[10]) == (5, 3), "two released buckets");
    [filler, written(&tables)]
}

/// An atlas with these labels in it.
fn labelled(atlas: Size, options: Options, labels: &[[i32; 2]]) -> Box<Tables> {
    let mut tables = Box::new(Tables::new());
    tables.renew(atlas, &options).unwrap();
    for [width, height] in labels {
        tables.allocate(size2(*width, *height)).unwrap();
    }
    tables
}

/// A filler whose buckets are 0 wide, so that a chain of them may ring with no x out of order.
fn narrow() -> Vec<u8> {
    let tables = labelled(size2(66, 11), Options { columns: 2, align_width: 33, ..Options::DEFAULT }, &[[33, 1], [33, 4]]);
    assert_eq!((tables.header[8], tables.header[9], tables.shelves[8]), (3, 4, 0), "two buckets of width 0");
    written(&tables)
}

/// The same of ratio 33.
fn narrow_33() -> Vec<u8> {
    let tables = labelled(size2(66, 9), Options { columns: 2, align_width: 33, ..Options::DEFAULT }, &[[33, 1], [33, 2]]);
    assert_eq!((tables.header[8], tables.header[9], tables.shelves[8]), (3, 6, 0), "four buckets of width 0");
    written(&tables)
}

/// A row of ratio 33 with one label.
fn lonely() -> Vec<u8> {
    let tables = labelled(size2(264, 8), Options::DEFAULT, &[[8, 8]]);
    assert_eq!((tables.header[8], tables.header[9]), (1, 4), "four buckets");
    written(&tables)
}

/// Rows of ratio 33, 47, 48 and 63, by the widths of the labels that lay them.
fn ratios() -> Vec<u8> {
    let tables = labelled(size2(1_890, 32), Options::DEFAULT, &[[57, 1], [40, 1], [39, 1], [30, 1]]);
    assert_eq!((tables.header[8], tables.header[9]), (4, 16), "four buckets in each row");
    written(&tables)
}

/// Four columns. Rows of one bucket leave 26, 34 and 50 of the first three: fillers of ratio 63, 48 and 33, with a label in each.
fn fillers() -> Vec<u8> {
    let rows = [80, 48, 24, 48, 8, 64].map(|height| [1_650, height]);
    let labels = [26, 34, 50].map(|height| [1, height]);
    let tables = labelled(size2(4 * 1_650, 106), Options { columns: 4, ..Options::DEFAULT }, &[&rows[..], &labels].concat());
    assert_eq!((tables.header[8], tables.header[9]), (6 + 3, 6 + 3 * 4), "four buckets in each filler");
    written(&tables)
}

/// So many labels of one size, each returned before the next.
fn turned(tables: &mut Tables, size: Size, times: usize) {
    for _ in 0..times {
        let id = tables.allocate(size).unwrap().id;
        tables.deallocate(id).unwrap();
    }
}

fn placed<const COUNT: usize>(tables: &mut Tables, sizes: [[i32; 2]; COUNT]) -> [AllocId; COUNT] {
    sizes.map(|[width, height]| tables.allocate(size2(width, height)).unwrap().id)
}

fn square(side: i32) -> Box<Tables> {
    labelled(size2(side, side), Options::DEFAULT, &[])
}

/// A merged row that has taken 5,000 labels and has none; the same with the next one in it.
fn worn() -> [Box<Tables>; 2] {
    let mut tables = rows(false);
    turned(&mut tables, size2(64, 32), 4_999);
    let mut held = tables.clone();
    placed(&mut held, [[64, 32]]);
    [tables, held]
}

/// Half of 64 by 64 held, the other half a row that has taken 4,095 labels of 32 by 32 and has none.
fn worn_row() -> Box<Tables> {
    let mut tables = square(64);
    let [first, second, _] = placed(&mut tables, [[32, 32], [32, 32], [64, 32]]);
    [first, second].iter().for_each(|id| tables.deallocate(*id).unwrap());
    turned(&mut tables, size2(32, 32), 4_093);
    tables
}

/// Three rows, the second of which has taken 4,095 labels, and is popped with the third.
fn worn_released() -> Box<Tables> {
    let mut tables = square(64);
    let [_, second, last] = placed(&mut tables, [[64, 16]; 3]);
    tables.deallocate(second).unwrap();
    turned(&mut tables, size2(64, 16), 4_094);
    tables.deallocate(last).unwrap();
    tables
}

/// A row laid for the 256th time, emptied below another.
fn last_generation() -> Box<Tables> {
    let mut tables = square(64);
    turned(&mut tables, size2(64, 16), 255);
    let [first, _] = placed(&mut tables, [[64, 16]; 2]);
    tables.deallocate(first).unwrap();
    tables
}

/// A row laid for the 256th time, and popped.
fn last_released() -> Box<Tables> {
    let mut tables = labelled(size2(64, 64), Options::DEFAULT, &[[64, 16]]);
    turned(&mut tables, size2(64, 16), 256);
    tables
}

/// The complaint: 32 by 32 labels on 256 by 256, ten at a time, for ten quarters of 8,000 or until one is refused.
fn worn_atlas() -> Box<Tables> {
    let (mut tables, mut held) = (square(256), VecDeque::new());
    for turn in 0..80_000 {
        if turn >= 10 {
            tables.deallocate(held.pop_front().unwrap()).unwrap();
        }
        let Ok(label) = tables.allocate(size2(32, 32)) else { break };
        held.push_back(label.id);
    }
    tables
}

/// What builds before T-08 wore out, by name.
fn in_long_use() -> Vec<(&'static str, Box<Tables>)> {
    let [worn, held] = worn();
    vec![
        ("worn", worn),
        ("worn-held", held),
        ("worn-row", worn_row()),
        ("worn-released", worn_released()),
        ("worn-atlas", worn_atlas()),
        ("last-generation", last_generation()),
        ("last-released", last_released()),
    ]
}

pub fn shapes() -> Vec<(&'static str, Vec<u8>)> {
    let [empty, label] = [0, 1].map(|count| filled(size2(64, 64), 1, size2(10, 7), count));
    let [filler, released] = columns();
    let [free, merged] = [false, true].map(|merged| written(&rows(merged)));
    let named = ["empty", "label", "filler", "released", "rows", "merged", "narrow", "lonely", "ratios", "fillers", "narrow-33"];
    let files = [empty, label, filler, released, free, merged, narrow(), lonely(), ratios(), fillers(), narrow_33()];
    named.into_iter().zip(files).collect()
}

/// Writes the shapes into a folder, a record a line; of those in long use the list too, an entry a line: id, left, top, right, bottom.
pub fn keep(folder: &str) {
    fs::create_dir_all(folder).unwrap();
    let write = |name: String, text: String| fs::write(format!("{folder}/{name}"), text).unwrap();
    for (name, file) in shapes() {
        write(format!("{name}.hex"), lines(&file));
    }
    for (name, tables) in in_long_use() {
        let line = |e: &Held| format!("{} {} {} {} {}\n", e.id, e.left, e.top, e.right, e.bottom);
        write(format!("{name}.hex"), lines(&written(&tables)));
        write(format!("{name}.held"), tables.list[..tables.entries()].iter().map(line).collect());
    }
}
