//! T-08: what an emptied bucket becomes. Files that builds before it wrote: what is repaired, what is not, and that the calls go on.

use crate::tables::{Atlas, Build, N, NONE};

/// 64 by 64, rows of 16; of four the first and the last are returned by a build that lets buckets wear, so that bucket 0 is unreferenced on its shelf
/// and bucket 3 released, with an item each.
fn earlier() -> Atlas {
    let mut a = Atlas::new([64, 64], [1, 1], 1, 0).unwrap();
    let ids: Vec<u32> = (0..4).map(|_| a.allocate(64, 16).unwrap().id).collect();
    for id in [ids[0], ids[3]] {
        a.deallocate_by(Build::Wearing, id).unwrap();
    }
    assert_eq!((a.released, a.sound_by(Build::Wearing)), (3, Ok(())));
    a
}

/// Reference count, item count and generation of each bucket.
fn counts(a: &Atlas) -> Vec<[N; 3]> {
    a.buckets.iter().map(|b| [b.refs, b.items, b.generation]).collect()
}

/// The file with these items and this generation in a bucket, read.
fn read_with(bucket: usize, items: N, generation: N) -> Result<Vec<[N; 3]>, u8> {
    let mut a = earlier();
    (a.buckets[bucket].items, a.buckets[bucket].generation) = (items, generation);
    Atlas::read(&a.file()).map(|a| counts(&a))
}

/// Two labels in bucket 1 and one in bucket 0, which keeps the shelf.
#[test]
fn emptied() {
    let mut a = Atlas::new([64, 64], [1, 1], 1, 0).unwrap();
    let ids = [10, 20, 30].map(|w| a.allocate(w, 7).unwrap().id);
    assert_eq!(ids, [4_097, 8_193, 4_096]);
    a.deallocate(4_097).unwrap();
    assert_eq!(counts(&a), [[1, 1, 0], [1, 2, 0]], "while a label is held nothing else changes");
    a.deallocate(8_193).unwrap();
    assert_eq!(counts(&a), [[1, 1, 0], [0, 0, 1]]);
    assert_eq!([8_193, 1 | 1 << 24].map(|id| a.deallocate(id)), [Err(10), Err(11)]);
    a.buckets[1].generation = 255;
    assert_eq!(a.allocate(10, 7).map(|p| p.id), Ok(4_097 | 255 << 24));
    a.deallocate(4_097 | 255 << 24).unwrap();
    assert_eq!(counts(&a), [[1, 1, 0], [0, 0, 0]]);
    a.deallocate(4_096).unwrap();
    assert_eq!((a.shelves.len(), counts(&a)), (0, vec![[0, 0, 1], [0, 0, 0]]), "popped: those that had no label rise not");
    assert_eq!(a.allocate(64, 64).map(|p| p.id), Ok(4_097 | 1 << 24), "taken again it rises once more");
}

#[test]
fn unreferenced_ones() {
    assert_eq!(counts(&earlier()), [[0, 1, 0], [1, 1, 0], [1, 1, 0], [0, 1, 0]]);
    assert_eq!(earlier().sound(), Err("unreferenced: item count 0"));
    assert_eq!(read_with(0, 1, 0), Ok(vec![[0, 0, 1], [1, 1, 0], [1, 1, 0], [0, 0, 1]]));
    for items in [1, 4_094, 4_095, 4_096, 65_535] {
        assert_eq!([0, 3].map(|b| read_with(b, items, 254).unwrap()[b]), [[0, 0, 255]; 2], "{items} items");
        assert_eq!([0, 3].map(|b| read_with(b, items, 255).unwrap()[b]), [[0, 0, 0]; 2], "{items} items, generation 255");
    }
    assert_eq!([0, 3].map(|b| read_with(b, 0, 255).unwrap()[b]), [[0, 0, 255]; 2], "nothing to repair");
}

#[test]
fn referenced_ones() {
    for (items, generation) in [(1, 0), (4_095, 255), (5_000, 7), (65_535, 255)] {
        assert_eq!(read_with(1, items, generation).unwrap()[1], [1, items, generation]);
    }
    assert_eq!(read_with(1, 0, 0), Err(1), "more references than items");
}

/// 256 and above are no generations, and the repair makes none of them.
#[test]
fn no_generation() {
    for bucket in [0, 1, 3] {
        for (items, generation) in [(1, 256), (4_095, 511), (1, 65_280), (1, 65_535), (0, 256), (0, 65_535)] {
            assert_eq!(read_with(bucket, items, generation), Err(1), "bucket {bucket}");
        }
    }
}

/// Nothing else is repaired.
#[test]
fn still_unsound() {
    let read = |edit: &dyn Fn(&mut Atlas)| {
        let mut a = earlier();
        edit(&mut a);
        Atlas::read(&a.file()).err()
    };
    assert_eq!(read(&|_| ()), None);
    assert_eq!(read(&|a| a.buckets[0].free = 63), Some(1), "a used part without a label");
    assert_eq!(read(&|a| a.buckets[3].refs = 1), Some(1), "a released one with a label");
    assert_eq!(read(&|a| a.released = NONE), Some(1), "a bucket in no chain");
    assert_eq!(read(&|a| a.occupied += 64), Some(1), "the figure");
}

/// Read again it is as it was read; the first id of before is stale.
#[test]
fn goes_on() {
    let mut a = Atlas::read(&earlier().file()).unwrap();
    assert_eq!((Atlas::read(&a.file()), a.file() == earlier().file()), (Ok(a.clone()), false));
    assert_eq!((a.deallocate(4_096), a.deallocate(4_099)), (Err(10), Err(10)));
    let ids = [(64, 16), (64, 16)].map(|(w, h)| a.allocate(w, h).unwrap().id);
    assert_eq!(ids, [4_096 | 1 << 24, 4_099 | 2 << 24], "a released one taken again rises once more");
}

/// The wear of the complaint, read: a row whose bucket has had 4,095 items takes labels again.
#[test]
fn worn_row() {
    let mut a = earlier();
    (a.buckets[0].items, a.height, a.room) = (4_095, 48, 0);
    assert_eq!(a.clone().allocate(32, 16), Err(6));
    let mut b = Atlas::read(&a.file()).unwrap();
    assert_eq!(b.allocate(32, 16).map(|p| (p.id, p.rectangle)), Ok((4_096 | 1 << 24, [0, 0, 32, 16])));
}
