//! Each clause of the tables test refuses a table that breaks it, and names itself.

use crate::tables::{Atlas, Build, NONE};

/// Two columns, a filler, a released bucket, a merged run with a shelf of height 0, used and unused buckets.
fn sample() -> Atlas {
    let mut a = Atlas::new([128, 64], [1, 1], 2, 0).unwrap();
    let rows: Vec<u32> = (0..7).map(|_| a.allocate(64, 8).unwrap().id).collect();
    a.allocate(20, 40).unwrap();
    let last = a.allocate(64, 16).unwrap().id;
    for id in [rows[1], rows[2], rows[3], last] {
        a.deallocate(id).unwrap();
    }
    a.allocate(64, 24).unwrap();
    assert_eq!((a.sound(), a.column, a.shelves[1].height, a.shelves[2].height), (Ok(()), 1, 24, 0), "{a}");
    assert!(a.released != NONE);
    a
}

fn breaks(clause: &str, edit: impl Fn(&mut Atlas)) {
    let mut a = sample();
    edit(&mut a);
    assert_eq!(a.sound(), Err(clause), "{a}");
}

#[test]
fn header_and_cells() {
    breaks("header: domain", |a| a.width = 46_341);
    breaks("header: domain", |a| a.align_height = 0);
    breaks("header: domain", |a| a.column_width = 0);
    breaks("header: counts", |a| a.buckets.resize(4_096, a.buckets[0].clone()));
    breaks("cells: shelves", |a| a.released = 4_095);
    breaks("cells: buckets", |a| a.buckets[0].generation = 256);
    breaks("cells: buckets", |a| a.buckets[0].next = a.buckets.len() as i64);
}

#[test]
fn columns_and_shelves() {
    breaks("columns: within the width", |a| a.width -= 1);
    breaks("columns: current one below the number", |a| a.columns = 1);
    breaks("last shelf: in the current column", |a| a.column = 0);
    breaks("room: height less the last top", |a| a.room += 1);
    breaks("shelves: no top above the height", |a| a.shelves[0].height = 65);
    breaks("shelves: y is the last one's top", |a| a.shelves[1].y += 1);
    breaks("shelves: column by column from 0, none skipped", |a| a.shelves[0].x = 1);
    breaks("shelves: a column starts at 0, height at least 1", |a| a.shelves[0].height = 0);
    let mut empty = Atlas::new([8, 8], [1, 1], 1, 0).unwrap();
    empty.room = 7;
    assert_eq!(empty.sound(), Err("no shelf: column 0, full room"));
}

#[test]
fn chains() {
    breaks("chains: each bucket in one", |a| a.released = NONE);
    breaks("chains: each bucket in one", |a| a.released = a.shelves[0].first);
    breaks("chains: each bucket in one", |a| a.buckets[a.released as usize].next = a.released);
    breaks("chain: not empty", |a| {
        let first = std::mem::replace(&mut a.shelves[2].first, NONE);
        a.buckets[first as usize].next = std::mem::replace(&mut a.released, first);
    });
    breaks("chain: names its shelf", |a| a.buckets[0].shelf += 1);
    breaks("chain: lies in its column", |a| a.buckets[0].x += 1);
    breaks("chain: x at least the next one's plus the width", |a| {
        let filler = &a.shelves[7];
        let next = a.buckets[filler.first as usize].next;
        a.buckets[next as usize].x += 1;
    });
    let mut narrow = Atlas::new([8, 8], [1, 1], 1, 0).unwrap();
    narrow.allocate(1, 1).unwrap();
    narrow.shelves[0].width = 0;
    assert_eq!(narrow.sound(), Err("one column: bucket width at least 1"));
}

#[test]
fn buckets_and_figure() {
    breaks("bucket: free width at most the width", |a| a.buckets[0].free = 65);
    breaks("bucket: all free exactly when unreferenced", |a| a.buckets[0].free = 64);
    breaks("bucket: all free exactly when unreferenced", |a| (a.buckets[0].refs, a.buckets[0].items) = (0, 0));
    breaks("bucket: reference count at most item count", |a| a.buckets[0].refs = 2);
    breaks("height 0: reference count 0", |a| {
        let bucket = &mut a.buckets[a.shelves[2].first as usize];
        (bucket.refs, bucket.items, bucket.free) = (1, 1, 0);
    });
    breaks("released: reference count 0", |a| a.buckets[a.released as usize].refs = 1);
    breaks("occupied: the used widths times heights", |a| a.occupied += 1);
    breaks("last shelf: referenced", |a| {
        let last = a.shelves.len() - 1;
        let first = a.shelves[last].first as usize;
        (a.buckets[first].refs, a.buckets[first].items, a.buckets[first].free) = (0, 0, a.shelves[last].width);
    });
}

/// T-08's clause, of a bucket on a shelf of height 0, of one in a filler's chain and of a released one. Builds before it do not ask.
#[test]
fn unreferenced() {
    let whole = sample();
    for bucket in [whole.shelves[2].first, whole.shelves[7].first, whole.released].map(|b| b as usize) {
        assert_eq!(whole.buckets[bucket].refs, 0);
        for items in [1, 4_095, 65_535] {
            breaks("unreferenced: item count 0", |a| a.buckets[bucket].items = items);
            let mut before = sample();
            before.buckets[bucket].items = items;
            assert_eq!(before.sound_by(Build::Wearing), Ok(()));
        }
    }
}
