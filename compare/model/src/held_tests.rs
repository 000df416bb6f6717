//! Each clause of the list's test refuses a list that breaks it, and names itself; what lies just inside fits. The calls with the list: each
//! refusal at its place in the order, where entries go, and what a refusal leaves.

use crate::listed::Lent;
use crate::place::Placed;
use crate::tables::{Atlas, NONE};

const JUNK: Placed = Placed { id: 7, rectangle: [9, 8, 7, 6] };

fn made(width: i64, height: i64, columns: i64, room: usize) -> Lent {
    Lent { atlas: Atlas::new([width, height], [1, 1], columns, 0).unwrap(), list: vec![JUNK; room] }
}

/// 64 by 64: 10 by 8 and 12 by 8 in bucket 1, which are ids 4097 and 8193, x 32 to 42 and 42 to 54; 20 by 8 in bucket 0, id 4096.
fn three() -> Lent {
    let mut lent = made(64, 64, 1, 5);
    for width in [10, 12, 20] {
        lent.call(|l| l.allocate(width, 7)).unwrap();
    }
    assert_eq!(ids(&lent), [4_096, 4_097, 8_193]);
    lent
}

fn ids(lent: &Lent) -> Vec<u32> {
    lent.list[..lent.atlas.entries()].iter().map(|e| e.id).collect()
}

fn breaks(clause: &str, edit: impl Fn(&mut Lent)) {
    let mut lent = three();
    edit(&mut lent);
    assert_eq!(lent.atlas.sound(), Ok(()), "{clause}");
    assert_eq!(lent.atlas.fits(&lent.list), Err(clause), "{:?}", lent.list);
    let before = lent.clone();
    assert_eq!(lent.call(|_| Ok(())), Err(21));
    assert_eq!(lent, before);
}

fn fits(edit: impl Fn(&mut Lent)) {
    let mut lent = three();
    edit(&mut lent);
    assert_eq!((lent.atlas.sound(), lent.atlas.fits(&lent.list)), (Ok(()), Ok(())), "{:?}", lent.list);
}

#[test]
fn entries_and_ids() {
    breaks("room for the entries", |l| l.list.truncate(2));
    fits(|l| l.list.truncate(3));
    fits(|l| l.list[3] = l.list[2]);
    fits(|l| l.list[..3].reverse());
    breaks("an entry names a bucket", |l| l.list[0].id += 2);
    breaks("of its generation", |l| l.list[0].id += 1 << 24);
    breaks("no two share an id", |l| (l.list[2].id, l.list[2].rectangle) = (4_097, [42, 0, 54, 8]));
    breaks("no two share a pixel", |l| l.list[2].rectangle[0] = 41);
    breaks("no two share an id", |l| l.list[2] = l.list[1]);
    // one of bucket 1's entries is bucket 0's; bucket 0 is to have two, and bucket 1 has three
    breaks("a bucket's entries number its reference count", |l| {
        l.atlas.buckets[0].items = 2;
        l.list[0].rectangle[0] = 1;
        l.list[2] = Placed { id: 8_192, rectangle: [0, 0, 1, 1] };
    });
    breaks("a bucket's entries number its reference count", |l| {
        (l.atlas.buckets[0].refs, l.atlas.buckets[0].items, l.atlas.buckets[1].items) = (2, 2, 3);
        l.list[2].rectangle[2] = 53;
        l.list[3] = Placed { id: 12_289, rectangle: [53, 0, 54, 8] };
    });
}

#[test]
fn rectangles() {
    breaks("a rectangle lies in the used span: left", |l| l.list[1].rectangle[0] = 31);
    breaks("a rectangle lies in the used span: right", |l| l.list[2].rectangle[2] = 55);
    breaks("to its top", |l| l.list[0].rectangle[3] = 9);
    breaks("a rectangle is not empty: width", |l| l.list[0].rectangle[2] = 0);
    breaks("a rectangle is not empty: height", |l| l.list[0].rectangle[1] = 8);
    breaks("a rectangle is not empty: height", |l| l.list[0].rectangle = [0, 5, 20, 4]);
    // smaller, side by side elsewhere, one over the other: no pixel is in two
    fits(|l| l.list[0].rectangle = [19, 7, 20, 8]);
    fits(|l| (l.list[1].rectangle, l.list[2].rectangle) = ([53, 0, 54, 8], [32, 0, 53, 1]));
    fits(|l| (l.list[1].rectangle, l.list[2].rectangle) = ([32, 0, 54, 3], [32, 3, 54, 8]));
    let mut second = three();
    second.call(|l| l.allocate(64, 16)).unwrap();
    assert_eq!(second.list[3].rectangle, [0, 8, 64, 24]);
    second.list[3].rectangle[1] = 7;
    assert_eq!(second.atlas.fits(&second.list), Err("from the shelf's y"));
}

#[test]
fn item_numbers() {
    let numbered = |items: i64, item: u32| {
        let mut lent = three();
        lent.atlas.buckets[0].items = items;
        lent.list[0].id = item << 12;
        lent.atlas.fits(&lent.list)
    };
    let (low, high) = (Err("an item number from 1 on"), Err("an item number to the item count"));
    assert_eq!([0, 1, 2].map(|item| numbered(1, item)), [low, Ok(()), high]);
    assert_eq!([0, 1, 4_094, 4_095].map(|item| numbered(4_094, item)), [low, Ok(()), Ok(()), high]);
    for items in [4_095, 4_096, 65_535] {
        assert_eq!([0, 1, 4_095].map(|item| numbered(items, item)), [Ok(()); 3], "{items}");
    }
}

#[test]
fn released_bucket() {
    let mut lent = three();
    lent.call(|l| l.allocate(64, 16)).unwrap();
    lent.call(|l| l.deallocate(4_098)).unwrap();
    assert!((lent.atlas.released, ids(&lent).len()) == (2, 3) && lent.atlas.released != NONE);
    lent.list[0].id = 4_098;
    assert!(lent.atlas.fits(&lent.list).is_err());
}

#[test]
fn order_of_refusals() {
    let mut lent = three();
    lent.list.truncate(3);
    let mut unfit = lent.clone();
    unfit.list[0].id = 0;
    let mut unsound = unfit.clone();
    unsound.atlas.occupied += 1;
    assert_eq!([&mut lent, &mut unfit, &mut unsound].map(|l| l.call(|l| l.allocate(0, 5))), [Err(4), Err(21), Err(1)]);
    assert_eq!([&mut lent, &mut unfit, &mut unsound].map(|l| l.call(|l| l.grow(0, 5))), [Err(2), Err(21), Err(1)]);
    let before = lent.clone();
    assert_eq!([(65, 1), (64, 64), (1, 1)].map(|(w, h)| lent.call(|l| l.allocate(w, h))), [Err(22), Err(6), Err(19)], "19 comes last");
    let returned = [2, 1 << 24, 8_192, 4_097 + (2 << 12)].map(|id| lent.call(|l| l.deallocate(id)));
    assert_eq!(returned, [Err(9), Err(10), Err(20), Err(20)]);
    assert_eq!(lent, before);
    let emptied = [4_096, 4_096, 4_096 | 1 << 24].map(|id| lent.call(|l| l.deallocate(id)));
    assert_eq!(emptied, [Ok(()), Err(10), Err(11)], "10 and 11 before 20");
    unfit.renew([0, 5], [1, 1], 1, 0).unwrap_err();
    assert_eq!(unfit.call(|l| l.clear()), Err(21), "a refused new keeps the list");
    unfit.renew([5, 5], [1, 1], 1, 0).unwrap();
    assert_eq!(unfit.call(|l| l.clear()), Ok(()));
}

/// Entries go in behind their bucket's, and out without a gap; the last place keeps what it has, and what is past it stays.
#[test]
fn places() {
    let mut lent = three();
    let last = lent.list[2];
    lent.call(|l| l.deallocate(4_097)).unwrap();
    assert_eq!((ids(&lent), lent.list[2]), (vec![4_096, 8_193], last));
    let mut turned = lent.clone();
    turned.list[..2].reverse();
    let given = turned.call(|l| l.allocate(12, 7)).unwrap();
    assert_eq!((given.id, ids(&turned)), (8_192, vec![8_193, 8_192, 4_096]), "the place is counted, whatever stands there");
    lent.call(|l| l.clear()).unwrap();
    assert_eq!((ids(&lent), lent.list[0].id, &lent.list[3..]), (vec![], 4_096, &[JUNK; 2][..]));
    lent.call(|l| l.allocate(5, 5)).unwrap();
    assert_eq!((ids(&lent), lent.list[1].id), (vec![4_097], 8_193), "what stood past the count falls out by one");
}

/// A rectangle that was never issued: it fits, and the figure stays that of the history until it is returned.
#[test]
fn lent_anew() {
    let mut lent = made(64, 64, 1, 1);
    lent.call(|l| l.allocate(10, 7)).unwrap();
    let atlas = Atlas::read(&lent.atlas.file()).unwrap();
    let mut again = Lent { atlas, list: vec![] };
    assert_eq!(again.call(|l| l.clear()), Err(21));
    again.list = vec![Placed { id: 4_097, rectangle: [41, 0, 42, 8] }];
    assert_eq!(again.call(|l| Ok(l.atlas.occupied)), Ok(80));
    again.call(|l| l.deallocate(4_097)).unwrap();
    assert_eq!(again.atlas.occupied, 0);
}
