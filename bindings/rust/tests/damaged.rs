//! Damaged tables: every call on them is refused 1 and changes nothing, no atlas is made over them, and the plain reads of an atlas whose
//! header is nonsense answer without a panic. A damaged list on sound tables: the same with 21.

mod common;

use common::{atlas, boxed, entry, id, junk, on_tables, Call, Random};
use std::borrow::{Borrow, BorrowMut};
use std::cell::Cell;
use treadwharf::{size2, Atlas, Options, Refusal, Tables, BUCKETS, FILE_MOST, SHELVES};

fn small() -> Box<Tables> {
    let mut atlas = atlas(64, 64);
    atlas.allocate(size2(10, 7)).unwrap();
    atlas.into_parts()
}

fn all_refused(tables: Box<Tables>, what: &str) {
    assert!(!tables.is_sound(), "{what}");
    each_refused(tables, Refusal::Tables, what);
}

/// By every call that tests tables and list.
fn each_refused(mut tables: Box<Tables>, why: Refusal, what: &str) {
    let before = tables.clone();
    let calls = [Call::Allocate(size2(1, 1)), Call::Deallocate(id(4097)), Call::Grow(size2(100, 100)), Call::Clear];
    for call in calls {
        assert_eq!(on_tables(&mut tables, call), Err(why), "{what}: {call:?}");
    }
    assert_eq!(tables.size(), Err(why), "{what}");
    assert_eq!(tables.is_empty(), Err(why), "{what}");
    assert_eq!(tables.allocated_space(), Err(why), "{what}");
    assert_eq!(tables.free_space(), Err(why), "{what}");
    assert_eq!(tables.held(), Err(why), "{what}");
    let mut buffer = vec![7; FILE_MOST];
    assert_eq!(tables.write(&mut buffer), Err(why), "{what}");
    assert_eq!(tables.write(&mut []), Err(why), "{what}: 1 and 21 before 18");
    assert_eq!(tables.picture(&mut buffer), Err(why), "{what}");
    assert_eq!(tables.picture(&mut []), Err(why), "{what}: 1 and 21 before 24");
    assert!(buffer.iter().all(|&byte| byte == 7), "{what}: refused and wrote something");
    assert!(!tables.fits(), "{what}");
    assert_eq!(Atlas::from_parts(&mut *tables), Err(why), "{what}");
    assert!(tables == before, "{what}: refused and changed something");
    // new looks at no number: the tables are of use again
    assert_eq!(tables.renew(size2(64, 64), &Options::DEFAULT), Ok(()), "{what}");
    assert!(tables.fits(), "{what}");
}

#[test]
fn of_no_atlas() {
    all_refused(boxed(), "zeros");
    all_refused(junk(), "junk");
}

/// Each number in use, one at a time: another value that is not sound there, by document 01's list.
#[test]
fn one_number() {
    for place in 0..11 {
        let mut tables = small();
        tables.header[place] += 65_536;
        all_refused(tables, &format!("header {place}, more than 16 bits"));
    }
    for (place, value) in
        [(0, 0), (1, 63), (2, 0), (3, 46_341), (4, 2), (5, 65), (6, 1), (7, 55), (8, 2), (9, 1), (10, 0), (11, 81)]
    {
        let mut tables = small();
        tables.header[place] = value;
        all_refused(tables, &format!("header {place} is {value}"));
    }
    for (place, value) in [(0, 1), (1, 1), (2, 9), (3, 33), (4, 2)] {
        let mut tables = small();
        tables.shelves[place] = value;
        all_refused(tables, &format!("shelf number {place} is {value}"));
    }
    for (place, value) in [(7, 33), (8, 33), (9, 1), (10, 0), (11, 0), (12, 1), (13, 256)] {
        let mut tables = small();
        tables.buckets[place] = value;
        all_refused(tables, &format!("bucket number {place} is {value}"));
    }
}

/// 10 by 7 and 12 by 7 in bucket 1, 20 by 7 in bucket 0, 64 by 16 on a shelf of its own. The list stands bucket by bucket.
fn four() -> Box<Tables> {
    let mut atlas = atlas(64, 64);
    for (width, height) in [(10, 7), (12, 7), (20, 7), (64, 16)] {
        atlas.allocate(size2(width, height)).unwrap();
    }
    let due = [(4096, [0, 0, 20, 8]), (4097, [32, 0, 42, 8]), (8193, [42, 0, 54, 8]), (4098, [0, 8, 64, 24])];
    assert_eq!(atlas.held(), due.map(|(number, corners)| entry(number, corners)));
    atlas.into_parts()
}

/// By each clause of document 02's T-02, in its order: an entry changed so that this one alone is broken.
#[test]
fn one_entry() {
    for (place, number, corners, what) in [
        (3, 4099, [0, 8, 64, 24], "a bucket not below the count"),
        (0, 4096 + (1 << 24), [0, 0, 20, 8], "another generation"),
        (1, 4097, [31, 0, 42, 8], "left of its bucket"),
        (2, 8193, [42, 0, 55, 8], "into the free part"),
        (3, 4098, [0, 7, 64, 24], "above its shelf"),
        (0, 4096, [0, 0, 20, 9], "below its shelf"),
        (0, 4096, [5, 0, 5, 8], "not wide"),
        (0, 4096, [5, 4, 5, 3], "upside down"),
        (3, 4098, [0, 9, 64, 9], "not high"),
        (2, 4097, [42, 0, 54, 8], "an id twice"),
        (2, 8193, [41, 0, 54, 8], "a pixel shared"),
        (2, 8193, [34, 2, 35, 3], "inside another"),
        (0, 8193, [54, 0, 54, 8], "a bucket's entry at another's"),
        (1, 1, [32, 0, 42, 8], "item 0"),
        (2, 12_289, [42, 0, 54, 8], "an item above the count"),
    ] {
        let mut tables = four();
        tables.held[place] = entry(number, corners);
        assert!(tables.is_sound(), "{what}");
        each_refused(tables, Refusal::List, what);
    }
}

/// "each bucket's entries number its reference count": one too few in a bucket and one too many in another, each entry right by itself.
#[test]
fn entries_against_the_counts() {
    let mut tables = four();
    tables.allocate(size2(5, 7)).unwrap(); // 12289 in bucket 1, from 54 on
    let due = [(4096, [0, 0, 20, 8]), (4097, [32, 0, 42, 8]), (8193, [42, 0, 54, 8]), (12_289, [54, 0, 59, 8])];
    assert_eq!(tables.held().unwrap()[..4], due.map(|(number, corners)| entry(number, corners)));
    let mut other = tables.clone();
    other.held[0] = entry(4097, [33, 0, 34, 8]);
    each_refused(other, Refusal::List, "an entry of bucket 1 where bucket 0 has one");
    tables.buckets[7 + 3] = 2; // two references where there are three entries; the fifth entry is past the list then
    assert!(tables.is_sound());
    each_refused(tables, Refusal::List, "a reference less than entries");
}

/// Where a bucket has counted 4,095 items its ids say nothing of how many were given.
#[test]
fn item_numbers_of_a_worn_out_bucket() {
    let mut tables = small();
    for (items, number, fits) in [
        (4094, 4094, true),
        (4094, 4095, false),
        (4094, 0, false),
        (4095, 0, true),
        (4095, 4095, true),
        (65_535, 7, true),
    ] {
        tables.buckets[7 + 4] = items;
        tables.held[0].id = id((number << 12) + 1);
        assert_eq!((tables.is_sound(), tables.fits()), (true, fits), "item {number} of {items}");
    }
}

/// What is past the counts is no part of the atlas.
#[test]
fn past_the_counts_anything_is_sound() {
    let mut tables = small();
    tables.shelves[5..].fill(65_535);
    tables.buckets[14..].fill(65_535);
    tables.held[1..].fill(entry(u32::MAX, [65_535; 4]));
    assert_eq!(Atlas::from_parts(tables).unwrap().allocated_space(), 80);
}

/// Random numbers over the part in use: whatever the test says of them, the calls agree with it.
#[test]
fn random_damage() {
    let mut r = Random(1);
    let (mut unsound, mut unfit) = (0, 0);
    for _ in 0..2000 {
        let mut tables = small();
        match r.from(0, 2) {
            0 => tables.header[r.from(0, 11) as usize] = r.one_of(&[0, 1, 8, 64, 65_535, 65_536, u32::MAX]),
            1 => tables.shelves[r.from(0, 4) as usize] = r.one_of(&[0, 1, 8, 32, 64, 65_535]),
            _ => tables.buckets[r.from(0, 13) as usize] = r.one_of(&[0, 1, 8, 22, 32, 65_535]),
        }
        if tables.fits() {
            assert_eq!(Atlas::from_parts(&*tables).unwrap().size(), tables.size().unwrap());
        } else if tables.is_sound() {
            unfit += 1;
            each_refused(tables, Refusal::List, "random");
        } else {
            unsound += 1;
            all_refused(tables, "random");
        }
    }
    assert!((1000..2000).contains(&unsound) && (1..500).contains(&unfit), "{unsound}, {unfit}");
}

/// A pointer of a caller's own that hands out other tables than those that were tested.
struct Changing {
    sound: Box<Tables>,
    other: Box<Tables>,
    asked: Cell<u32>,
}

impl Borrow<Tables> for Changing {
    fn borrow(&self) -> &Tables {
        self.asked.set(self.asked.get() + 1);
        if self.asked.get() == 1 {
            &self.sound
        } else {
            &self.other
        }
    }
}

impl BorrowMut<Tables> for Changing {
    fn borrow_mut(&mut self) -> &mut Tables {
        &mut self.other
    }
}

#[test]
fn nonsense_behind_an_atlas_is_no_panic() {
    let mut other = boxed();
    other.header.fill(u32::MAX);
    other.shelves = [65_535; SHELVES];
    other.buckets = [65_535; BUCKETS];
    let mut atlas = Atlas::from_parts(Changing { sound: small(), other, asked: Cell::new(0) }).unwrap();
    assert_eq!((atlas.size(), atlas.is_empty()), (size2(-1, -1), false));
    assert_eq!((atlas.allocated_space(), atlas.free_space()), (u32::MAX, 0));
    assert_eq!((atlas.file_len(), atlas.write(&mut [])), (137_438_953_477, Err(Refusal::Tables)));
    assert_eq!(atlas.picture(&mut [0; 200]), Err(Refusal::Tables));
    assert!(format!("{atlas:?}").contains("columns: 4294967295"));
    assert!(!atlas.is_sound() && !atlas.fits());
    assert_eq!(atlas.held(), []);
    assert_eq!(atlas.parts().size(), Err(Refusal::Tables));
    assert_eq!(atlas.allocate(size2(1, 1)), Err(Refusal::Tables));
    assert_eq!(atlas.clear(), Err(Refusal::Tables));
}
