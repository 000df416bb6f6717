//! The list of what is held: ids that nobody holds are refused and change nothing, a full list, lists lent anew after a read; and over random
//! calls the list is exactly what was issued and not returned. Damaged lists are in damaged.rs.

mod common;

use common::{atlas, entry, given, id, junk, made_up, on_tables, Call, Random};
use std::collections::BTreeMap;
use treadwharf::{size2, AllocId, Allocation, Atlas, Held, Options, Refusal, Tables, HELD};

type Boxed = Atlas<Box<Tables>>;

fn file_of(atlas: &Boxed) -> Vec<u8> {
    let mut file = vec![0; atlas.file_len()];
    assert_eq!(atlas.write(&mut file), Ok(file.len()));
    file
}

fn refused(tables: &mut Tables, call: Call, why: Refusal) {
    let before = Box::new(tables.clone());
    assert_eq!(on_tables(tables, call), Err(why), "{call:?}");
    assert!(*tables == *before, "{call:?} was refused and changed something");
}

// ---- ids that nobody holds

/// The complaint: two labels in one bucket, the first handed back twice.
#[test]
fn handed_back_twice() {
    let mut atlas = atlas(64, 64);
    assert_eq!(atlas.allocate(size2(10, 7)), given(4097, 32, 0, 42, 8));
    assert_eq!(atlas.allocate(size2(20, 7)), given(8193, 42, 0, 62, 8));
    assert_eq!(atlas.deallocate(id(4097)), Ok(()));
    let mut tables = atlas.into_parts();
    refused(&mut tables, Call::Deallocate(id(4097)), Refusal::NotHeld);
    assert_eq!(tables.held(), Ok(&[entry(8193, [42, 0, 62, 8])][..]));
    let next = tables.allocate(size2(10, 7)).unwrap().rectangle;
    assert!(next.bottom <= 8 && next.right <= 32 || next.top >= 8, "{next:?} has the neighbour's pixels");
}

/// 20 needs the whole id: item and generation too.
#[test]
fn near_a_held_id() {
    let mut atlas = atlas(64, 64);
    atlas.allocate(size2(10, 7)).unwrap(); // 4097
    let mut tables = atlas.into_parts();
    for (number, why) in [
        (1, Refusal::NotHeld),                              // item 0
        (8193, Refusal::NotHeld),                           // the next item
        ((4095 << 12) + 1, Refusal::NotHeld),               // the last
        (4096, Refusal::Unheld),                            // the bucket beside it
        (4097 + (1 << 24), Refusal::Stale),                 // the next generation
        (4098, Refusal::Unknown),                           // no bucket
        (8193 + (1 << 24), Refusal::Stale),                 // 10 before 20
        ((255 << 24) + (1 << 12) + 4095, Refusal::Unknown), // 9 before 10
    ] {
        refused(&mut tables, Call::Deallocate(id(number)), why);
    }
    assert_eq!(tables.deallocate(id(4097)), Ok(()));
}

// ---- a full list

#[test]
fn full() {
    let mut atlas = atlas(1024, 1024);
    let ids: Vec<AllocId> = (0..HELD).map(|_| atlas.allocate(size2(8, 8)).unwrap().id).collect();
    assert_eq!(atlas.held().len(), HELD);
    let mut tables = atlas.into_parts();
    refused(&mut tables, Call::Allocate(size2(8, 8)), Refusal::Full);
    refused(&mut tables, Call::Allocate(size2(1024, 1024)), Refusal::NoPlace); // 6 before 19
    refused(&mut tables, Call::Allocate(size2(1025, 8)), Refusal::Wide);
    refused(&mut tables, Call::Deallocate(id(ids[7].serialize() ^ (4095 << 12))), Refusal::NotHeld);
    assert_eq!(tables.grow(size2(1024, 1100)), Ok(()));
    assert_eq!(tables.deallocate(ids[7]), Ok(()));
    refused(&mut tables, Call::Deallocate(ids[7]), Refusal::NotHeld);
    assert!(tables.allocate(size2(8, 8)).is_ok());
    refused(&mut tables, Call::Allocate(size2(8, 8)), Refusal::Full);
    assert_eq!(tables.clear(), Ok(()));
    assert!(tables.allocate(size2(8, 8)).is_ok());
}

/// More held than there is room for, as a build with a longer list can leave it: no list can be lent.
#[test]
fn more_than_there_is_room_for() {
    let mut tables = atlas(46_340, 64).into_parts();
    for _ in 0..HELD {
        tables.allocate(size2(1, 8)).unwrap();
    }
    let bucket = tables.buckets.chunks(7).position(|bucket| bucket[3] > 0 && bucket[1] > 0).unwrap();
    let shelf = 5 * tables.buckets[7 * bucket + 5] as usize;
    tables.buckets[7 * bucket + 1] -= 1; // a label more, 1 by 8, as that build's allocate would leave it
    tables.buckets[7 * bucket + 3] += 1;
    tables.buckets[7 * bucket + 4] += 1;
    tables.header[11] += u32::from(tables.shelves[shelf + 2]);
    assert!(tables.is_sound() && !tables.fits());
    let list = made_up(&tables);
    assert_eq!(list.len(), HELD + 1);
    let before = tables.clone();
    assert_eq!(tables.lend(&list), Err(Refusal::List));
    assert!(tables == before, "refused and changed something");
}

// ---- lists lent anew

/// 10 by 7 and 20 by 7 in bucket 1, 10 by 20 on a shelf of its own.
fn three() -> (Vec<u8>, Vec<Held>) {
    let mut atlas = atlas(64, 64);
    for (width, height) in [(10, 7), (20, 7), (10, 20)] {
        atlas.allocate(size2(width, height)).unwrap();
    }
    (file_of(&atlas), atlas.held().to_vec())
}

fn each_refused(tables: &mut Tables, why: Refusal) {
    let calls = [Call::Allocate(size2(1, 1)), Call::Deallocate(id(4097)), Call::Grow(size2(99, 99)), Call::Clear];
    calls.into_iter().for_each(|call| refused(tables, call, why));
    assert_eq!((tables.size(), tables.is_empty()), (Err(why), Err(why)));
    assert_eq!((tables.allocated_space(), tables.free_space()), (Err(why), Err(why)));
    assert_eq!((tables.held(), tables.write(&mut [])), (Err(why), Err(why)));
    assert!(tables.is_sound() && !tables.fits());
}

/// Whatever stood in the list, that of the same moment too: a read ends it.
#[test]
fn after_a_read_every_call_is_21_until_a_list_is_lent() {
    let (file, list) = three();
    for mut tables in [junk(), Atlas::read(junk(), &file, &list).unwrap().into_parts()] {
        assert_eq!(tables.read(&file), Ok(()));
        each_refused(&mut tables, Refusal::List);
        for short in 0..list.len() {
            assert_eq!(tables.lend(&list[..short]), Err(Refusal::List), "{short} entries");
        }
        each_refused(&mut tables, Refusal::List);
        assert_eq!(tables.lend(&list), Ok(()));
        assert_eq!(tables.held(), Ok(&list[..]));
        assert_eq!(tables.deallocate(id(4097)), Ok(()));
        refused(&mut tables, Call::Deallocate(id(4097)), Refusal::NotHeld);
        assert_eq!(tables.read(&file), Ok(()));
        assert_eq!(tables.renew(size2(64, 64), &Options::DEFAULT), Ok(())); // new asks for no list
        assert_eq!(tables.held(), Ok(&[][..]));
    }
}

#[test]
fn nothing_held_needs_no_list() {
    let mut emptied = atlas(64, 64);
    let label = emptied.allocate(size2(10, 7)).unwrap();
    emptied.deallocate(label.id).unwrap();
    let mut atlas = Atlas::read(junk(), &file_of(&emptied), &[]).unwrap();
    assert_eq!(atlas.held(), []);
    assert!(atlas.fits() && atlas.allocate(size2(10, 7)).is_ok());
}

/// Of a longer list the first entries count, and of any order all.
#[test]
fn longer_lists_and_other_orders() {
    let (file, mut list) = three();
    let longer = [&list[..], &[entry(u32::MAX, [7; 4]); HELD]].concat();
    assert_eq!(Atlas::read(junk(), &file, &longer).unwrap().held(), list);
    list.reverse();
    let mut atlas = Atlas::read(junk(), &file, &list).unwrap();
    assert_eq!(atlas.held(), list);
    for (left, entry) in list.iter().enumerate() {
        assert_eq!(atlas.held().len(), list.len() - left);
        assert_eq!(atlas.deallocate(entry.id), Ok(()));
    }
}

/// A list that does not fit is refused behind an accepted read: no atlas is made, and another list can be lent.
#[test]
fn a_list_of_another_moment() {
    let (file, list) = three();
    let mut other = list.clone();
    other[0].id = id(4097 + 4096 * 5);
    let mut tables = junk();
    assert_eq!(Atlas::read(&mut *tables, &file, &other), Err(Refusal::List));
    each_refused(&mut tables, Refusal::List);
    assert_eq!(tables.lend(&list), Ok(()));
    assert_eq!(Atlas::from_parts(tables).unwrap().held(), list);
    let mut unsound = junk();
    assert_eq!(unsound.lend(&list), Err(Refusal::Tables)); // 1 before 21
    assert!(unsound == junk());
}

/// A label 10 by 7, lent with a rectangle 1 by 8: it fits, and the figure stays 80 until its return.
#[test]
fn other_rectangles_than_were_issued() {
    let mut label = atlas(64, 64);
    label.allocate(size2(10, 7)).unwrap();
    let narrow = [entry(4097, [35, 0, 36, 8])];
    let mut atlas = Atlas::read(junk(), &file_of(&label), &narrow).unwrap();
    assert_eq!((atlas.allocated_space(), atlas.held()), (80, &narrow[..]));
    assert_eq!(atlas.deallocate(id(4097)), Ok(()));
    assert_eq!((atlas.allocated_space(), atlas.is_empty()), (0, true));
}

// ---- over random calls

/// What is held by the answers alone: id to allocation.
#[derive(Default)]
struct Kept {
    held: BTreeMap<AllocId, Allocation>,
    returned: Vec<AllocId>,
}

impl Kept {
    /// A held id, one that was returned, or any.
    fn some_id(&self, r: &mut Random) -> AllocId {
        let held: Vec<AllocId> = self.held.keys().copied().collect();
        match r.from(0, 9) {
            0..=5 if !held.is_empty() => r.one_of(&held),
            6..=8 if !self.returned.is_empty() => r.one_of(&self.returned),
            _ => id(r.next() as u32 & 0x0101_3fff),
        }
    }

    /// A return is accepted exactly where the id is held.
    fn hand_back(&mut self, atlas: &mut Boxed, id: AllocId) {
        let before = atlas.clone();
        let said = atlas.deallocate(id);
        assert_eq!(said.is_ok(), self.held.remove(&id).is_some(), "{id:?}: {said:?}");
        assert!(said.is_ok() || *atlas == before, "{id:?} was refused and changed something");
        self.returned.push(id);
    }

    fn check(&self, atlas: &Boxed) {
        let listed: BTreeMap<AllocId, Allocation> = atlas.held().iter().map(|&h| (h.id, h.into())).collect();
        assert_eq!(listed, self.held);
        assert_eq!(atlas.held().len(), self.held.len());
        let places: Vec<(u32, u16)> = atlas.held().iter().map(|h| (h.id.serialize() & 4095, h.left)).collect();
        assert!(places.windows(2).all(|two| two[0] < two[1]), "{places:?}");
    }
}

fn one_call(r: &mut Random, atlas: &mut Boxed, kept: &mut Kept) {
    match r.from(0, 99) {
        0 => {
            atlas.clear().unwrap();
            *kept = Kept::default();
        }
        1 => {
            atlas.renew(size2(r.from(40, 400), r.from(40, 400)), &Options::DEFAULT).unwrap();
            *kept = Kept::default();
        }
        2..=3 => atlas.grow(size2(atlas.size().width + r.from(0, 30), atlas.size().height + r.from(0, 30))).unwrap(),
        4..=6 => *atlas = Atlas::read(junk(), &file_of(atlas), atlas.held()).unwrap(),
        7..=49 => {
            let id = kept.some_id(r);
            kept.hand_back(atlas, id);
        }
        _ => {
            if let Ok(given) = atlas.allocate(size2(r.from(1, 60), r.from(1, 30))) {
                assert_eq!(kept.held.insert(given.id, given), None, "an id that is held is given again");
            }
        }
    }
    kept.check(atlas);
}

#[test]
fn exactly_what_was_issued_and_not_returned() {
    let mut most = 0;
    for seed in 1..=8 {
        let (mut r, mut kept) = (Random(seed), Kept::default());
        let mut atlas = atlas(r.from(40, 400), r.from(40, 400));
        for _ in 0..800 {
            one_call(&mut r, &mut atlas, &mut kept);
            most = most.max(kept.held.len());
        }
    }
    assert!(most > 30, "{most}");
}

// ---- an entry's bytes

#[test]
fn bytes_are_those_in_memory() {
    let held = entry(0x0102_0304, [5, 0x0607, 8, 9]);
    let bytes = [4, 3, 2, 1, 5, 0, 7, 6, 8, 0, 9, 0];
    assert_eq!((held.to_bytes(), Held::from_bytes(bytes)), (bytes, held));
    // SAFETY: 12 bytes with no padding
    assert_eq!(unsafe { std::mem::transmute::<Held, [u8; 12]>(held) }, bytes);
    let rectangle = held.rectangle();
    assert_eq!((rectangle.left, rectangle.top, rectangle.right, rectangle.bottom), (5, 0x0607, 8, 9));
    let widest = Allocation::from(entry(7, [0, 0, 65_535, 65_535]));
    assert_eq!(Held::try_from(widest), Ok(entry(7, [0, 0, 65_535, 65_535])));
    for corner in [-1, 65_536] {
        let mut wrong = widest;
        wrong.rectangle.bottom = corner;
        assert!(Held::try_from(wrong).is_err());
    }
}
