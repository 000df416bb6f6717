//! Document 01's worked cases through the wrapper: each call on lent and on owned tables, and what an accepted call leaves alone.

mod common;

use common::{atlas, boxed, given, id, junk};
use std::sync::Mutex;
use treadwharf::{
    size2, AllocId, Allocation, Atlas, Held, Options, Rectangle, Refusal, Size, Tables, BUCKETS, HEADER, HELD, SHELVES,
};

fn marked<T: std::borrow::BorrowMut<Tables>>(mut atlas: Atlas<T>) -> Atlas<T> {
    assert!(atlas.is_empty());
    assert_eq!(atlas.allocate(size2(10, 7)), given(4097, 32, 0, 42, 8));
    assert_eq!(atlas.allocate(size2(20, 7)), given(8193, 42, 0, 62, 8));
    assert_eq!(atlas.deallocate(id(4097)), Ok(()));
    assert_eq!(atlas.deallocate(id(8193)), Ok(()));
    assert_eq!(atlas.allocate(size2(10, 7)), given(16_781_312, 32, 0, 42, 8));
    assert_eq!(atlas.deallocate(id(4097)), Err(Refusal::Stale));
    assert_eq!((atlas.allocated_space(), atlas.free_space()), (80, 4016));
    assert_eq!(atlas.size(), size2(64, 64));
    assert!(!atlas.is_empty());
    assert!(atlas.is_sound());
    atlas
}

#[test]
fn the_marked_case_on_lent_static_tables() {
    static TABLES: Mutex<Tables> = Mutex::new(Tables::new());
    let mut tables = TABLES.lock().unwrap();
    marked(Atlas::new(&mut *tables, size2(64, 64)).unwrap());
}

#[test]
fn the_marked_case_on_owned_tables() {
    let inside: Atlas = marked(Atlas::new(Tables::new(), size2(64, 64)).unwrap());
    let boxed = marked(Atlas::new(boxed(), size2(64, 64)).unwrap());
    assert_eq!(inside.parts(), boxed.parts());
    marked(atlas(64, 64));
}

#[test]
fn the_filler() {
    let options = Options { columns: 2, ..Options::DEFAULT };
    let mut atlas = Atlas::with_options(junk(), size2(64, 64), &options).unwrap();
    assert_eq!(atlas.allocate(size2(24, 46)), given(4096, 0, 0, 24, 48));
    assert_eq!(atlas.allocate(size2(24, 32)), given(4098, 32, 0, 56, 32));
}

/// 90 by 50, widths in steps of 4, heights in steps of 3, two columns: an exchange of two parameters shows.
#[test]
fn all_different() {
    let options = Options { align_width: 4, align_height: 3, columns: 2, vertical: false };
    let mut atlas = Atlas::with_options(junk(), size2(90, 50), &options).unwrap();
    assert_eq!(atlas.size(), size2(90, 50));
    assert_eq!(&atlas.parts().header[..6], [90, 50, 4, 3, 2, 44]);
    assert_eq!(atlas.allocate(size2(5, 7)), given(4096, 0, 0, 8, 16));
    assert_eq!(atlas.allocate(size2(6, 8)), given(8192, 8, 0, 16, 16));
    assert_eq!(atlas.allocate(size2(45, 1)), Err(Refusal::Wide));
    assert_eq!(atlas.allocate(size2(3, 49)), Err(Refusal::Tall));
    assert_eq!(atlas.grow(size2(95, 60)), Ok(()));
    assert_eq!((atlas.size(), atlas.allocated_space(), atlas.free_space()), (size2(95, 60), 256, 5444));
}

#[test]
fn clear_and_renew_start_again() {
    let mut atlas = atlas(64, 64);
    let first = atlas.allocate(size2(10, 7));
    assert_eq!(atlas.clear(), Ok(()));
    assert_eq!((atlas.is_empty(), atlas.allocated_space(), atlas.free_space()), (true, 0, 4096));
    assert_eq!(atlas.allocate(size2(10, 7)), first);
    assert_eq!(atlas.renew(size2(32, 48), &Options::DEFAULT), Ok(()));
    assert_eq!((atlas.size(), atlas.is_empty(), atlas.is_sound()), (size2(32, 48), true, true));
}

/// New writes the header alone; allocate the header, one shelf, its two buckets and an entry. What is past the counts stays as it was.
#[test]
fn what_is_past_the_counts_stays() {
    let before = junk();
    let mut atlas = Atlas::new(before.clone(), size2(64, 64)).unwrap();
    assert!(atlas.parts().shelves == before.shelves && atlas.parts().buckets == before.buckets);
    assert!(atlas.parts().held == before.held);
    atlas.allocate(size2(10, 7)).unwrap();
    let after = atlas.parts();
    assert!(after.shelves[5..] == before.shelves[5..] && after.buckets[14..] == before.buckets[14..]);
    assert!(after.shelves[..5] != before.shelves[..5] && after.buckets[..14] != before.buckets[..14]);
    assert!(after.held[0] != before.held[0] && after.held[1..] == before.held[1..]);
}

#[test]
fn tables_go_out_and_in_again() {
    let mut atlas = atlas(64, 64);
    let label = atlas.allocate(size2(10, 7)).unwrap();
    let kept = atlas.clone();
    let mut tables: Box<Tables> = atlas.into_parts();
    assert_eq!(Atlas::from_parts(&*tables).unwrap().size(), size2(64, 64)); // to read alone
    assert_eq!(Atlas::from_parts(&mut *tables).unwrap().deallocate(label.id), Ok(()));
    let mut again = Atlas::from_parts(tables).unwrap();
    assert!(again.is_empty() && again != kept);
    again.renew(size2(64, 64), &Options::DEFAULT).unwrap();
    assert_eq!(again.allocate(size2(10, 7)), Ok(label));
}

#[test]
fn the_room_is_as_large_as_the_page_says() {
    assert_eq!(std::mem::size_of::<Tables>(), 147_480);
    assert_eq!((HEADER + SHELVES + BUCKETS, HELD, std::mem::size_of::<Held>()), (49_152, 4096, 12));
    assert_eq!(std::mem::size_of::<Atlas<&mut Tables>>(), std::mem::size_of::<usize>());
    let tables = boxed();
    let start = std::ptr::from_ref(&*tables) as usize;
    let places = [tables.header.as_ptr() as usize, tables.shelves.as_ptr() as usize, tables.buckets.as_ptr() as usize];
    assert_eq!(places.map(|place| place - start), [0, 48, 48 + 2 * SHELVES]);
    assert_eq!(tables.held.as_ptr() as usize - start, 98_328);
    assert!(*tables == Tables::default());
}

#[test]
fn shown_in_a_line() {
    let mut atlas = atlas(64, 64);
    atlas.allocate(size2(10, 7)).unwrap();
    let shown = format!("{atlas:?}");
    assert!(shown.len() < 200, "{shown}");
    for word in ["width: 64", "columns: 1", "shelf_count: 1", "bucket_count: 2", "space: 80", "free_space: 4016"] {
        assert!(shown.contains(word), "{word} in {shown}");
    }
    assert!(format!("{:?}", atlas.parts()).len() < 200);
}

#[test]
fn sizes_and_rectangles_at_their_ends() {
    assert_eq!(Size::from((3, -4)), size2(3, -4));
    assert_eq!([size2(0, 5), size2(5, -1), size2(i32::MIN, i32::MIN)].map(Size::area), [0; 3]);
    assert_eq!(size2(65_534, 65_534).area(), 4_294_705_156);
    assert_eq!(size2(i32::MAX, i32::MAX).area(), u32::MAX);
    let widest = Rectangle { left: i32::MIN, top: 7, right: i32::MAX, bottom: 3 };
    assert_eq!((widest.width(), widest.height(), widest.area()), (i32::MAX, -4, 0));
    assert_eq!(widest.size(), size2(i32::MAX, -4));
}

#[test]
fn ids_are_their_numbers() {
    for number in [0, 4097, 16_781_312, u32::MAX] {
        assert_eq!(AllocId::deserialize(number).serialize(), number);
    }
    assert!(id(1) < id(2));
}

/// Between threads an atlas goes as its tables do.
#[test]
fn sent_and_shared() {
    fn both<T: Send + Sync>() {}
    both::<Atlas<Tables>>();
    both::<Atlas<&'static mut Tables>>();
    both::<Atlas<Box<Tables>>>();
    both::<(Allocation, Options, Refusal)>();
    let mut atlas = atlas(64, 64);
    let placed = std::thread::spawn(move || atlas.allocate(size2(10, 7))).join().unwrap();
    assert_eq!(placed, given(4097, 32, 0, 42, 8));
}
