//! Each refusal that these calls can give, with the numbers before and after: a refused call changes none of them. Then the names, numbers
//! and sentences themselves. Those of the list are in held.rs, that of a picture in pictures.rs.

mod common;

use common::{atlas, boxed, given, id, junk, on_tables, Call};
use treadwharf::{size2, Atlas, NoRefusal, Options, Refusal, Tables};

/// Refused on the tables and on an atlas over them, and nothing changed.
fn refused(tables: &mut Tables, call: Call, why: Refusal) {
    let before = Box::new(tables.clone());
    assert_eq!(on_tables(tables, call), Err(why), "{call:?}");
    assert!(*tables == *before, "{call:?} was refused and changed something");
    let mut atlas = Atlas::from_parts(&mut *tables).unwrap();
    assert_eq!(common::on_atlas(&mut atlas, call), Err(why), "{call:?} on an atlas");
    assert!(*tables == *before, "{call:?} was refused and changed something");
}

#[test]
fn of_new() {
    let whole = Options::DEFAULT;
    let (small, large) = (size2(10, 10), size2(46_340, 46_340));
    assert!(Atlas::new(boxed(), large).is_ok());
    let mut tables = atlas(64, 64).into_parts();
    for (why, size, options) in [
        (Refusal::Side, size2(0, 46_340), whole),
        (Refusal::Side, size2(46_340, 46_341), whole),
        (Refusal::Side, size2(46_340, i32::MIN), whole),
        (Refusal::Side, size2(i32::MAX, 1), Options { columns: 0, ..whole }), // 2 before 3
        (Refusal::Options, large, Options { align_width: 0, ..whole }),
        (Refusal::Options, large, Options { align_height: 46_341, ..whole }),
        (Refusal::Options, large, Options { columns: -1, ..whole }),
        (Refusal::Options, small, Options { columns: 11, ..whole }),
        (Refusal::Options, small, Options { align_width: 11, ..whole }),
        (Refusal::Options, large, Options { vertical: true, ..whole }),
    ] {
        refused(&mut tables, Call::Renew(size, options), why);
        assert_eq!(Atlas::with_options(junk(), size, &options).err(), Some(why), "{size:?}, {options:?}");
    }
    assert_eq!(Atlas::new(&mut *tables, size2(0, 1)).err(), Some(Refusal::Side));
}

#[test]
fn of_allocate_and_deallocate_and_grow() {
    let mut atlas = atlas(1000, 1000);
    assert_eq!(atlas.allocate(size2(1000, 1000)), given(4096, 0, 0, 1000, 1000));
    let mut tables = atlas.into_parts();
    for (why, call) in [
        (Refusal::Small, Call::Allocate(size2(0, 1))),
        (Refusal::Small, Call::Allocate(size2(70_000, -5))), // 4 before 5
        (Refusal::Wide, Call::Allocate(size2(1001, 1))),
        (Refusal::Tall, Call::Allocate(size2(1, 1001))),
        (Refusal::Large, Call::Allocate(size2(65_536, 1))),
        (Refusal::NoPlace, Call::Allocate(size2(1, 1))),
        (Refusal::Unknown, Call::Deallocate(id(4097))),
        (Refusal::Unknown, Call::Deallocate(id(u32::MAX))),
        (Refusal::Stale, Call::Deallocate(id(4096 + (1 << 24)))),
        (Refusal::Side, Call::Grow(size2(0, 1000))),
        (Refusal::Side, Call::Grow(size2(999, 46_341))), // 2 before 12
        (Refusal::Shrink, Call::Grow(size2(999, 1000))),
        (Refusal::Shrink, Call::Grow(size2(1000, 999))),
    ] {
        refused(&mut tables, call, why);
    }
    assert_eq!(tables.deallocate(id(4096)), Ok(()));
    refused(&mut tables, Call::Deallocate(id(4096)), Refusal::Stale); // the bucket's last, again
    refused(&mut tables, Call::Deallocate(id(4096 + (1 << 24))), Refusal::Unheld);
}

/// 5, 22, 23, in this order, in each way that a request can be too large: the width fits, is above the column's, above 65,535, and so the height.
#[test]
fn too_large_in_each_way() {
    let options = Options { columns: 2, ..Options::DEFAULT };
    let mut tables = Atlas::with_options(junk(), size2(128, 32), &options).unwrap().into_parts();
    for (why, width, heights) in [
        (Refusal::Tall, 64, [33, 65_535].as_slice()),
        (Refusal::Large, 64, &[65_536, i32::MAX]),
        (Refusal::Wide, 65, &[32, 33, 65_535]),
        (Refusal::Large, 65, &[65_536, i32::MAX]),
        (Refusal::Wide, 65_535, &[1, 33, 65_535]),
        (Refusal::Large, 65_536, &[1, 33, 65_535, 65_536]),
        (Refusal::Large, i32::MAX, &[1, 33, 65_535, i32::MAX]),
    ] {
        for height in heights {
            refused(&mut tables, Call::Allocate(size2(width, *height)), why);
        }
    }
    assert!(tables.allocate(size2(64, 32)).is_ok());
}

/// The aligned sides are compared, and pass 16 bits: 65,535 is 98,301 by steps of 32,767, whose low 16 bits would fit.
#[test]
fn too_large_once_aligned() {
    let steps = |align_width, align_height| Options { align_width, align_height, ..Options::DEFAULT };
    let mut atlas = Atlas::with_options(junk(), size2(60, 32), &steps(10, 5)).unwrap();
    atlas.grow(size2(67, 32)).unwrap();
    let mut tables = atlas.into_parts();
    for (why, width, height) in [(Refusal::Wide, 61, 30), (Refusal::Tall, 60, 31), (Refusal::Wide, 61, 31)] {
        refused(&mut tables, Call::Allocate(size2(width, height)), why);
    }
    assert!(tables.allocate(size2(60, 30)).is_ok());
    let mut tables = Atlas::with_options(junk(), size2(46_340, 46_340), &steps(32_767, 32_767)).unwrap().into_parts();
    for (why, width, height) in
        [(Refusal::Wide, 65_535, 65_535), (Refusal::Wide, 65_535, 1), (Refusal::Tall, 1, 65_535)]
    {
        refused(&mut tables, Call::Allocate(size2(width, height)), why);
    }
    assert!(tables.allocate(size2(32_767, 1)).is_ok());
}

#[test]
fn seven_in_five_requests() {
    let options = Options { columns: 5, ..Options::DEFAULT };
    let mut atlas = Atlas::with_options(junk(), size2(46_340, 9), &options).unwrap();
    for _ in 0..4 {
        assert!(atlas.allocate(size2(1, 2)).is_ok());
    }
    let mut tables = atlas.into_parts();
    refused(&mut tables, Call::Allocate(size2(1, 2)), Refusal::Filler);
    assert!(tables.allocate(size2(1, 1)).is_ok());
}

/// A row that is merged again and again, past the 65,535 labels after which archives before 0.7.0 gave 8.
#[test]
fn no_eight_in_some_66_000_rounds() {
    let mut atlas = atlas(64, 64);
    let rows = [(); 4].map(|()| atlas.allocate(size2(64, 16)).unwrap().id);
    atlas.deallocate(rows[0]).unwrap();
    atlas.deallocate(rows[1]).unwrap();
    for turn in 1..66_000 {
        let merged = atlas.allocate(size2(64, 32)).unwrap();
        assert_eq!(merged.id.serialize(), ((turn % 256) << 24) + 4096);
        atlas.deallocate(merged.id).unwrap();
    }
}

/// An empty atlas that is dead: all 4,095 buckets are laid, and no shelf may pass them.
#[test]
fn six_on_an_empty_atlas() {
    let mut atlas = atlas(46_340, 200);
    let held = [(); 20].map(|()| atlas.allocate(size2(1, 1)).unwrap().id);
    for id in held {
        atlas.deallocate(id).unwrap();
    }
    assert!(atlas.is_empty());
    refused(&mut atlas.into_parts(), Call::Allocate(size2(1, 1)), Refusal::NoPlace);
}

const ALL: [Refusal; 21] = [
    Refusal::Tables,
    Refusal::Side,
    Refusal::Options,
    Refusal::Small,
    Refusal::Large,
    Refusal::NoPlace,
    Refusal::Filler,
    Refusal::Items,
    Refusal::Unknown,
    Refusal::Stale,
    Refusal::Unheld,
    Refusal::Shrink,
    Refusal::Broken,
    Refusal::UnknownVersion,
    Refusal::Buffer,
    Refusal::Full,
    Refusal::NotHeld,
    Refusal::List,
    Refusal::Wide,
    Refusal::Tall,
    Refusal::Output,
];

#[test]
fn numbers_and_names() {
    for (number, refusal) in (1..=12).chain(16..).zip(ALL) {
        assert_eq!(refusal.number(), number);
        assert_eq!(Refusal::try_from(number), Ok(refusal));
        assert_eq!(refusal.to_string(), format!("{} (refusal {number})", refusal.sentence()));
    }
    assert_eq!(Refusal::try_from(0), Err(NoRefusal));
    for number in [13, 14, 15, 25, 28, u32::MAX] {
        let other = Refusal::try_from(number).unwrap();
        assert_eq!((other, other.number()), (Refusal::Other(number), number));
        assert!(other.to_string().ends_with(&format!("(refusal {number})")));
    }
}

/// The C header's `TREADWHARF_NO_PLACE = 6` is `NoPlace` here.
#[test]
fn the_names_are_those_of_the_c_header() {
    let header = include_str!("../../../include/treadwharf.h");
    let there: Vec<(String, u32)> = header.split("TREADWHARF_").filter_map(name_and_number).collect();
    let here: Vec<(String, u32)> = ALL.iter().map(|r| (format!("{r:?}"), r.number())).collect();
    assert_eq!(there[0], ("Ok".to_string(), 0));
    assert_eq!(there[1..], here);
}

fn name_and_number(text: &str) -> Option<(String, u32)> {
    let (name, rest) = text.split_once(" = ")?;
    name.chars().all(|letter| letter.is_ascii_uppercase() || letter == '_').then_some(())?;
    let digits: String = rest.chars().take_while(char::is_ascii_digit).collect();
    let words = name.split('_').map(|word| word[..1].to_string() + &word[1..].to_lowercase());
    Some((words.collect(), digits.parse().ok()?))
}

/// `?` hands a refusal on as any error.
#[test]
fn an_error_among_others() {
    fn place(atlas: &mut Atlas<Box<Tables>>) -> Result<u32, Box<dyn std::error::Error>> {
        Ok(atlas.allocate(size2(1, 0))?.id.serialize())
    }
    assert_eq!(place(&mut atlas(8, 8)).unwrap_err().to_string(), "request with a side below 1 (refusal 4)");
    assert_eq!(Box::<dyn std::error::Error>::from(NoRefusal).to_string(), "0 is acceptance, no refusal");
}
