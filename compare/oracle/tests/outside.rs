//! The first table of docs/DIFFERENCES.md: what the crate does with the inputs that 2, 3 and 20 refuse.

use etagere::{size2, AllocId, AllocatorOptions, BucketedAtlasAllocator};
use oracle::panics::{guard, keep_quiet, No};

fn new(sides: [i32; 2], align: [i32; 2], columns: i32, vertical: bool) -> Result<BucketedAtlasAllocator, String> {
    keep_quiet();
    let options = AllocatorOptions { alignment: size2(align[0], align[1]), vertical_shelves: vertical, num_columns: columns };
    told(|| BucketedAtlasAllocator::with_options(size2(sides[0], sides[1]), &options))
}

/// A panic's own message, whatever number it may stand for.
fn told<T>(call: impl FnOnce() -> T) -> Result<T, String> {
    guard(&[], call).map_err(|no| match no {
        No::Panic(message) => message,
        No::Refused(number) => number.to_string(),
    })
}

fn panicked<T>(answer: Result<T, String>, message: &str) {
    let said = answer.err().expect("a panic");
    assert!(said.starts_with(message), "{said}");
}

#[test]
fn sides() {
    assert!(new([0, 10], [1, 1], 1, false).is_ok());
    assert_eq!(new([-1, 10], [1, 1], 1, false).unwrap().size(), size2(65_535, 10));
    let mut grown = new([10, 10], [1, 1], 1, false).unwrap();
    grown.grow(size2(-1, 10));
    assert_eq!(grown.size(), size2(65_535, 10));
    let mut wide = new([10, 10], [1, 1], 1, false).unwrap();
    wide.grow(size2(46_341, 10));
    assert_eq!(wide.size(), size2(46_341, 10));
    let large = new([46_341, 46_341], [1, 1], 1, false).unwrap();
    panicked(told(|| large.free_space()), "attempt to multiply with overflow");
    panicked(new([65_535, 10], [1, 1], 1, false), "assertion failed");
}

#[test]
fn alignments() {
    let mut zero = new([10, 10], [1, 0], 1, false).unwrap();
    panicked(told(|| zero.allocate(size2(1, 1))), "attempt to calculate the remainder with a divisor of zero");
    panicked(new([10, 10], [0, 1], 1, false), "attempt to calculate the remainder with a divisor of zero");
    for align in [[-1, 1], [50_000, 1], [1, 50_000], [11, 1]] {
        assert!(new([10, 10], align, 1, false).unwrap().allocate(size2(1, 1)).is_none(), "{align:?}");
    }
    let placed = new([10, 10], [1, -1], 1, false).unwrap().allocate(size2(1, 1)).unwrap();
    assert_eq!(placed.rectangle.size(), size2(1, 8));
}

#[test]
fn columns() {
    for columns in [11, -1] {
        assert!(new([10, 10], [1, 1], columns, false).unwrap().allocate(size2(1, 1)).is_none());
    }
    panicked(new([10, 10], [1, 1], 0, false), "attempt to divide by zero");
    assert!(new([10, 10], [1, 1], 65_537, false).unwrap().allocate(size2(10, 1)).is_some());
    assert!(new([10, 10], [1, 1], 1, true).is_ok());
}

/// An id returned twice, and one with other item bits, take a reference of a label that is held; the next label then lies over it.
#[test]
fn returned_twice() {
    for second in [4_097, 4_097 | 5 << 12] {
        let mut atlas = new([64, 64], [1, 1], 1, false).unwrap();
        let [first, held] = [10, 12].map(|width| atlas.allocate(size2(width, 7)).unwrap());
        assert_eq!([first, held].map(|a| (a.id.serialize(), a.rectangle.min.x, a.rectangle.max.x)), [(4_097, 32, 42), (8_193, 42, 54)]);
        atlas.deallocate(first.id);
        assert_eq!((told(|| atlas.deallocate(AllocId::deserialize(second))), atlas.allocated_space()), (Ok(()), 0));
        let over = atlas.allocate(size2(12, 7)).unwrap().rectangle;
        assert!(over.min.x < held.rectangle.max.x && held.rectangle.min.x < over.max.x && over.min.y == held.rectangle.min.y, "{over:?}");
    }
}
