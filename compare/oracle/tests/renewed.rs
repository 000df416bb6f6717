//! Where T-08's patch parts the crate from the crate as it is: a bucket whose reference count reaches 0 has item count 0 and the next generation.

mod both;

use both::{AsItIs, Atlas, Patched, Placed};
use oracle::panics::{guard, keep_quiet, No};

/// 64 by 64 with 10 by 7, which is 4097 in bucket 1, and 30 by 7 in bucket 0, which keeps the shelf.
fn two<A: Atlas>() -> A {
    let mut atlas = A::made([64, 64], 1, 1);
    assert_eq!([10, 30].map(|width| atlas.place(width, 7).unwrap().0), [4_097, 4_096]);
    atlas
}

/// The smallest input: the label returned, and the next one.
#[test]
fn the_next_label() {
    fn next<A: Atlas>() -> u32 {
        let mut atlas = two::<A>();
        atlas.give_back(4_097);
        atlas.place(10, 7).unwrap().0
    }
    assert_eq!((next::<Patched>(), next::<AsItIs>()), (4_097 | 1 << 24, 8_193));
}

/// A label returned twice: the bucket's last one, and one that is not.
#[test]
fn a_second_return() {
    fn twice<A: Atlas>(others: i32) -> Result<(), No> {
        keep_quiet();
        let mut atlas = two::<A>();
        (0..others).for_each(|_| assert_eq!(atlas.bucket(5, 7), 1));
        atlas.give_back(4_097);
        guard(&[10, 11], || atlas.give_back(4_097))
    }
    assert_eq!((twice::<Patched>(0), twice::<AsItIs>(0)), (Err(No::Refused(10)), Err(No::Refused(11))));
    assert_eq!((twice::<Patched>(1), twice::<AsItIs>(1)), (Ok(()), Ok(())));
}

/// Labels of this size placed and returned one after another until the first id comes back: how many rounds.
fn rounds<A: Atlas>(mut atlas: A, width: i32) -> usize {
    let mut once = || {
        let id = atlas.place(width, 7).unwrap().0;
        atlas.give_back(id);
        id
    };
    let first = once();
    1 + (0..10_000).take_while(|_| once() != first).count()
}

/// Emptied, popped and taken again a bucket rises by two. On a shelf that stays it rises by one, and 255 is followed by 0.
#[test]
fn generations() {
    let popped = (rounds(Patched::made([64, 64], 1, 1), 64), rounds(AsItIs::made([64, 64], 1, 1), 64));
    assert_eq!(popped, (128, 256));
    let mut kept = two::<Patched>();
    kept.give_back(4_097);
    let next: Vec<u32> = (0..300)
        .map(|_| {
            let id = kept.place(10, 7).unwrap().0;
            kept.give_back(id);
            id
        })
        .collect();
    assert!(next.iter().enumerate().all(|(i, id)| *id == 4_097 | (i as u32 + 1) % 256 << 24), "{next:?}");
}

/// Three rows of 32 by 8, of which the lowest is used so often; what it is refused with, and when.
#[test]
fn worn_rows() {
    fn used<A: Atlas>() -> Option<usize> {
        let mut atlas = A::made([32, 24], 1, 1);
        (0..3).for_each(|row| assert_eq!(atlas.bucket(32, 8), row));
        atlas.give_back(4_096);
        (1..20_000).find(|_| atlas.place(32, 8).map(|(id, _)| atlas.give_back(id)).is_none())
    }
    assert_eq!((used::<Patched>(), used::<AsItIs>()), (None, Some(4_095)));
}

/// Five rows of 32 by 8, the two lowest merged again and again: 8 in the crate as it is, with 65,535 items.
#[test]
fn no_eight() {
    fn merged<A: Atlas>() -> Option<(usize, No)> {
        keep_quiet();
        let mut atlas = A::made([32, 40], 1, 1);
        (0..5).for_each(|row| assert_eq!(atlas.bucket(32, 8), row));
        (4_096..4_098).for_each(|id| atlas.give_back(id));
        let mut once = || guard(&[8], || atlas.place(32, 16).map(|(id, _)| atlas.give_back(id)).expect("a place"));
        (1..140_000).find_map(|turn| Some((turn, once().err()?)))
    }
    assert_eq!((merged::<Patched>(), merged::<AsItIs>()), (None, Some((65_535, No::Refused(8)))));
}

/// What is decided by a seed, the same on both sides: a request, or the return of one of the labels.
fn calls<A: Atlas>(mut seed: u64) -> Vec<Option<(u32, [i32; 4])>> {
    let mut next = move || {
        seed = seed.wrapping_mul(6_364_136_223_846_793_005).wrapping_add(1_442_695_040_888_963_407);
        (seed >> 33) as usize
    };
    let (mut atlas, mut held, mut said) = (A::made([256, 96], 1, 2), Vec::new(), Vec::new());
    for _ in 0..1_000 {
        if held.is_empty() || next() % 100 < 55 {
            let placed: Option<Placed> = atlas.place(1 + next() as i32 % 60, 1 + next() as i32 % 40);
            held.extend(placed.map(|p| p.0));
            said.push(placed.map(|(id, rectangle)| (id & 4_095, rectangle)));
        } else {
            let id = held.swap_remove(next() % held.len());
            atlas.give_back(id);
        }
    }
    said
}

/// While no bucket has had 4,095 items every label gets the same bucket and the same place.
#[test]
fn places() {
    for seed in 0..60 {
        let (ours, theirs) = (calls::<Patched>(seed), calls::<AsItIs>(seed));
        assert!(ours.len() > 400 && ours.iter().flatten().count() > 200 && ours.contains(&None), "{}", ours.len());
        assert_eq!(ours, theirs, "seed {seed}");
    }
}
