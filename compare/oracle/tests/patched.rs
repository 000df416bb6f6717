//! The patched lines, and where T-06's parts the crate from the crate as it is.

mod both;

use both::{AsItIs, Atlas, Patched, Placed};
use oracle::panics::{guard, keep_quiet, No};

/// A line for each patch, and no line more or less.
#[test]
fn lines() {
    let [theirs, ours] = [unpatched::BUCKETED, etagere::BUCKETED].map(|text| text.lines().map(str::trim).collect::<Vec<_>>());
    let other: Vec<_> = theirs.iter().zip(&ours).filter(|(a, b)| a != b).collect();
    let emptied = "bucket.free_space = shelf.bucket_width; bucket.item_count = 0; bucket.generation += Wrapping(1);";
    let due = [
        (&"n => (n /16 - 1).next_power_of_two(),", &"n => (n /16 - 1).next_power_of_two().max(4),"),
        (&"bucket.free_space = shelf.bucket_width;", &emptied),
    ];
    assert_eq!(other, due);
    assert_eq!(theirs.len(), ours.len());
}

/// The buckets of a row 8 high in an atlas `ratio` times as wide: the label goes to the one laid last.
fn of_a_row<A: Atlas>(ratio: i32) -> u32 {
    A::made([8 * ratio, 8], 1, 1).bucket(1, 8) + 1
}

/// The buckets of a filler `room` high in a column `ratio` times as wide, between two rows of one bucket. The row behind it tells how many there
/// are, and so does a label as high as the filler, which goes to its bucket laid last.
fn of_a_filler<A: Atlas>(ratio: i32, room: i32) -> u32 {
    let column = ratio * room;
    let mut atlas = A::made([2 * column, 8 + room], 1, 2);
    assert_eq!(atlas.bucket(column, 8), 0);
    let count = atlas.bucket(column, room + 1) - 1;
    assert_eq!(atlas.bucket(1, room), count, "ratio {ratio}, a filler {room} high");
    count
}

#[test]
fn counts() {
    for ratio in 1..=300 {
        let theirs = of_a_row::<AsItIs>(ratio);
        let due = match ratio {
            33..=47 => (4, 1),
            48..=63 => (4, 2),
            _ => (theirs, theirs),
        };
        assert_eq!((of_a_row::<Patched>(ratio), theirs), due, "a row of ratio {ratio}");
        for room in [1, 5, 7] {
            let fillers = (of_a_filler::<Patched>(ratio, room), of_a_filler::<AsItIs>(ratio, room));
            assert_eq!(fillers, due, "a filler of ratio {ratio}, {room} high");
        }
    }
}

/// Rows of 512 and less buckets until `left` of 4,095 are left; then one of ratio 33, whose label goes to the bucket laid last.
fn with_left<A: Atlas>(left: u32) -> u32 {
    let widths: &[i32] = match left {
        1 => &[600, 4_000],
        2 => &[600, 46_340],
        3 => &[600],
        4 => &[4_000, 46_340],
        _ => &[4_000],
    };
    let mut atlas = A::made([46_340, 200], 1, 1);
    let rows = [1; 7].iter().chain(&[20, 30, 60, 120, 200, 400]).chain(widths);
    let last = rows.map(|width| atlas.bucket(*width, 1)).last();
    assert_eq!(last, Some(4_094 - left), "{left} are left");
    atlas.bucket(1_404, 1) - (4_094 - left)
}

#[test]
fn the_cap_comes_after_the_four() {
    for (left, count) in [(1, 1), (2, 2), (3, 3), (4, 4), (5, 4)] {
        assert_eq!((with_left::<Patched>(left), with_left::<AsItIs>(left)), (count, 1), "{left} are left");
    }
}

/// Two columns: rows of 256 and less buckets, a filler of ratio 46, and a row in the next column, which gets what the filler leaves.
fn behind_a_filler<A: Atlas>(widths: &[i32]) -> Result<u32, No> {
    let mut atlas = A::made([46_340, 8 * (20 + widths.len() as i32) + 500], 1, 2);
    let rows = [1; 15].iter().chain(&[15, 30, 60, 100, 200]).chain(widths);
    for width in rows {
        atlas.bucket(*width, 1);
    }
    guard(&[7], || atlas.bucket(1, 501))
}

/// With 5, 4 and 3 buckets left; in the crate as it is filler and row have one each.
#[test]
fn a_filler_that_takes_the_last() {
    keep_quiet();
    let none = Err(No::Refused(7));
    for (widths, last, theirs) in [(&[2_000][..], Ok(4_094), 4_091), (&[2_000, 23_170], none.clone(), 4_092), (&[300], none, 4_093)] {
        assert_eq!((behind_a_filler::<Patched>(widths), behind_a_filler::<AsItIs>(widths)), (last, Ok(theirs)), "rows {widths:?}");
    }
}

/// Labels of 1 by 1 as long as they fit into 33 by 1; all but the first are returned, and how many fit then?
fn beside_one<A: Atlas>() -> [usize; 2] {
    let mut atlas = A::made([33, 1], 1, 1);
    let fill = |atlas: &mut A| std::iter::from_fn(|| Some(atlas.place(1, 1)?.0)).collect::<Vec<_>>();
    let ids = fill(&mut atlas);
    ids[1..].iter().for_each(|id| atlas.give_back(*id));
    [ids.len(), fill(&mut atlas).len()]
}

#[test]
fn the_smallest_input() {
    assert_eq!(Patched::made([33, 1], 1, 1).place(1, 1), Some((4_099, [24, 0, 25, 1])));
    assert_eq!(AsItIs::made([33, 1], 1, 1).place(1, 1), Some((4_096, [0, 0, 1, 1])));
    assert_eq!((beside_one::<Patched>(), beside_one::<AsItIs>()), ([32, 24], [33, 0]));
}

/// 66 by 9, two columns, width alignment 33. The filler of ratio 33 gets four buckets of width 0, which nothing can take.
#[test]
fn a_filler_that_is_lost() {
    fn labels<A: Atlas>() -> [Option<Placed>; 5] {
        let mut atlas = A::made([66, 9], 33, 2);
        [1, 2, 1, 1, 1].map(|height| atlas.place(33, height))
    }
    let (first, high, low) = ((4_096, [0, 0, 33, 8]), [33, 0, 66, 8], [33, 8, 66, 9]);
    assert_eq!(labels::<Patched>(), [Some(first), Some((4_101, high)), Some((4_102, low)), None, None]);
    assert_eq!(labels::<AsItIs>(), [Some(first), Some((4_098, high)), Some((4_097, [0, 8, 33, 9])), Some((4_099, low)), None]);
}

/// Beside the label that brought the row, one wider than a fourth of the column.
#[test]
fn a_label_too_wide_for_a_bucket() {
    fn wide<A: Atlas>() -> Option<Placed> {
        let mut atlas = A::made([264, 8], 1, 1);
        atlas.bucket(8, 8);
        atlas.place(100, 8)
    }
    assert_eq!((wide::<Patched>(), wide::<AsItIs>()), (None, Some((8_192, [8, 0, 108, 8]))));
}
