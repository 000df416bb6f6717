//! The picture's text on atlases whose lines are known, and its buffer.

use crate::tables::{Atlas, N};

const TWO: &str = r##"<svg xmlns="http://www.w3.org/2000/svg" viewBox="0 0 64 64">
<rect x="0" y="0" width="64" height="64" fill="#282828"/>
<rect x="32" y="0" width="30" height="8" fill="#4646b4"/>
<rect x="62" y="0" width="2" height="8" fill="#323232"/>
<rect x="0" y="0" width="0" height="8" fill="#4646b4"/>
<rect x="0" y="0" width="32" height="8" fill="#323232"/>
</svg>
"##;

fn labelled(size: [N; 2], align: [N; 2], columns: N, labels: &[[N; 2]]) -> Atlas {
    let mut atlas = Atlas::new(size, align, columns, 0).unwrap();
    labels.iter().for_each(|[w, h]| assert!(atlas.allocate(*w, *h).is_ok()));
    atlas
}

/// Document 01's atlas after its first two labels.
fn two() -> Atlas {
    labelled([64, 64], [1, 1], 1, &[[10, 7], [20, 7]])
}

/// The lines of the shelves' buckets: x, y, width, height, and whether it is used.
fn drawn(atlas: &Atlas) -> Vec<([N; 4], bool)> {
    let picture = atlas.picture();
    let numbers = |line: &str| std::array::from_fn(|i| line.split('"').nth(2 * i + 1).unwrap().parse().unwrap());
    picture.lines().filter(|l| l.starts_with("<rect")).skip(1).map(|l| (numbers(l), l.contains("#4646b4"))).collect()
}

#[test]
fn two_labels() {
    assert_eq!(two().picture(), TWO);
}

#[test]
fn nothing_laid() {
    let lines = "<svg xmlns=\"http://www.w3.org/2000/svg\" viewBox=\"0 0 9 5\">\n<rect x=\"0\" y=\"0\" width=\"9\" height=\"5\" fill=\"#282828\"/>\n</svg>\n";
    assert_eq!(labelled([9, 5], [1, 1], 1, &[]).picture(), lines);
}

/// A bucket that is full has no free part; one that is 0 wide has its used part alone.
#[test]
fn parts_of_no_width() {
    assert_eq!(drawn(&labelled([64, 64], [1, 1], 1, &[[64, 64]])), [([0, 0, 64, 64], true)]);
    let narrow = drawn(&labelled([66, 9], [33, 1], 2, &[[33, 1], [33, 2]]));
    assert_eq!(narrow, [vec![([0, 0, 33, 8], true)], vec![([0, 8, 0, 1], true); 4], vec![([33, 0, 33, 8], true)]].concat());
}

/// A shelf that was merged away is drawn with height 0, its free part too.
#[test]
fn a_flat_shelf() {
    let mut atlas = labelled([64, 64], [1, 1], 1, &[[64, 16]; 4]);
    [4_096, 4_097].iter().for_each(|id| atlas.deallocate(*id).unwrap());
    atlas.allocate(60, 32).unwrap();
    let flat = [([0, 32, 0, 0], true), ([0, 32, 64, 0], false)];
    assert_eq!(drawn(&atlas)[..4], [&[([0, 0, 60, 32], true), ([60, 0, 4, 32], false)][..], &flat].concat());
}

#[test]
fn used_areas_are_the_figure() {
    let mut atlas = labelled([100, 64], [1, 1], 3, &[[33, 20], [10, 40], [7, 9], [33, 30], [1, 1], [30, 17]]);
    atlas.deallocate(4_096).unwrap();
    let areas = drawn(&atlas).into_iter().filter(|(_, used)| *used).map(|([_, _, width, height], _)| width * height);
    assert_eq!(areas.sum::<N>(), atlas.occupied);
}

#[test]
fn buffers() {
    let (atlas, length) = (two(), TWO.len());
    let mut out = vec![7; length + 3];
    for short in 0..length {
        assert_eq!(atlas.draw(&mut out[..short]), Err(24));
    }
    assert_eq!(out, vec![7; length + 3]);
    assert_eq!((atlas.draw(&mut out), &out[..length], &out[length..]), (Ok(length), TWO.as_bytes(), &[7; 3][..]));
    let unsound = Atlas { occupied: 241, ..atlas };
    assert_eq!((unsound.draw(&mut []), unsound.draw(&mut out)), (Err(1), Err(1)));
}
