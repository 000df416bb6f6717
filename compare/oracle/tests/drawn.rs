//! docs/DIFFERENCES.md, "The picture": what the crate draws, in the lines of our svg_fmt.

use etagere::{point2, size2, AllocatorOptions, BucketedAtlasAllocator, Rectangle};
use oracle::atlas::picture;

fn labelled(sides: [i32; 2], alignment: [i32; 2], columns: i32, labels: &[[i32; 2]]) -> BucketedAtlasAllocator {
    let options = AllocatorOptions { alignment: size2(alignment[0], alignment[1]), vertical_shelves: false, num_columns: columns };
    let mut atlas = BucketedAtlasAllocator::with_options(size2(sides[0], sides[1]), &options);
    labels.iter().for_each(|[width, height]| assert!(atlas.allocate(size2(*width, *height)).is_some()));
    atlas
}

fn one() -> BucketedAtlasAllocator {
    labelled([64, 64], [1, 1], 1, &[[10, 7]])
}

/// T-07's text of the same atlas.
const ONE: &str = r##"<svg xmlns="http://www.w3.org/2000/svg" viewBox="0 0 64 64">
<rect x="0" y="0" width="64" height="64" fill="#282828"/>
<rect x="32" y="0" width="10" height="8" fill="#4646b4"/>
<rect x="42" y="0" width="22" height="8" fill="#323232"/>
<rect x="0" y="0" width="0" height="8" fill="#4646b4"/>
<rect x="0" y="0" width="32" height="8" fill="#323232"/>
</svg>
"##;

#[test]
fn rectangles_order_and_colours() {
    assert_eq!((picture(&one()), ONE.len()), (ONE.to_string(), 355));
}

#[test]
fn rectangles_are_indented() {
    let mut drawn = Vec::new();
    one().dump_svg(&mut drawn).unwrap();
    assert_eq!(String::from_utf8(drawn).unwrap(), ONE.replace("<rect", "    <rect"));
}

/// Moved by 100 and 200, and half as large.
#[test]
fn into_a_rectangle() {
    let mut drawn = Vec::new();
    let place = Rectangle { min: point2(100, 200), max: point2(132, 232) };
    one().dump_into_svg(Some(&place), &mut drawn).unwrap();
    let text = String::from_utf8(drawn).unwrap();
    let lines: Vec<&str> = text.lines().map(str::trim_start).collect();
    assert_eq!(lines[..2], [
        r##"<rect x="100" y="200" width="32" height="32" fill="#282828"/>"##,
        r##"<rect x="116" y="200" width="5" height="4" fill="#4646b4"/>"##,
    ]);
}

/// Buckets of no width have their used part alone; a shelf that was merged away is drawn with height 0.
#[test]
fn parts_of_no_area() {
    let narrow = picture(&labelled([66, 9], [33, 1], 2, &[[33, 1], [33, 2]]));
    assert_eq!(narrow.matches(r##"<rect x="0" y="8" width="0" height="1" fill="#4646b4"/>"##).count(), 4);
    assert_eq!(narrow.lines().count(), 9);
    let mut rows = labelled([64, 64], [1, 1], 1, &[]);
    let ids = [(); 4].map(|()| rows.allocate(size2(64, 16)).unwrap().id);
    ids[..2].iter().for_each(|id| rows.deallocate(*id));
    rows.allocate(size2(60, 32)).unwrap();
    let flat = "<rect x=\"0\" y=\"32\" width=\"0\" height=\"0\" fill=\"#4646b4\"/>\n<rect x=\"0\" y=\"32\" width=\"64\" height=\"0\" fill=\"#323232\"/>\n";
    assert!(picture(&rows).contains(flat));
}
