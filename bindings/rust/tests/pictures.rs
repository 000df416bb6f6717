//! Pictures (T-07): their exact text, the buffer around it, each refusal in its order, and what is drawn over random runs: used areas that add up
//! to the occupied figure, nothing outside the atlas, no pixel twice.

mod common;

use common::{atlas, boxed, junk, Random};
use treadwharf::{size2, Atlas, Options, Refusal, Tables, PICTURE_MOST};

const EMPTY: &str = r##"<svg xmlns="http://www.w3.org/2000/svg" viewBox="0 0 64 64">
<rect x="0" y="0" width="64" height="64" fill="#282828"/>
</svg>
"##;

/// Document 01's atlas, with its first label.
const ONE: &str = r##"<svg xmlns="http://www.w3.org/2000/svg" viewBox="0 0 64 64">
<rect x="0" y="0" width="64" height="64" fill="#282828"/>
<rect x="32" y="0" width="10" height="8" fill="#4646b4"/>
<rect x="42" y="0" width="22" height="8" fill="#323232"/>
<rect x="0" y="0" width="0" height="8" fill="#4646b4"/>
<rect x="0" y="0" width="32" height="8" fill="#323232"/>
</svg>
"##;

/// And with its second.
const TWO: &str = r##"<svg xmlns="http://www.w3.org/2000/svg" viewBox="0 0 64 64">
<rect x="0" y="0" width="64" height="64" fill="#282828"/>
<rect x="32" y="0" width="30" height="8" fill="#4646b4"/>
<rect x="62" y="0" width="2" height="8" fill="#323232"/>
<rect x="0" y="0" width="0" height="8" fill="#4646b4"/>
<rect x="0" y="0" width="32" height="8" fill="#323232"/>
</svg>
"##;

fn text_of(tables: &Tables) -> String {
    tables.picture(&mut vec![7; PICTURE_MOST]).unwrap().to_string()
}

/// The text into buffers of every sort: too short by one and more, just long enough, longer.
fn is_drawn(tables: &Tables, due: &str) {
    let length = due.len();
    for bytes in [0, 1, length / 2, length - 1] {
        let mut buffer = vec![7; length + 9];
        assert_eq!(tables.picture(&mut buffer[..bytes]), Err(Refusal::Output), "{bytes} bytes");
        assert!(buffer.iter().all(|byte| *byte == 7), "{bytes} bytes: refused and wrote something");
    }
    for more in [0, 1, 9] {
        let mut buffer = vec![7; length + 9];
        assert_eq!(tables.picture(&mut buffer[..length + more]), Ok(due));
        assert_eq!((&buffer[..length], &buffer[length..]), (due.as_bytes(), &[7; 9][..]), "{more} bytes more");
    }
}

fn labelled(size: [i32; 2], options: Options, labels: &[[i32; 2]]) -> Atlas<Box<Tables>> {
    let mut atlas = Atlas::with_options(junk(), size2(size[0], size[1]), &options).unwrap();
    for [width, height] in labels {
        atlas.allocate(size2(*width, *height)).unwrap();
    }
    atlas
}

#[test]
fn document_01s_atlas() {
    let mut atlas = atlas(64, 64);
    is_drawn(atlas.parts(), EMPTY);
    atlas.allocate(size2(10, 7)).unwrap();
    is_drawn(atlas.parts(), ONE);
    let second = atlas.allocate(size2(20, 7)).unwrap();
    is_drawn(atlas.parts(), TWO);
    // its pixels stay used while the other label of its bucket is held
    atlas.deallocate(second.id).unwrap();
    is_drawn(atlas.parts(), TWO);
    atlas.clear().unwrap();
    is_drawn(atlas.parts(), EMPTY);
    assert_eq!(atlas.picture(&mut [0; 126]), Ok(EMPTY));
}

#[test]
fn after_a_grow() {
    let mut atlas = labelled([64, 64], Options::DEFAULT, &[[10, 7]]);
    atlas.grow(size2(100, 70)).unwrap();
    // the row gets a bucket more, which stands first in its chain
    let grown =
        ONE.replace("0 0 64 64", "0 0 100 70").replace("width=\"64\" height=\"64\"", "width=\"100\" height=\"70\"");
    let (start, rest) = grown.split_at(grown.find(r#"<rect x="32""#).unwrap());
    let part = |width, fill| format!("<rect x=\"64\" y=\"0\" width=\"{width}\" height=\"8\" fill=\"{fill}\"/>\n");
    is_drawn(atlas.parts(), &[start, &part(0, "#4646b4"), &part(32, "#323232"), rest].concat());
}

/// A filler whose four buckets are 0 wide: a line each.
#[test]
fn buckets_of_no_width() {
    let options = Options { columns: 2, align_width: 33, ..Options::DEFAULT };
    let text = text_of(labelled([66, 9], options, &[[33, 1], [33, 2]]).parts());
    let line = "<rect x=\"0\" y=\"8\" width=\"0\" height=\"1\" fill=\"#4646b4\"/>\n";
    assert_eq!((text.matches(line).count(), text.lines().count()), (4, 3 + 6));
}

/// A shelf that is merged away has no height, and is drawn with both parts.
#[test]
fn a_flat_shelf() {
    let mut atlas = labelled([64, 64], Options::DEFAULT, &[]);
    let rows = [(); 4].map(|()| atlas.allocate(size2(64, 16)).unwrap().id);
    rows[..2].iter().for_each(|id| atlas.deallocate(*id).unwrap());
    atlas.allocate(size2(60, 32)).unwrap();
    let text = text_of(atlas.parts());
    let flat = "<rect x=\"0\" y=\"32\" width=\"0\" height=\"0\" fill=\"#4646b4\"/>\n<rect x=\"0\" y=\"32\" width=\"64\" height=\"0\" fill=\"#323232\"/>\n";
    assert!(text.contains(flat), "{text}");
}

/// 4,095 buckets, with a label in some: the longest that one row a shelf gives, and `PICTURE_MOST` is enough.
#[test]
fn all_buckets() {
    let mut atlas = labelled([46_340, 200], Options::DEFAULT, &[[1, 1]; 20]);
    assert_eq!(atlas.parts().header[9], 4095);
    let text = text_of(atlas.parts());
    assert_eq!(text.lines().count(), 3 + 2 * 4095);
    is_drawn(atlas.parts(), &text);
    atlas.clear().unwrap();
    assert_eq!(text_of(atlas.parts()).lines().count(), 3);
}

/// 1 before 21 before 24, and no byte written.
#[test]
fn refusals_in_order() {
    let refused = |tables: &Tables, why: Refusal, long: usize| {
        for length in [0, long] {
            let mut buffer = vec![7; long];
            assert_eq!(tables.picture(&mut buffer[..length]), Err(why), "{length} bytes");
            assert!(buffer.iter().all(|byte| *byte == 7), "{why}: refused and wrote something");
        }
    };
    refused(&boxed(), Refusal::Tables, 1000);
    let sound = labelled([64, 64], Options::DEFAULT, &[[10, 7], [20, 7]]).into_parts();
    refused(&sound, Refusal::Output, TWO.len() - 1);
    let mut listed = sound.clone();
    listed.held[0].right += 1;
    refused(&listed, Refusal::List, 1000);
    let mut unsound = listed.clone();
    unsound.header[11] += 1;
    refused(&unsound, Refusal::Tables, 1000);
    let mut unsound = sound;
    unsound.buckets[2] = 0; // bucket 0 follows itself
    refused(&unsound, Refusal::Tables, 1000);
}

/// After a read the list is to be lent first; the picture is then that of the writing.
#[test]
fn after_a_restart() {
    let atlas = labelled([64, 64], Options::DEFAULT, &[[10, 7], [20, 7]]);
    let mut file = vec![0; atlas.file_len()];
    atlas.write(&mut file).unwrap();
    let mut tables = junk();
    tables.read(&file).unwrap();
    assert_eq!(tables.picture(&mut [0; 1000]), Err(Refusal::List));
    tables.lend(atlas.held()).unwrap();
    is_drawn(&tables, TWO);
}

// ---- what is drawn, over random runs

#[derive(Clone, Copy, Debug, PartialEq)]
struct Drawn {
    x: i32,
    y: i32,
    width: i32,
    height: i32,
    is_used: bool,
}

impl Drawn {
    fn line(&self) -> String {
        let Drawn { x, y, width, height, is_used } = self;
        let fill = if *is_used { "#4646b4" } else { "#323232" };
        format!(r#"<rect x="{x}" y="{y}" width="{width}" height="{height}" fill="{fill}"/>"#)
    }

    /// A line is these numbers and nothing else.
    fn of(line: &str) -> Drawn {
        let cells: Vec<&str> = line.split('"').collect();
        let [x, y, width, height] = [1, 3, 5, 7].map(|place| cells[place].parse().unwrap());
        let drawn = Drawn { x, y, width, height, is_used: cells[9] == "#4646b4" };
        assert_eq!(drawn.line(), line);
        drawn
    }

    fn apart(&self, other: &Drawn) -> bool {
        let across = self.x.max(other.x) >= (self.x + self.width).min(other.x + other.width);
        across || self.y.max(other.y) >= (self.y + self.height).min(other.y + other.height)
    }
}

/// The parts, between the three lines that every picture has.
fn parts_of(atlas: &Atlas<Box<Tables>>) -> Vec<Drawn> {
    let (text, size) = (text_of(atlas.parts()), atlas.size());
    let lines: Vec<&str> = text.lines().collect();
    let (first, last) = (&lines[..2], lines[lines.len() - 1]);
    let whole = format!(r##"<rect x="0" y="0" width="{}" height="{}" fill="#282828"/>"##, size.width, size.height);
    let begin = format!(r#"<svg xmlns="http://www.w3.org/2000/svg" viewBox="0 0 {} {}">"#, size.width, size.height);
    assert_eq!((first, last, text.ends_with('\n')), (&[&begin[..], &whole][..], "</svg>", true));
    lines[2..lines.len() - 1].iter().map(|line| Drawn::of(line)).collect()
}

/// Used areas are the occupied figure; nothing lies outside, and no pixel is drawn twice. A free part follows its used one.
fn drawn_well(atlas: &Atlas<Box<Tables>>, pixels: bool) -> Vec<Drawn> {
    let (parts, size) = (parts_of(atlas), atlas.size());
    let area: i64 = parts.iter().filter(|d| d.is_used).map(|d| i64::from(d.width) * i64::from(d.height)).sum();
    assert_eq!(area, i64::from(atlas.allocated_space()));
    for (i, d) in parts.iter().enumerate() {
        let inside = d.x >= 0 && d.y >= 0 && d.x + d.width <= size.width && d.y + d.height <= size.height;
        assert!(inside, "{d:?} in {size:?}");
        assert!(!pixels || parts[..i].iter().all(|other| d.apart(other)), "{d:?} lies over another");
        let before = i.checked_sub(1).map(|i| parts[i]);
        let joins = |b: Drawn| b.is_used && (b.x + b.width, b.y, b.height) == (d.x, d.y, d.height);
        assert!(d.is_used || (d.width > 0 && before.is_some_and(joins)), "{d:?} behind {before:?}");
    }
    parts
}

/// What a run has come by: pictures, flat shelves in them, calls that laid a filler, grows, clears.
#[derive(Debug, Default)]
struct Seen {
    pictures: u32,
    flat: u32,
    fillers: u32,
    grows: u32,
    clears: u32,
}

fn call(atlas: &mut Atlas<Box<Tables>>, r: &mut Random, held: &mut Vec<treadwharf::AllocId>, seen: &mut Seen) {
    let (size, shelves) = (atlas.size(), atlas.parts().header[8]);
    match r.from(0, 199) {
        0 => {
            atlas.clear().unwrap();
            (seen.clears, *held) = (seen.clears + 1, Vec::new());
        }
        1..=3 => {
            seen.grows += atlas.grow(size2(size.width + r.from(0, 40), size.height + r.from(0, 20))).is_ok() as u32
        }
        4..=90 if !held.is_empty() => atlas.deallocate(held.swap_remove(r.next() as usize % held.len())).unwrap(),
        _ => held.extend(atlas.allocate(size2(r.from(1, 60), r.from(1, 40))).map(|a| a.id)),
    }
    seen.fillers += (atlas.parts().header[8] > shelves + 1) as u32;
}

fn run(seed: u64, seen: &mut Seen) {
    let mut r = Random(seed);
    let [align_width, align_height, columns] = [4, 4, 4].map(|most| r.from(1, most));
    let options = Options { align_width, align_height, columns, vertical: false };
    let mut atlas = labelled([r.from(60, 300), r.from(40, 200)], options, &[]);
    let mut held = Vec::new();
    for turn in 0..500 {
        call(&mut atlas, &mut r, &mut held, seen);
        let parts = drawn_well(&atlas, turn % 16 == 0);
        seen.pictures += 1;
        seen.flat += parts.iter().any(|d| d.height == 0) as u32;
    }
}

#[test]
fn random_runs() {
    let mut seen = Seen::default();
    (1..=24).for_each(|seed| run(seed, &mut seen));
    let Seen { pictures, flat, fillers, grows, clears } = seen;
    assert!(pictures == 12_000 && flat > 100 && fillers > 20 && grows > 50 && clears > 20, "{seen:?}");
}
