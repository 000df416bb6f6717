//! T-06 through the wrapper: how many buckets a row and a filler get at each ratio, and a file of the build before it, read and gone on with.

mod common;

use common::{atlas, boxed, entry, given, junk};
use treadwharf::{size2, Atlas, Options, Tables};

/// Made by the build of T-05: 264 by 8, a row of ratio 33 with its one bucket, a label of 8 by 8 in it.
const LONELY: &str = include_str!("../../../compare/sample/files/T-05/lonely.hex");

/// Documents 01 and 02: the count of a ratio, while the table has room.
fn count(ratio: u32) -> u32 {
    match ratio {
        0..=4 => 1,
        5..=16 => 2,
        17..=63 => 4,
        n => (n / 16 - 1).next_power_of_two(),
    }
}

#[test]
fn rows_of_every_ratio() {
    for ratio in 1..=300 {
        let mut atlas = atlas(8 * ratio, 8);
        let bucket = atlas.allocate(size2(1, 8)).unwrap().id.serialize() & 4_095;
        assert_eq!(bucket + 1, count(ratio as u32), "ratio {ratio}");
        assert_eq!(atlas.parts().header[9], bucket + 1);
    }
}

/// Under a row 8 high the column has 2 left: a request 3 high lays a filler there, and goes to the next column.
#[test]
fn fillers_of_every_ratio() {
    let options = Options { columns: 2, ..Options::DEFAULT };
    for ratio in 1..=300 {
        let mut atlas = Atlas::with_options(junk(), size2(4 * ratio, 10), &options).unwrap();
        for height in [8, 3] {
            atlas.allocate(size2(1, height)).unwrap();
        }
        let [row, filler] = [ratio as u32 / 4, ratio as u32].map(count);
        assert_eq!(&atlas.parts().header[8..10], [3, row + filler + row], "ratio {ratio}");
        assert_eq!(u32::from(atlas.parts().shelves[8]), 2 * ratio as u32 / filler);
    }
}

fn lonely() -> Vec<u8> {
    let hex: String = LONELY.split_whitespace().collect();
    (0..hex.len() / 2).map(|i| u8::from_str_radix(&hex[2 * i..2 * i + 2], 16).unwrap()).collect()
}

#[test]
fn a_file_of_before() {
    let file = lonely();
    let mut atlas = Atlas::read(boxed(), &file, &[entry(4096, [0, 0, 8, 8])]).unwrap();
    let row = |tables: &Tables| (tables.shelves[..5].to_vec(), tables.header[9]);
    assert_eq!(row(atlas.parts()), (vec![0, 0, 8, 264, 0], 1), "the row is as it was");
    let mut again = vec![0; file.len()];
    assert_eq!((atlas.write(&mut again), again), (Ok(file.len()), file));
    // its one bucket is filled, and the next row has four
    assert_eq!(atlas.allocate(size2(256, 8)), given(8192, 8, 0, 264, 8));
    assert_eq!(atlas.grow(size2(264, 16)), Ok(()));
    assert_eq!(atlas.allocate(size2(1, 8)), given(4100, 198, 8, 199, 16));
    assert_eq!(row(atlas.parts()), (vec![0, 0, 8, 264, 0], 5));
    assert_eq!(atlas.deallocate(common::id(4096)), Ok(()));
}
