//! Files: the bytes of a small one, what comes back, and each refusal at its place in the order.

use crate::tables::{Atlas, Bucket, NONE};

fn number(file: &mut [u8], at: usize, n: u16) {
    file[at..at + 2].copy_from_slice(&n.to_le_bytes());
}

fn edited(file: &[u8], edit: impl Fn(&mut Vec<u8>)) -> Result<Atlas, u8> {
    let mut file = file.to_vec();
    edit(&mut file);
    Atlas::read(&file)
}

/// 64 by 64 with one label of 10 by 7: one shelf, two buckets.
fn label() -> Atlas {
    let mut a = Atlas::new([64, 64], [1, 1], 1, 0).unwrap();
    a.allocate(10, 7).unwrap();
    a
}

#[test]
fn bytes() {
    let head = [31, 0, 16, 0, 1, 0, 64, 0, 64, 0, 1, 0, 1, 0, 1, 0, 64, 0, 0, 0, 56, 0, 1, 0, 2, 0, 255, 255, 0, 80, 0, 0, 0];
    let shelf = [12, 0, 17, 0, 0, 0, 0, 0, 8, 0, 32, 0, 1, 0];
    let first = [16, 0, 18, 0, 0, 0, 32, 0, 255, 255, 0, 0, 0, 0, 0, 0, 0, 0];
    let second = [16, 0, 18, 0, 32, 0, 22, 0, 0, 0, 1, 0, 1, 0, 0, 0, 0, 0];
    assert_eq!(label().file(), [&head[..], &shelf, &first, &second, &[2, 0, 19, 0]].concat());
}

#[test]
fn back() {
    let mut a = label();
    let [_, last] = [(30, 40), (3, 3)].map(|(w, h)| a.allocate(w, h).unwrap().id);
    a.deallocate(4097).unwrap();
    a.deallocate(last).unwrap();
    assert!(a.released != NONE);
    assert_eq!(Atlas::read(&a.file()), Ok(a.clone()));
    let empty = Atlas::new([46_340, 1], [7, 46_340], 3, 0).unwrap();
    assert_eq!((empty.file().len(), Atlas::read(&empty.file())), (37, Ok(empty)));
    a.occupied += 1;
    assert_eq!(a.write(&mut []), Err(1), "1 before 18");
}

#[test]
fn buffers() {
    let (a, mut long, mut short) = (label(), [9; 100], [9; 86]);
    assert_eq!((a.write(&mut long), &long[..87], &long[87..]), (Ok(87), &a.file()[..], &[9; 13][..]));
    assert_eq!((a.write(&mut short), short), (Err(18), [9; 86]));
    assert_eq!(a.write(&mut [0; 87]), Ok(87));
}

#[test]
fn malformed() {
    let file = label().file();
    for length in 0..file.len() {
        assert_eq!(Atlas::read(&file[..length]), Err(16), "cut to {length}");
    }
    assert_eq!(edited(&file, |f| f.push(0)), Err(16), "a byte behind the end");
    assert_eq!(edited(&file, |f| f.extend([2, 0, 19, 0])), Err(16), "a second end");
    assert_eq!(edited(&file, |f| f[28] = 1), Err(16), "a vertical one");
    for (at, what) in [(22, "shelves"), (24, "buckets")] {
        for count in [0, 1, 2, 3, 65_535] {
            let same = file[at..at + 2] == u16::to_le_bytes(count);
            assert_eq!(edited(&file, |f| number(f, at, count)).err(), (!same).then_some(16), "{count} {what}");
        }
    }
    for at in [0, 2, 33, 35, 47, 49, 65, 67, 83, 85] {
        assert_eq!(edited(&file, |f| f[at] += 1), Err(16), "a length or kind at {at}");
        assert_eq!(edited(&file, |f| f[at + 1] = 1), Err(16), "a length or kind at {at}, its high byte");
    }
    let exchanged = [&file[..33], &file[47..65], &file[33..47], &file[65..]].concat();
    assert_eq!(Atlas::read(&exchanged), Err(16), "a bucket before the shelf");
}

#[test]
fn versions_and_contents() {
    let file = label().file();
    for version in [0, 2, 3, 256, 257, 65_535] {
        assert_eq!(edited(&file, |f| number(f, 4, version)), Err(17));
    }
    assert_eq!(edited(&file[..86], |f| f[4] = 3), Err(16), "16 before 17");
    let ninth = |f: &mut Vec<u8>| {
        f[4] = 9;
        number(f, 6, 0);
    };
    assert_eq!(edited(&file, ninth), Err(17), "17 before 1");
    assert_eq!(edited(&file, |f| number(f, 6, 0)), Err(1), "width 0");
    assert_eq!(edited(&file, |f| f[32] = 128), Err(1), "a negative figure");
    assert_eq!(edited(&file, |f| f[29] = 81), Err(1), "a figure of one more");
    assert_eq!(edited(&file, |f| f[64] = 1), Err(1), "generation 256");
    assert_eq!(edited(&file, |f| f[63] = 255).map(|a| a.buckets[0].generation), Ok(255));
}

/// The i-th of a row of buckets of width 1, the first of which has a label.
fn bucket(i: i64) -> Bucket {
    let held = (i == 0).into();
    Bucket { x: i, free: 1 - held, next: if i == 0 { NONE } else { i - 1 }, refs: held, items: held, shelf: 0, generation: 0 }
}

/// 4,096 buckets with all their records are a file, of no sound atlas; with one less it is sound.
#[test]
fn many_buckets() {
    let mut a = Atlas::new([4_096, 1], [1, 1], 1, 0).unwrap();
    a.allocate(1, 1).unwrap();
    (a.shelves[0].width, a.shelves[0].first, a.occupied) = (1, 4_094, 1);
    a.buckets = (0..4_095).map(bucket).collect();
    assert_eq!((a.sound(), Atlas::read(&a.file())), (Ok(()), Ok(a.clone())));
    a.buckets.push(bucket(4_095));
    a.shelves[0].first = 4_095;
    assert_eq!((a.file().len(), Atlas::read(&a.file())), (37 + 14 + 18 * 4_096, Err(1)));
}
