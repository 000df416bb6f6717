//! Files that the build before T-08 wrote, with worn rows in them, through the wrapper: read with the list that was kept beside them, repaired, and gone on
//! with. compare/sample/files/T-07 has them: NAME.hex, the list NAME.held, and NAME.read, which is what a write makes of it then.

mod common;

use common::{given, id, junk};
use std::fs;
use treadwharf::{size2, AllocId, Atlas, Held, Refusal, Tables, FILE_MOST};

const ALL: [&str; 7] =
    ["worn", "worn-held", "worn-row", "worn-released", "worn-atlas", "last-generation", "last-released"];

fn text(name: &str) -> String {
    let folder = concat!(env!("CARGO_MANIFEST_DIR"), "/../../compare/sample/files/T-07");
    fs::read_to_string(format!("{folder}/{name}")).unwrap()
}

fn bytes(name: &str) -> Vec<u8> {
    let byte = |line: &str, i: usize| u8::from_str_radix(&line[2 * i..2 * i + 2], 16).unwrap();
    text(name).lines().flat_map(|line| (0..line.len() / 2).map(|i| byte(line, i)).collect::<Vec<_>>()).collect()
}

fn list(name: &str) -> Vec<Held> {
    let numbers = |line: &str| line.split(' ').map(|n| n.parse::<u32>().unwrap()).collect::<Vec<_>>();
    let entry = |n: Vec<u32>| common::entry(n[0], [n[1], n[2], n[3], n[4]].map(|n| n as u16));
    text(name).lines().map(|line| entry(numbers(line))).collect()
}

fn read(name: &str) -> Atlas<Box<Tables>> {
    Atlas::read(junk(), &bytes(&format!("{name}.hex")), &list(&format!("{name}.held"))).unwrap()
}

/// Reference count, item count and generation of a bucket.
fn counts(atlas: &Atlas<Box<Tables>>, bucket: usize) -> [u16; 3] {
    [3, 4, 6].map(|k| atlas.parts().buckets[7 * bucket + k])
}

#[test]
fn each_is_repaired() {
    for name in ALL {
        let atlas = read(name);
        let mut file = vec![0; FILE_MOST];
        let length = atlas.write(&mut file).unwrap();
        assert!(atlas.is_sound() && file[..length] == bytes(&format!("{name}.read")), "{name}");
        assert_ne!(file[..length], bytes(&format!("{name}.hex")), "{name}: nothing was repaired");
        assert_eq!(atlas.held(), list(&format!("{name}.held")), "{name}");
        let again = Atlas::read(junk(), &file[..length], atlas.held()).unwrap();
        assert_eq!(again.parts().buckets[..70], atlas.parts().buckets[..70], "{name}: read again it stays");
    }
}

/// What was held is taken back, by the ids of before.
#[test]
fn what_was_held() {
    for name in ALL {
        let mut atlas = read(name);
        for entry in list(&format!("{name}.held")) {
            assert_eq!(atlas.deallocate(entry.id), Ok(()), "{name}");
            assert!(atlas.deallocate(entry.id).is_err(), "{name}: twice");
        }
        assert!(atlas.is_empty() && atlas.allocated_space() == 0, "{name}");
    }
}

/// The complaint: labels of 32 by 32, ten at a time, until one was refused with most of the atlas free.
#[test]
fn the_label_is_placed() {
    let mut atlas = read("worn-atlas");
    assert_eq!((atlas.size(), atlas.free_space(), atlas.held().len()), (size2(256, 256), 53_248, 9));
    assert_eq!(atlas.allocate(size2(32, 32)), given((1 << 24) + 4098, 0, 96, 32, 128));
    // six buckets were free and worn, two of them in a row of three merged ones; each takes four
    let more = (0..100).take_while(|_| atlas.allocate(size2(32, 32)).is_ok()).count();
    assert_eq!((more, atlas.held().len()), (23, 9 + 24));
}

/// Half of 64 by 64 is a row that has had 4,095 labels.
#[test]
fn a_worn_row() {
    let mut atlas = read("worn-row");
    assert_eq!((counts(&atlas, 0), counts(&atlas, 1)), ([0, 0, 1], [1, 1, 0]));
    for turn in 1..5_000 {
        let label = atlas.allocate(size2(32, 32)).unwrap();
        assert_eq!(label.id, id(((turn % 256) << 24) + 4096));
        atlas.deallocate(label.id).unwrap();
    }
}

/// A released bucket has risen by the repair, and rises once more when it is laid.
#[test]
fn a_worn_row_that_was_popped() {
    let mut atlas = read("worn-released");
    assert_eq!((counts(&atlas, 1), counts(&atlas, 2)), ([0, 0, 1], [0, 0, 1]));
    assert_eq!(atlas.allocate(size2(64, 16)), given((2 << 24) + 4097, 0, 16, 64, 32));
}

#[test]
fn generation_255() {
    let mut atlas = read("last-generation");
    assert_eq!(counts(&atlas, 0), [0, 0, 0]);
    assert_eq!(atlas.allocate(size2(64, 16)), given(4096, 0, 0, 64, 16));
    let mut atlas = read("last-released");
    assert_eq!(counts(&atlas, 1), [0, 0, 0]);
    assert_eq!(atlas.allocate(size2(64, 16)), given((1 << 24) + 4097, 0, 16, 64, 32));
}

/// A bucket with a label keeps its items, however many: the list's ids are of its generation. With its return it is as new.
#[test]
fn items_under_a_label() {
    let mut atlas = read("worn-held");
    assert_eq!(counts(&atlas, 0), [1, 5_001, 0]);
    assert_eq!(atlas.deallocate(AllocId::deserialize(905 << 12)), Ok(())); // item 5,001 less 4,096
    assert_eq!(counts(&atlas, 0), [0, 0, 1]);
    assert_eq!(atlas.allocate(size2(64, 32)), given((1 << 24) + 4096, 0, 0, 64, 32));
}

/// 256 and more are no generations, and the repair makes none of them.
#[test]
fn what_the_repair_does_not_mend() {
    let (file, list) = (bytes("worn-row.hex"), list("worn-row.held"));
    for generation in [256u16, 257, 511, 65_280, 65_535] {
        let mut damaged = file.clone();
        damaged[77..79].copy_from_slice(&generation.to_le_bytes());
        assert_eq!(Atlas::read(junk(), &damaged, &list).err(), Some(Refusal::Tables), "generation {generation}");
    }
    let mut figure = file.clone();
    figure[29] += 1;
    assert_eq!(Atlas::read(junk(), &figure, &list).err(), Some(Refusal::Tables));
}
