//! Files: what is written is read back, over any memory, and every other byte string is refused by its number and changes nothing. Then
//! docs/FILES.md: its example is the file of its atlas, byte by byte, and each of its decisions is what the call answers.

mod common;

use common::{atlas, boxed, given, id, junk, made_up, Random};
use std::collections::BTreeSet;
use treadwharf::{size2, Atlas, Held, Options, Refusal, Size, Tables, FILE_MOST};

const PAGE: &str = include_str!("../../../docs/FILES.md");

fn file_of(tables: &Tables) -> Vec<u8> {
    let due = Atlas::from_parts(tables).unwrap().file_len();
    let mut buffer = vec![7; due + 5];
    assert_eq!(tables.write(&mut buffer), Ok(due));
    assert_eq!(buffer[due..], [7; 5], "what is past the file is written");
    buffer.truncate(due);
    buffer
}

/// The file of that atlas as a write makes it after the read: where bucket 0, which has no label, had items it has none and the next generation.
fn repaired(file: &[u8]) -> Vec<u8> {
    let mut file = file.to_vec();
    if file[59..61] != [0, 0] {
        (file[59], file[60], file[63]) = (0, 0, file[63].wrapping_add(1));
    }
    file
}

/// docs/FILES.md's atlas: one shelf, two buckets.
fn page() -> Atlas<Box<Tables>> {
    let mut atlas = atlas(64, 64);
    atlas.allocate(size2(10, 7)).unwrap();
    atlas
}

type InFile<'a> = (&'a [u32], &'a [u16], &'a [u16]);

/// Header and records below the counts, which are all that a file has.
fn in_file(t: &Tables) -> InFile<'_> {
    (&t.header, &t.shelves[..5 * t.header[8] as usize], &t.buckets[..7 * t.header[9] as usize])
}

/// And what is held, which is all that an atlas is.
fn in_use(t: &Tables) -> (InFile<'_>, &[Held]) {
    (in_file(t), t.held().unwrap())
}

/// Written and read over other memory, and the list lent: the same below the counts, what is past them as it was there, and the same bytes
/// again.
fn comes_back(tables: &Tables) -> Vec<u8> {
    let file = file_of(tables);
    let (before, mut there) = (junk(), junk());
    assert_eq!(there.read(&file), Ok(()));
    assert!(in_file(&there) == in_file(tables) && there.held[1..] == before.held[1..], "other numbers came back");
    let list = tables.held().unwrap();
    assert_eq!(there.lend(list), Ok(()));
    assert!(in_use(&there) == in_use(tables), "another list was lent");
    assert!(there.held[list.len().max(1)..] == before.held[list.len().max(1)..]);
    let (shelves, buckets) = (5 * tables.header[8] as usize, 7 * tables.header[9] as usize);
    assert!(
        there.shelves[shelves..] == before.shelves[shelves..] && there.buckets[buckets..] == before.buckets[buckets..]
    );
    assert_eq!(file_of(&there), file);
    let owned = Atlas::read(boxed(), &file, list).unwrap();
    assert_eq!((owned.file_len(), owned.size(), owned.held()), (file.len(), tables.size().unwrap(), list));
    file
}

/// Refused over sound tables and over memory of no atlas, and nothing changed in either.
fn refused(file: &[u8], why: Refusal, what: &str) {
    for mut tables in [page().into_parts(), junk()] {
        let before = tables.clone();
        assert_eq!(tables.read(file), Err(why), "{what}");
        for list in [page().held(), &[]] {
            assert_eq!(Atlas::read(&mut *tables, file, list).err(), Some(why), "{what}");
        }
        assert!(tables == before, "{what}: refused and changed something");
    }
}

#[test]
fn the_smallest_and_the_longest() {
    assert_eq!(comes_back(atlas(46_340, 46_340).parts()).len(), 37);
    assert_eq!(comes_back(page().parts()).len(), 87);
    let mut full = atlas(46_340, 200);
    for _ in 0..20 {
        full.allocate(size2(1, 1)).unwrap();
    }
    assert_eq!(full.parts().header[9], 4095);
    assert_eq!(comes_back(full.parts()).len(), 37 + 14 * 8 + 18 * 4095);
    assert_eq!(FILE_MOST, 37 + 14 * 4095 + 18 * 4095);
}

#[test]
fn a_buffer_too_short_by_any_number_of_bytes() {
    let atlas = page();
    let mut buffer = [7; 88];
    for bytes in 0..87 {
        assert_eq!(atlas.write(&mut buffer[..bytes]), Err(Refusal::Buffer), "{bytes}");
        assert_eq!(buffer, [7; 88], "{bytes}: refused and wrote something");
    }
    assert_eq!(atlas.write(&mut buffer[..87]), Ok(87));
    assert_eq!((&buffer[..87], buffer[87]), (&file_of(atlas.parts())[..], 7));
}

/// Any calls, a restart now and then: what goes on after it is what would have gone on without it.
#[test]
fn restarts_in_random_runs() {
    let mut restarts = 0;
    for seed in 1..=12 {
        let mut r = Random(seed);
        let mut kept = atlas(r.from(8, 300), r.from(8, 300));
        let (mut other, mut held) = (kept.clone(), Vec::new());
        for _ in 0..600 {
            match r.from(0, 9) {
                0 => {
                    comes_back(kept.parts());
                    let file = file_of(kept.parts());
                    kept = Atlas::read(junk(), &file, kept.held()).unwrap();
                    restarts += 1;
                }
                1..=4 if !held.is_empty() => {
                    let id = held.swap_remove(r.next() as usize % held.len());
                    assert_eq!((kept.deallocate(id), other.deallocate(id)), (Ok(()), Ok(())));
                }
                _ => {
                    let size = size2(r.from(1, 60), r.from(1, 40));
                    let placed = kept.allocate(size);
                    assert_eq!(other.allocate(size), placed);
                    held.extend(placed.map(|a| a.id));
                }
            }
            assert!(in_use(kept.parts()) == in_use(other.parts()));
        }
    }
    assert!(restarts > 500, "{restarts}");
}

/// Two atlases give the same bytes exactly where they are the same below the counts.
#[test]
fn equal_bytes_and_different_ones() {
    let (mut one, mut other) = (page().into_parts(), page().into_parts());
    other.shelves[5..].fill(0);
    other.buckets[14..].fill(65_535);
    assert!(one != other && file_of(&one) == file_of(&other));
    let file = file_of(&one);
    one.grow(size2(64, 65)).unwrap();
    other.allocate(size2(1, 1)).unwrap();
    assert!(file_of(&one) != file && file_of(&other) != file && file_of(&one) != file_of(&other));
}

/// The released chain is a stack: in another order the same buckets are laid otherwise.
#[test]
fn the_order_of_the_released_chain() {
    let mut one = atlas(64, 64);
    let rows = [(); 3].map(|()| one.allocate(size2(64, 16)).unwrap().id);
    one.deallocate(rows[1]).unwrap();
    one.deallocate(rows[2]).unwrap();
    let mut other = one.clone().into_parts();
    let first = other.header[10];
    let second = other.buckets[7 * first as usize + 2];
    other.header[10] = second.into();
    other.buckets[7 * first as usize + 2] = 65_535;
    other.buckets[7 * second as usize + 2] = first as u16;
    assert_ne!(comes_back(one.parts()), comes_back(&other));
    assert_ne!(one.allocate(size2(64, 16)), other.allocate(size2(64, 16)));
}

#[test]
fn ids_from_before_and_after_the_writing() {
    let mut atlas = page();
    let (file, list) = (file_of(atlas.parts()), atlas.held().to_vec());
    assert_eq!(atlas.allocate(size2(10, 20)), given(4098, 0, 8, 10, 32));
    let mut atlas = Atlas::read(atlas.into_parts(), &file, &list).unwrap();
    assert_eq!((atlas.allocated_space(), atlas.held()), (80, &list[..]));
    assert_eq!(atlas.deallocate(id(4098)), Err(Refusal::Unknown));
    assert_eq!(atlas.allocate(size2(10, 20)), given(4098, 0, 8, 10, 32));
    assert_eq!(atlas.deallocate(id(4097)), Ok(()));
}

/// Every byte of a file with each other value. Framing, counts and flag: 16; version: 17; else 1, or it is another atlas's file: a width above
/// that of its columns, other alignments, item counts and generations are sound. Items of the bucket without a label, 59 and 60, are repaired.
#[test]
fn every_byte_damaged() {
    let file = file_of(page().parts());
    let framing: Vec<usize> = [0..4, 22..26, 28..29, 33..37, 47..51, 65..69, 83..87].into_iter().flatten().collect();
    let (mut tables, mut taken) = (junk(), BTreeSet::new());
    for (place, change) in (0..file.len()).flat_map(|place| (1..=255).map(move |change| (place, change))) {
        let mut damaged = file.clone();
        damaged[place] ^= change;
        let what = format!("byte {place} is {}", damaged[place]);
        let due = match place {
            4 | 5 => Refusal::UnknownVersion,
            _ if framing.contains(&place) => Refusal::Broken,
            _ => Refusal::Tables,
        };
        match tables.read(&damaged) {
            Ok(()) => {
                tables.lend(&made_up(&tables)).unwrap();
                assert_eq!(file_of(&tables), repaired(&damaged), "{what}");
                taken.insert(place);
            }
            Err(why) if change == 1 => refused(&damaged, due, &format!("{what}: {why}")),
            Err(why) => assert_eq!(why, due, "{what}"),
        }
    }
    assert_eq!(Vec::from_iter(taken), [6, 7, 10, 11, 12, 13, 59, 60, 63, 77, 78, 81]);
}

#[test]
fn every_cut_and_every_byte_more() {
    let mut file = file_of(page().parts());
    for bytes in 0..file.len() {
        refused(&file[..bytes], Refusal::Broken, &format!("{bytes} bytes"));
    }
    for more in 1..40 {
        file.push(0);
        refused(&file, Refusal::Broken, &format!("{more} bytes more"));
    }
}

/// Random bytes in a file, many at once: refused and nothing changed, or the file of the atlas that is read, repaired.
#[test]
fn random_bytes() {
    let mut r = Random(1);
    let (whole, mut tables) = (file_of(page().parts()), junk());
    for _ in 0..20_000 {
        let mut file = whole.clone();
        for _ in 0..r.from(1, 4) {
            let place = r.next() as usize % file.len();
            file[place] = r.one_of(&[0, 1, 8, 16, 32, 64, 128, 255]);
        }
        let before = tables.header;
        match tables.read(&file) {
            Ok(()) => {
                tables.lend(&made_up(&tables)).unwrap();
                assert_eq!(file_of(&tables), repaired(&file));
            }
            Err(why) => {
                assert!([Refusal::Broken, Refusal::UnknownVersion, Refusal::Tables].contains(&why), "{why}");
                assert_eq!(tables.header, before);
            }
        }
    }
    assert!(tables.is_sound());
}

// ---- docs/FILES.md

/// The bytes of the page's table, whose rows have an offset, the bytes in hexadecimal, and what they are.
fn page_bytes() -> Vec<u8> {
    let (_, part) = PAGE.split_once("## An example").unwrap();
    let rows = part.split("\n## ").next().unwrap().lines().filter_map(|line| {
        let cells: Vec<&str> = line.split('|').map(str::trim).collect();
        let offset: usize = cells.get(1)?.parse().ok()?;
        Some((offset, cells.get(2)?.trim_matches('`').to_string()))
    });
    let mut bytes = Vec::new();
    for (offset, row) in rows {
        assert_eq!(offset, bytes.len(), "the offset of {row}");
        bytes.extend(row.split(' ').map(|byte| u8::from_str_radix(byte, 16).unwrap()));
    }
    bytes
}

#[test]
fn the_page_s_example() {
    assert_eq!(page_bytes(), file_of(page().parts()));
}

/// The page's file with numbers of 16 bits changed, each at its offset.
fn changed(numbers: &[(usize, u16)]) -> Vec<u8> {
    let mut file = page_bytes();
    for (place, number) in numbers {
        file[*place..place + 2].copy_from_slice(&number.to_le_bytes());
    }
    file
}

/// So many records of zeros between the header, whose counts are these, and the end.
fn zeros(shelves: u16, buckets: u16) -> Vec<u8> {
    let mut file = changed(&[(22, shelves), (24, buckets)])[..33].to_vec();
    let record = |size: u8, kind: u8| [&[size, 0, kind, 0][..], &vec![0; size as usize - 2]].concat();
    (0..shelves).for_each(|_| file.extend(record(12, 17)));
    (0..buckets).for_each(|_| file.extend(record(16, 18)));
    file.extend(record(2, 19));
    file
}

/// The page's rows, in its order.
#[test]
fn the_page_s_decisions() {
    let whole = page_bytes();
    let negative = changed(&[(29, 0), (31, 32_768)]);
    let exchanged = [&whole[..47], &whole[65..83], &whole[47..65], &whole[83..]].concat();
    for (why, file, what) in [
        (Refusal::Broken, vec![], "no bytes"),
        (Refusal::Broken, [&whole[..], &[0]].concat(), "a byte behind the end"),
        (Refusal::Broken, [&whole[..], &whole[..]].concat(), "a file behind the end"),
        (Refusal::Broken, changed(&[(24, 3)]), "a bucket more counted than there are records"),
        (Refusal::Broken, changed(&[(22, 0)]), "a shelf less counted than there are records"),
        (Refusal::Broken, [&whole[..47], &whole[33..47], &whole[47..]].concat(), "a shelf more than the count"),
        (
            Refusal::Broken,
            [&whole[..33], &whole[47..83], &whole[33..47], &whole[83..]].concat(),
            "buckets before the shelf",
        ),
        (
            Refusal::Broken,
            {
                let mut f = whole.clone();
                f[28] = 1;
                f
            },
            "the flag byte 1",
        ),
        (Refusal::Broken, changed(&[(33, 13)]), "a shelf's length 13"),
        (Refusal::Broken, changed(&[(4, 3)])[..86].to_vec(), "version 3, cut"),
        (Refusal::UnknownVersion, changed(&[(4, 9), (6, 0)]), "version 9, width 0"),
        (Refusal::UnknownVersion, changed(&[(4, 0)]), "version 0"),
        (Refusal::UnknownVersion, changed(&[(4, 257)]), "version 257"),
        (Refusal::Tables, changed(&[(6, 0)]), "width 0"),
        (Refusal::Tables, changed(&[(63, 256)]), "a generation of 256"),
        (Refusal::Tables, changed(&[(59, 4095), (63, 256)]), "4,095 items with nothing held, a generation of 256"),
        (Refusal::Tables, negative, "a negative figure"),
        (Refusal::Tables, zeros(1, 4096), "4,096 buckets, all records there"),
        (Refusal::Tables, zeros(4096, 2), "4,096 shelves, all records there"),
        (Refusal::Tables, exchanged, "two buckets exchanged"),
    ] {
        refused(&file, why, what);
        assert!(PAGE.contains(&format!("| {what} | {} |", why.number())), "{what} is no row of the page");
    }
    let rows =
        PAGE.lines().filter(|line| line.ends_with("| 16 |") || line.ends_with("| 17 |") || line.ends_with("| 1 |"));
    assert_eq!(rows.count(), 20);
}

/// The most that the counts can say: over 2,000,000 bytes, all records there.
#[test]
fn counts_of_65_535() {
    let file = zeros(65_535, 65_535);
    assert_eq!(file.len(), 37 + 32 * 65_535);
    refused(&file, Refusal::Tables, "65,535 of each");
    refused(&file[..file.len() - 1], Refusal::Broken, "65,535 of each, cut");
}

/// Other sides, alignments and columns: no number of the header stands for another.
#[test]
fn all_numbers_of_the_header() {
    let options = Options { align_width: 4, align_height: 3, columns: 2, vertical: false };
    let mut atlas = Atlas::with_options(junk(), size2(90, 50), &options).unwrap();
    let sizes: [Size; 4] = [(5, 7), (40, 30), (8, 44), (9, 9)].map(Size::from);
    let ids = sizes.map(|size| atlas.allocate(size).unwrap().id);
    atlas.deallocate(ids[2]).unwrap();
    let file = comes_back(atlas.parts());
    let word = |place: usize| u32::from(u16::from_le_bytes([file[place], file[place + 1]]));
    let there: Vec<u32> = (6..28).step_by(2).map(word).collect();
    assert_eq!(there, atlas.parts().header[..11]);
    assert_eq!(word(29) + 65_536 * word(31), atlas.allocated_space());
}
