//! Files: write of a state, read of its bytes into tables full of other numbers, and the two tests of that state alone.
use crate::harness::{Bench, Case, Sides};
use crate::{Port, Random};
use treadwharf::{Refusal, Tables};

pub const CALLS: usize = 16;

/// A number in each place, and no atlas.
fn other() -> Box<Tables> {
    let (mut r, mut tables) = (Random(0x0fed_cba9_8765_4321), Box::new(Tables::new()));
    tables.header.fill_with(|| r.below(1 << 32) as u32);
    tables.shelves.fill_with(|| r.below(1 << 16) as u16);
    tables.buckets.fill_with(|| r.below(1 << 16) as u16);
    assert!(!tables.is_sound());
    tables
}

/// The header and the records in use are the atlas's, and the numbers past them those before the read.
fn is_read(atlas: &Tables, before: &Tables, after: &Tables) -> bool {
    let (shelves, buckets) = (5 * atlas.header[8] as usize, 7 * atlas.header[9] as usize);
    after.header == atlas.header
        && after.shelves[..shelves] == atlas.shelves[..shelves]
        && after.shelves[shelves..] == before.shelves[shelves..]
        && after.buckets[..buckets] == atlas.buckets[..buckets]
        && after.buckets[buckets..] == before.buckets[buckets..]
}

pub fn sum(call: impl FnMut() -> Result<usize, Refusal>) -> u64 {
    std::iter::repeat_with(call).take(CALLS).map(|bytes| bytes.unwrap_or(0) as u64).sum()
}

pub fn measure(bench: &mut Bench, name: &str, atlas: &Port) {
    let (before, mut after, blank) = (other(), other(), vec![0; atlas.file_len()]);
    let mut file = blank.clone();
    assert_eq!(atlas.write(&mut file), Ok(file.len()));
    assert!(after.read(&file).is_ok() && is_read(atlas.parts(), &before, &after), "{name}: not what was written");
    let told = |passed: bool| if passed { Ok(file.len()) } else { Ok(0) };
    let sides = Sides {
        states: (&blank, &before),
        first: &|buffer: &mut Vec<u8>| sum(|| atlas.write(buffer)),
        others: [
            &|tables: &mut Box<Tables>| sum(|| tables.read(&file).map(|()| file.len())),
            &|_: &mut Box<Tables>| sum(|| told(atlas.is_sound())),
            &|_: &mut Box<Tables>| sum(|| told(atlas.fits())),
        ],
    };
    bench.case(Case::of(name, CALLS, atlas), sides);
}
