//! Write, picture, read and the list's test over parts that are too short or longer than they need be: 1 first, then 21, and nothing is written.

use crate::port::{treadwharf_fits, treadwharf_picture, treadwharf_read, treadwharf_write, Held, Saving, Tables, BUCKETS, HEADER, SHELVES};
use crate::tables::{junk, model_of, put};
use model::tables::Atlas as Model;
use treadwharf::{size2, Options};

/// The parts of tables with some numbers behind each, and how many of each are lent.
#[derive(Clone, PartialEq)]
struct Parts {
    header: Vec<u32>,
    shelves: Vec<u16>,
    buckets: Vec<u16>,
}

const SPARE: usize = 9;

/// A call that puts a text into a buffer, the text that is due of it, and its refusal of a buffer that is shorter.
struct Saved<'a> {
    call: Saving,
    text: &'a [u8],
    short: u32,
}

fn parts(tables: &Tables) -> Parts {
    Parts {
        header: [&tables.header[..], &[7; SPARE]].concat(),
        shelves: [&tables.shelves[..], &[7; SPARE]].concat(),
        buckets: [&tables.buckets[..], &[7; SPARE]].concat(),
    }
}

impl Parts {
    fn save(&self, call: Saving, lent: [usize; 3], list: &[Held], text: &mut [u8], out: &mut [u32]) -> u32 {
        let (h, s, b, l) = (self.header.as_ptr(), self.shelves.as_ptr(), self.buckets.as_ptr(), list.as_ptr());
        let (t, o) = (text.as_mut_ptr(), out.as_mut_ptr());
        // SAFETY: each part has at least as many numbers as the count beside it, and what is written is borrowed exclusively
        unsafe { call(h, lent[0], s, lent[1], b, lent[2], l, list.len(), t, text.len(), o, out.len()) }
    }

    fn fits(&self, lent: [usize; 3], list: &[Held]) -> bool {
        let (h, s, b, l) = (self.header.as_ptr(), self.shelves.as_ptr(), self.buckets.as_ptr(), list.as_ptr());
        // SAFETY: as above
        unsafe { treadwharf_fits(h, lent[0], s, lent[1], b, lent[2], l, list.len()) }
    }

    fn read(&mut self, lent: [usize; 3], file: &[u8]) -> u32 {
        let (h, s, b) = (self.header.as_mut_ptr(), self.shelves.as_mut_ptr(), self.buckets.as_mut_ptr());
        // SAFETY: as above
        unsafe { treadwharf_read(h, lent[0], s, lent[1], b, lent[2], file.as_ptr(), file.len()) }
    }
}

/// Every mixture of too short, just enough and longer.
fn lendings() -> impl Iterator<Item = ([usize; 3], bool)> {
    let of = |need: usize| [0, need - 1, need, need + 1, need + SPARE];
    let all = of(HEADER).into_iter().flat_map(move |h| of(SHELVES).into_iter().flat_map(move |s| of(BUCKETS).map(|b| [h, s, b])));
    all.map(|lent| (lent, lent[0] >= HEADER && lent[1] >= SHELVES && lent[2] >= BUCKETS))
}

/// How many calls were compared.
pub fn lent() -> u64 {
    let mut tables = junk();
    tables.renew(size2(64, 64), &Options::DEFAULT).unwrap();
    tables.allocate(size2(10, 7)).unwrap();
    let mut file = vec![0; 87];
    assert_eq!(tables.write(&mut file), Ok(87));
    let damaged = |at: usize, byte: u8| [&file[..at], &[byte], &file[at + 1..]].concat();
    let files = [file.clone(), damaged(86, 1), damaged(4, 2), damaged(29, 0), file[..86].to_vec(), vec![]];
    let picture = model_of(&tables).picture();
    let saved = [
        Saved { call: treadwharf_write, text: &file, short: 18 },
        Saved { call: treadwharf_picture, text: picture.as_bytes(), short: 24 },
    ];
    files.iter().map(|file| reads(file)).sum::<u64>() + saves(&tables, &saved)
}

fn reads(file: &[u8]) -> u64 {
    let (before, mut calls) = (parts(&junk()), 0);
    for (lent, enough) in lendings() {
        let model = if enough { Model::read(file) } else { Err(1) };
        let (mut after, mut due) = (before.clone(), before.clone());
        let said = after.read(lent, file);
        if let Ok(model) = &model {
            let mut tables = junk();
            put(&mut tables, model);
            due = parts(&tables);
        }
        assert_eq!(said, model.err().unwrap_or(0).into(), "DIFFERENCE: a read into {lent:?} numbers, a file of {} bytes", file.len());
        assert!(after == due, "DIFFERENCE: what a read into {lent:?} numbers left");
        calls += 1;
    }
    calls
}

/// Sound tables and unsound ones; a list that fits, a longer one, none, and one that does not fit; buffers just long enough and too short; room
/// for the answer and none.
fn saves(tables: &Tables, saved: &[Saved]) -> u64 {
    let (sound, mut calls) = (parts(tables), 0);
    let mut unsound = sound.clone();
    unsound.header[11] += 1;
    let mut other = tables.list[..3].to_vec();
    other[0].bottom += 1;
    let lists = [(&tables.list[..1], true), (&tables.list[..], true), (&[], false), (&other, false)];
    for (lent, enough) in lendings() {
        for (parts, good) in [(&sound, true), (&unsound, false)] {
            for (list, listed) in lists {
                assert_eq!(parts.fits(lent, list), enough && good && listed, "DIFFERENCE: the list's test of {lent:?} numbers");
                let first = if !enough || !good { 1 } else if !listed { 21 } else { 0 };
                calls += 1 + saved.iter().map(|s| buffers(parts, lent, list, first, s)).sum::<u64>();
            }
        }
    }
    calls
}

/// What is lent is refused with `first`, or fits where that is 0.
fn buffers(parts: &Parts, lent: [usize; 3], list: &[Held], first: u32, saved: &Saved) -> u64 {
    let enough = saved.text.len();
    let sizes = [(0, 1), (enough - 1, 1), (enough, 0), (enough, 1), (enough + 13, 3), (enough - 1, 0)];
    for (length, room) in sizes {
        let (mut buffer, mut out) = (vec![9; length], vec![5; room]);
        let short = if length < enough { saved.short } else { 0 };
        let due = if room == 0 { 1 } else if first > 0 { first } else { short };
        let said = parts.save(saved.call, lent, list, &mut buffer, &mut out);
        assert_eq!(said, due, "DIFFERENCE: a text of {lent:?} numbers and {} entries into {length} bytes", list.len());
        let (mut bytes, mut told) = (vec![9; length], vec![5; room]);
        if due == 0 {
            bytes[..enough].copy_from_slice(saved.text);
            told[0] = enough as u32;
        }
        assert!((buffer, out) == (bytes, told), "DIFFERENCE: what a text of {lent:?} numbers left in {length} bytes");
    }
    sizes.len() as u64
}
