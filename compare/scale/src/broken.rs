//! Damaged files: cut, with other bytes, with bytes and records put in, left out and exchanged, with the counts or against them. The port
//! answers what the model does, and a refusal leaves every lent number as it was.

use crate::port::{Tables, FILE_MOST};
use crate::random::Random;
use crate::twin::Twin;
use treadwharf::{size2, Options};

#[derive(Default)]
pub struct Broken {
    /// files that were damaged in every way below
    pub files: u64,
    pub bytes: u64,
    /// larger ones that were damaged at random
    pub large: u64,
}

/// The records of a file, by their lengths.
pub fn records(file: &[u8]) -> Vec<Vec<u8>> {
    let (mut rest, mut parts) = (file, Vec::new());
    while !rest.is_empty() {
        let (record, behind) = rest.split_at(2 + u16::from_le_bytes([rest[0], rest[1]]) as usize);
        parts.push(record.to_vec());
        rest = behind;
    }
    parts
}

pub fn set(file: &mut [u8], at: usize, number: u16) {
    file[at..at + 2].copy_from_slice(&number.to_le_bytes());
}

pub fn get(file: &[u8], at: usize) -> u16 {
    u16::from_le_bytes([file[at], file[at + 1]])
}

/// The records as one file, the header's counts those of the records in it.
pub fn counted(parts: &[Vec<u8>]) -> Vec<u8> {
    let mut file = parts.concat();
    for (at, kind) in [(22, 17), (24, 18)] {
        set(&mut file, at, parts.iter().filter(|p| p[2] == kind).count() as u16);
    }
    file
}

/// A few calls on a small atlas, as long as its file has at most `most` bytes.
pub fn small(r: &mut Random, most: usize) -> Vec<u8> {
    let mut tables = Box::new(Tables::new());
    let mut file = vec![0; FILE_MOST];
    loop {
        let (width, columns) = (r.one_of(&[8, 20, 64, 200]), r.from(1, 3));
        tables.renew(size2(width, r.one_of(&[8, 40, 64])), &Options { columns, ..Options::DEFAULT }).unwrap();
        let mut held = Vec::new();
        for _ in 0..r.from(0, 12) {
            if !held.is_empty() && r.once_in(3) {
                tables.deallocate(held.swap_remove((r.next() % held.len() as u64) as usize)).unwrap();
            }
            held.extend(tables.allocate(size2(r.from(1, width / columns), r.one_of(&[3, 8, 20, 33]))).map(|a| a.id));
        }
        let length = tables.write(&mut file).unwrap();
        if length <= most {
            file.truncate(length);
            return file;
        }
    }
}

impl Broken {
    /// All ways, of a small file.
    pub fn every(&mut self, twin: &mut Twin, file: &[u8], r: &mut Random) {
        assert_eq!(twin.read(file), Ok(()), "DIFFERENCE: a file before it is damaged");
        self.files += 1;
        self.bytes += file.len() as u64;
        cuts(twin, file);
        values(twin, file);
        shifts(twin, file);
        fields(twin, file);
        exchanges(twin, file);
        for _ in 0..2_000 {
            random(twin, file, r);
        }
    }

    /// Some ways, of a large file.
    pub fn some(&mut self, twin: &mut Twin, file: &[u8], r: &mut Random, count: u64) {
        for _ in 0..count {
            random(twin, file, r);
        }
        self.large += count;
    }
}

/// Every length, from the front and from the end; more bytes behind.
fn cuts(twin: &mut Twin, file: &[u8]) {
    for at in 0..file.len() {
        assert_eq!(twin.read(&file[..at]), Err(16), "DIFFERENCE: a cut file");
        let _ = twin.read(&file[at..]);
    }
    for more in 1..40 {
        assert_eq!(twin.read(&[file, &vec![0; more]].concat()), Err(16), "DIFFERENCE: bytes behind the end");
    }
    assert_eq!(twin.read(&[file, file].concat()), Err(16), "DIFFERENCE: a file twice");
}

/// Every byte with every value.
fn values(twin: &mut Twin, file: &[u8]) {
    let mut damaged = file.to_vec();
    for at in 0..file.len() {
        for value in 0..=255 {
            damaged[at] = value;
            let _ = twin.read(&damaged);
        }
        damaged[at] = file[at];
    }
}

/// A byte more or less, everywhere.
fn shifts(twin: &mut Twin, file: &[u8]) {
    for at in 0..file.len() {
        let (before, behind) = file.split_at(at);
        assert_eq!(twin.read(&[before, &behind[1..]].concat()), Err(16), "DIFFERENCE: a byte left out");
        for byte in [0, 1, 255, file[at]] {
            assert_eq!(twin.read(&[before, &[byte], behind].concat()), Err(16), "DIFFERENCE: a byte put in");
        }
    }
}

/// Numbers at the edges, in two neighbouring bytes everywhere.
fn fields(twin: &mut Twin, file: &[u8]) {
    let mut damaged = file.to_vec();
    for at in 0..file.len() - 1 {
        let was = get(file, at);
        for number in [0, 1, 255, 256, 4_094, 4_095, 4_096, 32_767, 32_768, 46_340, 46_341, 65_534, 65_535, was.wrapping_sub(1), was.wrapping_add(1)] {
            set(&mut damaged, at, number);
            let _ = twin.read(&damaged);
        }
        set(&mut damaged, at, was);
    }
}

/// Records exchanged, left out, doubled and moved; with the counts of what is then there, and with those of before.
fn exchanges(twin: &mut Twin, file: &[u8]) {
    let parts = records(file);
    let mut both = |parts: &[Vec<u8>]| {
        let _ = twin.read(&parts.concat());
        if parts.first().is_some_and(|p| p.len() == 33) {
            let _ = twin.read(&counted(parts));
        }
    };
    for i in 0..parts.len() {
        for j in 0..parts.len() {
            let mut some = parts.clone();
            some.swap(i, j);
            both(&some);
            let mut some = parts.clone();
            some.insert(j, parts[i].clone());
            both(&some);
            let mut some = parts.clone();
            let moved = some.remove(i);
            some.insert(j.min(some.len()), moved);
            both(&some);
        }
        let mut some = parts.clone();
        some.remove(i);
        both(&some);
    }
}

/// One to three bytes changed, mostly by little.
fn random(twin: &mut Twin, file: &[u8], r: &mut Random) {
    let mut damaged = file.to_vec();
    for _ in 0..r.one_of(&[1, 2, 2, 3]) {
        let at = (r.next() % file.len() as u64) as usize;
        damaged[at] = match r.from(0, 4) {
            0 => r.next() as u8,
            1 => damaged[at] ^ (1 << r.from(0, 7)),
            2 => damaged[at].wrapping_add(1),
            3 => damaged[at].wrapping_sub(1),
            _ => r.one_of(&[0, 255]),
        };
    }
    if r.once_in(10) {
        damaged.truncate((r.next() % (file.len() as u64 + 1)) as usize);
    }
    let _ = twin.read(&damaged);
}
