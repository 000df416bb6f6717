//! T-01 of document 02: header and tables as the bytes of a file, and back. A file is taken apart record by record, as a trace is; what stands in it is
//! repaired and then tested (T-08).

use crate::tables::{Atlas, Bucket, Shelf, N};

/// The one version that is written, and the one that is read.
const VERSION: N = 1;

/// Numbers of 16 bits, little-endian.
fn words(numbers: &[N]) -> Vec<u8> {
    numbers.iter().flat_map(|n| (*n as u16).to_le_bytes()).collect()
}

/// A record as in a trace: the length of what follows it, the kind, the payload.
fn record(kind: N, payload: Vec<u8>) -> Vec<u8> {
    [words(&[2 + payload.len() as N, kind]), payload].concat()
}

/// What is left of a file.
struct Rest<'a>(&'a [u8]);

impl<'a> Rest<'a> {
    /// The next bytes, as many as are asked for.
    fn bytes(&mut self, count: usize) -> Option<&'a [u8]> {
        let (taken, rest) = self.0.split_at_checked(count)?;
        self.0 = rest;
        Some(taken)
    }

    fn word(&mut self) -> Option<N> {
        self.bytes(2).map(|b| N::from(b[0]) + 256 * N::from(b[1]))
    }

    fn words<const COUNT: usize>(&mut self) -> Option<[N; COUNT]> {
        let mut numbers = [0; COUNT];
        for n in &mut numbers {
            *n = self.word()?;
        }
        Some(numbers)
    }

    /// The payload of the next record, where that has this kind and this many bytes of payload.
    fn payload(&mut self, kind: N, count: usize) -> Option<Rest<'a>> {
        let [length, found] = self.words()?;
        if found != kind || length != 2 + count as N {
            return None;
        }
        self.bytes(count).map(Rest)
    }

    fn shelf(&mut self) -> Option<Shelf> {
        let [x, y, height, width, first] = self.payload(17, 10)?.words()?;
        Some(Shelf { x, y, height, width, first })
    }

    fn bucket(&mut self) -> Option<Bucket> {
        let [x, free, next, refs, items, shelf, generation] = self.payload(18, 14)?.words()?;
        Some(Bucket { x, free, next, refs, items, shelf, generation })
    }
}

/// The version and what stands in the file; nothing where it is malformed or cut. What the numbers mean is not asked here.
fn taken_apart(file: &[u8]) -> Option<(N, Atlas)> {
    let mut rest = Rest(file);
    let mut payload = rest.payload(16, 29)?;
    let [version, width, height, align_width, align_height, columns, column_width, column, room, shelves, buckets, released] = payload.words()?;
    let vertical = payload.bytes(1)?;
    let occupied = i32::from_le_bytes(payload.bytes(4)?.try_into().ok()?).into();
    if vertical != [0] {
        return None;
    }
    let shelves = (0..shelves).map(|_| rest.shelf()).collect::<Option<_>>()?;
    let buckets = (0..buckets).map(|_| rest.bucket()).collect::<Option<_>>()?;
    rest.payload(19, 0)?;
    let atlas = Atlas { width, height, align_width, align_height, columns, column_width, column, room, released, occupied, shelves, buckets };
    rest.0.is_empty().then_some((version, atlas))
}

impl Atlas {
    fn header_record(&self) -> Vec<u8> {
        let numbers = [
            VERSION,
            self.width,
            self.height,
            self.align_width,
            self.align_height,
            self.columns,
            self.column_width,
            self.column,
            self.room,
            self.shelves.len() as N,
            self.buckets.len() as N,
            self.released,
        ];
        record(16, [words(&numbers), vec![0], (self.occupied as i32).to_le_bytes().to_vec()].concat())
    }

    /// The file, each table in index order: of an earlier build's tables what that build wrote.
    pub fn file(&self) -> Vec<u8> {
        let shelf = |s: &Shelf| record(17, words(&[s.x, s.y, s.height, s.width, s.first]));
        let bucket = |b: &Bucket| record(18, words(&[b.x, b.free, b.next, b.refs, b.items, b.shelf, b.generation]));
        let (shelves, buckets) = (self.shelves.iter().flat_map(shelf), self.buckets.iter().flat_map(bucket));
        self.header_record().into_iter().chain(shelves).chain(buckets).chain(record(19, vec![])).collect()
    }

    /// The file into a lent buffer: how many bytes of it.
    pub fn write(&self, out: &mut [u8]) -> Result<usize, u8> {
        if self.sound().is_err() {
            return Err(1);
        }
        let file = self.file();
        out.get_mut(..file.len()).ok_or(18)?.copy_from_slice(&file);
        Ok(file.len())
    }

    /// The atlas in a file, repaired; only sound tables are read.
    pub fn read(file: &[u8]) -> Result<Atlas, u8> {
        Atlas::read_telling(file).map_err(|(number, _)| number)
    }

    /// The same, with what is amiss: for unsound contents the clause of the tables test.
    pub fn read_telling(file: &[u8]) -> Result<Atlas, (u8, &'static str)> {
        let (version, atlas) = taken_apart(file).ok_or((16, "malformed or cut"))?;
        if version != VERSION {
            return Err((17, "unknown version"));
        }
        let atlas = atlas.repaired();
        atlas.sound().map_err(|clause| (1, clause)).map(|()| atlas)
    }
}
