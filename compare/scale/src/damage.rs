//! Damaged tables. One number of the header, a shelf or a bucket is changed; document 01's list, written a second time in the model,
//! says whether the tables are still sound and which clause fails. The port must agree, and where they are not, answer 1 to every call
//! and change nothing; where they are sound and the list does not fit them any more, 21. It must answer the same to the file of such tables,
//! which no write makes where they are not sound; but a read repairs what T-08 says, and then tests.

use crate::port::Tables;
use crate::random::Random;
use crate::tables::{lent_of, model_of};
use crate::twin::Twin;
use std::collections::BTreeMap;
use treadwharf::{size2, AllocId, Options};

#[derive(Default)]
pub struct Damage {
    pub tables: u64,
    pub sound: u64,
    /// sound ones that the list does not fit
    pub unlisted: u64,
    pub calls: u64,
    /// unsound ones whose file is read, since the repair mends them
    pub repaired: u64,
    pub by_field: BTreeMap<String, u64>,
    pub by_clause: BTreeMap<&'static str, u64>,
}

/// Another number for one of at most `most`.
pub fn number(r: &mut Random, was: u32, most: u32) -> u32 {
    match r.from(0, 7) {
        0 => was.wrapping_add(1) & most,
        1 => was.wrapping_sub(1) & most,
        2 => 0,
        3 => 65_535,
        4 => r.from(0, 40) as u32,
        5 => r.from(0, 4100) as u32,
        6 => was ^ (1 << r.from(0, 15)),
        _ => r.next() as u32 & most,
    }
}

/// Rows of 16 on 64 by 64, the last one held; the first two merged where `merged`.
pub fn rows(merged: bool) -> Box<Tables> {
    let mut tables = Box::new(Tables::new());
    tables.renew(size2(64, 64), &Options::DEFAULT).unwrap();
    let ids = [(); 4].map(|()| tables.allocate(size2(64, 16)).unwrap().id);
    for id in &ids[..2] {
        tables.deallocate(*id).unwrap();
    }
    if merged {
        tables.allocate(size2(64, 32)).unwrap();
    }
    tables
}

/// Three columns of one shelf each, whose two buckets leave a pixel of the column.
fn three() -> Box<Tables> {
    let mut tables = Box::new(Tables::new());
    tables.renew(size2(99, 6), &Options { columns: 3, ..Options::DEFAULT }).unwrap();
    for _ in 0..9 {
        tables.allocate(size2(6, 6)).unwrap();
    }
    assert_eq!((tables.header[8], tables.header[9]), (3, 6), "shelves, buckets");
    tables
}

/// A row that is held, and the bucket of one that was popped.
fn popped() -> Box<Tables> {
    let mut tables = Box::new(Tables::new());
    tables.renew(size2(64, 64), &Options::DEFAULT).unwrap();
    let ids = [(); 2].map(|()| tables.allocate(size2(64, 16)).unwrap().id);
    tables.deallocate(ids[1]).unwrap();
    assert_eq!((tables.header[8], tables.header[9], tables.header[10]), (1, 2, 1), "shelves, buckets, released");
    tables
}

impl Damage {
    /// What no single number breaks, clause by clause: the rest of the test still holds.
    pub fn directed(&mut self, r: &mut Random, twin: &mut Twin) {
        type Case<'a> = (fn() -> Box<Tables>, &'a [(usize, u32)], &'a [(usize, u16)], &'a [(usize, u16)], &'a str);
        let cases: [Case; 13] = [
            (|| rows(false), &[(10, 0)], &[(4, 65_535)], &[], "chain: not empty"),
            (|| rows(false), &[(11, 1024)], &[], &[(22, 64), (24, 0), (25, 0)], "last shelf: referenced"),
            (|| rows(false), &[], &[(1, 1), (2, 15)], &[], "shelves: a column starts at 0, height at least 1"),
            (|| rows(false), &[], &[(2, 0), (6, 0), (7, 32)], &[], "shelves: a column starts at 0, height at least 1"),
            (|| rows(false), &[], &[(3, 0)], &[(1, 0)], "one column: bucket width at least 1"),
            (|| rows(false), &[(11, 1008)], &[], &[(15, 65)], "bucket: free width at most the width"),
            (three, &[], &[(5, 32)], &[], "shelves: column by column from 0, none skipped"),
            (three, &[], &[], &[], ""),
            (|| rows(true), &[], &[], &[(8, 0), (10, 1), (11, 1)], "height 0: reference count 0"),
            (|| rows(true), &[], &[], &[], ""),
            (|| rows(false), &[], &[], &[(4, 1)], "unreferenced: item count 0"),
            (|| rows(true), &[], &[], &[(11, 65_535)], "unreferenced: item count 0"),
            (popped, &[], &[], &[(11, 4_095)], "unreferenced: item count 0"),
        ];
        for (made, h, s, b, clause) in cases {
            let mut tables = made();
            h.iter().for_each(|(k, v)| tables.header[*k] = *v);
            s.iter().for_each(|(k, v)| tables.shelves[*k] = *v);
            b.iter().for_each(|(k, v)| tables.buckets[*k] = *v);
            let model = model_of(&tables);
            self.judge(tables, "several".to_string(), r, twin);
            assert_eq!(model.sound().err().unwrap_or(""), clause);
        }
    }

    pub fn try_on(&mut self, sound: &Tables, r: &mut Random, twin: &mut Twin) {
        let mut tables = Box::new(sound.clone());
        let Tables { header, shelves, buckets, .. } = &mut *tables;
        let (rows, columns) = (header[8] as usize, header[9] as usize);
        let mut field = String::new();
        for _ in 0..r.one_of(&[1, 1, 1, 2, 3]) {
            field = match r.from(0, 2) {
                1 if rows > 0 => {
                    let (i, k) = ((r.next() % rows as u64) as usize, r.from(0, 4) as usize);
                    shelves[5 * i + k] = number(r, shelves[5 * i + k] as u32, 65_535) as u16;
                    format!("shelf {k}")
                }
                2 if columns > 0 => {
                    let (i, k) = ((r.next() % columns as u64) as usize, r.from(0, 6) as usize);
                    buckets[7 * i + k] = number(r, buckets[7 * i + k] as u32, 65_535) as u16;
                    format!("bucket {k}")
                }
                _ => {
                    let k = r.from(0, 11) as usize;
                    header[k] = number(r, header[k], u32::MAX);
                    format!("header {k:02}")
                }
            };
        }
        self.judge(tables, field, r, twin);
    }

    fn judge(&mut self, tables: Box<Tables>, field: String, r: &mut Random, twin: &mut Twin) {
        let header = &tables.header;
        let fits = header[..11].iter().all(|n| *n < 65_536) && header[8] <= 4095 && header[9] <= 4095;
        let lent = fits.then(|| lent_of(&tables));
        let clause = lent.as_ref().map_or(Some("header: counts, or more than 16 bits"), |l| l.atlas.sound().err());
        let listed = clause.is_none() && lent.as_ref().is_some_and(|l| l.tested().is_ok());
        self.tables += 1;
        self.calls += 2;
        assert_eq!(tables.is_sound(), clause.is_none(), "DIFFERENCE: the tables test, the model says {clause:?}, changed: {field}");
        assert_eq!(tables.fits(), listed, "DIFFERENCE: the list's test on tables of {clause:?}, changed: {field}");
        if let Some(lent) = &lent {
            // unreferenced buckets with items are repaired, as those of an earlier build
            let due = lent.atlas.clone().repaired().sound().map_err(|_| 1);
            assert_eq!(twin.read(&lent.atlas.file()), due, "DIFFERENCE: the file of tables of {clause:?}");
            self.repaired += u64::from(clause.is_some() && due.is_ok());
            for length in [0, 36, 200] {
                let _ = twin.write(&tables, lent, length);
            }
        }
        match clause {
            None if listed => self.sound += 1,
            None => {
                (self.sound, self.unlisted) = (self.sound + 1, self.unlisted + 1);
                self.calls += all_refused(&tables, 21, r);
            }
            Some(clause) => {
                *self.by_field.entry(field).or_default() += 1;
                *self.by_clause.entry(clause).or_default() += 1;
                self.calls += all_refused(&tables, 1, r);
            }
        }
    }
}

/// Every call but new and read is refused with this number and changes nothing. How many calls.
pub fn all_refused(before: &Tables, number: u32, r: &mut Random) -> u64 {
    let (mut tables, mut file, no) = (Box::new(before.clone()), [9; 200], Some(number));
    let id = if r.once_in(2) { r.next() as u32 & 0xfff } else { before.list.first().map_or(0, |e| e.id) };
    assert_eq!(tables.allocate(size2(r.from(-1, 64), r.from(-1, 64))).err(), no, "DIFFERENCE: allocate");
    assert_eq!(tables.deallocate(AllocId::deserialize(id)).err(), no, "DIFFERENCE: deallocate");
    assert_eq!(tables.grow(size2(r.from(-1, 46_341), r.from(-1, 46_341))).err(), no, "DIFFERENCE: grow");
    assert_eq!(tables.clear().err(), no, "DIFFERENCE: clear");
    assert_eq!(tables.size().err(), no, "DIFFERENCE: size");
    assert_eq!(tables.is_empty().err(), no, "DIFFERENCE: is_empty");
    assert_eq!(tables.allocated_space().err(), no, "DIFFERENCE: allocated_space");
    assert_eq!(tables.free_space().err(), no, "DIFFERENCE: free_space");
    assert_eq!(tables.write(&mut file).err(), no, "DIFFERENCE: write");
    assert_eq!(tables.write(&mut []).err(), no, "DIFFERENCE: write into no byte");
    assert_eq!(tables.picture(&mut file).err(), no, "DIFFERENCE: picture");
    assert_eq!(tables.picture(&mut []).err(), no, "DIFFERENCE: picture into no byte");
    assert!(*tables == *before && file == [9; 200], "DIFFERENCE: refusal {number} changed something");
    12
}
