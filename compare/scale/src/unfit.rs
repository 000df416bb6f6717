//! Damaged lists. The model says whether a list still fits and which clause fails; the port must agree. Where it does not, every call is 21 and
//! changes nothing; where it does, each call answers and leaves what the model says.

use crate::damage::all_refused;
use crate::port::{Held, Tables};
use crate::random::Random;
use crate::tables::{held, lent_of};
use model::listed::Lent;
use std::collections::BTreeMap;
use std::fmt::Debug;
use treadwharf::{size2, AllocId};

#[derive(Default)]
pub struct Unfit {
    pub lists: u64,
    pub fitting: u64,
    pub calls: u64,
    pub by_clause: BTreeMap<&'static str, u64>,
}

/// One call on the port and on the model: the same answer, the same tables and list, and nothing changed where it is refused.
fn alike<T: PartialEq + Debug>(
    before: &Tables,
    lent: &Lent,
    call: impl FnOnce(&mut Tables) -> Result<T, u32>,
    third: impl FnOnce(&mut Lent) -> Result<T, u8>,
) {
    let (mut tables, mut lent) = (Box::new(before.clone()), lent.clone());
    let (said, due) = (call(&mut tables), third(&mut lent).map_err(u32::from));
    assert_eq!(said, due, "DIFFERENCE from the model, over a list of {} entries", before.list.len());
    assert!(lent_of(&tables) == lent, "DIFFERENCE from the model in tables or list after {said:?}");
    assert!(said.is_ok() || *tables == *before, "DIFFERENCE: a refusal changed something: {said:?}");
}

impl Unfit {
    /// Whether the list fits, by both.
    pub fn judge(&mut self, tables: &Tables, r: &mut Random) -> Result<(), &'static str> {
        let lent = lent_of(tables);
        assert_eq!((lent.atlas.sound(), tables.is_sound()), (Ok(()), true), "DIFFERENCE: sound tables");
        let said = lent.atlas.fits(&lent.list);
        self.lists += 1;
        assert_eq!(tables.fits(), said.is_ok(), "DIFFERENCE: the list's test, the model says {said:?}; {:?}", some_of(tables));
        match said {
            Ok(()) => {
                self.fitting += 1;
                self.asked(tables, r);
            }
            Err(clause) => {
                *self.by_clause.entry(clause).or_default() += 1;
                let number = lent.tested().err().unwrap_or(0);
                self.calls += all_refused(tables, number.into(), r);
            }
        }
        said
    }

    /// Each call once: a request, returns of what is held, of its like and of anything, and the rest.
    pub fn asked(&mut self, tables: &Tables, r: &mut Random) {
        let lent = &lent_of(tables);
        self.calls += 12;
        let size = size2(r.from(-1, 40), r.from(0, 40));
        for size in [size, size2(1, 1)] {
            let third = |l: &mut Lent| l.call(|l| l.allocate(size.width.into(), size.height.into())).map(|p| held(&p).allocation());
            alike(tables, lent, |t| t.allocate(size), third);
        }
        for id in ids(tables, r) {
            alike(tables, lent, |t| t.deallocate(AllocId::deserialize(id)), |l| l.call(|l| l.deallocate(id)));
        }
        let [width, height] = [lent.atlas.width, lent.atlas.height].map(|side| side as i32 + r.from(-1, 9));
        alike(tables, lent, |t| t.grow(size2(width, height)), |l| l.call(|l| l.grow(width.into(), height.into())));
        alike(tables, lent, Tables::clear, |l| l.call(Lent::clear));
        alike(tables, lent, |t| t.allocated_space().map(i64::from), |l| l.call(|l| Ok(l.atlas.occupied)));
        alike(tables, lent, |t| t.free_space().map(i64::from), |l| l.call(|l| Ok(l.atlas.free())));
        alike(tables, lent, |t| t.is_empty(), |l| l.call(|l| Ok(l.atlas.shelves.is_empty())));
        let sides = |l: &mut Lent| Ok([l.atlas.width, l.atlas.height]);
        alike(tables, lent, |t| t.size().map(|s| [s.width, s.height].map(i64::from)), |l| l.call(sides));
    }

    /// One to three numbers of the list, or of what it must fit, changed.
    pub fn try_on(&mut self, sound: &Tables, r: &mut Random) {
        let mut tables = Box::new(sound.clone());
        let count = tables.entries();
        if count == 0 || count > tables.list.len() {
            return;
        }
        for _ in 0..r.one_of(&[1, 1, 1, 2, 3]) {
            change(&mut tables, count, r);
        }
        if r.once_in(12) {
            tables.list.truncate(count - r.from(0, 1) as usize);
        }
        if lent_of(&tables).atlas.sound().is_ok() {
            let _ = self.judge(&tables, r);
        }
    }
}

/// The entries, or some of many.
fn some_of(tables: &Tables) -> String {
    format!("{:?}", &tables.list[..tables.entries().min(tables.list.len()).min(12)])
}

/// A held id, the same with other item bits, and one of any bucket.
fn ids(tables: &Tables, r: &mut Random) -> [u32; 4] {
    let any = |r: &mut Random| tables.list.get((r.next() % tables.entries().max(1) as u64) as usize).map_or(0, |e| e.id);
    let id = any(r);
    [id, any(r), id ^ 1 << r.from(12, 23), r.from(0, 40) as u32 | (r.from(0, 3) as u32) << 12]
}

fn change(tables: &mut Tables, count: usize, r: &mut Random) {
    let [i, j] = [(); 2].map(|()| (r.next() % count as u64) as usize);
    let (index, other) = (tables.list[i].id as usize & 4_095, tables.list[j]);
    let [refs, items] = [3, 4].map(|k| tables.buckets.get(7 * index + k).copied().unwrap_or(0) as u32);
    match r.from(0, 11) {
        0 => side(tables, i, r, |n, r| (n as i32 + r.one_of(&[-1, 1])) as u16),
        1 => side(tables, i, r, |_, r| r.next() as u16),
        2 => side(tables, i, r, |n, r| (n as i32 + r.from(-9, 9)) as u16),
        3 => tables.list[i].id ^= 1 << r.from(0, 31),
        4 => {
            let item = r.one_of(&[0, 1, items, items + 1, 4_094, 4_095]) & 4_095;
            tables.list[i].id = tables.list[i].id & 0xff00_0fff | item << 12;
        }
        5 => tables.list[i].id = other.id,
        6 => tables.list[i] = other,
        7 => (tables.list[i].id, tables.list[j].id) = (other.id, tables.list[i].id),
        8 => tables.list.swap(i, j),
        // an unreferenced bucket has no items, and stays so: the tables are to be sound
        9 if refs == 0 => (),
        9 => tables.buckets[7 * (index % 4_095) + 4] = r.one_of(&[(items + 1) as u16, 4_094, 4_095, 4_096, 65_535]),
        10 => tables.buckets[7 * (index % 4_095) + 6] = r.from(0, 255) as u16,
        _ => split(tables, i, j),
    }
}

/// Entry j is cut in two; its right part, with the next item number of its bucket, is entry i, which may have been another bucket's.
fn split(tables: &mut Tables, i: usize, j: usize) {
    let whole = tables.list[j];
    let Some([refs, items]) = tables.buckets.get_mut(7 * (whole.id as usize & 4_095) + 3..).and_then(|b| b.first_chunk_mut()) else { return };
    if i == j || u32::from(whole.left) + 1 >= u32::from(whole.right) || *items >= 4_095 || *refs == 0 {
        return;
    }
    *items += 1;
    let middle = whole.left + (whole.right - whole.left) / 2;
    tables.list[i] = Held { id: whole.id & 0xff00_0fff | u32::from(*items) << 12, left: middle, ..whole };
    tables.list[j].right = middle;
}

fn side(tables: &mut Tables, i: usize, r: &mut Random, to: impl Fn(u16, &mut Random) -> u16) {
    let e = &mut tables.list[i];
    let n = r.one_of(&[0, 1, 2, 3]);
    let side = [&mut e.left, &mut e.top, &mut e.right, &mut e.bottom].into_iter().nth(n).unwrap();
    *side = to(*side, r);
}
