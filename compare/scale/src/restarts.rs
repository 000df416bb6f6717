//! Restarts: atlases that are written and read back again and again, among calls that are compared with the crate. A read is of the last
//! writing or of an older one, of another atlas too; the history goes on from the moment of that writing. A read ends the list, so one is lent
//! anew after it: as it was, in another order, or with rectangles and item numbers that were never issued.

use crate::damage::all_refused;
use crate::history::History;
use crate::listing::{others, shuffle};
use crate::pair::{Kept, Made, Pair};
use crate::port::Held;
use crate::random::Random;
use crate::tables::{junk_list, lent_of, model_of};
use crate::twin::Twin;
use crate::walks::{making, request};
use model::tables::Atlas as Model;
use treadwharf::{size2, AllocId, Allocation, Options, Size};

/// A file, and what was so at its writing.
struct Writing {
    file: Vec<u8>,
    model: Model,
    kept: Kept,
    history: History,
    list: Vec<Held>,
}

/// The entries of a list, more than any of these atlases holds.
const ROOM: usize = 3_000;

/// What is lent after a read.
#[derive(Clone, Copy, PartialEq)]
enum Lending {
    AsItWas,
    Shuffled,
    Others,
}

#[derive(Default)]
pub struct Restarts {
    history: History,
    writings: Vec<Writing>,
    /// reads, each with its writing
    pub pairs: u64,
    /// of these into the tables of the atlas itself; the rest into others, which have another atlas in them
    pub same: u64,
    /// of these with something held before it that was not held at the writing
    pub losing: u64,
    /// such ids handed back after the read and refused
    pub lost: u64,
    /// lists of before that did not fit the tables read
    pub unfit: u64,
    /// lists lent anew with rectangles that were never issued
    pub others: u64,
}

/// A small atlas, of any columns and alignments.
pub fn small(r: &mut Random) -> Made {
    let (width, height) = match r.from(0, 5) {
        0..=2 => (64, 64),
        3 => (r.from(264, 4_000), r.from(8, 80)), // so wide that ratios from 33 to 63 come up
        _ => (r.from(8, 300), r.from(8, 300)),
    };
    let columns = if r.once_in(2) { 1 } else { r.from(1, 4).min(width) };
    let options = Options { align_width: r.one_of(&[1, 1, 2, 8]).min(width / columns), align_height: r.one_of(&[1, 1, 4]), columns, vertical: false };
    Made { size: size2(width, height), options }
}

fn index(r: &mut Random, of: usize) -> usize {
    (r.next() % of as u64) as usize
}

impl Restarts {
    /// One atlas from its new on, mostly a small one. Files of those before stay at hand.
    pub fn sequence(&mut self, pair: &mut Pair, twin: &mut Twin, r: &mut Random) {
        let large = r.once_in(40);
        let made = if large { making(r) } else { small(r) };
        if self.renew(pair, made).is_err() {
            return;
        }
        let (kind, lean) = (r.from(0, 4), r.one_of(&[40, 55, 70]));
        for _ in 0..if large { 30 } else { 300 } {
            match r.from(0, 7) {
                0 | 1 => self.write(pair, twin, r),
                2 | 3 if !self.writings.is_empty() => {
                    let last = self.writings.len() - 1;
                    let from = if r.once_in(2) { last } else { index(r, last + 1) };
                    let lending = r.one_of(&[Lending::AsItWas, Lending::Shuffled, Lending::Others]);
                    self.read(pair, twin, r, from, lending);
                }
                _ => self.call(pair, r, kind, lean),
            }
            self.meets(pair, r.once_in(8));
        }
    }

    /// 64 by 64, a label of 10 by 7, which is id 4097; read back, it is lent as 1 by 8: the figure stays 80 until its return.
    pub fn never_issued(&mut self, pair: &mut Pair, twin: &mut Twin, r: &mut Random) {
        self.renew(pair, Made::sides(64, 64)).unwrap();
        self.placed(pair, size2(10, 7));
        self.write(pair, twin, r);
        for left in 32..42 {
            self.read(pair, twin, r, self.writings.len() - 1, Lending::AsItWas);
            let thin = vec![Held { id: 4_097, left, top: 0, right: left + 1, bottom: 8 }];
            self.history.lent(&thin);
            lend(pair, thin, 0);
            self.meets(pair, true);
            assert_eq!(pair.port.allocated_space(), Ok(80), "DIFFERENCE: the figure of what was issued");
            self.returned(pair, 0, true);
            assert_eq!(pair.port.allocated_space(), Ok(0), "DIFFERENCE: the figure after its return");
            self.meets(pair, true);
        }
    }

    /// Generations go on over reads, past their wrapping.
    pub fn generations(&mut self, pair: &mut Pair, twin: &mut Twin, r: &mut Random) {
        self.renew(pair, Made::sides(64, 64)).unwrap();
        for turn in 0..600 {
            let a = self.placed(pair, size2(64, 64));
            assert_eq!(a.id.serialize() >> 24, 2 * turn % 256, "generation");
            self.back(pair, twin, r);
            self.returned(pair, 0, false);
            self.back(pair, twin, r);
        }
    }

    /// Item counts and generations go on over reads: two rows, merged again and again, more than 65,535 times.
    pub fn items(&mut self, pair: &mut Pair, twin: &mut Twin, r: &mut Random) {
        self.renew(pair, Made::sides(64, 64)).unwrap();
        for _ in 0..4 {
            self.placed(pair, size2(64, 16));
        }
        // the last one held takes the place of the first
        self.returned(pair, 0, true);
        self.returned(pair, 1, true);
        for turn in 1..65_600 {
            let a = self.placed(pair, size2(64, 32));
            assert_eq!(a.id.serialize() >> 12, 1 | turn % 256 << 12, "item 1, and the generation");
            if turn % 5_000 == 94 {
                self.back(pair, twin, r);
            }
            self.returned(pair, 2, false);
            if turn % 5_000 == 95 {
                self.back(pair, twin, r);
            }
        }
    }

    fn renew(&mut self, pair: &mut Pair, made: Made) -> Result<(), u32> {
        pair.renew_thrice(made)?;
        pair.lend(junk_list(ROOM), 0);
        self.history.ended();
        Ok(())
    }

    /// Written, and read back at once.
    fn back(&mut self, pair: &mut Pair, twin: &mut Twin, r: &mut Random) {
        self.write(pair, twin, r);
        let lending = r.one_of(&[Lending::AsItWas, Lending::Shuffled]);
        self.read(pair, twin, r, self.writings.len() - 1, lending);
        self.meets(pair, true);
    }

    /// What port and history say of each other; where `whole`, of every rectangle.
    fn meets(&self, pair: &Pair, whole: bool) {
        self.history.meets(pair.port.allocated_space().unwrap(), pair.port.size().unwrap(), whole);
        if whole {
            self.history.is_in(&pair.port.list[..pair.port.entries()]);
        }
    }

    fn write(&mut self, pair: &Pair, twin: &mut Twin, r: &mut Random) {
        let (file, model) = twin.file(&pair.port, r.one_of(&[0, 0, 1, 7, 400]), r.one_of(&[1, 1, 4, 30, 200_000]));
        if self.writings.len() == 6 {
            self.writings.remove(index(r, 6));
        }
        self.writings.push(Writing { file, model, kept: pair.keep(), history: self.history.clone(), list: pair.entries().to_vec() });
    }

    /// A writing read back, into the same tables or others; then a list.
    fn read(&mut self, pair: &mut Pair, twin: &mut Twin, r: &mut Random, from: usize, lending: Lending) {
        let Writing { file, model, kept, history, list } = &self.writings[from];
        let same = r.once_in(2);
        read_into(pair, twin, file, same);
        assert!(model_of(&pair.port) == *model, "DIFFERENCE: the tables after a read are not those of the writing");
        pair.back_to(kept.clone());
        (self.pairs, self.same) = (self.pairs + 1, self.same + same as u64);
        let before = std::mem::replace(&mut self.history, history.clone());
        let anew = anew(list, model, lending, r);
        self.unlisted(pair, r);
        self.others += (lending == Lending::Others) as u64;
        if lending == Lending::Others {
            self.history.lent(&anew);
        }
        lend(pair, anew, r.one_of(&[1, 9, ROOM]));
        self.history.is_in(pair.entries());
        let lost: Vec<Allocation> = before.held.into_iter().filter(|a| !self.history.holds(a.id)).collect();
        self.losing += !lost.is_empty() as u64;
        self.hand_back(pair, &lost);
    }

    /// The list of before the read, and none: 21 where it does not fit.
    fn unlisted(&mut self, pair: &mut Pair, r: &mut Random) {
        for emptied in [false, true] {
            if emptied {
                pair.port.list.clear();
            }
            let fits = lent_of(&pair.port).tested().is_ok();
            assert_eq!(pair.port.fits(), fits, "DIFFERENCE: a list of before the read");
            if !fits && r.once_in(20) {
                all_refused(&pair.port, 21, r);
                self.unfit += 1;
            }
        }
    }

    /// What was issued after the writing is not held, and its return is refused; what is held then was handed back more than once.
    fn hand_back(&mut self, pair: &mut Pair, lost: &[Allocation]) {
        for a in lost.iter().take(3) {
            assert!(pair.deallocate(a.id).is_err(), "DIFFERENCE: {a:?} is not held, and was taken back");
            self.lost += 1;
        }
    }

    /// A call, with some returns made twice.
    fn call(&mut self, pair: &mut Pair, r: &mut Random, kind: i32, lean: i32) {
        let third = r.once_in(40);
        if r.once_in(300) {
            pair.clear_thrice().unwrap();
            self.history.ended();
        } else if r.once_in(100) {
            let size = pair.made.size;
            let _ = pair.grow_thrice(size2(size.width + r.one_of(&[0, 1, 64]), size.height + r.one_of(&[0, 1, 64])));
        } else if r.once_in(60) {
            pair.read();
        } else if r.from(0, 99) < lean || self.history.held.is_empty() {
            let size = request(r, kind, pair.made.size);
            let said = if third { pair.allocate_thrice(size) } else { pair.allocate(size) };
            said.into_iter().for_each(|a| self.history.issued(a));
        } else {
            let id = self.returned(pair, index(r, self.history.held.len()), third);
            if r.once_in(8) {
                assert!(pair.deallocate(id).is_err(), "DIFFERENCE: {id:?} was taken back twice");
            }
        }
    }

    fn placed(&mut self, pair: &mut Pair, size: Size) -> Allocation {
        let a = pair.allocate(size).unwrap();
        self.history.issued(a);
        a
    }

    /// What is held is taken back.
    fn returned(&mut self, pair: &mut Pair, held: usize, third: bool) -> AllocId {
        let id = self.history.held[held].id;
        let said = if third { pair.deallocate_thrice(id) } else { pair.deallocate(id) };
        assert_eq!(said, Ok(()), "DIFFERENCE: {id:?} is held, and was not taken back");
        self.history.returned(held);
        id
    }
}

/// A file into the atlas's own tables, or into others in their place; the list beside them stays.
fn read_into(pair: &mut Pair, twin: &mut Twin, file: &[u8], same: bool) {
    if same {
        twin.lend(&pair.port);
    }
    assert_eq!(twin.read(file), Ok(()), "DIFFERENCE: a file that was written");
    if same {
        let before = pair.port.list.clone();
        pair.port.read(file).unwrap();
        assert!(pair.port.same_tables(&twin.port) && pair.port.list == before, "DIFFERENCE: the same file read again");
    } else {
        let mut filled = twin.take();
        filled.read(file).unwrap();
        filled.list.clone_from(&pair.port.list);
        twin.give(std::mem::replace(&mut pair.port, filled));
    }
}

/// Entries that fit, and so many more.
fn lend(pair: &mut Pair, entries: Vec<Held>, more: usize) {
    let held = entries.len();
    pair.lend([entries, junk_list(more)].concat(), held);
    assert!(pair.port.fits(), "DIFFERENCE: a list lent anew does not fit");
}

/// The entries of a list for the tables read.
fn anew(list: &[Held], model: &Model, lending: Lending, r: &mut Random) -> Vec<Held> {
    let mut entries = if lending == Lending::Others { others(model, r).expect("labels have pixels") } else { list.to_vec() };
    if lending == Lending::Shuffled {
        shuffle(&mut entries, r);
    }
    entries
}
