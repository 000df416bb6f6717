//! The port and the crate, given the same calls. Each call's answers are compared at once; the port is asked first, and only where it
//! says 7 is a copy of the crate kept, since that panic alone leaves the crate half changed. The crate knows no list: what it must have in it is
//! kept here, from the answers, and with it 19 and 20 are told.

use crate::port::{Held, Tables};
use crate::tables::{held, junk, lent_of};
use etagere::{AllocatorOptions, BucketedAtlasAllocator};
use model::held::{enter, leave};
use model::listed::Lent;
use oracle::panics::{guard, No};
use treadwharf::{size2, AllocId, Allocation, Options, Rectangle, Size};

/// What has been compared so far.
#[derive(Default)]
pub struct Tally {
    pub calls: u64,
    pub placed: u64,
    pub refusals: [u64; 24],
    pub states: u64,
    /// rows and fillers laid with a ratio from 33 to 63, which are T-06's
    pub ratios: [u64; 2],
}

/// What a new is asked for.
#[derive(Clone, Copy, Debug)]
pub struct Made {
    pub size: Size,
    pub options: Options,
}

impl Made {
    pub fn sides(width: i32, height: i32) -> Made {
        Made { size: size2(width, height), options: Options::DEFAULT }
    }
}

pub struct Pair {
    pub port: Box<Tables>,
    other: BucketedAtlasAllocator,
    /// what must be in the list, past the entries in use too
    due: Vec<Held>,
    /// how many of these are in use
    held: usize,
    /// as the last grow left it
    pub made: Made,
    pub column_width: i32,
    pub tally: Tally,
    /// the calls since the last new, for the report of a difference
    pub history: Vec<String>,
}

/// The crate as it stands. It has no files, so a copy made at the writing stands for what a read gives back.
#[derive(Clone)]
pub struct Kept {
    other: BucketedAtlasAllocator,
    made: Made,
    column_width: i32,
}

/// What the crate may panic with where the port refuses so. 8 is no answer of either (T-08).
fn allowed(refusal: Option<u32>) -> Vec<u8> {
    refusal.map(|n| n as u8).filter(|n| *n == 7 || *n > 8).into_iter().collect()
}

fn bucket(id: u32) -> u32 {
    id & 4_095
}

fn aligned(side: i32, alignment: i32) -> i32 {
    (side + alignment - 1) / alignment * alignment
}

impl Pair {
    pub fn new() -> Pair {
        let (made, mut port) = (Made::sides(64, 64), junk());
        port.renew(made.size, &made.options).unwrap();
        let due = port.list.clone();
        Pair { port, other: other(made), due, held: 0, made, column_width: 64, tally: Tally::default(), history: Vec::new() }
    }

    /// The list from here on, with so many entries in use.
    pub fn lend(&mut self, list: Vec<Held>, held: usize) {
        self.port.list.clone_from(&list);
        (self.due, self.held) = (list, held);
    }

    /// The entries in use, as they must be.
    pub fn entries(&self) -> &[Held] {
        &self.due[..self.held]
    }

    fn tell(&self) {
        for line in self.history.iter().rev().take(40).rev() {
            eprintln!("  {line}");
        }
    }

    fn heard<T: PartialEq + std::fmt::Debug>(&mut self, call: String, port: Result<T, u32>, other: Result<T, No>) -> Result<T, u32> {
        self.tally.calls += 1;
        let told = port.as_ref().map_err(|n| No::Refused(*n as u8));
        if told != other.as_ref().map_err(|n| n.clone()) {
            self.tell();
            panic!("DIFFERENCE at {call}, {:?}: the port {port:?}, the crate {other:?}", self.made);
        }
        if let Err(n) = &port {
            self.tally.refusals[*n as usize] += 1;
        }
        self.history.push(call);
        if self.history.len() > 4000 {
            self.history.drain(..2000);
        }
        port
    }

    /// The list has what it must; of what is past the entries in use some is looked at here, and all of it in `alike`.
    fn list_is_due(&self) {
        let seen = ..self.due.len().min(self.held + 16);
        if self.port.list.len() != self.due.len() || self.port.list[seen] != self.due[seen] {
            self.tell();
            let at = (0..self.due.len()).find(|i| self.port.list[*i] != self.due[*i]);
            panic!("DIFFERENCE: the list, {:?}: {} in use, the first that differs is {at:?}", self.made, self.held);
        }
    }

    /// New on the same tables. The crate takes what 2 and 3 refuse, so those two are asked of document 01's own words.
    fn renew(&mut self, made: Made) -> Result<(), u32> {
        let (size, o) = (made.size, made.options);
        let sides = [size.width, size.height].iter().all(|s| (1..=46_340).contains(s));
        let rest = [o.align_width, o.align_height, o.columns].iter().all(|s| (1..=46_340).contains(s)) && !o.vertical;
        let column = if sides && rest { size.width / o.columns - size.width / o.columns % o.align_width } else { 0 };
        let told = if !sides { Err(No::Refused(2)) } else if !rest || column == 0 { Err(No::Refused(3)) } else { Ok(()) };
        let port = self.port.renew(size, &o);
        self.heard(format!("new {made:?}"), port, told)?;
        (self.made, self.column_width, self.other, self.held) = (made, column, other(made), 0);
        self.list_is_due();
        Ok(())
    }

    pub fn allocate(&mut self, size: Size) -> Result<Allocation, u32> {
        let shelves = self.port.header[8];
        let port = self.port.allocate(size);
        let (no, full) = (port.err(), self.held == self.due.len());
        let copy = (full || no == Some(7)).then(|| self.other.clone());
        let given = guard(&allowed(no), || self.other.allocate(etagere::size2(size.width, size.height)));
        let given = given.and_then(|g| g.ok_or(No::Refused(self.why_none(size)))).map(|a| {
            let (min, max) = (a.rectangle.min, a.rectangle.max);
            let rectangle = Rectangle { left: min.x, top: min.y, right: max.x, bottom: max.y };
            Allocation { id: AllocId::deserialize(a.id.serialize()), rectangle }
        });
        let other = if full { given.and(Err(No::Refused(19))) } else { given };
        if let (Some(copy), Err(_)) = (copy, &other) {
            self.other = copy;
        }
        let said = self.heard(format!("allocate {} {}", size.width, size.height), port, other);
        self.entered(said);
        self.laid(shelves, size.width);
        said
    }

    /// Behind so many shelves: the last one is the request's row, one before it a filler.
    fn laid(&mut self, before: u32, width: i32) {
        let count = self.port.header[8];
        for shelf in before..count {
            let is_filler = shelf + 1 < count;
            let width = if is_filler { 0 } else { aligned(width, self.made.options.align_width) };
            let ratio = self.column_width / width.max(self.port.shelves[5 * shelf as usize + 2].into());
            self.tally.ratios[usize::from(is_filler)] += u64::from((33..=63).contains(&ratio));
        }
    }

    /// An entry goes behind those of its own bucket and of the buckets before it.
    fn entered(&mut self, said: Result<Allocation, u32>) {
        if let Ok(a) = said {
            let new = Held::of(a);
            let place = self.entries().iter().filter(|e| bucket(e.id) <= bucket(new.id)).count();
            enter(&mut self.due, self.held, place, new);
            self.held += 1;
            self.tally.placed += 1;
        }
        self.list_is_due();
    }

    /// The crate says None for 4, 5, 22, 23 and 6 alike.
    fn why_none(&self, size: Size) -> u8 {
        if size.width < 1 || size.height < 1 {
            4
        } else if size.width > 65_535 || size.height > 65_535 {
            5
        } else if aligned(size.width, self.made.options.align_width) > self.column_width {
            22
        } else if aligned(size.height, self.made.options.align_height) > self.made.size.height {
            23
        } else {
            6
        }
    }

    /// What is not held is asked of a copy of the crate, which tells 9 to 11; what the copy takes is 20.
    pub fn deallocate(&mut self, id: AllocId) -> Result<(), u32> {
        let number = id.serialize();
        let (port, place) = (self.port.deallocate(id), self.entries().iter().position(|e| e.id == number));
        let returned = etagere::AllocId::deserialize(number);
        let other = match place {
            Some(_) => guard(&[], || self.other.deallocate(returned)),
            None => {
                let mut copy = self.other.clone();
                guard(&[9, 10, 11], || copy.deallocate(returned)).and(Err(No::Refused(20)))
            }
        };
        let said = self.heard(format!("deallocate {number}"), port, other);
        if let (Ok(()), Some(place)) = (said, place) {
            leave(&mut self.due, self.held, place);
            self.held -= 1;
        }
        self.list_is_due();
        said
    }

    fn clear(&mut self) -> Result<(), u32> {
        let port = self.port.clear();
        let other = guard(&[], || self.other.clear());
        self.heard("clear".to_string(), port, other)?;
        self.held = 0;
        self.list_is_due();
        Ok(())
    }

    fn grow(&mut self, size: Size) -> Result<(), u32> {
        let port = self.port.grow(size);
        let no = port.err();
        let inside = (1..=46_340).contains(&size.width) && (1..=46_340).contains(&size.height);
        let grown = etagere::size2(size.width, size.height);
        let other = if inside { guard(&allowed(no), || self.other.grow(grown)) } else { Err(No::Refused(2)) };
        let said = self.heard(format!("grow {} {}", size.width, size.height), port, other);
        if said.is_ok() {
            self.made.size = size;
            match self.made.options.columns {
                1 => self.column_width = size.width,
                _ => self.made.options.columns = size.width / self.column_width,
            }
        }
        self.list_is_due();
        said
    }

    /// What the crate draws.
    pub fn drawn(&self) -> String {
        oracle::atlas::picture(&self.other)
    }

    pub fn keep(&self) -> Kept {
        Kept { other: self.other.clone(), made: self.made, column_width: self.column_width }
    }

    /// Goes on from the moment of a writing, after a read. A list is to be lent then.
    pub fn back_to(&mut self, kept: Kept) {
        (self.other, self.made, self.column_width) = (kept.other, kept.made, kept.column_width);
        self.history.push("a read".to_string());
    }

    /// The four reading calls.
    pub fn read(&mut self) {
        let other = guard(&[], || self.other.size()).map(|s| size2(s.width, s.height));
        self.heard("size".to_string(), self.port.size(), other).unwrap();
        let other = guard(&[], || self.other.is_empty());
        self.heard("is_empty".to_string(), self.port.is_empty(), other).unwrap();
        let other = guard(&[], || self.other.allocated_space() as u32);
        self.heard("allocated_space".to_string(), self.port.allocated_space(), other).unwrap();
        let other = guard(&[], || self.other.free_space() as u32);
        self.heard("free_space".to_string(), self.port.free_space(), other).unwrap();
    }

    pub fn renew_thrice(&mut self, made: Made) -> Result<(), u32> {
        let o = made.options;
        let (size, align) = ([made.size.width, made.size.height].map(i64::from), [o.align_width, o.align_height].map(i64::from));
        self.thrice(|p| p.renew(made), |l| l.renew(size, align, o.columns.into(), o.vertical.into()))
    }

    pub fn allocate_thrice(&mut self, size: Size) -> Result<Allocation, u32> {
        let third = |l: &mut Lent| l.call(|l| l.allocate(size.width.into(), size.height.into())).map(|p| held(&p).allocation());
        self.thrice(|p| p.allocate(size), third)
    }

    pub fn deallocate_thrice(&mut self, id: AllocId) -> Result<(), u32> {
        self.thrice(|p| p.deallocate(id), |l| l.call(|l| l.deallocate(id.serialize())))
    }

    pub fn clear_thrice(&mut self) -> Result<(), u32> {
        self.thrice(|p| p.clear(), |l| l.call(Lent::clear))
    }

    pub fn grow_thrice(&mut self, size: Size) -> Result<(), u32> {
        self.thrice(|p| p.grow(size), |l| l.call(|l| l.grow(size.width.into(), size.height.into())))
    }

    /// The same call on the rules written a second time: answer, every record in use and every entry of the list.
    fn thrice<T: PartialEq + std::fmt::Debug>(
        &mut self,
        call: impl FnOnce(&mut Pair) -> Result<T, u32>,
        third: impl FnOnce(&mut Lent) -> Result<T, u8>,
    ) -> Result<T, u32> {
        let (mut lent, before) = (lent_of(&self.port), self.port.clone());
        let third = third(&mut lent).map_err(u32::from);
        let said = call(self);
        assert_eq!(said, third, "DIFFERENCE from the model at {}", self.history.last().unwrap());
        self.alike(&lent, &before, said.is_err());
        said
    }

    /// Tables and list are the model's; a refusal changed nothing; past the counts nothing ever changes.
    fn alike(&mut self, lent: &Lent, before: &Tables, refused: bool) {
        self.tally.states += 1;
        let after = &self.port;
        assert!(!refused || **after == *before, "DIFFERENCE: a refusal changed something");
        let is = lent_of(after);
        assert_eq!(is.atlas, lent.atlas, "DIFFERENCE from the model in the tables");
        assert!(is.list == lent.list && after.list == self.due, "DIFFERENCE from the model in the list");
        let (s, b) = (5 * after.header[8] as usize, 7 * after.header[9] as usize);
        assert!(after.shelves[s..] == before.shelves[s..] || refused, "DIFFERENCE: a shelf record past the count");
        assert!(after.buckets[b..] == before.buckets[b..] || refused, "DIFFERENCE: a bucket record past the count");
        assert!(after.fits() && lent.tested().is_ok(), "DIFFERENCE: not sound after a call, or the list does not fit");
    }
}

/// What was laid of T-06's ratios, in words.
pub fn ratios(pair: &Pair) -> String {
    let [rows, fillers] = pair.tally.ratios;
    format!("{rows} rows and {fillers} fillers of a ratio from 33 to 63")
}

fn other(made: Made) -> BucketedAtlasAllocator {
    let (size, o) = (made.size, made.options);
    let alignment = etagere::size2(o.align_width, o.align_height);
    let options = AllocatorOptions { alignment, vertical_shelves: false, num_columns: o.columns };
    BucketedAtlasAllocator::with_options(etagere::size2(size.width, size.height), &options)
}
