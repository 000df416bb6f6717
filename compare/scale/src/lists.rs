//! The lists' part of the run: directed ones, each with the answer that document 02 asks for, then damaged ones on atlases of every sort.

use crate::listing::{made_up, others, shuffle};
use crate::pair::{Made, Pair};
use crate::port::{Held, Tables};
use crate::progress;
use crate::random::Random;
use crate::tables::{junk_list, model_of};
use crate::unfit::Unfit;
use crate::walks::{making, request, room};
use treadwharf::{size2, AllocId, Options};

pub struct Lists {
    unfit: Unfit,
    pair: Pair,
}

fn entry(id: u32, [left, top, right, bottom]: [u16; 4]) -> Held {
    Held { id, left, top, right, bottom }
}

/// 64 by 64: 10 by 7 and 12 by 7 in bucket 1, then 20 by 7 in bucket 0, then 64 by 16 on a shelf of its own. Ids and rectangles:
/// 4096 from 0, 0 to 20, 8; 4097 from 32, 0 to 42, 8; 8193 from 42, 0 to 54, 8; 4098 from 0, 8 to 64, 24.
fn four() -> Box<Tables> {
    let mut tables = Box::new(Tables::new());
    tables.renew(size2(64, 64), &Options::DEFAULT).unwrap();
    for (width, height) in [(10, 7), (12, 7), (20, 7), (64, 16)] {
        tables.allocate(size2(width, height)).unwrap();
    }
    let due = [(4_096, [0, 0, 20, 8]), (4_097, [32, 0, 42, 8]), (8_193, [42, 0, 54, 8]), (4_098, [0, 8, 64, 24])];
    assert_eq!(tables.list[..4], due.map(|(id, rectangle)| entry(id, rectangle)), "DIFFERENCE: the list of four labels");
    tables
}

const REFS: usize = 3;
const ITEMS: usize = 4;
const GENERATION: usize = 6;

impl Lists {
    pub fn new() -> Lists {
        Lists { unfit: Unfit::default(), pair: Pair::new() }
    }

    pub fn run(&mut self, lists: u64, seed: u64) {
        let mut r = Random::new(seed);
        self.room(&mut r);
        self.ids(&mut r);
        self.numbers(&mut r);
        self.released(&mut r);
        self.spans(&mut r);
        self.pixels(&mut r);
        self.empty(&mut r);
        self.item_numbers(&mut r);
        self.many(&mut r);
        self.unsound(&mut r);
        full(&mut self.pair);
        orders(&mut self.pair);
        println!("seed {seed}, lists: {} directed ones", self.unfit.lists);
        let mut next = 0;
        while self.unfit.lists < lists {
            self.sequence(&mut r);
            if self.unfit.lists >= next {
                progress("damaged lists", self.unfit.lists, lists);
                next = self.unfit.lists + 10_000;
            }
        }
        eprintln!();
        let (u, t) = (&self.unfit, &self.pair.tally);
        println!("{} lists ({} fit), {} calls on them, {} calls compared with the crate; 0 differences from the model", u.lists, u.fitting, u.calls, t.calls);
        let clauses: Vec<String> = u.by_clause.iter().map(|(clause, n)| format!("{clause}: {n}")).collect();
        println!("not fitting by clause: {}", clauses.join("; "));
    }

    /// Four labels with an edit, and whether the list fits then.
    fn four(&mut self, r: &mut Random, what: &str, fits: bool, edit: impl Fn(&mut Tables)) {
        let mut tables = four();
        edit(&mut tables);
        assert_eq!(self.unfit.judge(&tables, r).is_ok(), fits, "DIFFERENCE: {what}");
    }

    /// How long a list is, and in which order.
    fn room(&mut self, r: &mut Random) {
        self.four(r, "as it is", true, |_| ());
        self.four(r, "exactly as long as need be", true, |t| t.list.truncate(4));
        self.four(r, "one entry short", false, |t| t.list.truncate(3));
        self.four(r, "no list", false, |t| t.list.clear());
        self.four(r, "65,536 entries", true, |t| t.list.resize(65_536, t.list[0]));
        self.four(r, "more than 65,536", true, |t| t.list.resize(66_000, t.list[0]));
        self.four(r, "turned round", true, |t| t.list[..4].reverse());
        self.four(r, "two exchanged", true, |t| t.list.swap(0, 2));
        self.four(r, "past the entries, an entry again", true, |t| t.list[4] = t.list[0]);
    }

    /// Buckets, generations, an id twice.
    fn ids(&mut self, r: &mut Random) {
        self.four(r, "one twice, another left out", false, |t| t.list[2] = t.list[1]);
        self.four(r, "an id twice", false, |t| t.list[2].id = t.list[1].id);
        self.four(r, "ids exchanged in one bucket", true, |t| (t.list[1].id, t.list[2].id) = (t.list[2].id, t.list[1].id));
        self.four(r, "ids exchanged between two", false, |t| (t.list[0].id, t.list[1].id) = (t.list[1].id, t.list[0].id));
        self.four(r, "the bucket past the count", false, |t| t.list[0].id = 4_096 + 3);
        self.four(r, "bucket 4,095", false, |t| t.list[0].id = 4_096 + 4_095);
        self.four(r, "the generation after", false, |t| t.list[0].id += 1 << 24);
        self.four(r, "generation 255", false, |t| t.list[0].id |= 255 << 24);
        self.four(r, "the bucket's generation raised", false, |t| t.buckets[GENERATION] = 1);
        self.four(r, "both raised", true, |t| {
            t.buckets[GENERATION] = 255;
            t.list[0].id |= 255 << 24;
        });
    }

    /// As many entries of a bucket as references.
    fn numbers(&mut self, r: &mut Random) {
        self.four(r, "an entry too few for one bucket, too many for another", false, |t| {
            t.buckets[ITEMS] = 2;
            t.list[0].left = 1;
            t.list[2] = entry(8_192, [0, 0, 1, 1]);
        });
        self.four(r, "a reference more than entries", false, |t| (t.buckets[REFS], t.buckets[ITEMS]) = (2, 2));
        self.four(r, "and its entry", true, |t| {
            (t.buckets[REFS], t.buckets[ITEMS]) = (2, 2);
            t.list[0].right = 19;
            t.list[4] = entry(8_192, [19, 0, 20, 8]);
        });
        self.four(r, "a reference less than entries", false, |t| t.buckets[7 + REFS] = 1);
        self.four(r, "and one entry less", true, |t| {
            t.buckets[7 + REFS] = 1;
            t.list.remove(1);
        });
    }

    /// Bucket 2 is released with its shelf, and bucket 0 has no label.
    fn released(&mut self, r: &mut Random) {
        for named in [4_098, 4_096] {
            let mut tables = four();
            for id in [4_098, 4_096] {
                tables.deallocate(AllocId::deserialize(id)).unwrap();
            }
            assert_eq!((tables.entries(), self.unfit.judge(&tables, r)), (2, Ok(())), "DIFFERENCE: two labels left");
            tables.list[0].id = named;
            assert!(self.unfit.judge(&tables, r).is_err(), "DIFFERENCE: an entry of a bucket that has none");
            tables.list[0] = four().list[if named == 4_098 { 3 } else { 0 }];
            assert!(self.unfit.judge(&tables, r).is_err(), "DIFFERENCE: an entry of before");
            tables.clear().unwrap_err();
            tables.renew(size2(64, 64), &Options::DEFAULT).unwrap();
            assert_eq!(self.unfit.judge(&tables, r), Ok(()), "DIFFERENCE: with nothing held every list fits");
            tables.list.clear();
            assert_eq!(self.unfit.judge(&tables, r), Ok(()), "DIFFERENCE: with nothing held no list fits too");
        }
    }

    /// One pixel past each edge. Bucket 1's used span is 32 to 54; the second shelf is 8 to 24.
    fn spans(&mut self, r: &mut Random) {
        self.four(r, "left of the span", false, |t| t.list[1].left = 31);
        self.four(r, "right of the span", false, |t| t.list[2].right = 55);
        self.four(r, "over the shelf's y", false, |t| t.list[3].top = 7);
        self.four(r, "past the shelf's top", false, |t| t.list[3].bottom = 25);
        self.four(r, "past the first shelf's top", false, |t| t.list[1].bottom = 9);
        self.four(r, "in the free part", false, |t| (t.list[2].left, t.list[2].right) = (54, 55));
        self.four(r, "in another bucket", false, |t| (t.list[1].left, t.list[1].right) = (20, 21));
        for x in 32..42 {
            self.four(r, "a column of it", true, |t| (t.list[1].left, t.list[1].right) = (x, x + 1));
        }
        for y in 8..24 {
            self.four(r, "a row of it", true, |t| (t.list[3].top, t.list[3].bottom) = (y, y + 1));
        }
    }

    /// Two of one bucket, with a pixel in both and with none.
    fn pixels(&mut self, r: &mut Random) {
        self.four(r, "over a neighbour by a pixel", false, |t| t.list[1].right = 43);
        self.four(r, "over a neighbour from the other side", false, |t| t.list[2].left = 41);
        self.four(r, "the neighbour's own", false, |t| (t.list[1].left, t.list[1].right) = (42, 54));
        self.four(r, "a gap between", true, |t| (t.list[1].right, t.list[2].left) = (41, 44));
        self.four(r, "places exchanged", true, |t| {
            (t.list[1].left, t.list[1].right, t.list[2].left, t.list[2].right) = (42, 54, 32, 42);
        });
        self.four(r, "one over the other, no pixel in both", true, |t| {
            (t.list[1].right, t.list[1].bottom) = (54, 4);
            (t.list[2].left, t.list[2].top) = (32, 4);
        });
        self.four(r, "one over the other, a row in both", false, |t| {
            (t.list[1].right, t.list[1].bottom) = (54, 5);
            (t.list[2].left, t.list[2].top) = (32, 4);
        });
        self.four(r, "a pixel in the corner of another", false, |t| t.list[2] = entry(8_193, [41, 7, 42, 8]));
        self.four(r, "a pixel at the corner of another", true, |t| {
            t.list[1].bottom = 7;
            t.list[2] = entry(8_193, [41, 7, 42, 8]);
        });
    }

    fn empty(&mut self, r: &mut Random) {
        for (what, rectangle) in [("no width", [32, 0, 32, 8]), ("no height", [32, 3, 42, 3]), ("neither", [33, 3, 33, 3])] {
            self.four(r, what, false, |t| t.list[1] = entry(4_097, rectangle));
        }
        for (what, rectangle) in [("turned in x", [42, 0, 32, 8]), ("turned in y", [32, 8, 42, 0]), ("far", [65_535, 0, 65_535, 8])] {
            self.four(r, what, false, |t| t.list[1] = entry(4_097, rectangle));
        }
    }

    /// An item number from 1 to the item count, asked below 4,095 items alone.
    fn item_numbers(&mut self, r: &mut Random) {
        for items in [1, 2, 4_093, 4_094, 4_095, 4_096, 65_535u16] {
            for item in [0, 1, 2, 3, 4_092, 4_093, 4_094, 4_095u32] {
                let fits = items >= 4_095 || item >= 1 && item <= items.into();
                self.four(r, &format!("item {item} of {items}"), fits, |t| {
                    t.buckets[ITEMS] = items;
                    t.list[0].id = item << 12;
                });
            }
        }
    }

    /// 64 by 64 as one label: every pixel of it an entry, which are all ids of a bucket; a reference more and there is no list.
    fn many(&mut self, r: &mut Random) {
        let mut tables = Box::new(Tables::new());
        tables.renew(size2(64, 64), &Options::DEFAULT).unwrap();
        tables.allocate(size2(64, 64)).unwrap();
        (tables.buckets[REFS], tables.buckets[ITEMS]) = (4_096, 4_096);
        tables.list = made_up(&model_of(&tables)).unwrap();
        assert_eq!(self.unfit.judge(&tables, r), Ok(()), "DIFFERENCE: 4,096 pixels");
        shuffle(&mut tables.list, r);
        assert_eq!(self.unfit.judge(&tables, r), Ok(()), "DIFFERENCE: 4,096 pixels in any order");
        tables.list.extend(junk_list(3));
        (tables.list[4_096], tables.buckets[REFS], tables.buckets[ITEMS]) = (tables.list[0], 4_097, 4_097);
        assert!(self.unfit.judge(&tables, r).is_err() && made_up(&model_of(&tables)).is_none(), "DIFFERENCE: more entries than ids");
        (tables.buckets[REFS], tables.buckets[ITEMS]) = (65_535, 65_535);
        tables.list.resize(65_536, tables.list[0]);
        assert!(self.unfit.judge(&tables, r).is_err(), "DIFFERENCE: 65,535 references");
    }

    /// Unsound tables, with a list that would fit and with one that would not: 1 comes first.
    fn unsound(&mut self, r: &mut Random) {
        for length in [0, 3, 4, 9] {
            let mut tables = four();
            tables.header[11] += 1;
            tables.list.truncate(length);
            assert!(!tables.fits(), "DIFFERENCE: the list's test on unsound tables");
            self.unfit.asked(&tables, r);
        }
    }

    /// An atlas in use, its list damaged now and then. Where it is lent anew, calls go on from it.
    fn sequence(&mut self, r: &mut Random) {
        let mut made = making(r);
        while made.size.width > 3_000 || made.size.height > 3_000 {
            made = making(r);
        }
        if self.pair.renew_thrice(made).is_err() {
            return;
        }
        self.pair.lend(junk_list(room(r).min(4_096)), 0);
        let (kind, lean) = (r.from(0, 4), r.one_of(&[50, 60, 80]));
        for turn in 0..200 {
            call(&mut self.pair, r, kind, lean);
            if turn % 20 == 19 {
                (0..4).for_each(|_| self.unfit.try_on(&self.pair.port, r));
            }
            if turn % 50 == 49 {
                self.lend_others(r);
            }
        }
    }

    fn lend_others(&mut self, r: &mut Random) {
        let list = others(&model_of(&self.pair.port), r).expect("labels have pixels");
        let held = list.len();
        self.pair.lend([list, junk_list(r.one_of(&[0, 1, 300]))].concat(), held);
        assert_eq!(self.unfit.judge(&self.pair.port, r), Ok(()), "DIFFERENCE: rectangles that were never issued");
    }
}

/// A request, or a return of something held; some are made twice.
fn call(pair: &mut Pair, r: &mut Random, kind: i32, lean: i32) {
    let held = pair.entries().len();
    if r.from(0, 99) < lean || held == 0 {
        let _ = pair.allocate(request(r, kind, pair.made.size));
        return;
    }
    let id = AllocId::deserialize(pair.entries()[(r.next() % held as u64) as usize].id);
    pair.deallocate_thrice(id).unwrap();
    assert!(!r.once_in(4) || pair.deallocate_thrice(id).is_err(), "DIFFERENCE: {id:?} was taken back twice");
}

/// A list that is full: 19 is of a request that would be placed, and of no other.
fn full(pair: &mut Pair) {
    for length in 0..9 {
        pair.renew_thrice(Made::sides(64, 32)).unwrap();
        pair.lend(junk_list(length), 0);
        let ids: Vec<AllocId> = (0..length).map(|_| pair.allocate_thrice(size2(32, 8)).unwrap().id).collect();
        let place = if length < 8 { Err(19) } else { Err(6) };
        let asked = [(32, 8), (1, 1), (64, 32), (0, 1), (65_536, 1), (65, 1), (1, 33)];
        let said = asked.map(|(w, h)| pair.allocate_thrice(size2(w, h)).map(|_| ()));
        assert_eq!(said[0], place, "DIFFERENCE: a full list");
        assert_eq!(said[1], place, "DIFFERENCE: a full list, a small request");
        assert_eq!(said[2], if length > 0 { Err(6) } else { Err(19) }, "DIFFERENCE: a full list and no place");
        assert_eq!(said[3..], [Err(4), Err(5), Err(22), Err(23)], "DIFFERENCE: 4, 5, 22 and 23 before 19");
        pair.grow_thrice(size2(64, 33)).unwrap();
        for id in ids {
            pair.deallocate_thrice(id).unwrap();
            let _ = pair.allocate_thrice(size2(32, 8));
        }
        pair.read();
    }
}

/// 9, 10 and 11 before 20; an id of before, the same with other item bits.
fn orders(pair: &mut Pair) {
    pair.renew_thrice(Made::sides(64, 64)).unwrap();
    pair.lend(junk_list(9), 0);
    let [first, second] = [10, 12].map(|width| pair.allocate_thrice(size2(width, 7)).unwrap().id.serialize());
    assert_eq!([first, second], [4_097, 8_193]);
    let mut back = |id: u32| pair.deallocate_thrice(AllocId::deserialize(id)).err().unwrap_or(0);
    let others = [(2, 9), (first | 1 << 24, 10), (4_096, 11), (1, 20), (12_289, 20)];
    let twice = [(first, 0), (first, 20), (second | 1 << 24, 10), (second, 0), (second, 10), (second | 1 << 24, 11)];
    let due = [&others[..], &twice].concat();
    due.into_iter().for_each(|(id, number)| assert_eq!(back(id), number, "DIFFERENCE: the order of refusals, at {id}"));
    let again = pair.allocate_thrice(size2(12, 7)).unwrap();
    assert_eq!(pair.deallocate_thrice(AllocId::deserialize(first)), Err(10), "DIFFERENCE: a stale id");
    pair.deallocate_thrice(again.id).unwrap();
}
