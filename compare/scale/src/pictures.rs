//! The pictures' part of the run (T-07): directed atlases, then those of random calls at seeded moments. Each text is compared with the model's and
//! with what the crate draws, byte for byte, and its used areas with the occupied figure; buffers are too short, just long enough and longer. What is
//! lent stands twice, as for files: the port's, and what must be there. Then tables and lists are damaged: 1, 21 and 24 by the model, in their order.

use crate::damage::number;
use crate::pair::{Made, Pair};
use crate::port::{Tables, PICTURE_MOST};
use crate::progress;
use crate::random::Random;
use crate::restarts::small;
use crate::tables::{junk_list, lent_of};
use crate::walks::{self, making, room, turn};
use model::listed::Lent;
use treadwharf::{size2, Options};

/// The most bytes that a picture takes, and some more.
const ROOM: usize = PICTURE_MOST + 500;

pub struct Pictures {
    pair: Pair,
    /// the buffer that the port is lent, earlier pictures still in it, and what must stand there
    port: Vec<u8>,
    due: Vec<u8>,
    /// texts that were the same by port, model and crate
    compared: u64,
    longest: usize,
    /// of these with a shelf of height 0; with a bucket of width 0
    flat: u64,
    narrow: u64,
    /// calls by refusal number, and at 0 those that were accepted
    answers: [u64; 25],
}

/// The first line in which two texts that differ do so.
fn differ(what: &str, one: &str, other: &str) -> ! {
    let [mut one, mut other] = [one, other].map(|text| text.split_inclusive('\n'));
    let mut line = 1;
    loop {
        match (one.next(), other.next()) {
            (a, b) if a == b => line += 1,
            (a, b) => panic!("DIFFERENCE: {what}, line {line}: {a:?}, {b:?}"),
        }
    }
}

/// The numbers of each rectangle behind that of the atlas, and its colour.
fn rectangles(text: &str) -> impl Iterator<Item = ([u64; 4], &str)> {
    let cells = |line: &'_ str| -> [u64; 4] { std::array::from_fn(|i| line.split('"').nth(2 * i + 1).unwrap().parse().unwrap()) };
    let lines = text.lines().filter(|line| line.starts_with("<rect")).skip(1);
    lines.map(move |line| (cells(line), line.split('"').nth(9).unwrap()))
}

impl Pictures {
    pub fn new() -> Pictures {
        let bytes: Vec<u8> = (0..ROOM).map(|i| (i * 157) as u8).collect();
        let (port, due) = (bytes.clone(), bytes);
        Pictures { pair: Pair::new(), port, due, compared: 0, longest: 0, flat: 0, narrow: 0, answers: [0; 25] }
    }

    pub fn run(&mut self, pictures: u64, seed: u64) {
        let mut r = Random::new(seed);
        self.directed(&mut r);
        self.every_length();
        println!("seed {seed}, pictures: {} directed ones", self.compared);
        let mut next = 0;
        while self.compared < pictures {
            self.sequence(&mut r);
            if self.compared >= next {
                progress("pictures", self.compared, pictures);
                next = self.compared + 1_000;
            }
        }
        eprintln!();
        self.report();
    }

    fn report(&self) {
        let Pictures { compared, longest, flat, narrow, answers, pair, .. } = self;
        println!("{compared} pictures compared with the model's and the crate's, byte for byte, among {} calls; 0 differences", pair.tally.calls);
        println!("the longest has {longest} bytes; {flat} have a shelf of height 0, {narrow} a bucket of width 0");
        let refused: Vec<String> = (1..answers.len()).filter(|n| answers[*n] > 0).map(|n| format!("{n}: {}", answers[n])).collect();
        println!("{} pictures drawn, refused {}; 0 differences from the model", answers[0], refused.join(", "));
    }

    /// One call on port and model, into so many bytes: the same answer, and the same bytes past the text too.
    fn draw(&mut self, tables: &Tables, lent: &Lent, tested: Result<(), u8>, length: usize) -> Result<usize, u32> {
        let said = tables.picture(&mut self.port[..length]);
        // 1 is the picture's own word
        let due = if tested == Err(21) { Err(21) } else { lent.atlas.draw(&mut self.due[..length]).map_err(u32::from) };
        let seen = ..ROOM.min(length + 400);
        if said == due && self.port[seen] != self.due[seen] {
            let [port, due] = [&self.port, &self.due].map(|bytes| String::from_utf8_lossy(&bytes[..length]).into_owned());
            differ(&format!("the buffer of {length} bytes after a picture that said {said:?}, port and model"), &port, &due);
        }
        assert_eq!(said, due, "DIFFERENCE: a picture into {length} bytes, the port and the model");
        self.answers[said.err().unwrap_or(0) as usize] += 1;
        said
    }

    /// The atlas as it stands.
    fn compare(&mut self, r: &mut Random) {
        let (tables, lent) = (self.pair.port.clone(), lent_of(&self.pair.port));
        let (tested, text) = (lent.tested(), self.pair.drawn());
        if text != lent.atlas.picture() {
            differ("the crate's picture and the model's", &text, &lent.atlas.picture());
        }
        let length = text.len();
        let short = length - 1 - r.one_of(&[0, 0, 0, 70, length - 1]).min(length - 1);
        assert_eq!(self.draw(&tables, &lent, tested, short), Err(24), "DIFFERENCE: a buffer too short");
        assert_eq!(self.draw(&tables, &lent, tested, length + r.one_of(&[0, 0, 1, 7, 400])), Ok(length), "DIFFERENCE: how long a picture is");
        assert!(self.port[..length] == *text.as_bytes(), "DIFFERENCE: the port's picture and the crate's");
        assert!(*self.pair.port == *tables, "DIFFERENCE: a picture changed the tables or the list");
        self.compared += 1;
        self.longest = self.longest.max(length);
        self.measure(&text);
        if r.once_in(3) {
            self.damaged(r);
        }
    }

    /// "Show that the drawn used area adds up to the occupied figure."
    fn measure(&mut self, text: &str) {
        let used: u64 = rectangles(text).filter(|(_, fill)| *fill == "#4646b4").map(|([_, _, width, height], _)| width * height).sum();
        assert_eq!(Ok(used), self.pair.port.allocated_space().map(u64::from), "DIFFERENCE: used areas and the figure");
        self.flat += u64::from(rectangles(text).any(|([_, _, _, height], _)| height == 0));
        // a used part that is 0 wide, with no free part behind it
        let widths: Vec<(u64, bool)> = rectangles(text).map(|([_, _, width, _], fill)| (width, fill == "#4646b4")).collect();
        let alone = |i: usize| widths[i] == (0, true) && widths.get(i + 1).is_none_or(|next| next.1);
        self.narrow += u64::from((0..widths.len()).any(alone));
    }

    /// One number of tables or list changed: refused in order, or the picture of what still fits.
    fn damaged(&mut self, r: &mut Random) {
        let mut tables = self.pair.port.clone();
        change(&mut tables, r);
        let lent = lent_of(&tables);
        let tested = lent.tested();
        for length in [0, 100, ROOM - 400] {
            let _ = self.draw(&tables, &lent, tested, length);
        }
    }

    /// Empty, with each label more, grown and cleared.
    fn labels(&mut self, r: &mut Random, made: Made, labels: &[[i32; 2]]) {
        self.pair.renew_thrice(made).unwrap();
        self.compare(r);
        for [width, height] in labels {
            self.pair.allocate_thrice(size2(*width, *height)).unwrap();
            self.compare(r);
        }
        self.pair.grow_thrice(size2((made.size.width + 40).min(46_340), (made.size.height + 9).min(46_340))).unwrap();
        self.compare(r);
        self.pair.clear_thrice().unwrap();
        self.compare(r);
    }

    fn directed(&mut self, r: &mut Random) {
        let made = |width, height, columns, align_width| Made {
            options: Options { columns, align_width, ..Options::DEFAULT },
            ..Made::sides(width, height)
        };
        self.labels(r, made(64, 64, 1, 1), &[[10, 7], [20, 7], [64, 56]]);
        self.labels(r, made(1, 1, 1, 1), &[[1, 1]]);
        self.labels(r, made(46_340, 46_340, 1, 1), &[[46_340, 46_340]]);
        self.labels(r, made(64, 64, 2, 1), &[[24, 46], [24, 32], [32, 20], [32, 7]]);
        self.labels(r, made(180, 70, 3, 1), &[[60, 16], [40, 16], [50, 30], [20, 64], [35, 50], [45, 64], [8, 5]]);
        // fillers whose buckets are 0 wide
        self.labels(r, made(66, 9, 2, 33), &[[33, 1], [33, 2]]);
        self.labels(r, made(66, 11, 2, 33), &[[33, 1], [33, 4]]);
        self.labels(r, made(46_340, 200, 1, 1), &[[1, 1]; 20]);
        walks::merges(&mut self.pair);
        self.compare(r);
    }

    /// Every buffer from none to some bytes more, over two labels.
    fn every_length(&mut self) {
        self.pair.renew_thrice(Made::sides(64, 64)).unwrap();
        [10, 20].iter().for_each(|width| assert!(self.pair.allocate_thrice(size2(*width, 7)).is_ok()));
        let (tables, lent) = (self.pair.port.clone(), lent_of(&self.pair.port));
        let enough = lent.atlas.picture().len();
        for length in 0..enough + 9 {
            let due = if length < enough { Err(24) } else { Ok(enough) };
            assert_eq!(self.draw(&tables, &lent, Ok(()), length), due, "DIFFERENCE: a picture into {length} bytes");
        }
    }

    fn sequence(&mut self, r: &mut Random) {
        match r.from(0, 9) {
            0 if r.once_in(4) => walks::fillers(&mut self.pair, r),
            1 => walks::ratios(&mut self.pair, r),
            _ => self.calls(r),
        }
        self.compare(r);
    }

    /// Calls on one atlas, mostly a small one, with a picture now and then.
    fn calls(&mut self, r: &mut Random) {
        let made = if r.once_in(20) { making(r) } else { small(r) };
        if self.pair.renew_thrice(made).is_err() {
            return;
        }
        self.pair.lend(junk_list(room(r).min(4_096)), 0);
        let (mut held, mut past, kind) = (Vec::new(), Vec::new(), r.from(0, 4));
        for _ in 0..r.one_of(&[40, 200, 400]) {
            let lean = r.one_of(&[40, 55, 80]);
            turn(&mut self.pair, r, kind, lean, &mut held, &mut past);
            if r.once_in(25) {
                self.compare(r);
            }
        }
    }
}

/// A number of the header, of a shelf or bucket in use, or of an entry.
fn change(tables: &mut Tables, r: &mut Random) {
    let (shelves, buckets, entries) = (tables.header[8] as usize, tables.header[9] as usize, tables.entries());
    let index = |r: &mut Random, of: usize| (r.next() % of as u64) as usize;
    match r.from(0, 3) {
        0 if shelves > 0 => {
            let at = index(r, 5 * shelves);
            tables.shelves[at] = number(r, tables.shelves[at].into(), 65_535) as u16;
        }
        1 if buckets > 0 => {
            let at = index(r, 7 * buckets);
            tables.buckets[at] = number(r, tables.buckets[at].into(), 65_535) as u16;
        }
        2 if entries > 0 => {
            let at = index(r, entries);
            tables.list[at].right = number(r, tables.list[at].right.into(), 65_535) as u16;
        }
        _ => {
            let at = r.one_of(&[0, 1, 2, 3, 4, 5, 6, 7, 10, 11]);
            tables.header[at] = number(r, tables.header[at] & 65_535, 65_535);
        }
    }
}
