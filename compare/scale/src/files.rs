//! The files' part of the run: directed ones, damaged ones, then pairs of write and read among calls.

use crate::broken::{small, Broken};
use crate::damage::Damage;
use crate::earlier::Earlier;
use crate::pair::{ratios, Pair};
use crate::random::Random;
use crate::restarts::Restarts;
use crate::twin::{Answers, Twin};
use crate::{edges, kept, lent, progress, shapes};

pub struct Files {
    pub twin: Twin,
    broken: Broken,
    restarts: Restarts,
    pair: Pair,
}

/// A small file is damaged in every way for so many pairs.
const PAIRS_A_FILE: u64 = 8_000;
/// The most bytes of such a file; a longer one is damaged in some ways, so many.
const SHORT: usize = 230;
/// The most bytes of a kept file with something to repair that is damaged so too.
const SHORTEST: usize = 110;
const SOME: u64 = 5_000;

fn refused(answers: &Answers) -> String {
    let some = answers.iter().enumerate().skip(1).filter(|(_, n)| **n > 0);
    some.map(|(number, n)| format!("{number}: {n}")).collect::<Vec<_>>().join(", ")
}

impl Files {
    pub fn new() -> Files {
        Files { twin: Twin::new(), broken: Broken::default(), restarts: Restarts::default(), pair: Pair::new() }
    }

    pub fn run(&mut self, pairs: u64, seed: u64) {
        let mut r = Random::new(seed);
        let kept = kept::kept();
        let calls: u64 = kept.iter().map(|kept| kept::go_on(kept, kept::TURNS, &mut self.twin, &mut r)).sum();
        let repaired = kept.iter().filter(|kept| kept.read != kept.file).count();
        println!("seed {seed}, files: {} kept ones, {repaired} of them repaired, gone on with, {calls} calls compared with the model", kept.len());
        self.earlier(pairs / 50, &mut r);
        println!("{} writes, pictures and reads over parts too short or longer than need be", lent::lent());
        edges::order(&mut self.twin);
        edges::no_file(&mut self.twin, &mut r);
        edges::same_length(&mut self.twin);
        edges::large(&mut self.twin, &mut self.broken, &mut r, (pairs / 100).max(30));
        Damage::default().directed(&mut r, &mut self.twin);
        self.damage(pairs, &mut r);
        self.pairs(pairs, &mut r);
    }

    fn earlier(&mut self, files: u64, r: &mut Random) {
        let mut e = Earlier::default();
        e.run(files, &mut self.twin, r);
        println!("{} files of builds before T-08 read and gone on with, {} calls on them compared with the model", e.files, e.calls);
        println!("{} of their buckets repaired, {} of these of generation 255", e.repaired, e.wrapped);
        println!("{} referenced ones with 4,095 items or more stayed; {} of the files refused with a generation above 255", e.stayed, e.refused);
    }

    fn damage(&mut self, pairs: u64, r: &mut Random) {
        let repaired = kept::kept().into_iter().filter(|kept| kept.read != kept.file && kept.file.len() <= SHORTEST).map(|kept| kept.file);
        let shapes = shapes::shapes().into_iter().map(|(_, file)| file);
        let (short, long): (Vec<_>, Vec<_>) = shapes.chain(repaired).partition(|file| file.len() <= SHORT);
        for file in &long {
            self.broken.some(&mut self.twin, file, r, SOME);
        }
        let count = short.len() as u64 + pairs / PAIRS_A_FILE;
        for k in 0..count {
            let file = short.get(k as usize).cloned().unwrap_or_else(|| small(r, if k % 4 == 0 { 60 } else { SHORT }));
            self.broken.every(&mut self.twin, &file, r);
            progress("damaged files", k, count);
        }
        eprintln!();
        let (b, reads) = (&self.broken, &self.twin.reads);
        println!("{} files of {} bytes in all damaged in every way, {} damages of large ones", b.files, b.bytes, b.large);
        println!("reads of damaged files: {} accepted, refused {}; 0 differences from the model", reads[0], refused(reads));
        println!("{} of the accepted ones with a repair", self.twin.repaired);
        let amiss: Vec<String> = self.twin.amiss.iter().map(|(what, n)| format!("{what}: {n}")).collect();
        println!("refused by what was amiss: {}", amiss.join("; "));
    }

    fn pairs(&mut self, pairs: u64, r: &mut Random) {
        self.restarts.never_issued(&mut self.pair, &mut self.twin, r);
        self.restarts.generations(&mut self.pair, &mut self.twin, r);
        self.restarts.items(&mut self.pair, &mut self.twin, r);
        let mut next = 0;
        while self.restarts.pairs < pairs {
            self.restarts.sequence(&mut self.pair, &mut self.twin, r);
            if self.restarts.pairs >= next {
                progress("pairs of write and read", self.restarts.pairs, pairs);
                next += 20_000;
            }
        }
        eprintln!();
        let (t, calls, writes) = (&self.restarts, self.pair.tally.calls, &self.twin.writes);
        println!("{} pairs of write and read, {} into the atlas's own tables, among {calls} calls compared with the crate", t.pairs, t.same);
        println!("among these {} laid", ratios(&self.pair));
        println!("{} writes more refused {}", writes.iter().skip(1).sum::<u64>(), refused(writes));
        println!("{} reads lost something held, {} such ids handed back were refused; 0 differences from the history", t.losing, t.lost);
        println!("{} lists lent anew with rectangles that were never issued; {} lists of before, and none, refused 21", t.others, t.unfit);
    }
}
