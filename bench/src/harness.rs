//! Runs the four sides of a case in one process. Of a call they are the crate, the port, the port with each call after a tables test of its own,
//! and with each after a list's test of its own, which has a tables test in it (less the second, that is what the tests cost). files.rs,
//! pictures.rs, lists.rs and heights.rs have other sides. A side starts from a state that is made outside of what is measured, and returns a number that
//! stands for all its answers: the same for all four, or the program ends.
//! Under a counter each side runs once, case k in phases 4k+1 to 4k+4. Otherwise it prints the least and the median time of ROUNDS rounds of
//! the first two, taking turns.
use crate::marks::{Counter, MARKS};
use crate::Port;
use std::hint::black_box;
use std::time::Instant;

const ROUNDS: usize = 15;

pub struct Bench {
    counter: Counter,
    next: u64,
}

/// What the lines say of a case: how many calls, and the records and entries in use before the first.
pub struct Case<'a> {
    pub name: &'a str,
    pub calls: usize,
    pub shelves: u32,
    pub buckets: u32,
    pub held: usize,
}

impl<'a> Case<'a> {
    pub fn of(name: &'a str, calls: usize, atlas: &Port) -> Case<'a> {
        let header = &atlas.parts().header;
        Case { name, calls, shelves: header[8], buckets: header[9], held: atlas.held().len() }
    }
}

/// The states that a case starts from, the first side's and that of the other three, and its sides.
pub struct Sides<'a, R, P> {
    pub states: (&'a R, &'a P),
    pub first: &'a dyn Fn(&mut R) -> u64,
    pub others: [&'a dyn Fn(&mut P) -> u64; 3],
}

impl Bench {
    pub fn new() -> Bench {
        let counter = Counter::asked();
        // what the marks themselves cost, which is taken off each count
        counter.mark(MARKS);
        counter.mark(0);
        Bench { counter, next: 0 }
    }

    pub fn case<R: Clone, P: Clone>(&mut self, case: Case, sides: Sides<R, P>) {
        let (r, p) = sides.states;
        let answer = (sides.first)(&mut r.clone());
        for other in sides.others {
            assert!(other(&mut p.clone()) == answer, "{}: the sides differ", case.name);
        }
        if self.counter == Counter::None {
            time(&case, sides);
        } else {
            self.count(&case, sides);
        }
        self.next += 1;
    }

    fn count<R: Clone, P: Clone>(&self, case: &Case, sides: Sides<R, P>) {
        let (k, (r, p), [second, third, fourth]) = (self.next, sides.states, sides.others);
        let (mut a, mut b, mut c, mut d) = (r.clone(), p.clone(), p.clone(), p.clone());
        self.counter.mark(4 * k + 1);
        black_box((sides.first)(&mut a));
        self.counter.mark(4 * k + 2);
        black_box(second(&mut b));
        self.counter.mark(4 * k + 3);
        black_box(third(&mut c));
        self.counter.mark(4 * k + 4);
        black_box(fourth(&mut d));
        self.counter.mark(0);
        println!("case {k} {} {} {} {} {}", case.name, case.calls, case.shelves, case.buckets, case.held);
    }
}

fn time<R: Clone, P: Clone>(case: &Case, sides: Sides<R, P>) {
    let (r, p) = sides.states;
    let (mut left, mut right) = (Vec::new(), Vec::new());
    for _ in 0..ROUNDS {
        let (mut a, mut b) = (r.clone(), p.clone());
        left.push(nanoseconds(case, || (sides.first)(&mut a)));
        right.push(nanoseconds(case, || (sides.others[0])(&mut b)));
    }
    left.sort_by(f64::total_cmp);
    right.sort_by(f64::total_cmp);
    println!("time {} {:.0} {:.0} {:.0} {:.0}", case.name, left[0], left[ROUNDS / 2], right[0], right[ROUNDS / 2]);
}

/// A call.
fn nanoseconds(case: &Case, run: impl FnOnce() -> u64) -> f64 {
    let start = Instant::now();
    black_box(run());
    start.elapsed().as_nanos() as f64 / case.calls as f64
}
