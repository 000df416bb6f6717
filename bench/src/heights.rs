//! T-03: shelf heights alone, worked out and from the table, a range of sizes each; and the smallest allocate, the first of a fresh atlas, which
//! lays a shelf and so works out one height.
use crate::harness::{Bench, Case, Sides};
use crate::{crates, port, Both, Port, Step};
use etagere::BucketedAtlasAllocator;

type Leaf = unsafe extern "C" fn(u16) -> u32;

extern "C" {
    fn leaf_height(size: u16) -> u32;
    fn leaf_worked_out(size: u16) -> u32;
}

const CALLS: usize = 16;
/// The heights of one call of a leaf's case.
const EACH: usize = 64;
/// Of one step each, by document 01, and of one read: those below 64 are read apart, and the table ends at 512.
const RANGES: [(u16, u16); 5] = [(0, 31), (32, 63), (64, 127), (128, 511), (513, 1000)];

/// The same heights as a constant of Rust.
static TABLE: [u16; 513] = {
    let (mut table, mut size) = ([0; 513], 0);
    while size < 513 {
        let step = if size < 32 { 8 } else if size < 128 { 16 } else if size < 512 { 32 } else { 64 };
        table[size] = (size as u16 + step - 1) / step * step;
        size += 1;
    }
    table
};

extern "C" fn constant(size: u16) -> u32 {
    TABLE.get(size as usize).map_or_else(|| (size as u32).next_multiple_of(64), |&height| height as u32)
}

/// A height as it is: what the loop and a call of nothing take.
extern "C" fn nothing(height: u16) -> u32 {
    height as u32
}

#[inline(never)]
fn sum(leaf: Leaf, sizes: &[u16]) -> u64 {
    sizes.iter().fold(0, |sum, &size| sum + unsafe { leaf(size) } as u64)
}

fn leaf(bench: &mut Bench, (from, to): (u16, u16)) {
    let sizes: Vec<u16> = (from..=to).cycle().take(CALLS * EACH).collect();
    let heights: Vec<u16> = sizes.iter().map(|&size| constant(size) as u16).collect();
    let sides = Sides {
        states: (&sizes, &sizes),
        first: &|sizes: &mut Vec<u16>| sum(leaf_worked_out, sizes),
        others: [
            &|sizes: &mut Vec<u16>| sum(leaf_height, sizes),
            &|sizes: &mut Vec<u16>| sum(constant, sizes),
            &|_: &mut Vec<u16>| sum(nothing, &heights),
        ],
    };
    let name = &format!("leaf/{from}-{to}/height");
    bench.case(Case { name, calls: CALLS, shelves: 0, buckets: 0, held: EACH }, sides);
}

/// Document 01's first label, in as many fresh atlases as there are calls.
fn smallest(bench: &mut Bench) {
    let (both, steps) = (Both::new(64, 64), [Step::Place(10, 7)]);
    let (others, ports) = (vec![both.other.clone(); CALLS], vec![both.port.clone(); CALLS]);
    let each = |all: &mut Vec<Port>, test: fn(&Port) -> bool| all.iter_mut().map(|a| port(a, &steps, 64, test)).sum();
    let sides = Sides {
        states: (&others, &ports),
        first: &|all: &mut Vec<BucketedAtlasAllocator>| all.iter_mut().map(|a| crates(a, &steps, 64)).sum(),
        others: [
            &|all: &mut Vec<Port>| each(all, |_| true),
            &|all: &mut Vec<Port>| each(all, Port::is_sound),
            &|all: &mut Vec<Port>| each(all, Port::fits),
        ],
    };
    bench.case(Case::of("64/fresh/allocate", CALLS, &both.port), sides);
}

pub fn all() {
    let mut bench = Bench::new();
    smallest(&mut bench);
    RANGES.into_iter().for_each(|range| leaf(&mut bench, range));
}
