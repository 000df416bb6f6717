//! Families that steer at one thing: merging, fillers, full bucket tables, worn generations, edge arguments.

use crate::maker::Maker;
use crate::requests::Style;
use model::tables::N;

/// An atlas full of low rows, holes of neighbouring rows in it, then requests that only merged rows can take.
pub fn merging(m: &mut Maker, _: u64) {
    let columns = m.random.pick(&[1, 1, 2, 3]);
    let row = m.random.pick(&[8, 16, 24, 32]);
    let column = m.random.pick(&[32, 64, 100]);
    let height = row * m.random.range(3, 12) + m.random.range(0, 7);
    m.make(([column * columns, height], [1, 1], columns, 0));
    for _ in 0..m.random.range(1, 5) {
        let w = m.random.pick(&[column, column / 2, row, row / 2]);
        let mut refused = 0;
        while refused < 2 {
            let h = m.random.pick(&[row, row, row - 1, row / 2]);
            refused += N::from(m.alloc(w, h).is_none());
        }
        for _ in 0..m.random.range(1, 4) {
            hole(m);
            for _ in 0..m.random.range(1, 4) {
                let h = row * m.random.range(1, 4) - m.random.range(-1, 2);
                let w = m.random.range(1, column);
                m.alloc(w, h);
            }
        }
    }
    m.give_all_back();
    m.report();
}

/// Returns the ids of a stretch of neighbouring shelves.
fn hole(m: &mut Maker) {
    let Some(atlas) = &m.atlas else { return };
    let from = m.random.range(0, atlas.shelves.len() as N);
    let until = from + m.random.range(1, 4);
    let shelf = |id: &u32| atlas.buckets[(id & 4_095) as usize].shelf;
    let ids: Vec<u32> = m.held.iter().copied().filter(|id| (from..until).contains(&shelf(id))).collect();
    for id in ids {
        m.give_back(id);
    }
}

/// Columns whose height no rows fill up, so that fillers of many sorts are laid, used and popped.
pub fn filler(m: &mut Maker, _: u64) {
    let size = [m.random.range(20, 900), m.random.range(9, 120)];
    let (columns, align) = (m.random.range(2, 12), m.random.pick(&[1, 1, 1, 3, 9]));
    m.make((size, [align, 1], columns, 0));
    for _ in 0..m.random.range(2, 6) {
        for _ in 0..m.random.range(3, 30) {
            let style = m.random.pick(&[Style::Any, Style::Any, Style::Tiny, Style::Label]);
            m.request(style);
        }
        for _ in 0..m.random.range(0, 25) {
            m.give_some_back();
        }
        m.report();
    }
    m.give_all_back();
}

/// Wide and low: the bucket table fills up, with and without a filler last (6 and 7), and released buckets remain.
pub fn wide(m: &mut Maker, case: u64) {
    let (size, columns) = match case % 4 {
        0 => ([46_340, 9], m.random.range(5, 8)),
        1 => ([m.random.range(30_000, 46_000), m.random.range(50, 200)], 1),
        _ => ([m.random.range(20_000, 46_340), m.random.range(9, 60)], m.random.range(1, 12)),
    };
    m.make((size, [1, 1], columns, 0));
    for _ in 0..m.random.range(0, 8) {
        m.alloc(1, 2);
    }
    for _ in 0..m.random.range(1, 3) {
        for _ in 0..m.random.range(4, 60) {
            let (w, h) = (m.random.pick(&[1, 1, 1, 2, 40]), m.random.pick(&[1, 2, 2, 3, 7, 8, 9]));
            m.alloc(w, h);
        }
        match m.random.range(0, 4) {
            0 => m.give_all_back(),
            1..=2 => grow_wide(m),
            3 => m.clear(),
            _ => (0..20).for_each(|_| m.give_some_back()),
        }
        m.report();
    }
}

/// Grow where the new buckets may be more than the table has room for; ids at its end tell how many came.
fn grow_wide(m: &mut Maker) {
    let [w, h, _] = m.sides();
    let (width, height) = (m.random.range(w, 46_340), h + m.random.pick(&[0, 0, 8]));
    m.grow(width, height);
    for below in 0..3 {
        let count = m.atlas.as_ref().map_or(0, |a| a.buckets.len() as u32);
        m.give_back((count + 1).saturating_sub(below).min(4_095));
    }
}

/// One place laid and returned over and over, so that the generation goes round; stale ids come back after it.
pub fn wear(m: &mut Maker, _: u64) {
    let side = m.random.range(8, 64);
    let columns = m.random.range(1, 2);
    m.make(([side, side], [1, 1], columns, 0));
    let first = m.request(Style::Brim);
    let turns = m.random.pick(&[20, 127, 128, 129, 255, 256, 257, 600]);
    let (w, h) = (m.random.range(1, side / 2), m.random.range(1, side));
    for _ in 0..turns {
        m.give_all_back();
        m.alloc(w, h);
    }
    for id in [first.unwrap_or(4_096), 4_096, 4_097] {
        m.give_back(id);
        m.give_back(id);
    }
    m.churn(30);
}

const FAR: [N; 10] =
    [0, -1, 46_339, 46_340, 46_341, 65_534, 65_535, 65_536, i32::MAX as N, i32::MIN as N];
const NEAR: [N; 16] = [1, 2, 7, 8, 9, 31, 32, 33, 127, 128, 129, 511, 512, 513, 1_000, 64];

/// Arguments at the ends of every range, and past them.
pub fn edges(m: &mut Maker, _: u64) {
    for _ in 0..m.random.range(2, 10) {
        make_at_an_edge(m);
        for _ in 0..m.random.range(1, 25) {
            let [width, height, column] = m.sides();
            let (a, b) = (edge(m, [width, column]), edge(m, [height, height]));
            match m.random.range(0, 9) {
                0 => m.grow(a, b),
                1 => m.report(),
                2 => m.give_some_back(),
                _ => drop(m.alloc(a, b)),
            }
        }
    }
}

fn edge(m: &mut Maker, sides: [N; 2]) -> N {
    match m.random.range(0, 9) {
        0 => m.random.pick(&FAR),
        1..=4 => m.random.pick(&sides) + m.random.range(-1, 1),
        _ => m.random.pick(&NEAR),
    }
}

/// Mostly one argument at an edge, the others plain, so that each refusal has one cause.
fn make_at_an_edge(m: &mut Maker) {
    let size = [m.random.pick(&NEAR), m.random.pick(&NEAR)];
    let mut five = [size[0], size[1], 1, 1, m.random.range(1, 3).min(size[0])];
    for _ in 0..m.random.pick(&[0, 0, 0, 1, 1, 2]) {
        let at = m.random.range(0, 4) as usize;
        five[at] = edge(m, [size[0], 65_537]);
    }
    let vertical = m.random.pick(&[0, 0, 0, 0, 0, 0, 0, 1, 2, 255]);
    m.make(([five[0], five[1]], [five[2], five[3]], five[4], vertical));
}

/// Records that two refusals fit: the one that document 01 tests first is the answer.
pub fn orders(m: &mut Maker, _: u64) {
    m.make(([64, 64], [1, 1], 1, 0));
    m.churn(12);
    for _ in 0..m.random.range(2, 12) {
        let [w, h, _] = m.sides();
        let (out, bad) = (m.random.pick(&[0, -1, 46_341, 65_536]), m.random.pick(&[0, -1, 46_341]));
        match m.random.range(0, 10) {
            0 => m.make(([out, w], [bad, 1], 1, 0)),
            1 => m.make(([w, out], [1, bad], 65, 1)),
            2 => m.grow(w - 1, out),
            3 => m.grow(out, h - 1),
            4 => drop(m.alloc(bad.min(0), 70_000)),
            5 => drop(m.alloc(w + 1, bad.min(0))),
            6 => other_generation(m),
            7 | 8 => too_large(m),
            _ => twice(m),
        }
    }
}

/// Too large in one way, in two or in three: sides that fit, just do not, and reach 65,535 and 65,536, by alignments that take them past 16 bits.
fn too_large(m: &mut Maker) {
    let (width, height) = (m.random.pick(&[64, 67, 46_340]), m.random.pick(&[32, 64, 46_340]));
    let alignment = [width, height].map(|side| m.random.pick(&[1, 10, 32_767, 46_340]).min(side));
    let columns = m.random.pick(&[1, 1, 2]);
    m.make(([width, height], alignment, columns, 0));
    if m.random.range(0, 1) == 0 {
        m.grow((width + 7).min(46_340), height);
    }
    let [_, height, column] = m.sides();
    for _ in 0..m.random.range(3, 12) {
        let (w, h) = (m.random.pick(&[1, column, column + 1, 65_535, 65_536]), m.random.pick(&[1, height, height + 1, 65_535, 65_536]));
        m.alloc(w, h);
    }
}

/// An id of the wrong generation, its bucket referenced or not.
fn other_generation(m: &mut Maker) {
    let bucket = m.random.range(0, 3) as u32;
    let generation = m.random.range(0, 3) as u32;
    m.give_back(bucket | generation << 24);
}

/// Labels of one row; one is returned and returned again, as it was, with other item bits or of the next generation, and another wants a place.
fn twice(m: &mut Maker) {
    let (w, h) = (m.random.range(1, 16), m.random.range(1, 16));
    let ids: Vec<u32> = (0..m.random.range(1, 4)).filter_map(|_| m.alloc(w, h)).collect();
    if ids.is_empty() {
        return;
    }
    let id = m.random.pick(&ids);
    let again = id.wrapping_add(m.random.pick(&[0, 0, 1]) << 24) ^ m.random.pick(&[0, 0, 1, 2, 3, 4_095]) << 12;
    let times = m.random.range(1, 3);
    m.give_back(id);
    for _ in 0..times {
        m.give_back(again);
    }
    m.alloc(w, h);
}

/// Every kind of record before an accepted new, refused news among them.
pub fn unmade(m: &mut Maker, _: u64) {
    for _ in 0..m.random.range(1, 12) {
        match m.random.range(0, 6) {
            0 => m.clear(),
            1 => m.report(),
            2 => m.grow(64, 64),
            3 => m.give_back(4_096),
            4 => drop(m.alloc(1, 1)),
            5 => m.make(([0, 64], [1, 1], 1, 0)),
            _ => m.make(([64, 64], [1, 1], 65, 0)),
        }
    }
    if m.random.percent(60) {
        m.make(([64, 64], [1, 1], 1, 0));
        m.churn(10);
    }
}
