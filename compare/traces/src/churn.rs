//! Families of random calls on atlases of one sort: requests, returns and reports, with what the sort adds.

use crate::maker::Maker;
use crate::requests::Style;
use model::tables::N;

const PANELS: [[N; 2]; 10] = [
    [64, 64],
    [128, 64],
    [256, 256],
    [320, 240],
    [480, 272],
    [512, 512],
    [800, 480],
    [1_000, 1_000],
    [1_024, 600],
    [2_048, 2_048],
];

pub fn panel(m: &mut Maker, _: u64) {
    let size = m.random.pick(&PANELS);
    let align = m.random.pick(&[[1, 1], [1, 1], [4, 4], [8, 8], [16, 2]]);
    m.make((size, align, 1, 0));
    let calls = m.random.range(20, 500);
    m.churn(calls);
    m.give_all_back();
    m.report();
}

pub fn columns(m: &mut Maker, _: u64) {
    let [w, h] = m.random.pick(&PANELS);
    let columns = m.random.range(2, 9);
    let h = h - m.random.range(0, 20);
    m.make(([w, h], [1, 1], columns, 0));
    let calls = m.random.range(20, 500);
    m.churn(calls);
    m.give_all_back();
    m.churn(20);
}

/// Atlases so small that every rule's edge is near.
pub fn small(m: &mut Maker, _: u64) {
    for _ in 0..m.random.range(1, 6) {
        let size = [m.random.range(1, 70), m.random.range(1, 70)];
        let align = [m.random.pick(&[1, 1, 1, 2, 3, 5, 8]), m.random.pick(&[1, 1, 2, 3, 7])];
        let columns = m.random.pick(&[1, 1, 2, 2, 3, 4, 7, 20]);
        m.make((size, align, columns, 0));
        let calls = m.random.range(10, 90);
        m.churn(calls);
    }
    m.report();
}

pub fn aligned(m: &mut Maker, _: u64) {
    let size = m.random.pick(&PANELS).map(|side| side + m.random.range(0, 30));
    let align = [m.random.range(1, 60), m.random.range(1, 60)];
    let columns = m.random.range(1, 4);
    m.make((size, align, columns, 0));
    let calls = m.random.range(20, 300);
    m.churn(calls);
    m.report();
}

/// Grown to the present size, one way, both ways, a little or a lot, below the present size, past the domain.
pub fn growing(m: &mut Maker, _: u64) {
    let size = [m.random.range(1, 200), m.random.range(1, 200)];
    let align = [m.random.pick(&[1, 1, 3, 7, 10, 16]), m.random.pick(&[1, 1, 4])];
    let columns = m.random.pick(&[1, 1, 1, 2, 3, 7]);
    m.make((size, align, columns, 0));
    for _ in 0..m.random.range(1, 12) {
        let calls = m.random.range(0, 40);
        m.churn(calls);
        grow(m);
        m.report();
    }
    m.give_all_back();
    m.churn(20);
}

/// Alignments that lose a strip at new, which a grow to the present size then gives back; filled up after it.
pub fn strip(m: &mut Maker, _: u64) {
    let align = m.random.pick(&[3, 7, 10, 16, 30]);
    let size = [align * m.random.range(1, 12) + m.random.range(1, align), m.random.range(8, 80)];
    let columns = m.random.pick(&[1, 1, 2, 3, 7]);
    m.make((size, [align, 1], columns, 0));
    for _ in 0..m.random.range(1, 4) {
        let calls = m.random.range(0, 6);
        m.churn(calls);
        let more = m.random.pick(&[0, 0, 1, align - 1, align, 41]);
        let [w, h, _] = m.sides();
        m.grow(w + more, h);
        let (style, mut refused) = (m.random.pick(&[Style::Row, Style::Any, Style::Icon, Style::Brim]), 0);
        while refused < 3 {
            refused += N::from(m.request(style).is_none());
        }
    }
    m.report();
}

fn grow(m: &mut Maker) {
    let [w, h, _] = m.sides();
    let r = &mut m.random;
    let more = r.pick(&[1, 2, 7, 16, 40, 200, 3_000]);
    let (w, h) = match r.range(0, 9) {
        0..=1 => (w, h),
        2..=3 => (w + r.range(1, more), h),
        4..=5 => (w, h + r.range(1, more)),
        6..=7 => (w + r.range(1, more), h + r.range(1, more)),
        8 => (w - r.range(0, 1), h - 1),
        _ => (r.pick(&[w, 46_340, 46_341, 65_536 + w, -1]), r.pick(&[h, 46_340, 46_341, 0])),
    };
    m.grow(w, h);
}

/// New on a used atlas, refused new, clear; old ids come back on the new tables.
pub fn renewed(m: &mut Maker, _: u64) {
    for _ in 0..m.random.range(2, 8) {
        let size = m.random.pick(&PANELS).map(|side| side - m.random.pick(&[0, 0, 3, 50]));
        match m.random.range(0, 5) {
            0 => m.make(([size[0], 46_341], [1, 1], 1, 0)),
            1 => m.make((size, [1, 1], size[0] + 1, 0)),
            2 => m.make((size, [1, 1], 1, 1)),
            3..=4 => m.clear(),
            _ => (),
        }
        if m.random.percent(60) {
            let columns = m.random.range(1, 3);
            m.make((size, [1, 1], columns, 0));
        }
        for _ in 0..m.random.range(0, 4) {
            if !m.stale.is_empty() {
                let id = m.random.pick(&m.stale);
                m.give_back(id);
            }
        }
        let calls = m.random.range(0, 60);
        m.churn(calls);
    }
}
