//! The family of T-06: rows and fillers on both sides of the ratios at which the bucket count changes, or did before it.

use crate::maker::Maker;
use model::tables::{MOST, N};

const RATIOS: [N; 14] = [17, 31, 32, 33, 33, 40, 47, 48, 63, 64, 79, 80, 95, 96];

/// One trace in four has few buckets left when such a row or filler is laid.
pub fn ratios(m: &mut Maker, case: u64) {
    if case % 4 == 3 {
        return nearly_full(m);
    }
    for _ in 0..m.random.range(2, 6) {
        one_atlas(m);
    }
    m.churn(10);
}

/// Labels that stay, and labels that come and go.
fn one_atlas(m: &mut Maker) {
    let row = m.random.pick(&[8, 8, 16, 24]);
    let room = m.random.range(1, row - 1);
    make(m, row, room);
    let stay: Vec<u32> = (0..m.random.range(1, 3)).filter_map(|_| label(m, row, room)).collect();
    for _ in 0..m.random.range(1, 3) {
        for _ in 0..m.random.range(2, 30) {
            label(m, row, room);
        }
        come_back(m, &stay);
        m.report();
    }
    m.give_all_back();
}

/// Columns that many times as wide as a row is high, or as the room is that the rows leave, in which fillers are laid.
fn make(m: &mut Maker, row: N, room: N) {
    let high = m.random.pick(&[row, room]);
    let column = high * m.random.pick(&RATIOS) + m.random.range(0, high - 1);
    let (columns, rows) = (m.random.range(1, 5), m.random.range(1, 4));
    let align = m.random.pick(&[1, 1, 1, 8, 33, column / 4, column]).clamp(1, column);
    m.make(([column * columns, rows * row + room], [align, 1], columns, 0));
}

/// So narrow that the height makes the ratio, or as wide as buckets are; as high as a row, or low enough for a filler.
fn label(m: &mut Maker, row: N, room: N) -> Option<u32> {
    let [_, _, column] = m.sides();
    let narrow = m.random.range(1, row);
    let w = m.random.pick(&[1, narrow, narrow, row, column / 4, column / 4 + 1, column / 2, column]).max(1);
    let h = m.random.pick(&[row, row, row, row - 1, room, room, room + 1, 1]);
    m.alloc(w, h)
}

/// Most labels are returned, those that stay are not.
fn come_back(m: &mut Maker, stay: &[u32]) {
    let others: Vec<u32> = m.held.iter().copied().filter(|id| !stay.contains(id)).collect();
    for id in others {
        if m.random.percent(70) {
            m.give_back(id);
        }
    }
}

/// Behind the rows a label that many times narrower than the column, or one that is too high for the room and lays a filler.
fn nearly_full(m: &mut Maker) {
    let (columns, height, left) = (m.random.pick(&[1, 2, 2]), m.random.range(500, 900), m.random.range(0, 6));
    m.make(([46_340, height], [1, 1], columns, 0));
    use_up(m, left);
    for _ in 0..m.random.range(1, 6) {
        let ([_, height, column], room) = (m.sides(), m.atlas.as_ref().map_or(0, |a| a.room));
        let ratio = m.random.pick(&RATIOS);
        let (w, h) = m.random.pick(&[(1, room + 1), (1, room), (column / ratio, 1), (column / ratio, 8)]);
        m.alloc(w, h.clamp(1, height));
    }
    m.report();
    (0..20).for_each(|_| m.give_some_back());
    m.churn(10);
}

/// Rows of as many buckets as a row can have, and then of less, until so many of 4,095 are left.
fn use_up(m: &mut Maker, left: N) {
    for _ in 0..40 {
        let ([_, _, column], used) = (m.sides(), m.atlas.as_ref().map_or(0, |a| a.buckets.len() as N));
        let w = match MOST as N - left - used {
            ..=0 => return,
            1 => column,
            2 | 3 => column / 10,
            4..=7 => column / 64,
            more => column / (12 << more.ilog2()),
        };
        m.alloc(w.max(1), 1);
    }
}
