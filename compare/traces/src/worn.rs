//! Few long traces, for what takes many calls: rows that before T-08 wore out, items to 4,095, generations round and round, a full bucket table in long
//! use, and a full list.

use crate::maker::{Maker, LIST};
use crate::random::Random;

pub const WORN: [fn(&mut Maker); 7] = [rows_in_use, merged_on, items, generations, full_table, long_use, full_list];

pub fn worn() -> impl Iterator<Item = Vec<u8>> {
    WORN.iter().enumerate().map(|(seed, family)| {
        let mut maker = Maker::new(seed as u64);
        family(&mut maker);
        maker.bytes
    })
}

fn rows(m: &mut Maker, count: i64) {
    m.make(([32, 8 * count], [1, 1], 1, 0));
    for _ in 0..count {
        m.alloc(32, 8);
    }
}

fn use_once(m: &mut Maker, w: i64, h: i64) {
    if let Some(id) = m.alloc(w, h) {
        m.give_back(id);
    }
}

/// A row used 4,200 times and more: before T-08 it was not found any more after 4,095, and 6 was given with the row all free.
fn rows_in_use(m: &mut Maker) {
    rows(m, 3);
    m.give_back(4_096);
    for _ in 0..4_200 {
        use_once(m, 32, 8);
    }
    m.give_back(4_097);
    for h in [8, 9, 16, 17, 16, 8] {
        use_once(m, 32, h);
        m.alloc(4, h);
        m.report();
    }
}

/// Merged rows used more than 65,535 times: before T-08 that was refusal 8, for lower requests and narrower ones too.
fn merged_on(m: &mut Maker) {
    rows(m, 5);
    m.give_back(4_096);
    m.give_back(4_097);
    for _ in 0..65_600 {
        use_once(m, 32, 16);
    }
    m.give_back(4_098);
    m.give_back(4_099);
    for (w, h) in [(32, 16), (1, 16), (32, 8), (32, 24), (32, 25), (32, 33), (40, 8)] {
        m.alloc(w, h);
        m.report();
    }
    m.give_all_back();
    m.churn(100);
}

/// One bucket that is never emptied: its items reach 4,095, with width left it takes nothing more, and does so again when the last label is returned.
fn items(m: &mut Maker) {
    m.make(([4_800, 1_210], [1, 1], 1, 0));
    for _ in 0..2 {
        while m.alloc(1, 1_200).is_some() {}
        m.report();
        while m.held.len() > 1 {
            m.give_back(m.held[0]);
            m.alloc(1, 1_200);
        }
        m.give_all_back();
        m.report();
    }
    m.churn(20);
}

/// The same buckets released and taken again, in changing order; stale ids among the returns.
fn generations(m: &mut Maker) {
    m.make(([256, 64], [1, 1], 2, 0));
    for turn in 0..1_500 {
        m.churn(10);
        m.give_all_back();
        m.give_back((turn % 3) | 1 << 12 | (turn & 255) << 24);
    }
}

fn full_table(m: &mut Maker) {
    m.make(([46_340, 120], [1, 1], 1, 0));
    let mut sizes = Random(1);
    for _ in 0..9_000 {
        m.alloc(sizes.range(1, 12), sizes.pick(&[1, 1, 2, 3, 5, 8]));
        if sizes.percent(45) {
            m.give_some_back();
        }
    }
    m.give_all_back();
    m.churn(100);
}

fn long_use(m: &mut Maker) {
    m.make(([800, 480], [2, 1], 3, 0));
    for _ in 0..2_000 {
        m.churn(50);
    }
    m.give_all_back();
    m.report();
}

/// As many labels as a replay's list has entries. One more that would be placed is 19, and one that would not keeps its refusal; a return makes
/// room for one.
fn full_list(m: &mut Maker) {
    m.make(([46_340, 16], [1, 1], 1, 0));
    for _ in 0..LIST {
        m.alloc(1, 1);
    }
    for _ in 0..3 {
        for (w, h) in [(1, 1), (0, 1), (65_536, 1), (46_341, 1), (1, 17), (46_340, 8), (1, 8)] {
            m.alloc(w, h);
        }
        m.report();
        let id = m.random.pick(&m.held);
        m.give_back(id);
        m.give_back(id);
        m.alloc(1, 1);
        m.alloc(1, 1);
    }
    m.grow(46_340, 40);
    m.alloc(46_340, 24);
    m.clear();
    m.churn(100);
}
