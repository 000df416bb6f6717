//! Call sequences: random ones by family, and directed ones for what no trace can reach.

use crate::pair::{Made, Pair};
use crate::random::Random;
use crate::tables::junk_list;
use treadwharf::{size2, AllocId, Options, Size};

pub fn making(r: &mut Random) -> Made {
    let (width, height) = match r.from(0, 7) {
        0 => (r.from(1, 40), r.from(1, 40)),
        1 | 2 => (r.from(8, 300), r.from(8, 300)),
        3 | 4 => (r.one_of(&[256, 512, 1024]), r.one_of(&[256, 512, 1024])),
        5 => (r.one_of(&[1024, 2048, 4096]), r.one_of(&[512, 2048, 4096])),
        6 => (r.from(20_000, 46_340), r.from(8, 200)),
        _ => (r.from(1, 46_340), r.from(1, 46_340)),
    };
    let columns = if r.once_in(2) { 1 } else { r.from(1, 7).min(width) };
    let align = |r: &mut Random, most: i32| if r.once_in(2) { 1 } else { r.from(1, 16).min(most) };
    let (align_width, align_height) = (align(r, width / columns), align(r, height));
    Made { size: size2(width, height), options: Options { align_width, align_height, columns, vertical: false } }
}

/// What a sequence asks for: labels, tiles, tiny ones, anything, or more than fits.
pub fn request(r: &mut Random, kind: i32, atlas: Size) -> Size {
    let (width, height) = match kind {
        0 => (r.from(6, 120), r.one_of(&[8, 11, 14, 16, 20, 24, 32])),
        1 => (r.one_of(&[16, 32, 64, 128]), r.one_of(&[16, 32, 64, 128])),
        2 => (r.from(1, 4), r.from(1, 12)),
        3 => (r.from(1, atlas.width), r.from(1, atlas.height)),
        4 => (r.from(1, 1 + atlas.width / 4), r.from(1, 1 + atlas.height / 4)),
        _ => (r.one_of(&[-7, 0, 1, 5, 46_341, 65_535, 65_536, i32::MAX]), r.one_of(&[i32::MIN, 0, 1, 5, 46_341, 65_535, 65_536])),
    };
    size2(width, height)
}

fn strange_id(r: &mut Random, past: &[AllocId]) -> AllocId {
    let old = |r: &mut Random| past[(r.next() % past.len() as u64) as usize].serialize();
    AllocId::deserialize(match r.from(0, 3) {
        0 => r.next() as u32,
        1 => r.from(0, 64) as u32 + 4096 * r.from(0, 3) as u32,
        _ if past.is_empty() => 0,
        2 => old(r),
        _ => old(r).wrapping_add(r.one_of(&[1, 4096, 1 << 24])),
    })
}

/// The entries of a list: mostly more than a sequence holds, now and then so few that it is full.
pub fn room(r: &mut Random) -> usize {
    match r.from(0, 99) {
        0..=14 => r.from(0, 60) as usize,
        15 => 65_536,
        _ => 4_096,
    }
}

/// One random atlas from its new to its end; the answers of earlier atlases stay in the tables as junk.
pub fn sequence(pair: &mut Pair, r: &mut Random) {
    let made = making(r);
    if r.once_in(20) {
        let (size, o) = (made.size, made.options);
        let bad = r.one_of(&[0, -1, 46_341, i32::MIN, i32::MAX]);
        let one = r.from(0, 5);
        let pick = |k: i32, n: i32| if one == k { bad } else { n };
        let _ = pair.renew_thrice(Made {
            size: size2(pick(0, size.width), pick(1, size.height)),
            options: Options {
                align_width: pick(2, o.align_width),
                align_height: pick(3, o.align_height),
                columns: pick(4, o.columns),
                vertical: one == 5,
            },
        });
    }
    if pair.renew_thrice(made).is_err() {
        return;
    }
    pair.lend(junk_list(room(r)), 0);
    let (mut held, mut past) = (Vec::new(), Vec::new());
    let kind = r.from(0, 4);
    let length = r.one_of(&[40, 200, 1000, 3000]);
    let mut lean = 70;
    for _ in 0..length {
        if r.once_in(150) {
            lean = r.one_of(&[15, 35, 50, 60, 80, 95]);
        }
        turn(pair, r, kind, lean, &mut held, &mut past);
    }
    pair.read();
}

/// One call of a sequence, or a few.
pub fn turn(pair: &mut Pair, r: &mut Random, kind: i32, lean: i32, held: &mut Vec<AllocId>, past: &mut Vec<AllocId>) {
    let third = r.once_in(40);
    if r.once_in(1200) {
        pair.clear_thrice().unwrap();
        past.append(held);
    } else if r.once_in(400) {
        let size = pair.made.size;
        let (width, height) = (size.width + r.one_of(&[0, 0, 1, 7, 64, 300, -1]), size.height + r.one_of(&[0, 0, 1, 8, 64, 300, -1]));
        let _ = pair.grow_thrice(size2(width, height));
    } else if r.once_in(60) {
        pair.read();
    } else if r.once_in(40) {
        let id = strange_id(r, past);
        let said = if third { pair.deallocate_thrice(id) } else { pair.deallocate(id) };
        // an id that came round again
        assert_eq!(said.is_ok(), held.contains(&id), "DIFFERENCE: {id:?} is held, or not");
        held.retain(|h| *h != id);
    } else if r.from(0, 99) < lean || held.is_empty() {
        let kind = if r.once_in(30) { r.from(0, 5) } else { kind };
        let size = request(r, kind, pair.made.size);
        let said = if third { pair.allocate_thrice(size) } else { pair.allocate(size) };
        held.extend(said.map(|a| a.id));
    } else {
        let id = held.swap_remove((r.next() % held.len() as u64) as usize);
        // some are handed back twice
        for turn in 0..if r.once_in(8) { 2 } else { 1 } {
            let said = if third { pair.deallocate_thrice(id) } else { pair.deallocate(id) };
            assert_eq!(said.is_ok(), turn == 0, "DIFFERENCE: {id:?} is held once");
        }
        past.push(id);
        if past.len() > 200 {
            past.drain(..100);
        }
    }
}

/// Four rows of 16 on 64 by 64; the first `free` rows are given back. The merge then takes two or three of them.
fn rows(pair: &mut Pair, free: usize) {
    pair.renew_thrice(Made::sides(64, 64)).unwrap();
    let ids: Vec<AllocId> = (0..4).map(|_| pair.allocate_thrice(size2(64, 16)).unwrap().id).collect();
    for id in &ids[..free] {
        pair.deallocate_thrice(*id).unwrap();
    }
}

fn heights(pair: &Pair) -> Vec<u16> {
    let tables = &pair.port;
    (0..tables.header[8] as usize).map(|i| tables.shelves[5 * i + 2]).collect()
}

pub fn merges(pair: &mut Pair) {
    rows(pair, 2);
    assert_eq!(pair.allocate_thrice(size2(64, 48)), Err(6));
    pair.allocate_thrice(size2(64, 17)).unwrap();
    assert_eq!(heights(pair), [32, 0, 16, 16], "a merge of two");
    rows(pair, 3);
    pair.allocate_thrice(size2(64, 33)).unwrap();
    assert_eq!(heights(pair), [48, 0, 0, 16], "a merge of three");
}

/// So many labels of one size, each returned before the next: every one is item 1 of the generation after.
fn used(pair: &mut Pair, size: Size, turns: u32) {
    for turn in 1..=turns {
        let id = pair.allocate(size).unwrap().id;
        assert_eq!(id.serialize() >> 12, 1 | turn % 256 << 12, "item 1, and the generation");
        pair.deallocate(id).unwrap();
    }
}

/// What wore out before T-08: a merged row that is used past 65,535 labels, where 8 was due, and a row that the search uses past 4,095. A bucket that is
/// never emptied has its 4,095 items, and takes no more until it is.
pub fn items(pair: &mut Pair) {
    rows(pair, 2);
    used(pair, size2(64, 32), 66_000);
    for _ in 0..100 {
        let id = pair.allocate_thrice(size2(64, 20)).unwrap().id;
        pair.deallocate_thrice(id).unwrap();
    }
    pair.renew_thrice(Made::sides(64, 16)).unwrap();
    let ids = [(); 2].map(|()| pair.allocate(size2(64, 8)).unwrap().id);
    pair.deallocate(ids[0]).unwrap();
    used(pair, size2(64, 8), 9_000);
    pair.renew_thrice(Made::sides(4_800, 1_200)).unwrap();
    let mut held: Vec<AllocId> = (0..4_095).map(|_| pair.allocate(size2(1, 1_200)).unwrap().id).collect();
    let last = held.pop().unwrap();
    assert_eq!(pair.allocate_thrice(size2(1, 1_200)), Err(6), "705 pixels are left in the bucket");
    held.into_iter().for_each(|id| pair.deallocate(id).unwrap());
    assert_eq!(pair.allocate_thrice(size2(1, 1_200)), Err(6), "one label is held");
    pair.deallocate_thrice(last).unwrap();
    pair.allocate_thrice(size2(1, 1_200)).unwrap();
}

/// Generations wrap at 256. Emptied, popped and taken again a bucket rises by two, so that the first id comes round after 128 rounds and is then held
/// again. On a shelf that stays it rises by one.
pub fn generations(pair: &mut Pair) {
    pair.renew_thrice(Made::sides(64, 64)).unwrap();
    let first = pair.allocate(size2(64, 64)).unwrap().id;
    pair.deallocate(first).unwrap();
    for turn in 1..2000u32 {
        let id = pair.allocate(size2(64, 64)).unwrap().id;
        assert_eq!(id == first, turn % 128 == 0);
        if turn % 128 != 0 {
            assert_eq!(pair.deallocate(first), Err(10));
        }
        pair.deallocate(id).unwrap();
    }
    rows(pair, 1);
    for turn in 1..600u32 {
        let id = pair.allocate_thrice(size2(64, 16)).unwrap().id;
        assert_eq!(id.serialize(), 4_096 | turn % 256 << 24, "255 is followed by 0");
        pair.deallocate_thrice(id).unwrap();
        assert_eq!(pair.deallocate_thrice(id), Err(10), "the last label again");
        assert_eq!(pair.deallocate_thrice(AllocId::deserialize((turn + 1) % 256 << 24)), Err(11), "of the bucket's generation");
    }
}

/// 4,095 buckets, the last one taken by hundreds of shelves, and refusal 7 with what follows it.
pub fn buckets(pair: &mut Pair, r: &mut Random) {
    pair.renew_thrice(Made { options: Options { columns: 5, ..Options::DEFAULT }, ..Made::sides(46_340, 9) }).unwrap();
    for _ in 0..4 {
        pair.allocate_thrice(size2(1, 2)).unwrap();
    }
    assert_eq!(pair.allocate_thrice(size2(1, 2)), Err(7));
    pair.allocate_thrice(size2(1, 1)).unwrap();
    for _ in 0..200 {
        let _ = pair.allocate_thrice(size2(r.from(1, 3), r.from(1, 9)));
    }
    for height in [200, 46_340] {
        pair.renew_thrice(Made::sides(46_340, height)).unwrap();
        let mut held = Vec::new();
        for _ in 0..60 {
            held.extend(pair.allocate_thrice(size2(r.from(1, 3), r.from(1, 8))).map(|a| a.id));
        }
        assert_eq!(pair.port.header[9], 4095, "all buckets in use");
        for id in held.drain(..) {
            pair.deallocate_thrice(id).unwrap();
        }
        assert_eq!(pair.allocate_thrice(size2(1, 1)), Err(6), "an empty atlas that is dead");
        pair.grow_thrice(size2(46_340, 46_340)).unwrap();
        assert_eq!(pair.allocate_thrice(size2(1, 1)), Err(6), "after a grow too");
        pair.clear_thrice().unwrap();
        pair.allocate_thrice(size2(1, 1)).unwrap();
    }
}

/// Too large in each way that two sides can be, by alignments that take them past 16 bits, before and after a grow.
pub fn too_large(pair: &mut Pair) {
    let alignments = [1, 10, 32_767, 46_340];
    for (width, height) in [(64, 32), (67, 33), (46_340, 46_340)] {
        for case in 0..32 {
            let (align_width, align_height) = (alignments[case % 4], alignments[case / 4 % 4]);
            let options = Options { align_width, align_height, columns: 1 + case as i32 / 16, vertical: false };
            if pair.renew_thrice(Made { size: size2(width, height), options }).is_ok() {
                each_way(pair);
                pair.grow_thrice(size2((width + 7).min(46_340), height)).unwrap();
                each_way(pair);
            }
        }
    }
}

fn each_way(pair: &mut Pair) {
    let (column, height) = (pair.column_width, pair.made.size.height);
    for width in [1, column, column + 1, 65_535, 65_536, i32::MAX] {
        for height in [1, height, height + 1, 65_535, 65_536, i32::MAX] {
            if let Ok(a) = pair.allocate_thrice(size2(width, height)) {
                pair.deallocate_thrice(a.id).unwrap();
            }
        }
    }
}

/// Labels come and go on one atlas for long.
pub fn churn(pair: &mut Pair, r: &mut Random, side: i32, calls: u64) {
    pair.renew_thrice(Made::sides(side, side)).unwrap();
    let mut held = Vec::new();
    for _ in 0..calls {
        if held.len() > 12 && r.once_in(2) {
            let id = held.swap_remove((r.next() % held.len() as u64) as usize);
            pair.deallocate(id).unwrap();
        } else {
            held.extend(pair.allocate(size2(r.from(8, 90), r.one_of(&[11, 14, 16, 24, 32]))).map(|a| a.id));
        }
        if held.len() > 60 {
            for id in held.drain(..30) {
                pair.deallocate(id).unwrap();
            }
        }
    }
    pair.read();
}

/// Wide low atlases of several columns: fillers at the end of the bucket table, so refusal 7 again and again.
pub fn fillers(pair: &mut Pair, r: &mut Random) {
    let (width, height, columns) = (r.from(20_000, 46_340), r.from(9, 60), r.from(2, 6));
    pair.renew_thrice(Made { options: Options { columns, ..Options::DEFAULT }, ..Made::sides(width, height) }).unwrap();
    come_and_go(pair, r, |r| size2(r.from(1, 4), r.from(1, height)));
}

/// Columns 30 to 70 times as wide as a row is high, or as the room is that rows leave: rows and fillers on both sides of T-06's ratios.
pub fn ratios(pair: &mut Pair, r: &mut Random) {
    let (row, columns, rows) = (r.one_of(&[8, 16, 24]), r.from(1, 5), r.from(1, 4));
    let room = r.from(1, row - 1);
    let column = r.one_of(&[row, room]) * r.from(30, 70);
    let options = Options { columns, align_width: r.one_of(&[1, 1, 8, 33]).min(column), ..Options::DEFAULT };
    pair.renew_thrice(Made { options, ..Made::sides(columns * column, rows * row + room) }).unwrap();
    come_and_go(pair, r, |r| size2(r.one_of(&[1, row, row, column / 4, column]), r.one_of(&[row, row, room, room + 1])));
}

/// Sixty calls, one in five of them a return.
fn come_and_go(pair: &mut Pair, r: &mut Random, request: impl Fn(&mut Random) -> Size) {
    let mut held = Vec::new();
    for _ in 0..60 {
        if !held.is_empty() && r.once_in(5) {
            let id = held.swap_remove((r.next() % held.len() as u64) as usize);
            pair.deallocate_thrice(id).unwrap();
        } else {
            held.extend(pair.allocate_thrice(request(r)).map(|a| a.id));
        }
    }
}
