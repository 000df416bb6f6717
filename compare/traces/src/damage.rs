//! Families of traces that are no traces, or nearly: damaged records, cuts at every byte, damage and cuts far into long traces.

use crate::maker::Maker;

const LENGTHS: [u16; 6] = [23, 10, 6, 2, 10, 2];

fn start(m: &mut Maker) {
    if m.random.percent(80) {
        m.make(([64, 64], [1, 1], 1, 0));
    }
    let calls = m.random.range(0, 12);
    m.churn(calls);
}

/// A record with a wrong length or an unknown kind, its payload as long as it claims or as a known kind asks;
/// good records follow. The stride mixes the cases, so that few seeds already have some of each.
pub fn damaged(m: &mut Maker, case: u64) {
    const STRIDE: usize = 71;
    start(m);
    let (records, case) = (damaged_records(), case as usize);
    let (kind, claim) = records[case * STRIDE % records.len()];
    let right = LENGTHS.get((kind as usize).wrapping_sub(1)).copied().unwrap_or(claim);
    let length = if case / records.len() % 2 == 0 { claim } else { right };
    let mut body = vec![0; length.max(2) as usize];
    body[..2].copy_from_slice(&kind.to_le_bytes());
    m.raw(&claim.to_le_bytes());
    m.raw(&body[..length as usize]);
    m.report();
    m.clear();
}

/// Known kinds with other lengths, unknown kinds with every known length.
fn damaged_records() -> Vec<(u16, u16)> {
    const UNKNOWN: [u16; 14] = [0, 7, 8, 16, 255, 256, 257, 258, 259, 260, 261, 262, 513, 65_535];
    const CLAIMS: [u16; 15] = [0, 1, 2, 3, 5, 6, 7, 9, 10, 11, 22, 23, 24, 256 + 2, 65_535];
    let known = (1..=6).flat_map(|kind| CLAIMS.map(|claim| (kind, claim)));
    let unknown = UNKNOWN.into_iter().flat_map(|kind| [2, 6, 10, 23, 0, 3].map(|claim| (kind, claim)));
    known.chain(unknown).collect()
}

/// One record of each kind, cut at each byte in turn.
pub fn cut(m: &mut Maker, case: u64) {
    start(m);
    let before = m.bytes.len();
    m.make(([32, 32], [1, 1], 1, 0));
    m.alloc(5, 5);
    m.give_back(4_096);
    m.clear();
    m.grow(40, 40);
    m.report();
    let records = m.bytes.len() - before;
    m.bytes.truncate(before + case as usize % (records + 1));
}

/// Traces of every length around 32,768, where a reader in pieces of a power of two has its edges, and a few whose last offsets take more than 16
/// bits: good to the end, ending in what is no record, cut, or with a byte changed somewhere.
pub fn long(m: &mut Maker, case: u64) {
    let length = match case % 32 {
        31 => 70_000 + case / 32 % 4,
        c => 32_768 - 14 + c,
    } as usize;
    m.make(([800, 480], [1, 1], 2, 0));
    while m.bytes.len() + 1_500 < length {
        m.churn(40);
    }
    match (case + case / 32) % 4 {
        0 => fill(m, length),
        1 => m.bytes.resize(length, 0),
        2 => {
            let left = m.random.range(1, 24) as usize;
            fill(m, length - left);
            match left {
                1..=11 => drop(m.alloc(20, 20)),
                _ => m.make(([64, 64], [1, 1], 1, 0)),
            }
            m.bytes.truncate(length);
        }
        _ => {
            fill(m, length);
            let at = m.random.range(length as i64 / 2, length as i64 - 1) as usize;
            m.bytes[at] ^= 1 << m.random.range(0, 7);
        }
    }
}

/// Good records up to this length. A new record is 25 bytes and all others are multiples of 4, so these bring any length about.
fn fill(m: &mut Maker, length: usize) {
    while (length - m.bytes.len()) % 4 != 0 {
        m.make(([480, 272], [1, 1], 1, 0));
    }
    while length - m.bytes.len() >= 16 {
        m.alloc(20, 20);
    }
    while m.bytes.len() < length {
        m.report();
    }
}

/// A few bytes that look like records now and then; the first cases are the shortest, the empty trace among them.
pub fn noise(m: &mut Maker, case: u64) {
    let length = if case < 40 { case as i64 } else { m.random.range(0, 60) };
    for _ in 0..length {
        let byte = m.random.pick(&[0, 0, 0, 1, 2, 2, 3, 4, 5, 6, 10, 23, 255]);
        m.raw(&[byte]);
    }
}
