//! Files at the edges, each with the answer that document 02 asks for: the largest, those that count too many, and the order of refusals.

use crate::broken::{counted, get, records, set, Broken};
use crate::random::Random;
use crate::shapes::filled;
use crate::twin::Twin;
use treadwharf::size2;

fn edited(file: &[u8], edit: impl Fn(&mut Vec<u8>)) -> Vec<u8> {
    let mut file = file.to_vec();
    edit(&mut file);
    file
}

/// The order of refusals, and what each is of, on 64 by 64 with one label of 10 by 7.
pub fn order(twin: &mut Twin) {
    let file = filled(size2(64, 64), 1, size2(10, 7), 1);
    let mut say = |what: &str, number: u32, edit: &dyn Fn(&mut Vec<u8>)| {
        assert_eq!(twin.read(&edited(&file, edit)).err().unwrap_or(0), number, "DIFFERENCE: {what}");
    };
    say("the file as it is", 0, &|_| ());
    say("no byte", 16, &|f| f.clear());
    say("version 3, cut", 16, &|f| {
        f[4] = 3;
        f.pop();
    });
    say("version 9, width 0", 17, &|f| {
        f[4] = 9;
        set(f, 6, 0);
    });
    say("version 257", 17, &|f| f[5] = 1);
    say("generation 255", 0, &|f| set(f, 63, 255));
    say("generation 256", 1, &|f| set(f, 63, 256));
    // bucket 0 has no label: its items stand at 59, its generation at 63
    for items in [1, 4_095, 65_535] {
        for (generation, number) in [(0, 0), (255, 0), (256, 1), (65_535, 1)] {
            say("items and no label", number, &|f| {
                set(f, 59, items);
                set(f, 63, generation);
            });
        }
        say("more items than labels", 0, &|f| set(f, 77, items));
    }
    say("a label and no items", 1, &|f| set(f, 77, 0));
    say("a negative figure", 1, &|f| f[32] |= 128);
    say("the figure one higher", 1, &|f| f[29] += 1);
    say("bytes behind the end", 16, &|f| f.push(0));
    say("vertical", 16, &|f| f[28] = 1);
    say("vertical, version 2", 16, &|f| (f[28], f[4]) = (1, 2));
    say("a shelf more than records", 16, &|f| set(f, 22, 2));
    say("a bucket less than records", 16, &|f| set(f, 24, 1));
    say("kind 20 at the end", 16, &|f| f[85] = 20);
}

/// Bytes that are no file, of every length up to some hundred: zeros, ones, and others, also behind the opening of a header.
pub fn no_file(twin: &mut Twin, r: &mut Random) {
    for length in 0..400 {
        let others: Vec<u8> = (0..length).map(|_| r.next() as u8).collect();
        let opening = [&[31, 0, 16, 0, 1, 0], &others[..]].concat();
        for bytes in [vec![0; length], vec![255; length], opening, others] {
            assert_eq!(twin.read(&bytes), Err(16), "DIFFERENCE: {length} bytes that are no file");
        }
    }
}

/// 126 bytes are 9 shelves or 7 buckets: counts that fit the length and not the records, then records that fit them too.
pub fn same_length(twin: &mut Twin) {
    let file = filled(size2(2_000, 8), 1, size2(1, 8), 3);
    let (shelves, buckets) = (get(&file, 22), get(&file, 24));
    assert!(buckets >= 7, "{buckets} buckets");
    let recounted = edited(&file, |f| {
        set(f, 22, shelves + 9);
        set(f, 24, buckets - 7);
    });
    assert_eq!(twin.read(&recounted), Err(16), "DIFFERENCE: 9 shelves for 7 buckets");
    let mut parts = records(&file);
    let shelf = parts[1].clone();
    parts.splice(2..9, vec![shelf; 9]);
    assert_eq!((counted(&parts).len(), twin.read(&counted(&parts))), (file.len(), Err(1)), "DIFFERENCE: 9 shelves in the place of 7 buckets");
}

/// 4,095 buckets in few shelves, some in five columns, 4,095 shelves with 4,095 buckets: whole, damaged, and with one record more.
pub fn large(twin: &mut Twin, broken: &mut Broken, r: &mut Random, damages: u64) {
    let buckets = filled(size2(46_340, 200), 1, size2(1, 1), 25);
    let columns = filled(size2(46_340, 9), 5, size2(1, 1), 25);
    let shelves = filled(size2(8, 46_340), 1, size2(8, 1), 4_095);
    assert_eq!((get(&buckets, 24), get(&shelves, 22), get(&shelves, 24), shelves.len()), (4_095, 4_095, 4_095, 131_077));
    for file in [&buckets, &columns, &shelves] {
        assert_eq!(twin.read(file), Ok(()), "DIFFERENCE: a large file");
        broken.some(twin, file, r, damages);
        one_more(twin, file);
    }
    most(twin, &shelves);
    // few buckets are marked in less room
    for count in [511, 512, 513] {
        let file = filled(size2(8, 46_340), 1, size2(8, 1), count);
        assert_eq!((get(&file, 24), twin.read(&file)), (count as u16, Ok(())), "DIFFERENCE: {count} buckets");
        broken.some(twin, &file, r, damages);
    }
}

/// A released bucket more, all records there and nothing amiss but that 4,095 were there already; a shelf more.
fn one_more(twin: &mut Twin, file: &[u8]) {
    let mut parts = records(file);
    let [first, count] = [26, 24].map(|at| get(file, at));
    let mut bucket = vec![0; 18];
    (bucket[0], bucket[2]) = (16, 18);
    set(&mut bucket, 8, first);
    set(&mut parts[0], 26, count);
    parts.insert(parts.len() - 1, bucket);
    let due = if count == 4_095 { Err(1) } else { Ok(()) };
    assert_eq!(twin.read(&counted(&parts)), due, "DIFFERENCE: a bucket more");
    let mut parts = records(file);
    parts.insert(1, parts[1].clone());
    assert_eq!(twin.read(&counted(&parts)), Err(1), "DIFFERENCE: a shelf more");
}

/// 65,535 records of each kind, all there.
fn most(twin: &mut Twin, file: &[u8]) {
    let parts = records(file);
    let (shelves, buckets) = (vec![parts[1].clone(); 65_535], vec![parts[5_000].clone(); 65_535]);
    let file = counted(&[vec![parts[0].clone()], shelves, buckets, vec![parts[8_191].clone()]].concat());
    assert_eq!((file.len(), twin.read(&file)), (37 + 32 * 65_535, Err(1)), "DIFFERENCE: 65,535 of each");
}
