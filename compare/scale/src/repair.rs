//! T-08's repair on the bytes of a file: what a write makes of the tables that a read has made of them.

use crate::broken::{get, records, set};

/// Where reference count, item count and generation stand in a bucket's record.
const REFS: usize = 10;
const ITEMS: usize = 12;
const GENERATION: usize = 16;

fn needs_it(record: &[u8]) -> bool {
    record[2] == 18 && get(record, REFS) == 0 && get(record, ITEMS) != 0
}

/// A file that is read, as it is written again.
pub fn repaired(file: &[u8]) -> Vec<u8> {
    let mut parts = records(file);
    for record in parts.iter_mut().filter(|record| needs_it(record)) {
        set(record, ITEMS, 0);
        let generation = get(record, GENERATION) as u8;
        set(record, GENERATION, generation.wrapping_add(1).into());
    }
    parts.concat()
}
