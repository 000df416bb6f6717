//! Modules 1 and 2 of document 01: rounding, and the number of buckets of a new shelf, a filler too, with T-06 of document 02.

use crate::tables::{Atlas, MOST, N};

/// Up to the next multiple.
pub fn round_up(size: N, step: N) -> N {
    (size + step - 1) / step * step
}

pub fn shelf_height(size: N) -> N {
    let step = match size {
        0..=31 => 8,
        32..=127 => 16,
        128..=511 => 32,
        _ => 64,
    };
    round_up(size, step)
}

/// The count for a ratio, before the limit. T-06: "every ratio above 32 gives at least 4 buckets before the cap".
pub fn count(ratio: N) -> N {
    match ratio {
        0..=4 => 1,
        5..=16 => 2,
        17..=32 => 4,
        _ => power_of_two(ratio / 16 - 1).max(4),
    }
}

/// The least power of two that is not below n, n at least 1.
fn power_of_two(n: N) -> N {
    1 << (N::BITS - (n - 1).leading_zeros())
}

/// The count for a new shelf of this final height; at most what the table has room for.
pub fn bucket_count(atlas: &Atlas, w: N, height: N) -> N {
    let ratio = atlas.column_width / w.max(height);
    count(ratio).min((MOST - atlas.buckets.len()) as N)
}

#[cfg(test)]
mod tests {
    use super::*;
    use crate::tables::{Bucket, NONE};

    #[test]
    fn both_sides_of_the_edges() {
        let heights = [(31, 32), (33, 48), (128, 128), (129, 160), (0, 0), (512, 512), (513, 576)];
        assert_eq!(heights.map(|(h, _)| shelf_height(h)), heights.map(|(_, r)| r));
        let ratios = [(4, 1), (5, 2), (16, 2), (17, 4), (32, 4), (33, 4), (47, 4), (48, 4), (63, 4), (64, 4), (79, 4), (80, 4), (95, 4), (96, 8)];
        assert_eq!(ratios.map(|(n, _)| count(n)), ratios.map(|(_, c)| c));
    }

    /// Ratio 33 with 4,091 to 4,094 buckets in use.
    #[test]
    fn the_cap_comes_after_the_four() {
        let mut atlas = Atlas::new([33, 1], [1, 1], 1, 0).unwrap();
        for left in 1..=4 {
            let bucket = Bucket { x: 0, free: 0, next: NONE, refs: 0, items: 0, shelf: 0, generation: 0 };
            atlas.buckets = vec![bucket; MOST - left];
            assert_eq!(bucket_count(&atlas, 1, 1), left as N);
        }
    }
}
