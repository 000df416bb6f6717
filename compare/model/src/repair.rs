//! T-08 of document 02: what a read makes of the tables in a file, before they are tested. Builds before T-08 wrote unreferenced buckets with items.

use crate::tables::{Atlas, Bucket, N};

/// "generation one up", wrapping. What is no generation is left, so that the test still finds it.
fn one_up(generation: N) -> N {
    match generation {
        255 => 0,
        0..=254 => generation + 1,
        _ => generation,
    }
}

/// "to each unreferenced bucket: item count 0 and generation one up, where the count was not 0"
fn mended(bucket: Bucket) -> Bucket {
    match bucket {
        Bucket { refs: 0, items: 1.., generation, .. } => Bucket { items: 0, generation: one_up(generation), ..bucket },
        _ => bucket,
    }
}

impl Atlas {
    /// Released buckets are unreferenced too.
    pub fn repaired(self) -> Atlas {
        Atlas { buckets: self.buckets.into_iter().map(mended).collect(), ..self }
    }
}
