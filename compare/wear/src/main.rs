//! What crates/wear runs on the port, on the crate as it is: 32 by 32 labels come and go on one 256 by 256 atlas, ten at a time, 4,000 a quarter,
//! for ten years. A line a quarter, in the form of that program's.

use unpatched::{size2, AllocId, BucketedAtlasAllocator};

const QUARTERS: u32 = 40;
const TURNS: usize = 4_000;
/// The search passes over a bucket from which so many items were handed out.
const ITEMS_MOST: u32 = 4_095;
/// So many labels have pixels in the atlas.
const LABELS_MOST: u32 = 64;

/// The atlas, and the ids of the labels that are held, each in the place of the one that was printed ten before it.
struct Panel {
    atlas: BucketedAtlasAllocator,
    labels: [Option<u32>; 10],
    buckets: Vec<Handed>,
}

/// What a bucket's ids tell of it: its generation, and how many items it has handed out in it. The crate keeps its tables to itself; that a bucket was
/// laid anew is seen at its next id.
#[derive(Clone, Copy, Default)]
struct Handed {
    generation: u32,
    items: u32,
}

impl Panel {
    fn new() -> Panel {
        Panel { atlas: BucketedAtlasAllocator::new(size2(256, 256)), labels: [None; 10], buckets: Vec::new() }
    }

    /// One label comes; false where it was refused.
    fn label(&mut self, place: usize) -> bool {
        if let Some(id) = self.labels[place].take() {
            self.atlas.deallocate(AllocId::deserialize(id));
        }
        self.labels[place] = self.atlas.allocate(size2(32, 32)).map(|given| given.id.serialize());
        self.labels[place].map(|id| self.count(id)).is_some()
    }

    fn count(&mut self, id: u32) {
        let (bucket, generation) = ((id & 4_095) as usize, id >> 24);
        self.buckets.resize(self.buckets.len().max(bucket + 1), Handed::default());
        let before = self.buckets[bucket];
        let items = if before.generation == generation { before.items } else { 0 };
        self.buckets[bucket] = Handed { generation, items: items + 1 };
    }

    fn worn(&self) -> usize {
        self.buckets.iter().filter(|b| b.items >= ITEMS_MOST).count()
    }

    /// How many labels can be placed beside those that are held, tried on a copy.
    fn placeable(&self) -> usize {
        let mut copy = self.atlas.clone();
        (0..LABELS_MOST).filter(|_| copy.allocate(size2(32, 32)).is_some()).count()
    }

    fn quarter(&mut self, n: u32) {
        let refused = (0..TURNS).filter(|turn| !self.label(turn % 10)).count();
        let (occupied, free) = (self.atlas.allocated_space(), self.atlas.free_space());
        let (worn, more) = (self.worn(), self.placeable());
        println!("quarter {n}: refused {refused} of {TURNS}, worn-out buckets {worn}, occupied {occupied}, free {free}, more labels {more}");
    }
}

fn main() {
    let mut panel = Panel::new();
    (1..=QUARTERS).for_each(|n| panel.quarter(n));
    match panel.atlas.allocate(size2(32, 32)) {
        Some(given) => println!("32 by 32: placed, id {}", given.id.serialize()),
        None => println!("32 by 32: refused 6"), // no place: the sides are none that could be refused
    }
}
