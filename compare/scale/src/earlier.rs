//! Files as builds before T-08 wrote them: atlases in use by the model as those builds were, some of their buckets worn, read by port and model and gone on
//! with. What the repair must not make sound is refused.

use crate::broken::{records, set};
use crate::kept::{go_on, Kept};
use crate::pair::Made;
use crate::random::Random;
use crate::repair::repaired;
use crate::restarts::small;
use crate::twin::Twin;
use crate::walks::request;
use model::tables::{Atlas as Model, Build};

/// Calls on each file, some of them made twice.
const TURNS: usize = 40;

#[derive(Default)]
pub struct Earlier {
    pub files: u64,
    pub calls: u64,
    /// buckets that were repaired, and those of them with generation 255
    pub repaired: u64,
    pub wrapped: u64,
    /// referenced buckets with 4,095 items and more, which stay
    pub stayed: u64,
    /// files with a number that is no generation
    pub refused: u64,
}

/// An atlas after so many calls of a build that lets buckets wear.
fn in_use(made: Made, calls: i32, r: &mut Random) -> Option<Model> {
    let (size, o) = (made.size, made.options);
    let align = [o.align_width, o.align_height].map(i64::from);
    let mut atlas = Model::new([size.width, size.height].map(i64::from), align, o.columns.into(), 0).ok()?;
    let (kind, lean, mut held) = (r.from(0, 4), r.one_of(&[40, 55, 70]), Vec::new());
    for _ in 0..calls {
        if held.is_empty() || r.from(0, 99) < lean {
            let size = request(r, kind, size);
            held.extend(atlas.allocate(size.width.into(), size.height.into()).map(|p| p.id));
        } else {
            let id = held.swap_remove((r.next() % held.len() as u64) as usize);
            atlas.deallocate_by(Build::Wearing, id).unwrap();
        }
    }
    Some(atlas)
}

/// Some buckets as they are after long use: more items, another generation.
fn worn(atlas: &mut Model, r: &mut Random) {
    for b in &mut atlas.buckets {
        if r.once_in(3) {
            b.items = b.items.max(r.one_of(&[0, 1, 4_094, 4_095, 4_096, 65_535]));
        }
        if r.once_in(3) {
            b.generation = r.one_of(&[0, 1, 254, 255, 255]);
        }
    }
    assert_eq!(atlas.sound_by(Build::Wearing), Ok(()), "an earlier build's tables");
}

impl Earlier {
    pub fn run(&mut self, files: u64, twin: &mut Twin, r: &mut Random) {
        while self.files < files {
            let (made, calls) = (small(r), r.from(1, 120));
            let Some(mut atlas) = in_use(made, calls, r) else { continue };
            worn(&mut atlas, r);
            let file = atlas.file();
            let kept = Kept { name: "a file of an earlier build".to_string(), read: repaired(&file), file };
            self.calls += go_on(&kept, TURNS, twin, r);
            self.tally(&atlas);
            self.no_generation(&kept.file, twin, r);
        }
    }

    fn tally(&mut self, atlas: &Model) {
        let worn = atlas.buckets.iter().filter(|b| b.refs == 0 && b.items > 0);
        self.files += 1;
        self.wrapped += worn.clone().filter(|b| b.generation == 255).count() as u64;
        self.repaired += worn.count() as u64;
        self.stayed += atlas.buckets.iter().filter(|b| b.refs > 0 && b.items >= 4_095).count() as u64;
    }

    /// One of the buckets with a number above 255 for its generation: the repair makes none of it, whatever its counts.
    fn no_generation(&mut self, file: &[u8], twin: &mut Twin, r: &mut Random) {
        let mut parts = records(file);
        let mut buckets: Vec<_> = parts.iter_mut().filter(|record| record[2] == 18).collect();
        if buckets.is_empty() {
            return;
        }
        let at = (r.next() % buckets.len() as u64) as usize;
        set(buckets[at], 16, r.one_of(&[256, 257, 511, 65_280, 65_534, 65_535]));
        assert_eq!(twin.read(&parts.concat()), Err(1), "DIFFERENCE: a generation above 255");
        self.refused += 1;
    }
}
