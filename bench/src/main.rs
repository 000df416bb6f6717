//! bench SIDE [STATE]: allocate, deallocate, grow, a churn of both, files, and the picture, on a SIDE square atlas with panel-like labels and tiles:
//! near empty, half full, full, and with all 4,095 buckets in use.
//! bench lists [HELD]: allocate, deallocate, size and the list's test with so many labels held (lists.rs).
//! bench heights: shelf heights alone, and the smallest allocate (heights.rs).
mod files;
mod harness;
mod heights;
mod lists;
mod marks;
mod pictures;

use etagere::{size2, AllocId, AllocatorOptions, BucketedAtlasAllocator};
use harness::{Bench, Case, Sides};
use std::hint::black_box;
use treadwharf::{Atlas, Refusal, Tables};

type Port = Atlas<Box<Tables>>;

// a full 4,096 square atlas has some 9,000 labels
const _: () =
    assert!(treadwharf::HELD >= 16384, "the list has not the room: build with TREADWHARF_HELD, as bench/run does");

/// xorshift: the same requests on every machine.
struct Random(u64);

impl Random {
    fn below(&mut self, n: u64) -> u64 {
        self.0 ^= self.0 << 13;
        self.0 ^= self.0 >> 7;
        self.0 ^= self.0 << 17;
        (self.0 >> 11) % n
    }
}

/// Nine labels to a tile.
fn request(r: &mut Random) -> (i32, i32) {
    match r.below(10) {
        0 => [(64, 64), (32, 32), (128, 64)][r.below(3) as usize],
        _ => (20 + r.below(90) as i32, [11, 14, 16, 20, 24, 32][r.below(6) as usize]),
    }
}

#[derive(Clone)]
struct Both {
    other: BucketedAtlasAllocator,
    port: Port,
    held: Vec<u32>,
    side: i32,
    /// requests of one kind where the state is made of cells
    cell: Option<(i32, i32)>,
}

impl Both {
    fn new(width: i32, side: i32) -> Both {
        let options = AllocatorOptions { alignment: size2(1, 1), vertical_shelves: false, num_columns: 1 };
        Both {
            other: BucketedAtlasAllocator::with_options(size2(width, side), &options),
            port: Atlas::new(Box::new(Tables::new()), treadwharf::size2(width, side)).unwrap(),
            held: Vec::new(),
            side,
            cell: None,
        }
    }

    fn place(&mut self, (w, h): (i32, i32)) -> bool {
        let a = self.other.allocate(size2(w, h)).map(|a| a.id.serialize());
        assert_eq!(a, self.port.allocate(treadwharf::size2(w, h)).ok().map(|a| a.id.serialize()));
        self.held.extend(a);
        a.is_some()
    }

    fn give(&mut self, place: usize) {
        let id = self.held.swap_remove(place);
        self.other.deallocate(AllocId::deserialize(id));
        assert_eq!(self.port.deallocate(treadwharf::AllocId::deserialize(id)), Ok(()));
    }

    /// At most `most` held, up to `part` of 100 of the pixels, or till 40 in a row find no place.
    fn fill(mut self, r: &mut Random, most: usize, part: i64) -> Both {
        let mut failed = 0;
        while failed < 40
            && self.held.len() < most
            && (self.other.allocated_space() as i64) * 100 < part * (self.side as i64).pow(2)
        {
            failed = if self.place(request(r)) { 0 } else { failed + 1 };
        }
        self
    }

    /// Rows of 8 by 8 cells: laid 8 wide and then grown, which gives each row as many buckets as there is room for.
    fn cells(r: &mut Random, side: i32) -> Both {
        let mut both = Both::new(8, side);
        both.cell = Some((8, 8));
        for _ in 0..side / 8 {
            assert!(both.place((8, 8)));
        }
        both.other.grow(size2(side, side));
        both.port.grow(treadwharf::size2(side, side)).unwrap();
        for _ in 0..1500 + r.below(10) {
            both.place((8, 8));
        }
        both
    }
}

enum Step {
    Place(i32, i32),
    Give(u32),
    Grow(i32),
    Size,
}

/// The calls of a case, fixed before it is measured.
fn steps(op: &str, both: &Both, r: &mut Random) -> Vec<Step> {
    let mut held = both.held.clone();
    let mut give = |r: &mut Random| Step::Give(held.swap_remove(r.below(held.len() as u64) as usize));
    let place = |r: &mut Random| {
        let (w, h) = both.cell.unwrap_or_else(|| request(r));
        Step::Place(w, h)
    };
    match op {
        "allocate" => (0..16).map(|_| place(r)).collect(),
        "deallocate" => (0..16).map(|_| give(r)).collect(),
        "size" => (0..16).map(|_| Step::Size).collect(),
        "grow" => (1..=4).map(|k| Step::Grow(both.side + 64 * k)).collect(),
        _ => (0..32).map(|k| if k % 2 == 0 { give(r) } else { place(r) }).collect(),
    }
}

fn crates(a: &mut BucketedAtlasAllocator, steps: &[Step], side: i32) -> u64 {
    steps.iter().fold(0, |sum, step| {
        let n = match step {
            Step::Place(w, h) => a.allocate(size2(*w, *h)).map_or(6, |a| a.id.serialize()),
            Step::Give(id) => {
                a.deallocate(AllocId::deserialize(*id));
                0
            }
            Step::Grow(width) => {
                a.grow(size2(*width, side));
                0
            }
            Step::Size => sides(a.size().width, a.size().height),
        };
        sum * 31 % 0xffff_fffb + n as u64
    })
}

fn answer(a: &mut Port, step: &Step, side: i32) -> Result<u32, Refusal> {
    match step {
        Step::Place(w, h) => a.allocate(treadwharf::size2(*w, *h)).map(|a| a.id.serialize()),
        Step::Give(id) => a.deallocate(treadwharf::AllocId::deserialize(*id)).map(|()| 0),
        Step::Grow(width) => a.grow(treadwharf::size2(*width, side)).map(|()| 0),
        Step::Size => a.parts().size().map(|size| sides(size.width, size.height)),
    }
}

/// Each call after a test, which must hold.
fn port(a: &mut Port, steps: &[Step], side: i32, test: impl Fn(&Port) -> bool) -> u64 {
    steps.iter().fold(0, |sum, step| {
        if !test(a) {
            return 0;
        }
        let n = answer(a, step, side).unwrap_or_else(Refusal::number);
        sum * 31 % 0xffff_fffb + n as u64
    })
}

/// Both sides as one number.
fn sides(width: i32, height: i32) -> u32 {
    65536 * width as u32 + height as u32
}

/// One call of one state.
fn measure(bench: &mut Bench, name: &str, both: &Both, steps: &[Step]) {
    let side = both.side;
    let sides = Sides {
        states: (&both.other, &both.port),
        first: &|a: &mut BucketedAtlasAllocator| crates(a, steps, side),
        others: [
            &|a: &mut Port| port(a, steps, side, |_| true),
            &|a: &mut Port| port(a, steps, side, Port::is_sound),
            &|a: &mut Port| port(a, steps, side, Port::fits),
        ],
    };
    bench.case(Case::of(&format!("{side}/{name}"), steps.len(), &both.port), sides);
}

/// The C library's memset takes more or fewer instructions by where its bytes lie, and the stack starts at any multiple of 16. Below this
/// frame it starts at a page, so that counts repeat.
#[inline(never)]
fn at_a_page(run: impl FnOnce()) {
    #[repr(align(4096))]
    struct Page([u8; 4096]);
    let page = black_box(Page([0; 4096]));
    run();
    black_box(page.0[0]);
}

fn all(side: i32, asked: Option<&str>) {
    let mut r = Random(0x1234_5678_9abc_def1);
    let states = [
        ("near-empty", Both::new(side, side).fill(&mut r, 24, 100)),
        ("half-full", Both::new(side, side).fill(&mut r, usize::MAX, 50)),
        ("full", Both::new(side, side).fill(&mut r, usize::MAX, 100)),
        ("4095-buckets", Both::cells(&mut r, side)),
    ];
    let (mut bench, is_asked) = (Bench::new(), |name| asked.is_none_or(|state| state == name));
    for (name, both) in &states {
        for op in ["allocate", "deallocate", "churn", "grow"] {
            // made for a state that is not asked too: the next one's numbers come after them
            let steps = steps(op, both, &mut r);
            if is_asked(*name) {
                measure(&mut bench, &format!("{name}/{op}"), both, &steps);
            }
        }
    }
    for (name, both) in states.iter().filter(|(name, _)| is_asked(*name)) {
        files::measure(&mut bench, &format!("{side}/{name}/files"), &both.port);
        pictures::measure(&mut bench, &format!("{side}/{name}/picture"), &both.port);
    }
}

fn main() {
    let words: Vec<String> = std::env::args().skip(1).collect();
    let asked = words.get(1).map(String::as_str);
    match words.first().map(String::as_str) {
        Some("lists") => at_a_page(|| lists::all(asked)),
        Some("heights") => at_a_page(heights::all),
        Some(side) => at_a_page(|| all(side.parse().expect("SIDE is a number"), asked)),
        None => panic!("bench SIDE [STATE], bench lists [HELD], or bench heights"),
    }
}
