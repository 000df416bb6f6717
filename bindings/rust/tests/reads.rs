//! Random runs on three at once, an atlas over lent tables, one that owns its tables, and tables alone: the same answers and the same
//! numbers. After each call the plain reads are what the tested reads tell, the tables are sound and the list fits.

mod common;

use common::{boxed, junk, on_atlas, on_tables, Call, Random};
use treadwharf::{size2, AllocId, Allocation, Atlas, Options, Refusal, Size, Tables};

fn sides(r: &mut Random) -> Size {
    match r.from(0, 3) {
        0 => size2(r.from(1, 40), r.from(1, 40)),
        1 => size2(r.from(8, 300), r.from(8, 300)),
        2 => size2(r.one_of(&[256, 512, 1024]), r.one_of(&[256, 512, 1024])),
        _ => size2(r.from(20_000, 46_340), r.from(8, 200)),
    }
}

fn options(r: &mut Random) -> Options {
    let [align_width, align_height, columns] = [4, 4, 3].map(|most| r.from(1, most));
    Options { align_width, align_height, columns, vertical: false }
}

fn call(r: &mut Random, size: Size, held: &mut Vec<AllocId>) -> Call {
    match r.from(0, 99) {
        0 => Call::Clear,
        1 => Call::Renew(sides(r), options(r)),
        2 => Call::Renew(size2(0, 7), Options::DEFAULT),
        3..=5 => Call::Grow(size2(size.width + r.from(-1, 40), size.height + r.from(-1, 40))),
        6..=8 => Call::Deallocate(AllocId::deserialize(r.next() as u32 & 0x0101_3fff)),
        9..=44 if !held.is_empty() => Call::Deallocate(held.swap_remove(r.next() as usize % held.len())),
        45..=49 => Call::Allocate(size2(r.from(-1, size.width + 1), r.from(-1, size.height + 1))),
        _ => Call::Allocate(size2(r.from(1, 90), r.from(1, 40))),
    }
}

fn same_reads<T: std::borrow::Borrow<Tables>>(atlas: &Atlas<T>, what: Call) {
    let tested = atlas.parts();
    assert!(atlas.is_sound() && atlas.fits(), "{what:?}");
    assert_eq!(tested.held(), Ok(atlas.held()), "{what:?}");
    assert_eq!(tested.size(), Ok(atlas.size()), "{what:?}");
    assert_eq!(tested.is_empty(), Ok(atlas.is_empty()), "{what:?}");
    assert_eq!(tested.allocated_space(), Ok(atlas.allocated_space()), "{what:?}");
    assert_eq!(tested.free_space(), Ok(atlas.free_space()), "{what:?}");
    assert_eq!(atlas.allocated_space() + atlas.free_space(), atlas.size().area(), "{what:?}");
}

/// The same call on all three: one answer, the same numbers after it, and nothing changed where it is refused.
fn on_all(
    lent: &mut Atlas<&mut Tables>, owned: &mut Atlas<Box<Tables>>, bare: &mut Tables, call: Call,
) -> Result<Option<Allocation>, Refusal> {
    let before = owned.clone();
    let said = on_atlas(owned, call);
    assert_eq!(on_atlas(lent, call), said, "{call:?}");
    assert_eq!(on_tables(bare, call), said, "{call:?}");
    assert!(owned.parts() == lent.parts() && owned.parts() == bare, "{call:?}");
    assert!(said.is_ok() || *owned == before, "{call:?} was refused and changed something");
    assert!(![Err(Refusal::Tables), Err(Refusal::List)].contains(&said), "{call:?}");
    same_reads(owned, call);
    said
}

/// How many calls were placed, and how many refused.
fn run(seed: u64, calls: u32) -> (u32, u32) {
    let mut r = Random(seed);
    let mut tables = junk();
    let mut lent = Atlas::new(&mut *tables, size2(64, 64)).unwrap();
    let mut owned = Atlas::new(junk(), size2(64, 64)).unwrap();
    let mut bare = Box::new(owned.parts().clone());
    let (mut held, mut placed, mut refused) = (Vec::new(), 0, 0);
    for _ in 0..calls {
        let call = call(&mut r, owned.size(), &mut held);
        match on_all(&mut lent, &mut owned, &mut bare, call) {
            Ok(Some(allocation)) => {
                placed += 1;
                held.push(allocation.id);
            }
            Ok(None) if matches!(call, Call::Clear | Call::Renew(..)) => held.clear(),
            Ok(None) => {}
            Err(_) => refused += 1,
        }
    }
    (placed, refused)
}

#[test]
fn plain_reads_are_the_tested_ones() {
    let tallies: Vec<(u32, u32)> = (1..=12).map(|seed| run(seed, 800)).collect();
    let (placed, refused) = tallies.iter().fold((0, 0), |sum, tally| (sum.0 + tally.0, sum.1 + tally.1));
    assert!(placed > 2000 && refused > 500, "{placed} placed, {refused} refused");
}

/// README.md's boxed tables on a thread whose stack has not the room of one `Tables`: no call passes them through it.
#[test]
fn a_small_stack_will_do() {
    let small = std::thread::Builder::new().stack_size(48 * 1024);
    let thread = small.spawn(|| {
        let mut atlas = Atlas::new(boxed(), size2(512, 512))?;
        let label = atlas.allocate(size2(9, 14))?;
        atlas.grow(size2(600, 600))?;
        atlas.deallocate(label.id)?;
        atlas.clear()?;
        Ok::<bool, Refusal>(atlas.is_sound() && Atlas::from_parts(atlas.into_parts())?.is_empty())
    });
    assert_eq!(thread.unwrap().join().unwrap(), Ok(true));
}
