//! The list's test: labels held in one atlas, after some were handed back and others placed. The calls on it, and the tests of its list as the
//! calls left it and in another order.
use crate::harness::{Bench, Case, Sides};
use crate::{answer, measure, steps, Both, Port, Random, Step};
use treadwharf::{Atlas, Held};

const SIDE: i32 = 4096;
const HELD: [usize; 3] = [100, 1000, 4000];

/// Placed, a quarter handed back, picked by chance, and as many placed anew.
fn made(r: &mut Random, held: usize) -> Both {
    let mut both = Both::new(SIDE, SIDE).fill(r, held, 100);
    for _ in 0..held / 4 {
        both.give(r.below(both.held.len() as u64) as usize);
    }
    let both = both.fill(r, held, 100);
    assert_eq!((both.held.len(), both.port.held().len()), (held, held));
    both
}

/// Bucket by bucket, and in each from left to right with rising item numbers.
fn in_order(list: &[Held]) -> bool {
    let place = |entry: &Held| (entry.id.serialize() & 0xfff, entry.left);
    let item = |entry: &Held| entry.id.serialize() >> 12 & 0xfff;
    list.windows(2).all(|two| {
        let (one, other) = (&two[0], &two[1]);
        place(one) < place(other) && (place(one).0 != place(other).0 || item(one) < item(other))
    })
}

/// The same atlas with its list in another order.
fn shuffled(atlas: &Port, r: &mut Random) -> Port {
    let mut list = atlas.held().to_vec();
    for last in (1..list.len()).rev() {
        list.swap(last, r.below(last as u64 + 1) as usize);
    }
    assert!(in_order(atlas.held()) && !in_order(&list));
    let mut tables = atlas.clone().into_parts();
    tables.lend(&list).expect("a list fits in any order");
    assert_eq!(tables.held().expect("the list that was lent"), list);
    Atlas::from_parts(tables).expect("a list that fits")
}

/// No call is refused.
fn accepted(atlas: &Port, calls: &[Step]) -> bool {
    let mut atlas = atlas.clone();
    calls.iter().all(|call| answer(&mut atlas, call, SIDE).is_ok())
}

/// One call is accepted and answered the same whatever the order of the list, and leaves the same held.
fn same(atlas: &Port, other: &Port, call: &Step) -> bool {
    let after = |atlas: &Port| {
        let mut atlas = atlas.clone();
        let answer = answer(&mut atlas, call, SIDE).ok();
        let mut held = atlas.held().to_vec();
        held.sort_by_key(|entry| entry.id.serialize());
        (answer, held)
    };
    after(atlas).0.is_some() && after(atlas) == after(other)
}

fn measured(bench: &mut Bench, held: usize) {
    let mut r = Random(0x1234_5678_9abc_def1);
    let both = made(&mut r, held);
    let other = shuffled(&both.port, &mut r);
    for op in ["allocate", "deallocate", "size"] {
        let steps = steps(op, &both, &mut r);
        assert!(accepted(&both.port, &steps) && same(&both.port, &other, &steps[0]), "{held} held: {op}");
        measure(bench, &format!("held-{held}/{op}"), &both, &steps);
    }
    assert!(both.port.fits() && other.fits());
    let fits = |a: &mut Port| a.fits().into();
    let sound = |a: &mut Port| a.is_sound().into();
    let sized = |a: &mut Port| a.parts().size().is_ok_and(|size| size == a.size()).into();
    let sides = Sides { states: (&both.port, &other), first: &fits, others: [&sized, &sound, &fits] };
    bench.case(Case::of(&format!("{SIDE}/held-{held}/list"), 1, &both.port), sides);
}

pub fn all(asked: Option<&str>) {
    let mut bench = Bench::new();
    for held in HELD.into_iter().filter(|held| asked.is_none_or(|word| word == held.to_string())) {
        measured(&mut bench, held);
    }
}
