//! Demand 3's history, from the calls' answers alone: what is held, and the figure, "for each bucket with a held rectangle, the areas
//! issued from it since it last had none". No table is looked at. From a list lent anew on its entries are held; the areas stay.

use crate::port::Held;
use std::collections::BTreeMap;
use treadwharf::{AllocId, Allocation, Rectangle, Size};

#[derive(Clone, Default)]
pub struct History {
    pub held: Vec<Allocation>,
    /// of each bucket with a held rectangle: how many, and the areas
    buckets: BTreeMap<u32, (u32, u32)>,
}

fn bucket(id: AllocId) -> u32 {
    id.serialize() & 4095
}

fn apart(a: &Rectangle, b: &Rectangle) -> bool {
    a.right <= b.left || b.right <= a.left || a.bottom <= b.top || b.bottom <= a.top
}

impl History {
    pub fn issued(&mut self, a: Allocation) {
        let (count, area) = self.buckets.entry(bucket(a.id)).or_default();
        (*count, *area) = (*count + 1, *area + a.rectangle.area());
        self.held.push(a);
    }

    pub fn returned(&mut self, index: usize) {
        let key = bucket(self.held.swap_remove(index).id);
        let (count, _) = self.buckets.get_mut(&key).unwrap();
        *count -= 1;
        if *count == 0 {
            self.buckets.remove(&key);
        }
    }

    pub fn ended(&mut self) {
        *self = History::default();
    }

    /// T-02: the list "says what is held from there on, its entries standing for what was issued; only the areas in demand 3's figure stay".
    pub fn lent(&mut self, list: &[Held]) {
        self.held = list.iter().map(|e| e.allocation()).collect();
        let mut counts: BTreeMap<u32, u32> = BTreeMap::new();
        self.held.iter().for_each(|a| *counts.entry(bucket(a.id)).or_default() += 1);
        let before: BTreeMap<u32, u32> = self.buckets.iter().map(|(bucket, (count, _))| (*bucket, *count)).collect();
        assert_eq!(counts, before, "DIFFERENCE: a list that fits has other numbers of entries than were held");
    }

    /// T-02: "After each call the list has exactly the held rectangles, as issued, with their ids."
    pub fn is_in(&self, list: &[Held]) {
        let (mut held, mut listed) = (self.held.iter().copied().map(Held::of).collect::<Vec<_>>(), list.to_vec());
        held.sort();
        listed.sort();
        assert!(held == listed, "DIFFERENCE: the list is not what is held, {} entries of {}", list.len(), self.held.len());
    }

    pub fn holds(&self, id: AllocId) -> bool {
        self.held.iter().any(|a| a.id == id)
    }

    /// The figure that an atlas says is the history's; what is held lies inside its sides and apart, no id twice.
    pub fn meets(&self, figure: u32, size: Size, whole: bool) {
        assert_eq!(figure, self.buckets.values().map(|(_, area)| area).sum::<u32>(), "DIFFERENCE: the figure, of the history");
        for (i, a) in self.held.iter().enumerate().filter(|_| whole) {
            let r = &a.rectangle;
            let inside = 0 <= r.left && r.left < r.right && r.right <= size.width && 0 <= r.top && r.top < r.bottom && r.bottom <= size.height;
            assert!(inside, "DIFFERENCE: {a:?} is held, and not inside");
            let others = self.held[..i].iter().all(|b| a.id != b.id && apart(r, &b.rectangle));
            assert!(others, "DIFFERENCE: {a:?} is held, and shares an id or a pixel");
        }
    }
}
