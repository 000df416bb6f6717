//! The crate's atlas with a way back, since a call that panics may leave it half changed. A copy is made once in so many calls, and the calls
//! since then are made again on it; a copy before each call would cost more than the call.

use crate::panics::{guard, No};
use etagere::{AllocId, Allocation, BucketedAtlasAllocator, Size};

/// A call that changes the atlas.
#[derive(Clone, Copy)]
pub enum Call {
    Allocate(Size),
    Deallocate(u32),
    Clear,
    Grow(Size),
}

impl Call {
    /// What allocate gives; None of every other.
    fn on(self, atlas: &mut BucketedAtlasAllocator) -> Option<Allocation> {
        match self {
            Call::Allocate(size) => return atlas.allocate(size),
            Call::Deallocate(id) => atlas.deallocate(AllocId::deserialize(id)),
            Call::Clear => atlas.clear(),
            Call::Grow(size) => atlas.grow(size),
        }
        None
    }
}

/// The most calls between two copies.
const APART: usize = 256;

pub struct Undoable {
    atlas: BucketedAtlasAllocator,
    copy: BucketedAtlasAllocator,
    /// what was called since the copy
    since: Vec<Call>,
}

impl Undoable {
    pub fn new(atlas: BucketedAtlasAllocator) -> Undoable {
        Undoable { copy: atlas.clone(), atlas, since: Vec::new() }
    }

    pub fn atlas(&self) -> &BucketedAtlasAllocator {
        &self.atlas
    }

    /// A call that panics changes nothing.
    pub fn call(&mut self, allowed: &[u8], call: Call) -> Result<Option<Allocation>, No> {
        if self.since.len() == APART {
            self.copy = self.atlas.clone();
            self.since.clear();
        }
        let answer = guard(allowed, || call.on(&mut self.atlas));
        match answer {
            Ok(_) => self.since.push(call),
            Err(_) => self.undo(),
        }
        answer
    }

    /// What a call answers, with the atlas as it was whatever that is.
    pub fn asked(&self, allowed: &[u8], call: Call) -> Result<Option<Allocation>, No> {
        let mut copy = self.atlas.clone();
        guard(allowed, || call.on(&mut copy))
    }

    fn undo(&mut self) {
        for call in self.since.drain(..) {
            call.on(&mut self.copy);
        }
        self.atlas = self.copy.clone();
    }
}

#[cfg(test)]
mod tests {
    use super::*;
    use crate::panics::keep_quiet;
    use etagere::{size2, AllocatorOptions};

    fn picture(atlas: &BucketedAtlasAllocator) -> String {
        let mut drawn = Vec::new();
        atlas.dump_into_svg(None, &mut drawn).unwrap();
        String::from_utf8(drawn).unwrap()
    }

    /// Refusal 7 lays a filler and panics behind it. So many calls before it are undone to, or made again, on both sides of a copy.
    #[test]
    fn a_panic_changes_nothing() {
        keep_quiet();
        for before in [0, 1, APART - 5, APART - 4, APART - 3, 3 * APART] {
            let options = AllocatorOptions { alignment: size2(1, 1), vertical_shelves: false, num_columns: 5 };
            let mut undoable = Undoable::new(BucketedAtlasAllocator::with_options(size2(46_340, 9), &options));
            let mut plain = undoable.atlas.clone();
            for call in [Call::Allocate(size2(1, 2)); 4].into_iter().chain(vec![Call::Allocate(size2(46_341, 1)); before]) {
                let (answer, due) = (undoable.call(&[7], call).unwrap(), call.on(&mut plain));
                assert_eq!(answer.map(|a| (a.id, a.rectangle)), due.map(|a| (a.id, a.rectangle)));
            }
            for _ in 0..2 {
                assert!(matches!(undoable.call(&[7], Call::Allocate(size2(1, 2))), Err(No::Refused(7))));
                assert_eq!(picture(&undoable.atlas), picture(&plain), "{before}");
            }
            let (answer, due) = (undoable.call(&[], Call::Allocate(size2(9, 1))), plain.allocate(size2(9, 1)));
            assert_eq!(answer.unwrap().map(|a| a.id), due.map(|a| a.id));
        }
    }
}
