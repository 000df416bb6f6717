//! The crate with document 02's patches and as it is (`unpatched`), behind one trait, for tests of where the two part.

use etagere::size2;

/// An id, and left, top, right, bottom.
pub type Placed = (u32, [i32; 4]);

pub trait Atlas: Sized {
    fn made(sides: [i32; 2], align_width: i32, columns: i32) -> Self;
    fn place(&mut self, width: i32, height: i32) -> Option<Placed>;
    fn give_back(&mut self, id: u32);

    /// The bucket that the next label of this size goes to.
    fn bucket(&mut self, width: i32, height: i32) -> u32 {
        self.place(width, height).expect("a place").0 & 4_095
    }
}

macro_rules! atlas {
    ($part:ident) => {
        impl Atlas for $part::BucketedAtlasAllocator {
            fn made(sides: [i32; 2], align_width: i32, columns: i32) -> Self {
                let options = $part::AllocatorOptions { alignment: size2(align_width, 1), vertical_shelves: false, num_columns: columns };
                Self::with_options(size2(sides[0], sides[1]), &options)
            }

            fn place(&mut self, width: i32, height: i32) -> Option<Placed> {
                let given = self.allocate(size2(width, height))?;
                let (min, max) = (given.rectangle.min, given.rectangle.max);
                Some((given.id.serialize(), [min.x, min.y, max.x, max.y]))
            }

            fn give_back(&mut self, id: u32) {
                self.deallocate($part::AllocId::deserialize(id));
            }
        }
    };
}
atlas!(etagere);
atlas!(unpatched);

pub type Patched = etagere::BucketedAtlasAllocator;
pub type AsItIs = unpatched::BucketedAtlasAllocator;
