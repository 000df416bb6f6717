//! T-02's calls: those of `calls` and `files` with the list lent beside the tables. `call` tests both first, 1 and then 21; the calls by
//! themselves are for a list that is known to fit. Reading takes no list.

use crate::held::{enter, leave};
use crate::place::Placed;
use crate::tables::{Atlas, N};

/// What is lent. `list` is all of it, past the entries in use too.
#[derive(Clone, Debug, PartialEq)]
pub struct Lent {
    pub atlas: Atlas,
    pub list: Vec<Placed>,
}

impl Lent {
    /// Tables, then list.
    pub fn tested(&self) -> Result<(), u8> {
        self.atlas.sound().map_err(|_| 1)?;
        self.atlas.fits(&self.list).map_err(|_| 21)
    }

    /// 1, 21, then what the call says.
    pub fn call<T>(&mut self, call: impl FnOnce(&mut Lent) -> Result<T, u8>) -> Result<T, u8> {
        self.tested()?;
        call(self)
    }

    /// 19 is of a request that would be placed.
    pub fn allocate(&mut self, w: N, h: N) -> Result<Placed, u8> {
        let count = self.atlas.entries();
        if count == self.list.len() {
            return Err(self.atlas.clone().allocate(w, h).err().unwrap_or(19));
        }
        let placed = self.atlas.allocate(w, h)?;
        enter(&mut self.list, count, self.atlas.place_in_list(placed.id), placed);
        Ok(placed)
    }

    /// 20 is of an id that would be taken back without the list. The whole id is looked for, its item bits too.
    pub fn deallocate(&mut self, id: u32) -> Result<(), u8> {
        let count = self.atlas.entries();
        let Some(place) = self.list[..count].iter().position(|e| e.id == id) else {
            return Err(self.atlas.clone().deallocate(id).err().unwrap_or(20));
        };
        self.atlas.deallocate(id)?;
        leave(&mut self.list, count, place);
        Ok(())
    }

    /// No entry is in use after it.
    pub fn clear(&mut self) -> Result<(), u8> {
        self.atlas.clear();
        Ok(())
    }

    pub fn grow(&mut self, width: N, height: N) -> Result<(), u8> {
        self.atlas.grow(width, height)
    }

    /// Refused, atlas and list stay.
    pub fn renew(&mut self, size: [N; 2], align: [N; 2], columns: N, vertical: N) -> Result<(), u8> {
        self.atlas = Atlas::new(size, align, columns, vertical)?;
        Ok(())
    }
}
