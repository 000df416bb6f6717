//! A trace in the making: each call adds its record and is made on the model, which tells the ids.

use crate::random::Random;
use model::tables::{Atlas, N};

/// The entries of the list that a replay lends.
pub const LIST: usize = 65_536;

/// What new is given: width, height, two alignments, columns, vertical.
pub type New = ([N; 2], [N; 2], N, u8);

pub struct Maker {
    pub random: Random,
    pub bytes: Vec<u8>,
    pub atlas: Option<Atlas>,
    pub held: Vec<u32>,
    pub stale: Vec<u32>,
}

impl Maker {
    pub fn new(seed: u64) -> Maker {
        Maker { random: Random(seed), bytes: vec![], atlas: None, held: vec![], stale: vec![] }
    }

    fn record(&mut self, kind: u16, numbers: &[N], tail: &[u8]) {
        let length = (2 + 4 * numbers.len() + tail.len()) as u16;
        self.bytes.extend(length.to_le_bytes());
        self.bytes.extend(kind.to_le_bytes());
        self.bytes.extend(numbers.iter().flat_map(|&n| (n as i32).to_le_bytes()));
        self.bytes.extend(tail);
    }

    /// Every id so far is stale from here on; a few are kept to be returned all the same.
    fn forget(&mut self) {
        self.stale.append(&mut self.held);
        let surplus = self.stale.len().saturating_sub(64);
        self.stale.drain(..surplus);
    }

    pub fn make(&mut self, (size, align, columns, vertical): New) {
        self.record(1, &[size[0], size[1], align[0], align[1], columns], &[vertical]);
        if let Ok(atlas) = Atlas::new(size, align, columns, vertical.into()) {
            self.atlas = Some(atlas);
            self.forget();
        }
    }

    pub fn alloc(&mut self, w: N, h: N) -> Option<u32> {
        self.record(2, &[w, h], &[]);
        if self.held.len() == LIST {
            return None;
        }
        let placed = self.atlas.as_mut()?.allocate(w, h).ok()?;
        self.held.push(placed.id);
        Some(placed.id)
    }

    pub fn give_back(&mut self, id: u32) {
        self.record(3, &[id.into()], &[]);
        // an id that is not held is refused, whatever its bucket
        let (Some(at), Some(atlas)) = (self.held.iter().position(|&h| h == id), self.atlas.as_mut()) else { return };
        atlas.deallocate(id).expect("it is held");
        self.held.swap_remove(at);
        self.stale.push(id);
    }

    pub fn clear(&mut self) {
        self.record(4, &[], &[]);
        if let Some(atlas) = self.atlas.as_mut() {
            atlas.clear();
            self.forget();
        }
    }

    pub fn grow(&mut self, width: N, height: N) {
        self.record(5, &[width, height], &[]);
        if let Some(atlas) = self.atlas.as_mut() {
            let _ = atlas.grow(width, height);
        }
    }

    pub fn report(&mut self) {
        self.record(6, &[], &[]);
    }

    pub fn raw(&mut self, bytes: &[u8]) {
        self.bytes.extend(bytes);
    }

    /// Width, height and column width, or small numbers where there is no atlas.
    pub fn sides(&self) -> [N; 3] {
        self.atlas.as_ref().map_or([64, 64, 64], |a| [a.width, a.height, a.column_width])
    }
}
