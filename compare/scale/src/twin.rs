//! Write and read on the port and on the model: the same answer, the same bytes, the same tables. What is lent stands twice: to one the
//! port writes, to the other what must stand there then, and the two are compared whole, past the file and past the counts too.

use crate::listing::made_up;
use crate::port::{Tables, FILE_MOST};
use crate::repair::repaired;
use crate::tables::{junk, lent_of, put};
use model::listed::Lent;
use model::tables::Atlas as Model;
use std::collections::BTreeMap;

/// The most bytes that a file takes, and some more.
const ROOM: usize = FILE_MOST + 500;

/// The buffers that a write is lent; earlier files are still in them.
struct Buffers {
    port: Vec<u8>,
    due: Vec<u8>,
}

/// By refusal number, and at 0 what was accepted.
pub type Answers = [u64; 24];

pub struct Twin {
    pub port: Box<Tables>,
    due: Box<Tables>,
    buffers: Buffers,
    pub writes: Answers,
    pub reads: Answers,
    /// accepted reads in which something was repaired
    pub repaired: u64,
    /// refused reads by what was amiss
    pub amiss: BTreeMap<&'static str, u64>,
}

fn copy(from: &Tables, to: &mut Tables) {
    to.header = from.header;
    to.shelves.copy_from_slice(&from.shelves);
    to.buckets.copy_from_slice(&from.buckets);
    to.list.clone_from(&from.list);
}

/// A difference over a file, which is kept for a second look.
fn differ(what: String, file: &[u8]) -> ! {
    let kept = std::env::temp_dir().join("difference.file");
    let place = if std::fs::write(&kept, file).is_ok() { format!(", kept in {}", kept.display()) } else { String::new() };
    panic!("DIFFERENCE: {what}; a file of {} bytes{place}", file.len());
}

impl Buffers {
    /// Tables, and the model's word for them and for their list, into so many bytes that have others in them.
    fn write(&mut self, tables: &Tables, model: &Model, tested: Result<(), u8>, length: usize) -> Result<usize, u32> {
        let said = tables.write(&mut self.port[..length]);
        // 1 is the write's own word
        let due = if tested == Err(21) { Err(21) } else { model.write(&mut self.due[..length]).map_err(u32::from) };
        if said != due {
            differ(format!("a write into {length} bytes, the port {said:?}, the model {due:?}"), &model.file());
        }
        let seen = ..ROOM.min(length + 400);
        if self.port[seen] != self.due[seen] {
            differ(format!("the buffer of {length} bytes after a write that said {said:?}"), &self.port[..length]);
        }
        said
    }
}

impl Twin {
    pub fn new() -> Twin {
        let junk_bytes: Vec<u8> = (0..ROOM).map(|i| (i * 157) as u8).collect();
        let buffers = Buffers { port: junk_bytes.clone(), due: junk_bytes };
        Twin { port: junk(), due: junk(), buffers, writes: [0; 24], reads: [0; 24], repaired: 0, amiss: BTreeMap::new() }
    }

    /// Other tables are lent from here on, these numbers in them.
    pub fn lend(&mut self, tables: &Tables) {
        copy(tables, &mut self.port);
        copy(tables, &mut self.due);
    }

    /// The lent tables as they are. Others are given in their place.
    pub fn take(&mut self) -> Box<Tables> {
        std::mem::take(&mut self.port)
    }

    pub fn give(&mut self, tables: Box<Tables>) {
        copy(&tables, &mut self.due);
        self.port = tables;
    }

    pub fn write(&mut self, tables: &Tables, lent: &Lent, length: usize) -> Result<usize, u32> {
        let said = self.buffers.write(tables, &lent.atlas, lent.tested(), length);
        self.writes[said.err().unwrap_or(0) as usize] += 1;
        said
    }

    /// The file of an atlas, from a buffer that has `spare` bytes more; one that lacks `less` bytes is refused.
    pub fn file(&mut self, tables: &Tables, spare: usize, less: usize) -> (Vec<u8>, Model) {
        let lent = lent_of(tables);
        let length = 37 + 14 * lent.atlas.shelves.len() + 18 * lent.atlas.buckets.len();
        assert_eq!(self.write(tables, &lent, length.saturating_sub(less.max(1))), Err(18), "DIFFERENCE: a buffer too short");
        assert_eq!(self.write(tables, &lent, length + spare), Ok(length), "DIFFERENCE: how long a file is");
        (self.buffers.port[..length].to_vec(), lent.atlas)
    }

    /// A file, or what is none, into the lent tables. What is accepted is what a write makes of it, but for the repair, with a list that fits lent beside
    /// it; where the tables are such that none does, the write is 21.
    pub fn read(&mut self, file: &[u8]) -> Result<(), u32> {
        let due = Model::read_telling(file);
        let said = self.port.read(file);
        if said.err() != due.as_ref().err().map(|(n, _)| u32::from(*n)) {
            differ(format!("a read, the port {said:?}, the model {:?}", due.map(|_| ())), file);
        }
        if let Ok(model) = &due {
            put(&mut self.due, model);
            let list = made_up(model);
            let tested = list.as_ref().map(|_| ()).ok_or(21);
            self.port.list = list.unwrap_or_default();
            self.due.list.clone_from(&self.port.list);
            let again = self.buffers.write(&self.port, model, tested, file.len());
            let bytes = repaired(file);
            if tested.is_ok() && (again != Ok(file.len()) || self.buffers.port[..file.len()] != bytes) {
                differ("the bytes that were read, repaired, are not those that are written again".to_string(), file);
            }
            self.repaired += u64::from(bytes != *file);
        }
        if self.port != self.due {
            differ(format!("the lent tables after a read that said {said:?}"), file);
        }
        self.reads[said.err().unwrap_or(0) as usize] += 1;
        if let Err((_, what)) = due {
            *self.amiss.entry(what).or_default() += 1;
        }
        said
    }
}
