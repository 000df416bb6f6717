//! The files of ../sample/files, which every later build must answer for: read as they stand but for T-08's repair, and gone on with. Calls are made on the
//! port and on the model, side by side, with a list that fits lent anew; each answer is compared, and all of the tables and the list.

use crate::broken::{get, records};
use crate::listing::others;
use crate::port::Tables;
use crate::random::Random;
use crate::tables::{held, junk, junk_list, lent_of, model_of, placed};
use crate::twin::Twin;
use model::listed::Lent;
use model::tables::Atlas as Model;
use std::fmt::Debug;
use std::fs;
use std::path::{Path, PathBuf};
use treadwharf::{size2, AllocId};

/// Calls on each kept file, some of them made twice.
pub const TURNS: usize = 400;

fn bytes(text: &str) -> Vec<u8> {
    let byte = |pair: &str| u8::from_str_radix(pair, 16).unwrap();
    text.lines().flat_map(|line| (0..line.len() / 2).map(move |i| byte(&line[2 * i..2 * i + 2]))).collect()
}

/// A kept file, and what a write makes of it once it is read: NAME.read beside NAME.hex, or where there is none the file itself.
#[derive(PartialEq, Eq, PartialOrd, Ord)]
pub struct Kept {
    pub name: String,
    pub file: Vec<u8>,
    pub read: Vec<u8>,
}

fn paths(folder: &Path) -> impl Iterator<Item = PathBuf> {
    fs::read_dir(folder).unwrap().map(|entry| entry.unwrap().path())
}

fn files() -> Vec<PathBuf> {
    let folder = Path::new(env!("CARGO_MANIFEST_DIR")).join("../sample/files");
    paths(&folder).flat_map(|build| paths(&build)).filter(|path| path.extension().is_some_and(|end| end == "hex")).collect()
}

/// The kept files of every build, by build and name.
pub fn kept() -> Vec<Kept> {
    let taken = |path: &Path| fs::read_to_string(path).ok().map(|text| bytes(&text));
    let one = |path: PathBuf| {
        let file = taken(&path).unwrap();
        Kept { name: path.display().to_string(), read: taken(&path.with_extension("read")).unwrap_or(file.clone()), file }
    };
    let mut all: Vec<Kept> = files().into_iter().map(one).collect();
    all.sort();
    all
}

/// Writes NAME.read beside each kept file that the model reads otherwise than it stands.
pub fn outcomes() {
    for path in files() {
        let file = bytes(&fs::read_to_string(&path).unwrap());
        let read = Model::read(&file).unwrap().file();
        if read != file {
            fs::write(path.with_extension("read"), lines(&read)).unwrap();
        }
    }
}

/// A file in hex, a record a line.
pub fn lines(file: &[u8]) -> String {
    let line = |record: &Vec<u8>| record.iter().map(|byte| format!("{byte:02x}")).collect::<String>() + "\n";
    records(file).iter().map(line).collect()
}

/// The numbers of the records of a kind, one after another.
fn numbers(file: &[u8], kind: u8) -> Vec<u16> {
    let of_kind = records(file).into_iter().filter(|record| record[2] == kind);
    of_kind.flat_map(|record| (4..record.len()).step_by(2).map(move |at| get(&record, at)).collect::<Vec<_>>()).collect()
}

/// A file's atlas on both sides.
struct GoingOn<'a> {
    name: &'a str,
    port: Box<Tables>,
    lent: Lent,
    r: &'a mut Random,
    calls: u64,
}

/// A file read, and so many turns on it. Tells the calls.
pub fn go_on(Kept { name, file, read }: &Kept, turns: usize, twin: &mut Twin, r: &mut Random) -> u64 {
    assert_eq!(twin.read(file), Ok(()), "DIFFERENCE: {name}");
    let mut port = junk();
    port.read(file).unwrap();
    let [shelves, buckets] = [17, 18].map(|kind| numbers(read, kind));
    assert!(port.shelves.starts_with(&shelves) && port.buckets.starts_with(&buckets), "DIFFERENCE: {name} is read otherwise");
    assert_eq!([port.header[8], port.header[9]].map(|n| n as usize), [shelves.len() / 5, buckets.len() / 7], "DIFFERENCE: the counts of {name}");
    let lent = Lent { atlas: Model::read(file).unwrap(), list: Vec::new() };
    let mut both = GoingOn { name, port, lent, r, calls: 0 };
    both.lend();
    for _ in 0..turns {
        both.turn(twin);
    }
    both.calls
}

impl GoingOn<'_> {
    /// A list that fits, of rectangles and item numbers that were never issued.
    fn lend(&mut self) {
        let entries = others(&self.lent.atlas, self.r).expect("labels have pixels");
        let more = junk_list(self.r.one_of(&[1, 20, 2_000]));
        self.port.list = [entries, more].concat();
        self.lent.list = self.port.list.iter().copied().map(placed).collect();
    }

    fn turn(&mut self, twin: &mut Twin) {
        match self.r.from(0, 99) {
            0..=1 => self.grow(),
            2..=7 => self.restart(twin),
            8..=60 => self.allocate(),
            _ => self.deallocate(),
        }
    }

    fn allocate(&mut self) {
        let (column, height) = (self.lent.atlas.column_width as i32, self.lent.atlas.height as i32);
        let width = self.r.one_of(&[1, 8, column / 4, column / 2, column, column / 33]).max(1);
        let size = size2(width, self.r.one_of(&[1, 7, 8, 20, height / 4, height]).max(1));
        self.call(|t| t.allocate(size), |l| l.allocate(size.width.into(), size.height.into()).map(|p| held(&p).allocation()));
    }

    /// Mostly what is held, now and then a second time.
    fn deallocate(&mut self) {
        let entries = self.port.entries().max(1) as u64;
        let id = self.port.list[(self.r.next() % entries) as usize].id;
        for _ in 0..self.r.one_of(&[1, 1, 1, 2]) {
            self.call(|t| t.deallocate(AllocId::deserialize(id)), |l| l.deallocate(id));
        }
    }

    fn grow(&mut self) {
        let [width, height] = [self.lent.atlas.width, self.lent.atlas.height].map(|side| side + i64::from(self.r.one_of(&[0, 0, 1, 8, 33])));
        self.call(|t| t.grow(size2(width as i32, height as i32)), |l| l.grow(width, height));
    }

    /// Written, and read back.
    fn restart(&mut self, twin: &mut Twin) {
        let (file, written) = twin.file(&self.port, 0, 1);
        assert_eq!((twin.read(&file), self.port.read(&file)), (Ok(()), Ok(())), "DIFFERENCE: {} written again", self.name);
        assert!(written == self.lent.atlas && model_of(&self.port) == written, "DIFFERENCE: the tables of {} written and read", self.name);
        self.lend();
        self.calls += 2;
    }

    fn call<T: PartialEq + Debug>(&mut self, port: impl FnOnce(&mut Tables) -> Result<T, u32>, model: impl FnOnce(&mut Lent) -> Result<T, u8>) {
        let (before, name) = (self.port.clone(), self.name);
        let (said, due) = (port(&mut self.port), self.lent.call(model).map_err(u32::from));
        assert_eq!(said, due, "DIFFERENCE from the model, on {name}");
        assert!(lent_of(&self.port) == self.lent, "DIFFERENCE from the model in tables or list, on {name}, after {said:?}");
        assert!(said.is_ok() || *self.port == *before, "DIFFERENCE: a refusal changed something, on {name}: {said:?}");
        self.calls += 1;
    }
}
