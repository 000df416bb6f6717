//! A panel's day in one trace, as long as is asked for and written as it is made: shell-scan tiles and printed temperatures that come and go,
//! some hundreds held at once, a report each minute, a grow, and what goes wrong now and then. Rows wear out over the day; where that leaves too
//! little room the panel starts anew.

use crate::maker::Maker;
use model::tables::N;
use std::io::{Result, Write};

const SIDES: [N; 2] = [1_024, 1_024];
const GROWN: [N; 2] = [2_048, 1_024];
const COLUMNS: N = 2;
/// The minute in which the second half of the texture is there.
const GROWN_AT: u32 = 40;
const TILES: usize = 48;

struct Day {
    maker: Maker,
    minute: u32,
    tiles: Vec<u32>,
    labels: Vec<u32>,
    /// how many labels the page on display has
    page: usize,
    asked: u32,
    refused: u32,
}

/// The trace of a seed: whole minutes, until there are so many bytes.
pub fn day(seed: u64, bytes: u64, out: &mut impl Write) -> Result<()> {
    let mut day = Day { maker: Maker::new(seed), minute: 0, tiles: vec![], labels: vec![], page: 300, asked: 0, refused: 0 };
    day.start();
    let mut written = 0;
    while written < bytes {
        day.pass();
        out.write_all(&day.maker.bytes)?;
        written += day.maker.bytes.len() as u64;
        day.maker.bytes.clear();
    }
    Ok(())
}

impl Day {
    fn start(&mut self) {
        self.maker.make((SIDES, [1, 1], COLUMNS, 0));
        self.minute = 0;
    }

    fn pass(&mut self) {
        (self.asked, self.refused) = (0, 0);
        if self.maker.random.percent(4) {
            self.page = self.maker.random.range(150, 500) as usize;
        }
        for _ in 0..self.maker.random.range(2, 8) {
            self.scan();
        }
        for _ in 0..self.maker.random.range(10, 40) {
            self.print();
        }
        self.go_wrong();
        self.maker.report();
        self.minute += 1;
        if self.minute == GROWN_AT {
            self.maker.grow(GROWN[0], GROWN[1]);
        }
        if self.refused * 8 > self.asked {
            self.start_anew();
        }
    }

    fn ask(&mut self, w: N, h: N) -> Option<u32> {
        let given = self.maker.alloc(w, h);
        self.asked += 1;
        self.refused += u32::from(given.is_none());
        given
    }

    /// A tile of the shell in the place of one of the oldest.
    fn scan(&mut self) {
        if self.tiles.len() >= TILES {
            let at = self.maker.random.range(0, 7) as usize;
            self.maker.give_back(self.tiles.remove(at));
        }
        let r = &mut self.maker.random;
        let (w, h) = (r.pick(&[64, 96, 128, 128, 160, 192]), r.pick(&[48, 64, 64, 72, 96]) + r.range(-3, 3));
        let tile = self.ask(w, h);
        self.tiles.extend(tile);
    }

    /// A temperature in the place of an older one, wherever it stands; a page of another size comes and goes by a few labels at a time.
    fn print(&mut self) {
        for _ in 0..2 {
            if self.labels.len() >= self.page {
                let at = self.maker.random.range(0, self.labels.len() as N - 1) as usize;
                self.maker.give_back(self.labels.swap_remove(at));
            }
        }
        let r = &mut self.maker.random;
        let (digits, high, more) = (r.range(2, 6), r.pick(&[12, 12, 14, 16, 16, 20, 24]), r.range(0, 4));
        let label = self.ask(digits * (high / 2 + 1) + more, high);
        self.labels.extend(label);
    }

    /// An id returned twice, a request that is too large or of no size, an id of nobody, a grow that would be none.
    fn go_wrong(&mut self) {
        let m = &mut self.maker;
        let surplus = m.stale.len().saturating_sub(1);
        m.stale.drain(..surplus);
        let (stale, nobody) = (m.stale.last().copied().unwrap_or(0), m.random.next() as u32);
        let (w, h) = (m.random.pick(&[0, 100, 513, 2_100, 70_000]), m.random.pick(&[16, 1_100]));
        match m.random.range(0, 99) {
            0..=5 => m.give_back(stale),
            6..=8 => drop(m.alloc(w, h)),
            9..=10 => m.give_back(nobody),
            11 => m.grow(512, 1_024),
            _ => (),
        }
    }

    fn start_anew(&mut self) {
        (self.tiles, self.labels) = (vec![], vec![]);
        if self.maker.random.percent(70) { self.maker.clear() } else { self.start() }
    }
}

#[cfg(test)]
mod tests {
    use super::*;
    use frames::Ends;
    use model::replay::{replay, Watch};

    fn made(seed: u64, bytes: u64) -> Vec<u8> {
        let mut trace = vec![];
        day(seed, bytes, &mut trace).unwrap();
        trace
    }

    #[test]
    fn the_same_each_time_and_as_long_as_asked() {
        let (whole, part) = (made(1, 200_000), made(1, 100_000));
        assert!(whole.starts_with(&part) && whole == made(1, 200_000) && whole != made(2, 200_000));
        assert!((200_000..202_000).contains(&whole.len()) && (100_000..102_000).contains(&part.len()));
    }

    /// Some hundreds are held, and of each hundred lines few are refusals; those that a day has are there.
    #[test]
    fn a_day_as_it_is() {
        let (trace, mut out) = (made(3, 600_000), vec![]);
        let mut ends = Ends::new(&trace[..], &mut out);
        replay(&mut ends, Watch::default()).unwrap();
        drop(ends);
        let (mut held, mut most, mut refused) = (0_i64, 0, 0);
        let lines = String::from_utf8(out).unwrap();
        for line in lines.lines() {
            held += i64::from(line.starts_with("alloc")) - i64::from(line.starts_with("dealloc"));
            held *= i64::from(!["new ok", "clear ok"].contains(&line));
            most = most.max(held);
            refused += usize::from(line.starts_with("refused"));
        }
        assert!((300..600).contains(&most) && refused * 50 < lines.lines().count(), "{most} held, {refused} refused");
        for due in ["grow ok", "clear ok", "space ", "refused 4\n", "refused 5\n", "refused 12\n", "refused 20\n", "refused 22\n", "refused 23\n"] {
            assert!(lines.contains(due), "{due}");
        }
        assert!(!lines.contains("stop") && !lines.contains("refused 13"));
    }
}
