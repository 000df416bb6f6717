//! Document 01's trace replay on the model, of traces as long as T-05 takes them, with T-02's list beside it; with a look at the state after
//! each line for those who ask.

use crate::listed::Lent;
use crate::place::Placed;
use crate::tables::{Atlas, N};
use frames::Ends;
use std::io::{Result as Done, Write};

/// The entries of the replay's own list. Nothing else writes it, so no record is refused 21.
const LIST: usize = 65_536;

/// The last offset that is counted: no record ends past it.
const LAST: N = 4_294_967_295;

/// The list's test compares each pair of entries, and each entry with each bucket. Each record pays for so many comparisons, and a test is made
/// when enough are paid for: after each record where the list is short.
const PAID: usize = 50_000;

/// What to add to the output after each record, and the offset of the first one.
#[derive(Clone, Copy, Default)]
pub struct Watch {
    /// A line `unsound CLAUSE` where the tables test says no, `unfitting CLAUSE` where the list's does.
    pub sound: bool,
    /// The whole state.
    pub state: bool,
    /// The whole state behind the last line alone.
    pub last: bool,
    /// The picture behind the last line, where there is an atlas.
    pub picture: bool,
    pub from: u32,
}

pub fn replay(ends: &mut Ends, watch: Watch) -> Done<()> {
    let (mut lent, mut at, mut paid, mut bytes) = (None, N::from(watch.from), 0, [0; 25]);
    while let Some(taken) = take(ends, at, &mut bytes)? {
        let Some((kind, payload)) = taken else {
            writeln!(ends.output, "stop 14 {at}")?;
            break;
        };
        let line = step(&mut lent, kind, payload).unwrap_or_else(|number| format!("refused {number}"));
        writeln!(ends.output, "{line}")?;
        at += 4 + payload.len() as N;
        if let Some(lent) = &lent {
            look(&mut ends.output, lent, watch, &mut paid)?;
        }
    }
    if let Some(Lent { atlas, .. }) = lent {
        let state = if watch.last { atlas.to_string() } else { String::new() };
        let picture = if watch.picture { atlas.picture() } else { String::new() };
        write!(ends.output, "{state}{picture}")?;
    }
    Ok(())
}

fn look(out: &mut impl Write, Lent { atlas, list }: &Lent, watch: Watch, paid: &mut usize) -> Done<()> {
    if let (true, Err(clause)) = (watch.sound, atlas.sound()) {
        writeln!(out, "unsound {clause}")?;
    }
    *paid += PAID;
    let comparisons = atlas.entries() * (atlas.entries() / 2 + atlas.buckets.len());
    if watch.sound && comparisons <= *paid {
        *paid = 0;
        if let Err(clause) = atlas.fits(list) {
            writeln!(out, "unfitting {clause}")?;
        }
    }
    if watch.state {
        write!(out, "{atlas}")?;
    }
    Ok(())
}

fn number(bytes: &[u8]) -> N {
    bytes.iter().rev().fold(0, |n, &byte| n << 8 | N::from(byte))
}

/// The kind and the payload of the next record, which is at this offset; nothing in their place where it is malformed, nothing at all at the
/// end of the input.
fn take<'a>(ends: &mut Ends, at: N, bytes: &'a mut [u8; 25]) -> Done<Option<Option<(N, &'a [u8])>>> {
    const LENGTHS: [N; 6] = [23, 10, 6, 2, 10, 2];
    let there = ends.read(&mut bytes[..4])?;
    if there == 0 {
        return Ok(None);
    }
    let (length, kind) = (number(&bytes[..2]), number(&bytes[2..4]));
    let known = (1..=6).contains(&kind) && LENGTHS[kind as usize - 1] == length;
    if there < 4 || !known || at + 2 + length > LAST {
        return Ok(Some(None));
    }
    let payload = &mut bytes[4..2 + length as usize];
    let whole = ends.read(payload)? == payload.len();
    Ok(Some(whole.then_some((kind, &*payload))))
}

fn step(lent: &mut Option<Lent>, kind: N, payload: &[u8]) -> Result<String, u8> {
    let signed = |i: usize| number(&payload[4 * i..4 * i + 4]) as i32 as N;
    if kind == 1 {
        let (size, align) = ([signed(0), signed(1)], [signed(2), signed(3)]);
        let atlas = Atlas::new(size, align, signed(4), N::from(payload[20]))?;
        let list = lent.take().map_or_else(|| vec![Placed { id: 0, rectangle: [0; 4] }; LIST], |before| before.list);
        *lent = Some(Lent { atlas, list });
        return Ok("new ok".into());
    }
    let lent = lent.as_mut().ok_or(13)?;
    match kind {
        2 => {
            let placed = lent.allocate(signed(0), signed(1))?;
            let [x0, y0, x1, y1] = placed.rectangle;
            Ok(format!("alloc {} {x0} {y0} {x1} {y1}", placed.id))
        }
        3 => lent.deallocate(number(payload) as u32).map(|()| "dealloc ok".into()),
        4 => lent.clear().map(|()| "clear ok".into()),
        5 => lent.grow(signed(0), signed(1)).map(|()| "grow ok".into()),
        _ => Ok(format!("space {} {}", lent.atlas.occupied, lent.atlas.free())),
    }
}

#[cfg(test)]
mod tests {
    use super::*;

    fn replayed(trace: &[u8], from: u32) -> String {
        let mut out = Vec::new();
        let mut ends = Ends::new(trace, &mut out);
        replay(&mut ends, Watch { from, ..Watch::default() }).unwrap();
        drop(ends);
        String::from_utf8(out).unwrap()
    }

    /// A record of eight bytes that ends before the last offset, at it, and past it.
    #[test]
    fn offsets() {
        let back = [6, 0, 3, 0, 0, 16, 0, 0];
        let [at_it, past_it] = [LAST - 8, LAST - 7].map(|at| at as u32);
        assert_eq!(replayed(&back, at_it - 1), "refused 13\n");
        assert_eq!(replayed(&back, at_it), "refused 13\n");
        assert_eq!(replayed(&back, past_it), "stop 14 4294967288\n");
        assert_eq!(replayed(&[back, back].concat(), at_it), "refused 13\nstop 14 4294967295\n");
        assert_eq!(replayed(&back[..5], past_it), "stop 14 4294967288\n");
        assert_eq!(replayed(&[], u32::MAX), "");
    }

    #[test]
    fn cuts() {
        let new: Vec<u8> = [&[23, 0, 1, 0][..], &[64, 0, 0, 0].repeat(2), &[1, 0, 0, 0].repeat(3), &[0]].concat();
        let trace = [&new[..], &[10, 0, 2, 0, 10, 0, 0, 0, 7, 0, 0, 0]].concat();
        for length in 0..=trace.len() {
            let due = match length {
                0 => "",
                1..25 => "stop 14 0\n",
                25 => "new ok\n",
                26..37 => "new ok\nstop 14 25\n",
                _ => "new ok\nalloc 4097 32 0 42 8\n",
            };
            assert_eq!(replayed(&trace[..length], 0), due, "{length}");
        }
    }

    /// A short list's test is asked for after each record, a long one's after some.
    #[test]
    fn lists_that_do_not_fit() {
        for (width, labels, due) in [(64, 3, 6), (46_340, 400, 1)] {
            let mut lent = Lent { atlas: Atlas::new([width, 8], [1, 1], 1, 0).unwrap(), list: vec![Placed { id: 0, rectangle: [0; 4] }; labels] };
            (0..labels).for_each(|_| assert!(lent.allocate(1, 8).is_ok()));
            lent.list[0].rectangle = [0; 4];
            let (mut out, mut paid) = (Vec::new(), 0);
            (0..6).for_each(|_| look(&mut out, &lent, Watch { sound: true, ..Watch::default() }, &mut paid).unwrap());
            let told = String::from_utf8(out).unwrap();
            assert_eq!((told.lines().count(), told.starts_with("unfitting ")), (due, true), "{told}");
        }
    }
}
