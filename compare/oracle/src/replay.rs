//! Document 01's trace replay, of traces as long as T-05 of document 02 takes them: records in as they come, one line out for each.

use crate::atlas::{Atlas, New};
use crate::panics::No;
use etagere::{size2, Allocation};
use frames::Ends;
use std::fmt::{Display, Formatter};
use std::io::{Result, Write};

/// The last offset that is counted: no record ends past it.
const LAST: u64 = 4_294_967_295;

/// What is asked beside the lines.
#[derive(Clone, Copy, Default)]
pub struct Asked {
    /// The crate's own picture of the atlas, behind the last line.
    pub picture: bool,
    /// The offset of the first record.
    pub from: u32,
}

pub fn replay(ends: &mut Ends, asked: Asked) -> Result<()> {
    let (mut atlas, mut at, mut bytes) = (None, u64::from(asked.from), [0; 25]);
    loop {
        match next(ends, at, &mut bytes)? {
            Next::Record(size) => {
                line(&mut ends.output, answer(&mut atlas, bytes[2], &bytes[4..size]))?;
                at += size as u64;
            }
            Next::Malformed => {
                writeln!(ends.output, "stop 14 {at}")?;
                break;
            }
            Next::End => break,
        }
    }
    if let (true, Some(atlas)) = (asked.picture, &atlas) {
        ends.output.write_all(atlas.picture().as_bytes())?;
    }
    Ok(())
}

/// What the input has next.
enum Next {
    /// A well-formed record of so many bytes, its length and kind included.
    Record(usize),
    Malformed,
    End,
}

/// Reads no further than it must: four bytes tell an unknown kind, a wrong length and a record past the last offset.
fn next(ends: &mut Ends, at: u64, bytes: &mut [u8; 25]) -> Result<Next> {
    let size = match ends.read(&mut bytes[..4])? {
        0 => return Ok(Next::End),
        4 => size(&bytes[..4]).filter(|&size| at + size as u64 <= LAST),
        _ => None,
    };
    Ok(match size {
        Some(size) if ends.read(&mut bytes[4..size])? == size - 4 => Next::Record(size),
        _ => Next::Malformed,
    })
}

/// The size of the record that starts with this length and kind; None where they are not those of a record.
fn size(start: &[u8]) -> Option<usize> {
    let [length, kind] = [0, 2].map(|at| u16::from_le_bytes([start[at], start[at + 1]]));
    let right = match kind {
        1 => 23,
        2 | 5 => 10,
        3 => 6,
        4 | 6 => 2,
        _ => return None,
    };
    (length == right).then_some(2 + right as usize)
}

/// What a record that is not refused is answered with.
enum Answer {
    Done(&'static str),
    Placed(Allocation),
    Space(i32, i32),
}

impl Display for Answer {
    fn fmt(&self, f: &mut Formatter) -> std::fmt::Result {
        match self {
            Answer::Done(line) => f.write_str(line),
            Answer::Placed(Allocation { id, rectangle: r }) => {
                write!(f, "alloc {} {} {} {} {}", id.serialize(), r.min.x, r.min.y, r.max.x, r.max.y)
            }
            Answer::Space(occupied, free) => write!(f, "space {occupied} {free}"),
        }
    }
}

fn line(out: &mut impl Write, answer: std::result::Result<Answer, No>) -> Result<()> {
    match answer {
        Ok(answer) => writeln!(out, "{answer}"),
        Err(No::Refused(number)) => writeln!(out, "refused {number}"),
        Err(No::Panic(message)) => writeln!(out, "panic {message}"),
    }
}

fn i32_at(payload: &[u8], index: usize) -> i32 {
    i32::from_le_bytes(payload[4 * index..4 * index + 4].try_into().unwrap())
}

fn answer(atlas: &mut Option<Atlas>, kind: u8, payload: &[u8]) -> std::result::Result<Answer, No> {
    let number = |index| i32_at(payload, index);
    if kind == 1 {
        *atlas = Some(Atlas::new(read_new(payload))?);
        return Ok(Answer::Done("new ok"));
    }
    let atlas = atlas.as_mut().ok_or(No::Refused(13))?;
    Ok(match kind {
        2 => Answer::Placed(atlas.allocate(size2(number(0), number(1)))?),
        3 => atlas.deallocate(number(0) as u32).map(|()| Answer::Done("dealloc ok"))?,
        4 => atlas.clear().map(|()| Answer::Done("clear ok"))?,
        5 => atlas.grow(number(0), number(1)).map(|()| Answer::Done("grow ok"))?,
        _ => atlas.space().map(|(occupied, free)| Answer::Space(occupied, free))?,
    })
}

fn read_new(payload: &[u8]) -> New {
    let number = |index| i32_at(payload, index);
    New {
        size: size2(number(0), number(1)),
        alignment: size2(number(2), number(3)),
        columns: number(4),
        vertical: payload[20],
    }
}

#[cfg(test)]
mod tests {
    use super::*;

    const CLEAR: [u8; 4] = [2, 0, 4, 0];
    const RETURN: [u8; 8] = [6, 0, 3, 0, 0, 16, 0, 0];

    fn replayed(trace: &[u8], from: u32) -> String {
        let mut out = Vec::new();
        let mut ends = Ends::new(trace, &mut out);
        replay(&mut ends, Asked { from, ..Asked::default() }).unwrap();
        drop(ends);
        String::from_utf8(out).unwrap()
    }

    #[test]
    fn the_last_offset() {
        let trace = [&CLEAR[..], &RETURN].concat();
        for (past, due) in [
            (0, "refused 13\nrefused 13\n"),
            (1, "refused 13\nstop 14 4294967288\n"),
            (8, "refused 13\nstop 14 4294967295\n"),
            (9, "stop 14 4294967292\n"),
        ] {
            assert_eq!(replayed(&trace, u32::MAX - 12 + past), due);
        }
        assert_eq!(replayed(&[], u32::MAX), "");
        assert_eq!(replayed(&CLEAR, u32::MAX), "stop 14 4294967295\n");
    }

    #[test]
    fn malformed_records() {
        for (bytes, due) in [
            (&[2, 0, 7, 0][..], "refused 13\nstop 14 4\n"),
            (&[3, 0, 4, 0, 0], "refused 13\nstop 14 4\n"),
            (&[2, 1, 4, 0], "refused 13\nstop 14 4\n"),
            (&[2, 0, 4, 1], "refused 13\nstop 14 4\n"),
            (&[2, 0, 4], "refused 13\nstop 14 4\n"),
            (&[2], "refused 13\nstop 14 4\n"),
            (&RETURN[..7], "refused 13\nstop 14 4\n"),
            (&RETURN, "refused 13\nrefused 13\n"),
        ] {
            assert_eq!(replayed(&[&CLEAR[..], bytes].concat(), 0), due, "{bytes:?}");
        }
    }

    /// Gives two good records and a damaged one, four bytes at a time, and must not be asked for more.
    struct Watched(Vec<u8>);

    impl std::io::Read for Watched {
        fn read(&mut self, into: &mut [u8]) -> Result<usize> {
            assert!(!self.0.is_empty(), "asked for more than tells the stop");
            into[..4].copy_from_slice(&self.0.drain(..4).collect::<Vec<_>>());
            Ok(4)
        }
    }

    #[test]
    fn a_stop_is_told_by_four_bytes() {
        for (damaged, from) in [([2, 0, 7, 0], 0), ([3, 0, 4, 0], 0), ([6, 0, 3, 0], u32::MAX - 15)] {
            let mut out = Vec::new();
            let mut ends = Ends::new(Watched([CLEAR, CLEAR, damaged].concat()), &mut out);
            replay(&mut ends, Asked { from, ..Asked::default() }).unwrap();
            drop(ends);
            assert_eq!(String::from_utf8(out).unwrap(), format!("refused 13\nrefused 13\nstop 14 {}\n", from + 8));
        }
    }
}
