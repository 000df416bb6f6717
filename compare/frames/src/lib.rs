//! How a replaying program is given its traces: one (a file or standard input), read as it comes, or with --many a whole batch,
//! each trace behind its u32 length, little-endian; the outputs then go out framed in the same way.

use std::fs::File;
use std::io::{copy, sink, stdin, stdout, BufReader, BufWriter, ErrorKind, Read, Result, Write};

/// The command line: options of those that are known, and at most one file.
pub struct Options {
    given: Vec<String>,
    file: Option<String>,
}

fn fail(message: String) -> ! {
    eprintln!("{message}");
    std::process::exit(2)
}

impl Options {
    /// Ends the program on a word that it does not know. An option that takes a number is known by its name and an equals sign.
    pub fn read(known: &[&str]) -> Options {
        let (given, mut files): (Vec<_>, Vec<_>) = std::env::args().skip(1).partition(|a| a.starts_with("--"));
        let is_known = |a: &str| known.iter().any(|k| if k.ends_with('=') { a.starts_with(k) } else { a == *k });
        if let Some(word) = given.iter().find(|a| !is_known(a)).or(files.get(1)) {
            fail(format!("{word}? options: {}, then at most one file", known.join(" ")));
        }
        Options { given, file: files.pop() }
    }

    pub fn has(&self, option: &str) -> bool {
        self.given.iter().any(|a| a == option)
    }

    /// The number behind an option's name; 0 where it is not given.
    pub fn number(&self, option: &str) -> u32 {
        let word = self.given.iter().find_map(|a| a.strip_prefix(option)).unwrap_or("0");
        word.parse().unwrap_or_else(|_| fail(format!("{option}{word} has no number from 0 to {}", u32::MAX)))
    }
}

/// Where a trace comes from and where its lines go. What is held of both is bounded.
pub struct Ends<'a> {
    input: BufReader<Box<dyn Read + 'a>>,
    pub output: BufWriter<Box<dyn Write + 'a>>,
}

impl<'a> Ends<'a> {
    const ROOM: usize = 65_536;

    pub fn new(input: impl Read + 'a, output: impl Write + 'a) -> Ends<'a> {
        Ends { input: BufReader::with_capacity(Self::ROOM, Box::new(input)), output: BufWriter::with_capacity(Self::ROOM, Box::new(output)) }
    }

    /// Fills `part`, in whatever pieces the bytes come: how many there were, fewer only at the end of the input. Before more is waited for, what
    /// is written goes out.
    pub fn read(&mut self, part: &mut [u8]) -> Result<usize> {
        let mut filled = 0;
        while filled < part.len() {
            if self.input.buffer().is_empty() {
                self.output.flush()?;
            }
            match self.input.read(&mut part[filled..])? {
                0 => break,
                more => filled += more,
            }
        }
        Ok(filled)
    }
}

/// Replays one trace, or with --many a batch. Where nobody reads the output any more it ends, and says nothing of it.
pub fn serve(options: &Options, replay: impl Fn(&mut Ends) -> Result<()>) -> Result<()> {
    let input: Box<dyn Read> = match &options.file {
        Some(name) => Box::new(File::open(name)?),
        None => Box::new(stdin().lock()),
    };
    let how = if options.has("--many") { batch } else { one };
    match how(input, &mut stdout().lock(), &replay) {
        Err(e) if e.kind() == ErrorKind::BrokenPipe => Ok(()),
        done => done,
    }
}

type Replay<'r> = &'r dyn Fn(&mut Ends) -> Result<()>;

fn one(input: Box<dyn Read + '_>, output: &mut dyn Write, replay: Replay) -> Result<()> {
    let mut ends = Ends::new(input, output);
    replay(&mut ends)?;
    ends.output.flush()
}

/// A cut frame ends the program, since its batch was not made by us.
fn batch(input: Box<dyn Read + '_>, output: &mut dyn Write, replay: Replay) -> Result<()> {
    let mut input = BufReader::new(input);
    while let Some(length) = length(&mut input)? {
        let (mut frame, mut lines) = (input.by_ref().take(length.into()), Vec::new());
        one(Box::new(&mut frame), &mut lines, replay)?;
        copy(&mut frame, &mut sink())?; // what a stop has left
        assert!(frame.limit() == 0, "a cut frame at the batch's end");
        write(output, &lines)?;
    }
    output.flush()
}

/// A frame's length; None at the end of the batch.
fn length(input: &mut impl Read) -> Result<Option<u32>> {
    let mut bytes = Vec::new();
    input.take(4).read_to_end(&mut bytes)?;
    let length = <[u8; 4]>::try_from(&bytes[..]).map(u32::from_le_bytes);
    assert!(length.is_ok() || bytes.is_empty(), "a cut frame at the batch's end");
    Ok(length.ok())
}

/// One frame.
pub fn write(output: &mut (impl Write + ?Sized), bytes: &[u8]) -> Result<()> {
    output.write_all(&(bytes.len() as u32).to_le_bytes())?;
    output.write_all(bytes)
}

#[cfg(test)]
mod tests {
    use super::*;
    use std::cell::RefCell;
    use std::rc::Rc;

    /// Answers three bytes with them and a line's end, and stops at an x.
    fn threes(ends: &mut Ends) -> Result<()> {
        let mut bytes = [0; 3];
        loop {
            let there = ends.read(&mut bytes)?;
            if there == 0 || bytes[0] == b'x' {
                return Ok(());
            }
            ends.output.write_all(&bytes[..there])?;
            ends.output.write_all(b"\n")?;
        }
    }

    fn batched(frames: &[&[u8]]) -> Vec<u8> {
        let mut batch = Vec::new();
        frames.iter().for_each(|frame| write(&mut batch, frame).unwrap());
        batch
    }

    #[test]
    fn frames_come_back() {
        let mut out = Vec::new();
        batch(Box::new(&batched(&[b"abcde", b"", b"x!!!!", b"\n\0"])[..]), &mut out, &threes).unwrap();
        assert_eq!(out, batched(&[b"abc\nde\n", b"", b"", b"\n\0\n"]));
    }

    #[test]
    #[should_panic(expected = "a cut frame")]
    fn a_cut_frame_is_not_passed_over() {
        let _ = batch(Box::new(&[5, 0, 0, 0, 1][..]), &mut Vec::new(), &threes);
    }

    #[test]
    #[should_panic(expected = "a cut frame")]
    fn nor_is_a_cut_length() {
        let _ = batch(Box::new(&[0, 0, 0, 0, 1, 0][..]), &mut Vec::new(), &threes);
    }

    /// Gives a byte at a time; `seen` has how many bytes had gone out before each.
    struct Drip<'a> {
        bytes: &'a [u8],
        out: Rc<RefCell<Vec<u8>>>,
        seen: Rc<RefCell<Vec<usize>>>,
    }

    impl Read for Drip<'_> {
        fn read(&mut self, into: &mut [u8]) -> Result<usize> {
            self.seen.borrow_mut().push(self.out.borrow().len());
            self.bytes.read(&mut into[..1])
        }
    }

    struct Shared(Rc<RefCell<Vec<u8>>>);

    impl Write for Shared {
        fn write(&mut self, bytes: &[u8]) -> Result<usize> {
            self.0.borrow_mut().write(bytes)
        }

        fn flush(&mut self) -> Result<()> {
            Ok(())
        }
    }

    #[test]
    fn lines_go_out_before_more_is_waited_for() {
        let (out, seen) = (Rc::new(RefCell::new(Vec::new())), Rc::new(RefCell::new(Vec::new())));
        let drip = Drip { bytes: b"abcdefgh", out: out.clone(), seen: seen.clone() };
        one(Box::new(drip), &mut Shared(out.clone()), &threes).unwrap();
        assert_eq!(out.borrow()[..], *b"abc\ndef\ngh\n");
        assert_eq!(seen.borrow()[..], [0, 0, 0, 4, 4, 4, 8, 8, 8, 11]);
    }
}
