//! traces SEED COUNT [DIRECTORY]: the traces of so many seeds from SEED on, framed on standard output (each behind
//! its u32 length), or as DIRECTORY/SEED.bin. traces families: their names; seed s is of family s mod their number.
//! traces worn: the few long ones, framed. traces day SEED BYTES: one trace, a panel's day of about so many bytes.
//! traces last: one trace, to the last offset and a record past it.

use std::io::{stdout, BufWriter, ErrorKind, Result, Write};

fn main() -> Result<()> {
    match written() {
        Err(e) if e.kind() == ErrorKind::BrokenPipe => Ok(()), // whoever reads has had enough
        done => done,
    }
}

fn written() -> Result<()> {
    let args: Vec<String> = std::env::args().skip(1).collect();
    let mut out = BufWriter::new(stdout().lock());
    match args.iter().map(String::as_str).collect::<Vec<_>>()[..] {
        ["families"] => traces::FAMILIES.iter().try_for_each(|(name, _)| writeln!(out, "{name}"))?,
        ["worn"] => framed(&mut out, traces::worn::worn())?,
        ["last"] => traces::last::last(traces::last::LAST, &mut out)?,
        ["day", seed, bytes] => traces::day::day(number(seed), number(bytes), &mut out)?,
        [seed, count] => framed(&mut out, (number(seed)..number(seed) + number(count)).map(traces::trace))?,
        [seed, count, directory] => files(number(seed), number(count), directory)?,
        _ => fail("traces SEED COUNT [DIRECTORY] | traces families | traces worn | traces day SEED BYTES | traces last"),
    }
    out.flush()
}

fn fail(message: &str) -> ! {
    eprintln!("{message}");
    std::process::exit(2)
}

fn number(word: &str) -> u64 {
    word.parse().unwrap_or_else(|_| fail(&format!("{word} is not a number")))
}

fn framed(out: &mut impl Write, traces: impl Iterator<Item = Vec<u8>>) -> Result<()> {
    for trace in traces {
        frames::write(out, &trace)?;
    }
    Ok(())
}

fn files(seed: u64, count: u64, directory: &str) -> Result<()> {
    std::fs::create_dir_all(directory)?;
    for s in seed..seed + count {
        std::fs::write(format!("{directory}/{s}.bin"), traces::trace(s))?;
    }
    Ok(())
}
