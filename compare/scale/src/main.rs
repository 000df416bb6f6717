//! scale [CALLS] [SEED]: compares the proved port with the crate over at least CALLS calls (default 1,000,000) from SEED (default 1), and
//! files with the model, a tenth as many pairs of write and read, a tenth as many damaged lists, and a hundredth as many pictures. scale files
//! [PAIRS] [SEED]: the files alone. scale list [LISTS] [SEED]: the lists alone. scale pictures [PICTURES] [SEED]: the pictures alone. scale keep
//! FOLDER: writes small files of each shape there, for ../sample/files; scale outcomes: what the model reads of these, beside them.
//! The directed walks come first, whatever is asked for. It ends with what was compared; at a difference it prints both answers and fails.

mod broken;
mod damage;
mod earlier;
mod edges;
mod files;
mod history;
mod kept;
mod lent;
mod listing;
mod lists;
mod pair;
mod pictures;
mod port;
mod random;
mod repair;
mod restarts;
mod shapes;
mod tables;
mod twin;
mod unfit;
mod walks;

use damage::Damage;
use files::Files;
use lists::Lists;
use pair::Pair;
use pictures::Pictures;
use random::Random;
use std::io::Write;
use twin::Twin;

fn progress(what: &str, calls: u64, of: u64) {
    eprint!("\r{what}: {calls} of {of}   ");
    std::io::stderr().flush().unwrap();
}

fn main() {
    let mut words = std::env::args().skip(1).peekable();
    if words.next_if(|w| w == "keep").is_some() {
        return shapes::keep(&words.next().expect("a folder"));
    }
    if words.next_if(|w| w == "outcomes").is_some() {
        return kept::outcomes();
    }
    let part = words.next_if(|w| ["files", "list", "pictures"].contains(&w.as_str()));
    let mut numbers = words.map(|w| w.parse::<u64>().expect("a number"));
    let (count, seed) = (numbers.next().unwrap_or(1_000_000), numbers.next().unwrap_or(1));
    oracle::panics::keep_quiet();
    let differed = std::panic::catch_unwind(|| compare(part.as_deref(), count, seed));
    if let Err(said) = differed {
        let words = said.downcast_ref::<String>().map(String::as_str).or(said.downcast_ref::<&str>().copied());
        println!("{}", words.unwrap_or("DIFFERENCE"));
        std::process::exit(1);
    }
}

/// All, or one part with the whole count.
fn compare(part: Option<&str>, count: u64, seed: u64) {
    let share = |name: &str, nth: u64| part.map_or(Some(count / nth), |part| (part == name).then_some(count));
    let mut files = Files::new();
    if part.is_none() {
        run(count, seed, &mut files.twin);
    }
    share("files", 10).into_iter().for_each(|pairs| files.run(pairs, seed));
    share("list", 10).into_iter().for_each(|lists| Lists::new().run(lists, seed));
    share("pictures", 100).into_iter().for_each(|pictures| Pictures::new().run(pictures, seed));
}

fn run(calls: u64, seed: u64, twin: &mut Twin) {
    let mut r = Random::new(seed);
    let mut pair = Pair::new();
    let mut damage = Damage::default();
    damage.directed(&mut r, twin);
    walks::merges(&mut pair);
    walks::generations(&mut pair);
    walks::buckets(&mut pair, &mut r);
    walks::items(&mut pair);
    walks::too_large(&mut pair);
    for _ in 0..50 {
        walks::ratios(&mut pair, &mut r);
    }
    for side in [512, 1024] {
        walks::churn(&mut pair, &mut r, side, calls / 100);
    }
    println!("directed walks: {} calls", pair.tally.calls);
    let mut next = 0;
    while pair.tally.calls + damage.calls < calls {
        walks::sequence(&mut pair, &mut r);
        if r.once_in(40) {
            walks::fillers(&mut pair, &mut r);
        }
        if r.once_in(10) {
            walks::ratios(&mut pair, &mut r);
        }
        if pair.port.header[9] < 600 || r.once_in(8) {
            for _ in 0..12 {
                damage.try_on(&pair.port, &mut r, twin);
            }
        }
        if pair.tally.calls >= next {
            progress("calls", pair.tally.calls + damage.calls, calls);
            next = pair.tally.calls + 250_000;
        }
    }
    eprintln!();
    report(&pair, &damage, seed);
}

fn report(pair: &Pair, damage: &Damage, seed: u64) {
    let t = &pair.tally;
    println!("seed {seed}: {} calls compared with the crate, {} placed, 0 differences", t.calls, t.placed);
    let refused: Vec<String> = (1..t.refusals.len()).filter(|n| t.refusals[*n] > 0).map(|n| format!("{n}: {}", t.refusals[n])).collect();
    println!("refusals: {}", refused.join(", "));
    println!("{} of these calls compared with the model too, in every record; {} laid", t.states, pair::ratios(pair));
    let Damage { tables, sound, unlisted, calls, repaired, .. } = damage;
    println!("damaged tables: {tables} ({sound} still sound, of these {unlisted} with a list that does not fit), {calls} calls on them, refused 1 or 21");
    println!("{repaired} of the unsound ones are read from their file, which T-08's repair mends");
    let list = |of: Vec<String>| of.join("; ");
    println!("unsound by field: {}", list(damage.by_field.iter().map(|(k, n)| format!("{k}: {n}")).collect()));
    println!("unsound by clause: {}", list(damage.by_clause.iter().map(|(k, n)| format!("{k}: {n}")).collect()));
}
