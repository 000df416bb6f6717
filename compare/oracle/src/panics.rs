//! What a panic of the crate stands for. Each is known by its message and by the line of bucketed.rs that it
//! came from; any other panic is no refusal, and is told whole so that a comparison fails on it.

use std::cell::RefCell;
use std::panic::{catch_unwind, set_hook, AssertUnwindSafe, PanicHookInfo};

/// Document 01's numbers for panics: number, message, source line. 8 is of the crate as it is: with T-08's patch no call may answer it.
const REFUSALS: [(u8, &str, &str); 7] = [
    (7, "attempt to divide by zero", "self.column_width / num_buckets"),
    (8, "attempt to add with overflow", "bucket.item_count += 1"),
    (9, "index out of bounds", "&mut self.buckets[bucket_index]"),
    (10, "assertion `left == right` failed", "assert_eq!(generation, expected_generation)"),
    (11, "assertion failed: bucket.refcount > 0", "assert!(bucket.refcount > 0)"),
    (12, "assertion failed: new_width >= self.width", "assert!(new_width >= self.width)"),
    (12, "assertion failed: new_height >= self.height", "assert!(new_height >= self.height)"),
];

/// Why a call gave no result.
#[derive(Clone, Debug, PartialEq)]
pub enum No {
    Refused(u8),
    Panic(String),
}

thread_local! {
    static LAST: RefCell<(String, usize)> = const { RefCell::new((String::new(), 0)) };
}

/// Panics are answers here: keep the last one's message and line, and print nothing.
pub fn keep_quiet() {
    set_hook(Box::new(|info| {
        let line = info.location().map_or(0, |l| l.line() as usize);
        LAST.set((message(info), line));
    }));
}

fn message(info: &PanicHookInfo) -> String {
    let whole = info.payload_as_str().unwrap_or("(no message)");
    whole.split_whitespace().collect::<Vec<_>>().join(" ")
}

/// Makes a call that may panic. Only the numbers in `allowed` can be the answer of this call.
pub fn guard<T>(allowed: &[u8], call: impl FnOnce() -> T) -> Result<T, No> {
    catch_unwind(AssertUnwindSafe(call)).map_err(|_| {
        let (message, line) = LAST.take();
        match number(&message, line) {
            Some(n) if allowed.contains(&n) => No::Refused(n),
            _ => No::Panic(format!("{message} (line {line})")),
        }
    })
}

fn number(message: &str, line: usize) -> Option<u8> {
    let source = etagere::BUCKETED.lines().nth(line.checked_sub(1)?)?;
    let known = |(_, m, s): &&(u8, &str, &str)| message.starts_with(m) && source.contains(s);
    REFUSALS.iter().find(known).map(|r| r.0)
}

#[cfg(test)]
mod tests {
    use super::*;

    /// A key that is nowhere, or in two places, would tell nothing.
    #[test]
    fn each_source_line_is_found_once() {
        for (_, _, source) in REFUSALS {
            assert_eq!(etagere::BUCKETED.matches(source).count(), 1, "{source}");
        }
    }

    #[test]
    fn other_panics_are_told() {
        keep_quiet();
        let strange = guard(&[9], || [1][std::hint::black_box(1)]);
        assert!(matches!(strange, Err(No::Panic(m)) if m.starts_with("index out of bounds")));
        assert_eq!(guard(&[], || 5), Ok(5));
    }
}
