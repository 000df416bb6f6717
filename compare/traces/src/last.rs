//! The longest trace that is replayed to its end, and a record more: news and reports up to the last offset, then a report that would end past
//! it. 4,294,967,299 bytes, written as they are made.

use crate::maker::Maker;
use std::io::{Result, Write};

/// The last offset that is counted.
pub const LAST: u64 = 4_294_967_295;

pub fn last(end: u64, out: &mut impl Write) -> Result<()> {
    const AT_ONCE: u64 = 2_500;
    let (mut news, mut reports) = (Maker::new(0), Maker::new(0));
    (0..AT_ONCE).for_each(|_| news.make(([1, 1], [1, 1], 1, 0)));
    let (count, one) = (end / 25, &news.bytes[..25]);
    assert!(end % 25 % 4 == 0, "a new has 25 bytes and a report 4");
    for _ in 0..count / AT_ONCE {
        out.write_all(&news.bytes)?;
    }
    out.write_all(&one.repeat((count % AT_ONCE) as usize))?;
    (0..=end % 25 / 4).for_each(|_| reports.report());
    out.write_all(&reports.bytes)
}

#[cfg(test)]
mod tests {
    use super::*;

    #[test]
    fn a_report_past_the_end() {
        for (end, news) in [(20, 0), (95, 3), (25 * 2_500 + 4, 2_500), (25 * 5_001 + 12, 5_001)] {
            let mut trace = vec![];
            last(end, &mut trace).unwrap();
            assert_eq!(trace.len() as u64, end + 4);
            assert!(trace[..25 * news].chunks(25).all(|record| record[..4] == [23, 0, 1, 0]));
            assert!(trace[25 * news..].chunks(4).all(|record| *record == [2, 0, 6, 0]));
        }
        assert_eq!(LAST % 25 % 4, 0);
    }
}
