//! oracle [--many] [--picture] [--from=OFFSET] [FILE]: replays a trace, or a framed batch of them, on the crate with document 02's patches.
//! With --picture the crate's own picture of the atlas follows the last line; with --from the first record counts as being at OFFSET.

use oracle::replay::{replay, Asked};

fn main() -> std::io::Result<()> {
    let options = frames::Options::read(&["--many", "--picture", "--from="]);
    oracle::panics::keep_quiet();
    let asked = Asked { picture: options.has("--picture"), from: options.number("--from=") };
    frames::serve(&options, |ends| replay(ends, asked))
}
