//! model [--many] [--sound] [--state] [--last-state] [--picture] [--from=OFFSET] [FILE]: replays a trace, or a framed batch, by document 01's rules,
//! T-02's and T-05's. --sound tests tables and list after each record, --state prints them, --last-state prints them behind the last line alone,
//! --picture T-07's picture there; with --from the first record counts as being at OFFSET.

use model::replay::{replay, Watch};

fn main() -> std::io::Result<()> {
    let options = frames::Options::read(&["--many", "--sound", "--state", "--last-state", "--picture", "--from="]);
    let watch = Watch {
        sound: options.has("--sound"),
        state: options.has("--state"),
        last: options.has("--last-state"),
        picture: options.has("--picture"),
        from: options.number("--from="),
    };
    frames::serve(&options, |ends| replay(ends, watch))
}
