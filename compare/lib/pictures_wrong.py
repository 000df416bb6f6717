"""The edits of compare/mutants --pictures. Each makes the model's picture wrong in a line, in the order of its lines, or in what becomes of the
buffer; the port's and the crate's, in compare/scale, must differ from it."""

BOTH = "if bucket.free != 0 { used + &free } else { used }"
USED = "rect([bucket.x, shelf.y, width, shelf.height], USED)"
FREE = "rect([bucket.x + width, shelf.y, bucket.free, shelf.height], FREE)"
CHAIN = "self.chain(shelf.first).map("
SHELVES = "self.shelves.iter().map(along)"
UNSOUND = "if self.sound().is_err() {"
COPY = "out.get_mut(..text.len()).ok_or(24)?.copy_from_slice(text.as_bytes());"

# what becomes wrong: file of model/src, text, text instead
EDITS = {
    "the used part left out": (BOTH, "if bucket.free != 0 { free } else { String::new() }"),
    "the used part left out where it is 0 wide": (BOTH, "if bucket.free == 0 { used } else if width == 0 { free } else { used + &free }"),
    "the used part left out of a bucket that is 0 wide": (BOTH,
        "if shelf.width == 0 { String::new() } else if bucket.free != 0 { used + &free } else { used }"),
    "the used part drawn twice": (BOTH, "if bucket.free != 0 { used.clone() + &used + &free } else { used.clone() + &used }"),
    "the used part a pixel wider": (USED, USED.replace("width,", "width + 1,")),
    "the used part a pixel wide where it is 0": (USED, USED.replace("width,", "width.max(1),")),
    "the used part from the shelf's x": (USED, USED.replace("bucket.x", "shelf.x")),
    "the used part of the whole bucket": (USED, USED.replace("width,", "shelf.width,")),
    "the used part 8 high": (USED, USED.replace("shelf.height", "shelf.height.min(8)")),
    "the used part from the shelf's top": (USED, USED.replace("shelf.y", "shelf.y + shelf.height")),
    "sides of the used part exchanged": (USED, USED.replace("width, shelf.height", "shelf.height, width")),
    "the used part left out where nothing is held": (BOTH,
        "if bucket.refs == 0 { free } else if bucket.free != 0 { used + &free } else { used }"),
    "the free part where it is 0 wide": (BOTH, "used + &free"),
    "the free part left out": (BOTH, "used + &free[..0]"),
    "the free part left out on a flat shelf": ("if bucket.free != 0 {", "if bucket.free != 0 && shelf.height != 0 {"),
    "the free part left out of a free bucket": ("if bucket.free != 0 {", "if bucket.free != 0 && width != 0 {"),
    "the free part first": ("used + &free", "free + &used"),
    "the free part from the bucket's x": (FREE, FREE.replace("bucket.x + width", "bucket.x")),
    "the free part of the whole bucket": (FREE, FREE.replace("bucket.free", "shelf.width")),
    "the free part a pixel high on a flat shelf": (FREE, FREE.replace("shelf.height", "shelf.height.max(1)")),
    "buckets from the chain's end": (CHAIN, "self.chain(shelf.first).collect::<Vec<_>>().into_iter().rev().map("),
    "buckets by their index": (CHAIN, "self.chain(shelf.first).collect::<std::collections::BTreeSet<_>>().into_iter().map("),
    "the first bucket alone": (CHAIN, "self.chain(shelf.first).take(1).map("),
    "shelves from the last": (SHELVES, "self.shelves.iter().rev().map(along)"),
    "flat shelves left out": (SHELVES, "self.shelves.iter().filter(|s| s.height != 0).map(along)"),
    "the first column alone": (SHELVES, "self.shelves.iter().filter(|s| s.x == 0).map(along)"),
    "used and free exchanged": (
        'USED: &str = "#4646b4";\nconst FREE: &str = "#323232";', 'FREE: &str = "#4646b4";\nconst USED: &str = "#323232";'),
    "used in the ground's colour": ('"#4646b4"', '"#282828"'),
    "free in the ground's colour": ('"#323232"', '"#282828"'),
    "the ground in the free colour": ('"#282828";', '"#323232";'),
    "a colour in capitals": ('"#4646b4"', '"#4646B4"'),
    "no ground": ("first + &rect([0, 0, w, h], GROUND) +", "first +"),
    "sides of the ground exchanged": ("rect([0, 0, w, h], GROUND)", "rect([0, 0, h, w], GROUND)"),
    "the ground of the columns alone": ("rect([0, 0, w, h], GROUND)", "rect([0, 0, self.columns * self.column_width, h], GROUND)"),
    "sides exchanged in the first line": ("viewBox=\\\"0 0 {w} {h}\\\"", "viewBox=\\\"0 0 {h} {w}\\\""),
    "no name space": (" xmlns=\\\"http://www.w3.org/2000/svg\\\" viewBox", " viewBox"),
    "a number of two digits": ("x=\\\"{x}\\\"", "x=\\\"{x:02}\\\""),
    "no newline behind a rectangle": ("fill=\\\"{fill}\\\"/>\\n", "fill=\\\"{fill}\\\"/>"),
    "lines indented": ("(\"<rect x", "(\"    <rect x"),
    "no last newline": ("\"</svg>\\n\"", "\"</svg>\""),
    "an empty line at the end": ("\"</svg>\\n\"", "\"</svg>\\n\\n\""),
    "no last line": (" + \"</svg>\\n\"", ""),
    "18 for 24": ("ok_or(24)", "ok_or(18)"),
    "24 before 1": (UNSOUND, "if self.sound().is_err() && out.len() >= 100 {"),
    "unsound tables drawn": (UNSOUND, "if self.shelves.len() > 4_095 {"),
    "just enough is too short": (COPY, "out.get_mut(..=text.len()).ok_or(24)?[..text.len()].copy_from_slice(text.as_bytes());"),
    "a byte less is enough": (COPY,
        "let all = text.len().min(out.len().max(text.len() - 1));\n"
        "        out.get_mut(..all).ok_or(24)?.copy_from_slice(&text.as_bytes()[..all]);"),
    "too short is filled": (COPY,
        "let all = text.len().min(out.len());\n        out[..all].copy_from_slice(&text.as_bytes()[..all]);\n"
        "        out.get(..text.len()).ok_or(24)?;"),
    "the rest of the buffer cleared": (COPY, COPY + "\n        out[text.len()..].fill(0);"),
    "a 0 behind the text": (COPY, COPY + "\n        out[text.len()..].iter_mut().take(1).for_each(|byte| *byte = 0);"),
    "the buffer's length told": ("Ok(text.len())", "Ok(out.len())"),
}
EDITS = {wrong: ("picture.rs", *edit) for wrong, edit in EDITS.items()}


def clauses():
    """A picture has no test of its own."""
    return {}
