"""The edits of compare/mutants --files. Each makes the model wrong in what a file is, in a refusal, in the repair of what is read or in one clause of
the tables test; the port's writes and reads, in compare/scale, must differ from it."""
from lib import scale

# T-08: each bucket of a file, repaired where it needs it
MENDED = "Atlas { buckets: self.buckets.into_iter().map(mended).collect(), ..self }"
NEEDS = "Bucket { refs: 0, items: 1.., generation, .. } =>"
MADE = "Bucket { items: 0, generation: one_up(generation), ..bucket }"
SOUND = "atlas.sound().map_err(|clause| (1, clause)).map(|()| atlas)"


def by_chain(released, others):
    """What becomes of a released bucket, and of one in a shelf's chain."""
    each = f"if released.contains(&i) {{ {released} }} else {{ {others} }}"
    first = "let released: Vec<usize> = self.chain(self.released).collect();\n        "
    return first + MENDED.replace(".into_iter().map(mended)", f".into_iter().enumerate().map(|(i, b)| {each})")


# what becomes wrong: file of model/src, text, text instead
EDITS = {
    "version 2 written": ("files.rs", "record(16, [words(&numbers)", "record(16, [words(&[&[2], &numbers[1..]].concat())"),
    "version 2 read": ("files.rs", "if version != VERSION {", "if version != VERSION && version != 2 {"),
    "version by its low byte": ("files.rs", "if version != VERSION {", "if version % 256 != VERSION {"),
    "17 before 16": ("files.rs", "ok_or((16, ", "ok_or((if file.get(4) == Some(&3) { 17 } else { 16 }, "),
    "1 before 17": ("files.rs", "if version != VERSION {", "if version != VERSION && atlas.sound().is_ok() {"),
    "18 before 1": ("files.rs", "if self.sound().is_err() {", "if self.sound().is_err() && out.len() >= self.file().len() {"),
    "just enough is too short": ("files.rs",
        "out.get_mut(..file.len()).ok_or(18)?.copy_from_slice(&file);",
        "out.get_mut(..=file.len()).ok_or(18)?[..file.len()].copy_from_slice(&file);"),
    "too short is filled": ("files.rs",
        "        out.get_mut(",
        "        if out.len() < file.len() {\n            out.copy_from_slice(&file[..out.len()]);\n        }\n        out.get_mut("),
    "the rest of the buffer cleared": ("files.rs", "copy_from_slice(&file);", "copy_from_slice(&file);\n        out[file.len()..].fill(0);"),
    "unsound tables written": ("files.rs", "if self.sound().is_err() {", "if self.shelves.len() > 4_095 {"),
    "unsound contents read": ("files.rs", "atlas.sound().map_err(|clause| (1, clause)).map(|()| atlas)", "Ok(atlas)"),
    "the figure repaired": ("files.rs",
        "        atlas.sound()",
        "        let used = |s: &Shelf| atlas.chain(s.first).map(|b| (s.width - atlas.buckets[b].free) * s.height).sum::<N>();\n"
        "        let occupied = atlas.shelves.iter().map(used).sum();\n        let atlas = Atlas { occupied, ..atlas };\n        atlas.sound()"),
    "a cut end taken": ("files.rs", "rest.payload(19, 0)?;", "rest.payload(19, 0).or_else(|| rest.0.is_empty().then_some(Rest(&[])))?;"),
    "an end of any kind": ("files.rs", "rest.payload(19, 0)?;", "rest.words::<2>()?;"),
    "bytes behind the end": ("files.rs", "rest.0.is_empty().then_some((version, atlas))", "Some((version, atlas))"),
    "vertical taken": ("files.rs", "if vertical != [0] {", "if vertical[0] > 1 {"),
    "lengths not asked": ("files.rs", "found != kind || length != 2 + count as N", "found != kind"),
    "kinds not asked": ("files.rs", "found != kind || length != 2 + count as N", "length != 2 + count as N"),
    "kinds by their low byte": ("files.rs", "found != kind ||", "found % 256 != kind ||"),
    "numbers by their low byte": ("files.rs", "N::from(b[0]) + 256 * N::from(b[1])", "N::from(b[0])"),
    "generation by its low byte": ("files.rs", "refs, items, shelf, generation })", "refs, items, shelf, generation: generation % 256 })"),
    "a figure of 16 bits": ("files.rs", "(self.occupied as i32)", "(self.occupied as u16 as i32)"),
    "a negative figure is taken as 0": ("files.rs", "payload.bytes(4)?.try_into().ok()?).into();", "payload.bytes(4)?.try_into().ok()?).max(0).into();"),
    "counts exchanged": ("files.rs",
        "self.shelves.len() as N,\n            self.buckets.len() as N,",
        "self.buckets.len() as N,\n            self.shelves.len() as N,"),
    "buckets from the last": ("files.rs", "self.buckets.iter().flat_map(bucket)", "self.buckets.iter().rev().flat_map(bucket)"),
    "released buckets forgotten": ("files.rs", "            self.released,\n", "            65_535,\n"),
    "no repair": ("files.rs", "        let atlas = atlas.repaired();\n", ""),
    "tested before the repair": ("files.rs", f"let atlas = atlas.repaired();\n        {SOUND}", SOUND.replace("|()| atlas", "|()| atlas.repaired()")),
    "not tested after the repair": ("files.rs", SOUND, "let _ = |clause: &str| (1, clause.len());\n        Ok(atlas)"),
    "repaired when written": ("files.rs", "if self.sound().is_err() {", "if self.clone().repaired().sound().is_err() {"),
    "referenced ones repaired": ("repair.rs", NEEDS, NEEDS.replace("refs: 0, ", "")),
    "worn ones renewed under their labels": ("repair.rs", NEEDS,
        f"Bucket {{ refs: 1.., items: 4_095.., generation, .. }} => {MADE.replace('items: 0', 'items: bucket.refs')},\n        {NEEDS}"),
    "worn ones repaired alone": ("repair.rs", NEEDS, NEEDS.replace("1..", "4_095..")),
    "one item not repaired": ("repair.rs", NEEDS, NEEDS.replace("1..", "2..")),
    "raised without items": ("repair.rs", NEEDS, NEEDS.replace("1..", "0..")),
    "items repaired alone": ("repair.rs", MADE, MADE.replace("generation: one_up(generation)", "generation")),
    "generation repaired alone": ("repair.rs", MADE, MADE.replace("items: 0, ", "")),
    "one item left by the repair": ("repair.rs", MADE, MADE.replace("items: 0", "items: 1")),
    "raised twice by the repair": ("repair.rs", MADE, MADE.replace("one_up(generation)", "one_up(one_up(generation))")),
    "generation 0 by the repair": ("repair.rs", MADE, MADE.replace("one_up(generation)", "one_up(generation) * 0")),
    "255 raised to 256": ("repair.rs", "255 => 0,", "255 => 256,"),
    "255 not raised": ("repair.rs", "255 => 0,", "255 => 255,"),
    "255 raised to 1": ("repair.rs", "255 => 0,", "255 => 1,"),
    "a generation made of any number": ("repair.rs", "_ => generation,", "_ => (generation + 1) % 256,"),
    "a generation made of 256": ("repair.rs", "_ => generation,", "256 => 0,\n        _ => generation,"),
    "a generation made of 65,535": ("repair.rs", "_ => generation,", "65_535 => 0,\n        _ => generation,"),
    "released ones not repaired": ("repair.rs", MENDED, by_chain("b", "mended(b)")),
    "released ones repaired alone": ("repair.rs", MENDED, by_chain("mended(b)", "b")),
    "few items taken for none": ("sound.rs", "b.refs > 0 || b.items == 0", "b.refs > 0 || b.items < 4_095"),
    "released ones may have items": ("sound.rs",
        "self.buckets.iter().all(rests)", "self.shelves.iter().all(|s| self.chain(s.first).all(|b| rests(&self.buckets[b])))"),
    "asked of released ones alone": ("sound.rs", "self.buckets.iter().all(rests)", "self.chain(self.released).all(|b| rests(&self.buckets[b]))"),
    "4,096 buckets": ("sound.rs", "self.buckets.len() <= MOST", "self.buckets.len() <= MOST + 1"),
}


def clauses():
    """The tables test with one of its clauses left out, each in turn."""
    return scale.clauses("sound.rs")
