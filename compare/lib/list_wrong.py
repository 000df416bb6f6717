"""The edits of compare/mutants --list. Each makes the model wrong in one clause of the list's test, in its edge, in where an entry goes, or in a
refusal of the calls with the list; the port, in compare/scale, must differ from it."""
from lib import scale

PLACE = "self.buckets[..=bucket as usize].iter().map(|b| b.refs).sum::<N>() as usize - 1"
FULL = "self.atlas.clone().allocate(w, h).err().unwrap_or(19)"
NO = "self.atlas.clone().deallocate(id).err().unwrap_or(20)"
TESTED = "self.atlas.sound().map_err(|_| 1)?;\n        self.atlas.fits(&self.list).map_err(|_| 21)"
SHARED = "left.max(other_left) < right.min(other_right) && top.max(other_top) < bottom.min(other_bottom)"

# what becomes wrong: file of model/src, text, text instead
EDITS = {
    "an entry more than there is": ("held.rs", "list.get(..self.entries())", "list.get(..self.entries() + usize::from(self.entries() > 0))"),
    "the lender's entries tested too": ("held.rs",
        'list.get(..self.entries()).ok_or("room for the entries")?', 'list.get(..self.entries()).map(|_| list).ok_or("room for the entries")?'),
    "entries in order alone": ("held.rs",
        "        for entry in held {\n",
        '        for w in held.windows(2) {\n            ask(parts(w[0].id)[0] <= parts(w[1].id)[0], "in order")?;\n        }\n        for entry in held {\n'),
    "a pixel left of the span": ("held.rs", "left >= bucket.x,", "left + 1 >= bucket.x,"),
    "a pixel right of the span": ("held.rs", "right <= bucket.x + shelf.width - bucket.free", "right <= bucket.x + shelf.width - bucket.free + 1"),
    "the free part too": ("held.rs", "right <= bucket.x + shelf.width - bucket.free", "right <= bucket.x + shelf.width"),
    "a pixel over the shelf": ("held.rs", "top >= shelf.y,", "top + 1 >= shelf.y,"),
    "a pixel past its top": ("held.rs", "bottom <= shelf.y + shelf.height", "bottom <= shelf.y + shelf.height + 1"),
    "from the shelf's y alone": ("held.rs", "top >= shelf.y,", "top == shelf.y,"),
    "to its top alone": ("held.rs", "bottom <= shelf.y + shelf.height", "bottom == shelf.y + shelf.height"),
    "neighbours share a pixel": ("held.rs", SHARED, "left.max(other_left) <= right.min(other_right) && top.max(other_top) < bottom.min(other_bottom)"),
    "one below another shares a pixel": ("held.rs", SHARED, "left.max(other_left) < right.min(other_right) && top.max(other_top) <= bottom.min(other_bottom)"),
    "stacked ones share a pixel": ("held.rs", SHARED, "left.max(other_left) < right.min(other_right) && top + bottom + other_top + other_bottom > 0"),
    "ids by bucket and generation": ("held.rs", "a.id != b.id", "(a.id ^ b.id) & 0xff00_0fff != 0"),
    "pixels looked at in one bucket alone, by its left": ("held.rs", "!share_a_pixel(a, b)", "!share_a_pixel(a, b) || a.rectangle[0] != b.rectangle[0]"),
    "a bucket may have less": ("held.rs", "its as N == bucket.refs", "its as N <= bucket.refs + 1"),
    "item number 1 asked at 4,095": ("held.rs", "bucket.items >= 4_095 || item >= 1", "bucket.items >= 4_096 || item >= 1"),
    "item number 1 not asked at 4,094": ("held.rs", "bucket.items >= 4_095 || item >= 1", "bucket.items >= 4_094 || item >= 1"),
    "item count not asked at 4,094": ("held.rs", "bucket.items >= 4_095 || item <= bucket.items", "bucket.items >= 4_094 || item <= bucket.items"),
    "an item number past the count": ("held.rs", "item <= bucket.items,", "item <= bucket.items + 1,"),
    "an item number below the count alone": ("held.rs", "item <= bucket.items,", "item < bucket.items,"),
    "an entry goes to the end": ("held.rs", PLACE, "self.entries() - 1 - bucket as usize / 4_096"),
    "an entry goes to the front": ("held.rs", PLACE, "bucket as usize / 4_096"),
    "an entry goes before its bucket's": ("held.rs", PLACE, "self.buckets[..bucket as usize].iter().map(|b| b.refs).sum::<N>() as usize"),
    "what is past the count moves up": ("held.rs", "list[place..=count].rotate_right(1);", "let _ = count;\n    list[place..].rotate_right(1);"),
    "the last place gets what was taken out": ("held.rs", "list.copy_within(place + 1..count, place);", "list[place..count].rotate_left(1);"),
    "the last entry fills the gap": ("held.rs", "list.copy_within(place + 1..count, place);", "list[place] = list[count - 1];"),
    "19 before 6": ("listed.rs", FULL, "self.atlas.clone().allocate(w, h).err().filter(|n| *n < 6).unwrap_or(19)"),
    "19 before 5": ("listed.rs", FULL, "self.atlas.clone().allocate(w, h).err().filter(|n| *n < 5).unwrap_or(19)"),
    "19 before 4": ("listed.rs", FULL, "(w, h).0.min(0) as u8 + 19"),
    "6 for 19": ("listed.rs", FULL, "self.atlas.clone().allocate(w, h).err().unwrap_or(6)"),
    "19 an entry early": ("listed.rs", "if count == self.list.len() {", "if count + 1 >= self.list.len() {"),
    "19 leaves a label in the tables": ("listed.rs", "self.atlas.clone().allocate(w, h)", "self.atlas.allocate(w, h)"),
    "20 before 11": ("listed.rs", NO, "self.atlas.clone().deallocate(id).err().filter(|n| *n < 11).unwrap_or(20)"),
    "20 without the item bits": ("listed.rs", "position(|e| e.id == id)", "position(|e| (e.id ^ id) & 0xff00_0fff == 0)"),
    "20 among the lender's entries too": ("listed.rs", "self.list[..count].iter()", "self.list.iter()"),
    "20 leaves a reference less": ("listed.rs", "self.atlas.clone().deallocate(id)", "self.atlas.deallocate(id)"),
    "21 before 1": ("listed.rs", TESTED, "self.atlas.fits(&self.list).map_err(|_| 21)?;\n        self.atlas.sound().map_err(|_| 1)"),
    "21 not asked": ("listed.rs", TESTED, "self.atlas.sound().map_err(|_| 1)"),
}


def clauses():
    """The list's test with one of its clauses left out, each in turn."""
    return scale.clauses("held.rs")
