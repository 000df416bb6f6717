"""The state that a trace leaves, in words. The tables are the model's: those of the crate are private to it. What the crate shows of itself is a
picture of its shelves' buckets (x, y, height, used and free width, in the order of the chains), and `holds` asks whether that is the model's."""
import re

from lib import lines, programs
from lib.rust import BUILT

NONE = 65_535  # the end of a chain
ASKED = {"model": (["--last-state", "--picture"], b"size "), "oracle": (["--picture"], b"<svg ")}


def replayed(part, trace, start):
    """The output of a part in Rust on a trace: its answers, and behind them its state."""
    asked, begins = ASKED[part]
    out = programs.one([str(BUILT / part), *asked, f"--from={start}"], trace)
    at = 0 if out.startswith(begins) else out.find(b"\n" + begins) + 1 or len(out)
    return out[:at], out[at:].decode()


class State:
    """The model's header and tables, or `made` false before the first accepted new; and the model's answers."""

    def __init__(self, trace, start=0):
        self.shelves, self.buckets, self.made = [], [], False
        self.answers, shown = replayed("model", trace, start)
        tables, picture, drawn = shown.partition("<svg ")
        self.picture = picture + drawn
        for line in tables.splitlines():
            word, numbers = line.split()[0], [int(n) for n in re.findall(r"\d+", line)]
            if word == "size":
                self.made = True
                self.width, self.height, *self.alignments = numbers
            elif word == "columns":
                self.columns, self.column_width, self.column, self.room, self.released, self.occupied = numbers
            else:
                (self.shelves if word == "shelf" else self.buckets).append(numbers[1:])

    def answer(self, index):
        return lines.line(self.answers, index).decode().rstrip()

    def chain(self, first):
        while first != NONE:
            yield first, self.buckets[first]
            first = self.buckets[first][2]

    def text(self):
        """A line for each part of the state, under its name."""
        if not self.made:
            return {"atlas": "no atlas: no new was accepted yet"}
        free = self.width * self.height - self.occupied
        released = list(self.chain(self.released))
        return {
            "sides": f"sides {self.width} by {self.height}, alignments {self.alignments[0]} and {self.alignments[1]}",
            "columns": f"columns {self.columns}, each {self.column_width} wide; column {self.column} is the current one, room left in it {self.room}",
            "figure": f"occupied figure {self.occupied}, free {free}",
            "counts": f"shelves {len(self.shelves)}, buckets {len(self.buckets)}, {len(released)} of them released",
            **self.shelf_text(),
            **{f"bucket {i}": f"bucket {i}: released, generation {b[6]}" for i, b in released},
        }

    def shelf_text(self):
        text = {}
        for number, (x, y, height, width, first) in enumerate(self.shelves):
            text[f"shelf {number}"] = f"shelf {number}: x {x}, y {y}, height {height}, bucket width {width}"
            for i, b in self.chain(first):
                text[f"bucket {i}"] = (f"  bucket {i} of shelf {number}: x {b[0]}, free width {b[1]}, references {b[3]}, items {b[4]}, "
                                       f"generation {b[6]}")
        return text


def holds(state, trace, start=0):
    """Whether the crate, on the same trace, gave these answers and draws this picture."""
    answers, picture = replayed("oracle", trace, start)
    if answers != state.answers:
        return "NOT the crate's: its answers differ from the crate's before this record"
    return "NOT the crate's: the crate's own picture of its buckets is another" if picture != state.picture else ""


def changes(before, after):
    """The lines that differ, each as it was and as it is."""
    out = []
    for name in dict.fromkeys([*before, *after]):
        if before.get(name) != after.get(name):
            out += [f"- {t.strip()}" for t in [before.get(name)] if t] + [f"+ {t.strip()}" for t in [after.get(name)] if t]
    return out
