"""Shows a difference to a person: the record, both lines, the state before it and what the record changes in it; keeps traces in a folder."""
import os
import pathlib

from lib import lines, records, state
from lib.cut import Cutter, Spent
from lib.progress import LINE
from lib.use import Wrong

STATE_SHOWN = 60  # lines of a state; the whole of a longer one is kept in a file
CUT_SHOWN = 20  # records of a cut trace


class Keep:
    """The folder for traces that differ. It is made when the first is kept, and looked at before the comparison starts."""

    def __init__(self, folder):
        self.folder, self.names = folder, set()
        above = folder
        while not os.path.lexists(above) and above != above.parent:
            above = above.parent
        if not above.is_dir() or not os.access(above, os.W_OK | os.X_OK):
            raise Wrong(f"--keep {folder}: {above} is no folder that can be written in; name another by --keep FOLDER")

    def name(self, wanted):
        """Two traces of one name do not overwrite each other."""
        name, number = wanted, 2
        while name in self.names:
            name, number = f"{wanted}-{number}", number + 1
        self.names.add(name)
        return name

    def write(self, name, data):
        path = self.folder / name
        try:
            self.folder.mkdir(parents=True, exist_ok=True)
            path.write_bytes(data)
        except OSError as e:
            raise Wrong(f"{path}: {e.strerror}; name another folder by --keep FOLDER") from None
        return os.path.relpath(path) if pathlib.Path.cwd() in path.resolve().parents else str(path)

    def trace(self, name, data):
        self.write(name + ".txt", "".join(line + "\n" for line in records.readable(data)).encode())
        return self.write(name + ".bin", data)


def record(data, at, start):
    """The record of a line, in words, the trace before it and its bytes; None for both where no record belongs to the line."""
    number, offset = records.walk(data, at)
    if number < at or offset == len(data):
        return f"past the last record, which is number {number + (offset < len(data))}", None, None
    piece = data[offset:offset + records.SIZES.get(data[offset:offset + 4], len(data))]
    return f"record {at + 1} (byte {start + offset}): {records.told(piece)}", data[:offset], piece


def difference(pair, keep, name, label, data, expected, got):
    """Shows the first difference of a trace. `name` is what its files are called, `label` what it is called."""
    at = lines.first(expected, got)
    told, before, piece = record(data, at, pair.start)
    print(f"{label}: {told}\n  crate:   {lines.shown(expected, at)}\n  program: {lines.shown(got, at)}", flush=True)
    if before is None:
        return
    LINE.doing(f"{label}: the state before record {at + 1}")
    figures = report(pair, before, at)
    earlier, later = state.State(before, pair.start), state.State(before + piece, pair.start)
    wrong = state.holds(earlier, before, pair.start)
    LINE.wipe()
    print(f"  a report in its place: {figures}")
    whose = wrong or "the crate's answers so far, and its own picture of its buckets, are the same"
    print(f"  state before record {at + 1}, by compare/model ({whose}):")
    show_state(keep, name, list(earlier.text().values()))
    changed = state.changes(earlier.text(), later.text())
    said = f"answers {later.answer(at)}" if later.answer(at) else "has no answer"
    print(f"  record {at + 1} by compare/model, which {said}" + (", changes:" if changed else ", changes nothing"))
    show_state(keep, name + ".after", changed)


def report(pair, before, at):
    """The figures of each side itself, had by a report in the place of the record."""
    asked = before + records.TOOL.pack_record("report", [])
    crate, program = (lines.shown(output, at) for output in pair.outputs(asked))
    return f"crate {crate}, program {program}"


def show_state(keep, name, text):
    for line in text[:STATE_SHOWN]:
        print("    " + line)
    if len(text) > STATE_SHOWN:
        kept = keep.write(name + ".state", "".join(line + "\n" for line in text).encode())
        print(f"    .. {len(text) - STATE_SHOWN} lines more: {kept} has them all")


def cut(pair, keep, name, label, data, runs, seconds):
    """Cuts a trace down, keeps the small one and shows its difference."""
    cutter, bound = Cutter(pair, runs, seconds, label), ""
    try:
        if not cutter.cut(data):
            LINE.wipe()
            print(f"  {label} did not differ when it was replayed again: the program does not answer the same each time")
            return
    except Spent:
        bound = ", the bound; a smaller one may do"
    LINE.wipe()
    size = len(cutter.parts)
    kept = keep.trace(name + ".cut", cutter.trace)
    print(f"{label}, cut to {records.count(size, 'record')} after {records.count(cutter.runs, 'run')}{bound}: {kept}, and .txt beside it")
    if size <= CUT_SHOWN:
        print("".join(f"    {line}\n" for line in records.readable(cutter.trace)[:CUT_SHOWN]), end="")
    difference(pair, keep, name + ".cut", f"{name}.cut", cutter.trace, cutter.expected, cutter.got)
