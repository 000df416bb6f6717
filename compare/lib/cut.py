"""Cuts a trace on which two sides differ down to few records on which they still do. Pieces are left out: everything behind the first
difference, of a long trace all but its last records, runs of records from long to short, an allocate together with its return; a damaged tail
stays as it is or goes. What stays is changed in two ways only: a return gets the id that the crate gives with fewer records, and a new gets fewer
columns or less height. The number of runs and the time are bounded."""
import hashlib
import struct
import time

from lib import lines, records
from lib.progress import LINE

RETURN, NEW = records.TOOL.pack_record("return", ["0"]), records.TOOL.pack_record("new", ["0"] * 6)
NEW_FORM = records.TOOL.KINDS["new"][1]
GROW = records.TOOL.pack_record("grow", ["0"] * 2)
ROUNDS = 8  # of giving returns their ids; each return that changes may change the ids behind it
FEW, MORE = 16, 8  # how many last records are tried first, and how many times as many then


class Spent(Exception):
    """The bound is reached."""


class Cutter:
    """`parts` are the pieces of the smallest trace so far, each with its number in the whole one; `trace`, `expected`, `got` are that trace and
    its two outputs."""

    def __init__(self, pair, runs, seconds, label=""):
        self.pair, self.most, self.until, self.label = pair, runs, time.monotonic() + seconds, label
        self.runs, self.tried, self.given_by, self.parts = 0, set(), {}, []

    def cut(self, trace):
        """False where the difference does not come again."""
        if not self.differs(list(enumerate(records.parts(trace)))):
            return False
        self.keep_the_end()
        for renaming in (True, False):  # with ids as the crate gives them, then with ids as they are
            before = None
            while before != self.trace:
                before = self.trace
                self.given_by = {returned: given for given, returned in self.pairs()} if renaming else {}
                self.make_smaller()
                self.leave_out_runs()
                self.leave_out_pairs()
        return True

    def differs(self, parts):
        """Whether the two sides differ on these pieces; if so they are the smallest so far."""
        parts = self.with_ids(parts)
        trace = joined(parts)
        digest = hashlib.sha256(trace).digest()
        if digest in self.tried:
            return False
        self.stay_within()
        self.runs += 1
        self.tried.add(digest)
        expected, got = self.pair.outputs(trace)
        if expected == got:
            return False
        self.parts, self.trace, self.expected, self.got = parts, trace, expected, got
        self.end_at_difference()
        return True

    def stay_within(self):
        """The bound is asked before each run, so it is passed by one run at most."""
        if self.runs >= self.most or time.monotonic() > self.until:
            raise Spent
        far = f"cut to {records.count(len(self.parts), 'record')} so far, {records.count(self.runs, 'run')}"
        LINE.doing(f"{self.label}: {far if self.parts else 'replayed again'}")
        LINE.tick()

    def keep_the_end(self):
        """Of a long trace the last records may be enough, behind the last accepted new and the grows since: that takes no run of the whole. All
        since that new come next."""
        answers = lines.lines(self.expected)
        made = max((at for at, answer in enumerate(answers) if answer == b"new ok\n"), default=0)
        size, whole = FEW, len(self.parts)
        while made + size * MORE < whole:
            since = [part for part in self.parts[made:-size] if alike(part[1], NEW) or alike(part[1], GROW)]
            if self.differs(since + self.parts[-size:]):
                return
            size *= MORE
        self.differs(self.parts[made:])

    def end_at_difference(self):
        at = lines.first(self.expected, self.got) + 1
        if at < len(self.parts):
            self.differs(self.parts[:at])

    def with_ids(self, parts):
        """The pieces, each return with the id that the crate gives to its allocate here; as it is where that is refused or left out."""
        for _ in range(ROUNDS if self.given_by else 0):
            self.stay_within()
            answers = lines.lines(self.pair.crate_alone(joined(parts)))
            ids = {number: RETURN[:4] + id_of(answer) for (number, _), answer in zip(parts, answers) if id_of(answer)}
            renamed = [(number, ids.get(self.given_by.get(number), piece)) for number, piece in parts]
            if renamed == parts:
                break
            parts = renamed
        return parts

    def leave_out_runs(self):
        size = max(len(self.parts) // 2, 1)
        while size:
            at = len(self.parts)
            while at > 0:
                self.differs(self.parts[:max(at - size, 0)] + self.parts[at:])
                at = min(at - size, len(self.parts))
            size //= 2

    def leave_out_pairs(self):
        """Either of the two alone would leave the buckets with another count of references."""
        for pair in reversed(self.pairs()):
            left = [part for part in self.parts if part[0] not in pair]
            if len(left) == len(self.parts) - 2:
                self.differs(left)

    def make_smaller(self):
        """An atlas of fewer columns, as wide each, or of less height takes fewer records to fill."""
        for at, (number, piece) in enumerate(self.parts):
            for smaller in smaller_news(piece):
                if at < len(self.parts) and self.parts[at] == (number, piece):
                    self.differs([*self.parts[:at], (number, smaller), *self.parts[at + 1:]])

    def pairs(self):
        """The numbers of each allocate that was accepted and of a return of the id that it gave, a second return too: each such return is to
        name what the allocate then gives."""
        out, given = [], {}
        for (number, piece), answer in zip(self.parts, lines.lines(self.expected)):
            if id_of(answer):
                given[id_of(answer)] = number
            elif alike(piece, RETURN) and piece[4:] in given:
                out.append((given[piece[4:]], number))
        return out


def smaller_news(piece):
    """The records in the place of a new that make a smaller atlas, the smallest first."""
    if not alike(piece, NEW):
        return []
    width, height, *alignments, columns, vertical = struct.unpack(NEW_FORM, piece[4:])
    sides = [(width // columns * fewer, height, fewer) for fewer in (1, 2) if fewer < columns]
    sides += [(width, height * part // 8, columns) for part in (1, 2, 4, 6) if height >= 8]
    return [piece[:4] + struct.pack(NEW_FORM, *side[:2], *alignments, side[2], vertical) for side in sides]


def alike(piece, record):
    """Whether a piece is a record of this one's kind; a damaged tail may start like one."""
    return piece[:4] == record[:4] and len(piece) == len(record)


def joined(parts):
    return b"".join(piece for _, piece in parts)


def id_of(answer):
    """The id that an answer gives, as in a record; None where it gives none."""
    words = answer.split()
    return int(words[1]).to_bytes(4, "little") if words[:1] == [b"alloc"] else None
