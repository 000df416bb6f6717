"""A replaying program that is fed through a pipe: in whatever pieces a trace comes it must answer as it does to the trace whole; a line must come
while the input is still open, a cut record's not before its end; a reader who leaves early must end it without a word; and its memory must not grow
with the trace. `words` start the program, `how` is what subprocess.Popen takes beside them. What does not hold is an AssertionError."""
import array
import contextlib
import fcntl
import os
import random
import select
import signal
import subprocess
import tempfile
import termios
import threading
import time

from lib.records import TOOL

SIZES = (1, 2, 3, 5, 7, 64, 65_536)
LIMIT = 60  # seconds for a program to take what it is given, and to end
SILENCE = 0.3  # seconds in which a line that must not come would have come
MORE_MEMORY = 1_000  # kilobytes that a long trace may take above a short one


def record(line):
    return TOOL.pack_line(line.encode())[0]


def started(words, how, **pipes):
    pipes = {"stdout": subprocess.PIPE, "stderr": subprocess.PIPE, **pipes}
    return subprocess.Popen([str(word) for word in words], bufsize=0, start_new_session=True, **pipes, **how)


@contextlib.contextmanager
def as_file(trace):
    with tempfile.TemporaryFile() as f:
        f.write(trace)
        f.seek(0)
        yield f


class Fed:
    """A program under way. What it writes is read beside it, so that it never waits for us. One that is left under way is ended, with all that it
    has started."""

    def __init__(self, words, how):
        self.child = started(words, how, stdin=subprocess.PIPE)
        self.out, self.said = bytearray(), bytearray()
        self.readers = [threading.Thread(target=read_into, args=pair, daemon=True)
                        for pair in ((self.child.stdout, self.out), (self.child.stderr, self.said))]
        for reader in self.readers:
            reader.start()

    def __enter__(self):
        return self

    def __exit__(self, *_):
        if self.child.poll() is None:
            with contextlib.suppress(ProcessLookupError):
                os.killpg(self.child.pid, signal.SIGKILL)
            self.end()

    def give(self, piece):
        """A piece, and time for the program to take it: the next comes with another read. False where nobody takes it."""
        try:
            while piece:
                piece = piece[self.child.stdin.write(piece):]
        except BrokenPipeError:
            return False
        left, until = array.array("i", [1]), time.monotonic() + LIMIT
        while left[0] and self.child.poll() is None:
            assert time.monotonic() < until, f"{left[0]} bytes were not taken within {LIMIT} seconds"
            time.sleep(0.00002)
            fcntl.ioctl(self.child.stdin, termios.FIONREAD, left)
        return True

    def written(self, due, what):
        """Waits until so much is written, and no more."""
        until = time.monotonic() + LIMIT
        while len(self.out) < len(due) and time.monotonic() < until and any(reader.is_alive() for reader in self.readers):
            time.sleep(0.002)
        assert bytes(self.out) == due, f"{what}: {bytes(self.out)!r} is written, and not {due!r}; said {bytes(self.said)!r}"

    def end(self):
        """Closes the input: what was written in all, the status, and what was said."""
        with contextlib.suppress(BrokenPipeError):
            self.child.stdin.close()
        with contextlib.suppress(subprocess.TimeoutExpired):
            self.child.wait(LIMIT)
        status = self.child.returncode
        assert status is not None, f"no end within {LIMIT} seconds of the end of input"
        for reader in self.readers:
            reader.join(LIMIT)
        self.child.stdout.close()
        self.child.stderr.close()
        return bytes(self.out), status, bytes(self.said)


def read_into(pipe, into):
    while part := pipe.read(65_536):
        into += part


def whole(words, trace, how):
    """The same of a program that has the trace as a file."""
    with as_file(trace) as f:
        child = started(words, how, stdin=f)
        out, said = child.communicate(timeout=LIMIT)
        return out, child.returncode, said


def in_pieces(words, pieces, how):
    with Fed(words, how) as fed:
        all(fed.give(piece) for piece in pieces)
        return fed.end()


def pieces_of(trace, size):
    return [trace[at:at + size] for at in range(0, len(trace), size)]


def random_pieces(trace, seed):
    """Short pieces mostly, and some of several records."""
    source, pieces, at = random.Random(seed), [], 0
    while at < len(trace):
        size = source.choice((1, 2, 3, 4, source.randint(1, 30), source.randint(1, 3000)))
        pieces.append(trace[at:at + size])
        at += size
    return pieces


def same_in_pieces(words, trace, sizes=SIZES, seeds=range(3), **how):
    """By pieces of each size, and by random cuts."""
    due = whole(words, trace, how)
    cuts = [(f"pieces of {size}", pieces_of(trace, size)) for size in sizes] + [(f"random cuts, seed {seed}", random_pieces(trace, seed)) for seed in seeds]
    for name, pieces in cuts:
        got = in_pieces(words, pieces, how)
        assert got == due, f"{name}: {told(got, due)}"


def told(got, due):
    at = next((i for i, (a, b) in enumerate(zip(got[0], due[0])) if a != b), min(len(got[0]), len(due[0])))
    return f"status {got[1]} and {due[1]}, said {got[2]!r} and {due[2]!r}, output from byte {at} on {got[0][at:at + 60]!r} and {due[0][at:at + 60]!r}"


# records, and the line of each
OPEN = {"new 64 64 1 1 1 0": b"new ok\n", "alloc 10 7": b"alloc 4097 32 0 42 8\n", "return 4097": b"dealloc ok\n", "report": b"space 0 4096\n"}


# what may stand at a trace's end, and whether that is known before the input ends
BAD = ((record("alloc 5 5")[:11], False), (b"\2", False), (b"\2\0\7\0", True), (b"\3\0\6\0\0", True))


def answers_while_open(words, **how):
    """A record's line comes once its last byte is there, and not before; a stop for a cut at the end of input, for a bad length or kind at the
    latest then."""
    for bad, is_known in BAD:
        with Fed(words, how) as fed:
            due, offset = give_records(fed)
            stop = b"stop 14 %d\n" % offset
            fed.give(bad)
            time.sleep(SILENCE)
            early = bytes(fed.out).removeprefix(due)
            assert early == b"" or is_known and early == stop, f"{bad.hex(' ')}: {early!r} before the end of input"
            got = fed.end()
            assert got == (due + stop, 0, b""), f"{bad.hex(' ')}: {got}"


def give_records(fed):
    """Gives those of OPEN, each in three pieces, and waits for each line: the lines, and the offset behind the records."""
    due, offset = b"", 0
    for line, answer in OPEN.items():
        piece = record(line)
        for part in (piece[:1], piece[1:-1], piece[-1:]):
            fed.written(due, f"before the end of {line}")
            fed.give(part)
        due, offset = due + answer, offset + len(piece)
        fed.written(due, line)
    return due, offset


def ends_when_unread(words, **how):
    """The reader takes a line and leaves: the program ends, and says nothing. Its status."""
    with as_file(record("new 64 64 1 1 1 0") + 100_000 * record("report")) as f:
        child = started(words, how, stdin=f)
    assert select.select([child.stdout], [], [], LIMIT)[0] and os.read(child.stdout.fileno(), 7) == b"new ok\n", "no first line"
    child.stdout.close()
    said = child.communicate(timeout=LIMIT)[1]
    assert said == b"", f"a reader left, and it said {said!r}"
    return child.returncode


def family(pid):
    """A process and all that it has started."""
    parents = {}
    for name in filter(str.isdecimal, os.listdir("/proc")):
        with contextlib.suppress(OSError):  # it is gone
            with open(f"/proc/{name}/stat") as f:
                parents[int(name)] = int(f.read().rpartition(")")[2].split()[1])
    found = [pid]
    for one in found:  # it grows while it is gone through
        found += [child for child, parent in parents.items() if parent == one]
    return found


def high_water(pid):
    """The most memory that a process has had, in kilobytes."""
    with contextlib.suppress(OSError):
        with open(f"/proc/{pid}/status") as f:
            return int(next((line.split()[1] for line in f if line.startswith("VmHWM:")), 0))
    return 0


def kilobytes(words, trace, how):
    """The most memory that a program has had once it has taken a trace."""
    with Fed(words, how) as fed:
        assert all(fed.give(piece) for piece in pieces_of(trace, 65_536)), "it did not take the whole trace"
        used = max(map(high_water, family(fed.child.pid)))
        assert used, f"no memory is told of it: {fed.end()}"
        fed.end()
        return used


def memory_stays(words, trace, more=MORE_MEMORY, **how):
    """A trace and its first tenth take as much, but for what chance adds."""
    short, long = (kilobytes(words, part, how) for part in (trace[:len(trace) // 10], trace))
    assert long < short + more, f"{long} kilobytes for {len(trace)} bytes, {short} for a tenth of them"
