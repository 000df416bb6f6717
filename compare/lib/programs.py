"""Running a program on traces. Three ways: `each`, one run for a trace, on standard input or as a file in the place of the word {};
`framed`, a batch in one run, each trace and each output behind its u32 length; `directory`, a folder of NUMBER.bin that gets NUMBER.out."""
import contextlib
import os
import pathlib
import shlex
import shutil
import signal
import struct
import subprocess
import tempfile
import time

from lib.progress import LINE
from lib.use import Wrong

SECONDS, BYTES_A_SECOND = 60, 10_000  # for one trace, and more for a long one; a program that runs on is told as a difference
FIRST_SECONDS = 3600  # for the first run, in which ./replay may prove and build its program


def words_of(command):
    """The words of a command line, of which the first is a program that can be executed."""
    try:
        words = shlex.split(command)
    except ValueError as e:
        raise Wrong(f"--program {command}: {e}; mark words as for a shell") from None
    return checked(words or [""])


def checked(words):
    if not shutil.which(words[0]):
        there = os.path.exists(words[0])
        raise Wrong(f"{words[0]} can not be executed: give a program, or make it one by chmod +x" if there else
                    f"no program {words[0]!r}: give the name of one that can be executed")
    return words


def seconds_for(traces):
    return sum(SECONDS + len(trace) / BYTES_A_SECOND for trace in traces)


def run(words, given, seconds, errors=subprocess.PIPE):
    """Output and status line of one run, with bytes or an open file as standard input. A program that runs on is ended with all that it started, as
    it is at Ctrl-C."""
    if isinstance(given, bytes):
        with tempfile.TemporaryFile() as f:
            f.write(given)
            f.seek(0)
            return run(words, f, seconds, errors)
    try:
        child = subprocess.Popen(words, stdin=given, stdout=subprocess.PIPE, stderr=errors, start_new_session=True)
    except OSError as e:
        raise Wrong(f"{words[0]} can not be executed: {e.strerror}") from None
    try:
        return ended(child, given, time.monotonic() + (seconds or float("inf")))
    except BaseException:
        end(child)
        raise


def ended(child, file, until):
    """The same of a program under way. Every second is a moment to tell how far it is."""
    while True:
        try:
            out, said = child.communicate(timeout=1)
            return out, status_line(child.returncode, said or b"")
        except subprocess.TimeoutExpired:
            if time.monotonic() > until:
                end(child)
                return child.communicate()[0], b"(no end)\n"
            LINE.tick(read_so_far(file))


def read_so_far(file):
    """How much of a file a program has read: it shares the place in it with whom it has it from."""
    at, size = os.lseek(file.fileno(), 0, os.SEEK_CUR), os.fstat(file.fileno()).st_size
    return f", {at / 1e6:.1f} of {size / 1e6:.1f} MB" if at else ""


def end(child):
    with contextlib.suppress(ProcessLookupError):
        os.killpg(child.pid, signal.SIGKILL)


def status_line(status, said):
    """A program that did not end well may have written less than it meant to: a line of its own says so, with its last word."""
    if not status:
        return b""
    name = next((known.name for known in signal.Signals if known == -status), f"signal {-status}")
    how = f"ended by {name}" if status < 0 else f"ended with status {status}"
    last = said.strip().split(b"\n")[-1]
    return how.encode() + (b" (" + last + b")" if last else b"") + b"\n"


def whole(out, status):
    """The status line starts a line, whatever stands before it."""
    return out + (b"\n" if status and out and not out.endswith(b"\n") else b"") + status


def one(words, trace, seconds=None, errors=subprocess.PIPE):
    seconds = seconds or seconds_for([trace])
    with tempfile.NamedTemporaryFile(suffix=".bin") as f:
        f.write(trace)
        f.seek(0)
        return whole(*run([f.name if word == "{}" else word for word in words], f, seconds, errors))


def each(words, traces):
    out = []
    for trace in traces:
        out.append(one(words, trace))
        LINE.tick()
    return out


def framed(words, traces):
    """Where a batch fails, each trace is run by itself, to find which it was."""
    outputs, status = batch(words, traces)
    if not status and len(outputs) == len(traces):
        return outputs
    alone = [batch(words, [trace]) for trace in traces]
    if all(not failed and len(given) == 1 for given, failed in alone):
        raise Wrong(f"{words[0]} gave {len(outputs)} outputs for a batch of {len(traces)} traces, and one for each alone: --way framed needs all")
    return [whole(b"".join(given[:1]), failed or (b"" if given else b"no framed output\n")) for given, failed in alone]


def batch(words, traces):
    out, status = run(words, b"".join(struct.pack("<I", len(t)) + t for t in traces), seconds_for(traces))
    return frames(out), status


def frames(data):
    """The frames of a batch, a cut one left out."""
    out, at = [], 0
    while at + 4 <= len(data):
        (length,) = struct.unpack_from("<I", data, at)
        if at + 4 + length > len(data):
            break
        out.append(data[at + 4:at + 4 + length])
        at += 4 + length
    return out


def directory(words, traces):
    with tempfile.TemporaryDirectory() as name:
        files = [pathlib.Path(name) / f"{number}.bin" for number in range(len(traces))]
        for file, trace in zip(files, traces):
            file.write_bytes(trace)
        _, status = run([*words, name], b"", seconds_for(traces))
        outs = [file.with_suffix(".out") for file in files]
        return [whole(out.read_bytes(), status) if out.exists() else status + b"no output file\n" for out in outs]


WAYS = {"each": each, "framed": framed, "directory": directory}


def start(words, way):
    """An empty trace writes nothing and is no error: a program that fails on it can't be compared. What it says of itself is passed on."""
    if way == "directory":
        return
    given = one(words, b"", FIRST_SECONDS, None) if way == "each" else whole(*run(words, b"", FIRST_SECONDS, None))
    last = given.split(b"\n")[-2:-1] or [b""]
    if last[0].startswith((b"ended ", b"(no end)")):
        raise Wrong(f"{' '.join(words)} {last[0].decode('utf-8', 'backslashreplace')} on an empty trace: make it run, then compare")
