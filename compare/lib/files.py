"""Compares recorded traces, a file each. Every file that differs is shown and cut."""
import os
import pathlib
import stat

from lib import lines, records, show
from lib.progress import LINE
from lib.use import Wrong

LARGEST = 2**30  # bytes: a trace and both outputs are held in memory, about five times as much


def read(name):
    try:
        with open(name, "rb") as f:
            kind = os.fstat(f.fileno()).st_mode
            if not (stat.S_ISREG(kind) or stat.S_ISFIFO(kind)):
                raise Wrong(f"{name}: neither a file nor a pipe; give the files of recorded traces")
            data = f.read(LARGEST + 1)
    except OSError as e:
        raise Wrong(f"{name or ascii(name)}: {e.strerror}; give the files of recorded traces") from None
    except ValueError as e:
        raise Wrong(f"{ascii(name)}: {e}") from None
    if len(data) > LARGEST:
        raise Wrong(f"{name}: above {LARGEST} bytes, which is more than is held in memory; compare/README.md has how a longer one is compared")
    return data


def outputs(file, pair, data):
    LINE.doing(f"{file}: on the crate")
    expected = pair.crate_alone(data)
    LINE.doing(f"{file}: on the program")
    got = pair.program_alone(data)
    LINE.wipe()
    return expected, got


def compare(given, pair, keep):
    total, differing = 0, 0
    for file, data in given.traces:
        expected, got = outputs(file, pair, data)
        total += lines.count(expected)
        if expected == got:
            print(f"{file}: {records.summary(data)}, {records.count(lines.count(expected), 'line')}", flush=True)
            continue
        differing += 1
        name = keep.name(pathlib.Path(file).stem or "trace")
        show.difference(pair, keep, name, file, data, expected, got)
        if given.cut_runs:
            show.cut(pair, keep, name, file, data, given.cut_runs, given.cut_seconds)
    print(f"{len(given.traces)} traces, {total} lines, {differing} differences")
    return 1 if differing else 0
