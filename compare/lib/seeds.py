"""Compares seeded traces, in batches. The first that differs is shown, kept and cut, and ends the comparison."""
import collections

from lib import lines, pair as sides, programs, show
from lib.progress import LINE
from lib.rust import BUILT
from lib.use import Wrong

REACHABLE = [2, 3, 4, 5, 6, 7, 9, 10, 11, 12, 13, 14, 20, 22, 23]
WORN = 7  # the long traces
WORN_REACHABLE = [19]


def made(given, seed, count):
    which = ["worn"] if given.worn else [str(seed), str(count)]
    out, status = programs.run([str(BUILT / "traces"), *which], b"", None)
    traces = programs.frames(out)[seed:seed + count] if given.worn else programs.frames(out)
    if status or len(traces) != count:
        raise Wrong(f"asked for {count} traces from seed {seed} on, {len(traces)} were made")
    return traces


def batch(given, pair, keep, seed, count):
    """Compares one batch: the crate's outputs, or None at a difference."""
    traces = made(given, seed, count)
    expected, got = pair.crate(traces), pair.program(traces)
    for at, (e, g) in enumerate(zip(expected, got)):
        if e != g:
            LINE.wipe()
            name, label = str(seed + at), f"seed {seed + at}"
            kept = keep.trace(name, traces[at])
            show.difference(pair, keep, name, label, traces[at], e, g)
            print(f"  kept: {kept}, and .txt beside it")
            if given.cut_runs:
                show.cut(pair, keep, name, label, traces[at], given.cut_runs, given.cut_seconds)
            return None
    return expected


def closing(given, seen):
    """The refusals that came up; the status is 1 where one that can be reached did not and it was asked for."""
    print("refusals: " + ", ".join(f"{n}: {seen[n]}" for n in sorted(seen)))
    missing = [str(n) for n in (WORN_REACHABLE if given.worn else REACHABLE) if not seen[n]]
    if missing:
        print("not reached: " + " ".join(missing))
    return 1 if missing and given.reach else 0


def compare(given, pair, keep):
    seen, total = collections.Counter(), 0
    for done in range(0, given.count, given.batch):
        LINE.doing(f"{done} of {given.count} traces, {total} lines")
        count = min(given.batch, given.count - done)
        outputs = batch(given, pair, keep, given.seed + done, count)
        if outputs is None:
            print(f"stopped at the first difference, in the traces from {done + 1} to {done + count} of {given.count}")
            return 1
        for output in outputs:
            seen.update(sides.refusals(output))
            total += lines.count(output)
        LINE.tick()
    LINE.wipe()
    status = closing(given, seen)
    print(f"{given.count} traces, {total} lines, 0 differences")
    return status
