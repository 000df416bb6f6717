"""Recorded traces on compare/run: those that agree, and those that differ on programs that are wrong on purpose, shown and cut; a day's among
them."""
import os
import pty
import re
import shutil
import subprocess
import time

from lib.progress import EVERY
from lib.records import packed as made_of, walk
from lib.show import STATE_SHOWN
from lib.state import State, holds
from tests.asked import BUILT, COMPARE, LIMIT, ROOT, RUN, TRACE, command, one_line, packed, say, script

PROGRESS = re.compile(r"(.*: (on the (crate|program)|the state before|replayed again|cut to)\b.*\n)*")  # what a run of some seconds tells
GROWN = "/^grow ok/ { grown = 1 } grown && "  # what is wrong from the first accepted grow on


def agree(folder):
    """The port, the model, and the port with the trace as a file: whole traces, a damaged one, an empty one, a long one, and no trace."""
    marked, damaged, empty, long = packed(folder, "marked"), packed(folder, "damaged-kind"), folder / "empty.bin", folder / "long.bin"
    empty.write_bytes(b"")
    long.write_bytes(b"\2\0\4\0" * 8193)
    text = COMPARE / "sample/marked.txt"
    expected = [rf"{marked}: 8 records, 8 lines", rf"{damaged}: \d+ records? and \d+ damaged bytes?, \d+ lines?", rf"{empty}: 0 records, 0 lines",
                rf"{long}: 8193 records, 8193 lines",
                rf"{text}: 0 records and \d+ damaged bytes \(is this text\? tools/trace pack makes a trace of lines\), 1 line",
                r"5 traces, \d+ lines, 0 differences"]
    for program in ([], ["--model"], ["--program", f"{ROOT}/replay {{}}"]):
        done = command([RUN, marked, damaged, empty, long, text, *program])
        told = done.stdout.decode().splitlines()
        fits = len(told) == len(expected) and all(re.fullmatch(e, t) for e, t in zip(expected, told))
        say(done.returncode == 0 and fits, f"traces that agree, {program}", done.stdout.decode() + done.stderr.decode())


def wrong(folder, name, change, source="model"):
    """A program that is wrong on purpose: the lines of a right one go through awk."""
    right = {"model": f"{BUILT}/model", "replay": f"{ROOT}/replay"}[source]
    return script(folder, name, f"#!/bin/sh\n{right} | awk '{change} {{ print }}'\n")


def replayed(program, trace):
    with open(trace, "rb") as f:
        return subprocess.run([str(program)], stdin=f, stdout=subprocess.PIPE, timeout=LIMIT).stdout


def differ(folder, trace, program, most, *more):
    """Compares a trace that differs. What was printed, once the cut trace is seen to be small, to be kept as lines too, and still to differ."""
    done = command([RUN, "--keep", "found", "--program", program, *more, trace.name], cwd=folder)
    out, name = done.stdout.decode(), program.name
    say(done.returncode == 1 and PROGRESS.fullmatch(done.stderr.decode()), f"{name} differs", out + done.stderr.decode())
    say(re.search(r"\n1 traces, \d+ lines, 1 differences\n$", out), f"{name}: the closing line", out)
    cut = folder / "found" / f"{trace.stem}.cut.bin"
    lines = cut.with_suffix(".txt").read_text()
    say(command([TRACE, "pack", cut.with_suffix(".txt")]).stdout == cut.read_bytes(), f"{name}: the cut trace as lines", lines)
    say(len(lines.splitlines()) <= most, f"{name}: more than {most} records", lines)
    say(replayed(BUILT / "oracle", cut) != replayed(program, cut), f"{name}: the cut trace differs", lines)
    return out


def has(name, out, *shown):
    for text in shown:
        say(text in out, f"{name} shows {text!r}", out)


def shown(folder):
    """A wrong figure, and a rectangle that is wrong for buckets used a third time."""
    trace = packed(folder, "seed-706")
    out = differ(folder, trace, wrong(folder, "figure", GROWN + "/^space/ { $3 += 1 }"), 3)
    has("figure", out, "seed-706.bin: record ", ": report\n  crate:   space ", "  a report in its place: crate space ", ", changes nothing\n",
        "by compare/model (the crate's answers so far, and its own picture of its buckets, are the same):\n    sides 197 by 127, alignments 10 and 1\n",
        "seed-706.bin, cut to 3 records after ", "    report\nseed-706.cut: record 3 (byte 37): report\n")
    out = differ(folder, packed(folder, "seed-1099"), wrong(folder, "third", "/^alloc/ && $2 >= 67108864 { $6 += 1 }"), 6)
    has("third", out, "    - occupied figure 0, free 61184\n    + occupied figure 8, free 61176\n", "    bucket 0: released, generation 4\n",
        "    + bucket 0 of shelf 0: x 0, free width 35, references 1, items 1, generation 5\n")


def large(folder):
    """A state of thousands of lines is kept whole in a file, and its first lines are shown."""
    out = differ(folder, packed(folder, "grow-full-table"), wrong(folder, "large", "/^space/ { $3 += 1 }"), 2)
    more = re.search(r"\n    \.\. (\d+) lines more: found/grow-full-table.state has them all\n", out)
    say(more and len((folder / "found/grow-full-table.state").read_text().splitlines()) == int(more[1]) + STATE_SHOWN, "a large state", out)


def doubted():
    """A state that is not the crate's is told: other answers, and the same answers with another picture."""
    narrow, wide, used = (made_of(text)[0] for text in (b"new 32 32 1 1 1 0", b"new 64 64 1 1 1 0", b"new 64 64 1 1 1 0\nalloc 10 7"))
    say(holds(State(used), used) == "" and holds(State(b""), b"") == "", "the model's state is the crate's")
    say("NOT the crate's: its answers" in holds(State(wide), used), "a state with other answers")
    say("NOT the crate's: the crate's own picture" in holds(State(narrow), wide), "a state with another picture")


def page(folder):
    """The page's example is what is printed."""
    trace = packed(folder, "day", "grow-paths")
    out = differ(folder, trace, wrong(folder, "wrong", GROWN + "/^alloc/ { $6 += 1 }", "replay"), 3)
    indented = re.findall(r"(?:^    .*\n)+", (COMPARE / "README.md").read_text(), re.MULTILINE)
    printed = ["".join(line[4:] for line in block.splitlines(True)) for block in indented]
    say(out in printed, "the example of compare/README.md", out)


def tails(folder):
    """A damaged tail is kept as it is where it is needed, a cut return and a cut new too."""
    whole, trace, program = packed(folder, "marked").read_bytes(), folder / "tail.bin", wrong(folder, "offset", "/^stop/ && $3 > 0 { $3 += 1 }")
    for tail, why in (b"\6\0\3\0\1", "cut record"), (b"\27\0\1\0\1\2", "cut record"), (b"\2\0\7\0\1\2\3", "unknown kind 7"):
        trace.write_bytes(whole + tail)
        out = differ(folder, trace, program, 2)
        has("offset", out, f"damaged, {why}: raw {tail.hex(' ')}\n", "program: stop 14 ", "which answers stop 14 ")
        say((folder / "found/tail.cut.txt").read_text().endswith(f"raw {tail.hex(' ')}\n"), "the tail is kept whole", out)


def endings(folder):
    """A program that a signal ends, and one that writes no line's end."""
    trace = folder / "marked.bin"
    out = differ(folder, trace, script(folder, "killed", f"#!/bin/sh\nset -- $({BUILT}/model)\n[ $# = 0 ] || kill -SEGV $$\n"), 1)
    has("killed", out, "program: ended by SIGSEGV\n")
    out = differ(folder, trace, script(folder, "endless-line", f"#!/bin/sh\nprintf '%s' \"$({BUILT}/model)\"\n"), 1)
    has("endless-line", out, " (without the line's end)\n")


def day(folder, size):
    """A panel's day of so many bytes."""
    trace = folder / "panel.bin"
    trace.write_bytes(command([BUILT / "traces", "day", "5", size]).stdout)
    say(trace.stat().st_size >= size, "a day's trace")
    return trace


def deep(folder):
    """Far into a day's trace: what the last records show is cut to few of them; what takes 100 rounds of one bucket is cut within its bound."""
    trace = day(folder, 1_500_000)
    done = command([RUN, "--model", trace])
    count = walk(trace.read_bytes())[0]
    say(done.returncode == 0 and f"{count} records, {count} lines\n".encode() in done.stdout, "a day agrees", f"{done}")
    out = differ(folder, trace, wrong(folder, "shrinking", "/^refused 12/ { $2 = 6 }"), 3)
    has("shrinking", out, ": grow 512 1024\n  crate:   refused 12\n", "are the same):\n    sides 2048 by 1024", "\n    grow 512 1024\npanel.cut: record 3 ")
    begun = time.monotonic()
    out = differ(folder, trace, wrong(folder, "used", "/^alloc/ && $2 / 16777216 >= 100 { $6 += 1 }"), count - 1, "--cut-seconds", "3")
    has("used", out, ", the bound; a smaller one may do: ")
    at = int(re.match(r"panel.bin: record (\d+) |", out)[1] or 0)
    say(at > 50_000 and time.monotonic() - begun < 30, f"the state before record {at}, and a bounded cut", f"{time.monotonic() - begun} seconds")


def slow(folder):
    """A run of some seconds tells how far it is, on a terminal in one line; what is told goes to standard error alone."""
    program = script(folder, "slow", f"#!/bin/sh\n[ -s /dev/stdin ] || exit 0\nhead -c 500000 >part\nsleep {EVERY + 1.5}\ncat part - | {BUILT}/model\n")
    run = [RUN, "--program", program, folder / "panel.bin"]
    told, due = r"panel\.bin: on the program, 0\.5 of 1\.5 MB *[\r\n]", r".*: \d+ records, \d+ lines\n1 traces, \d+ lines, 0 differences\n"
    done = command(run, cwd=folder)
    say(done.returncode == 0 and re.fullmatch(due, done.stdout.decode()) and PROGRESS.fullmatch(done.stderr.decode()) and
        re.search(told, done.stderr.decode()), "progress", f"{done}")
    ours, theirs = pty.openpty()
    done = subprocess.run([str(word) for word in run], cwd=folder, stdout=subprocess.PIPE, stderr=theirs, timeout=LIMIT)
    os.close(theirs)
    said = os.read(ours, 65_536).decode()
    os.close(ours)
    say(done.returncode == 0 and re.search(told, said) and said.endswith(" \r") and "\n" not in said, "progress on a terminal", repr(said))


def bounds(folder):
    """A trace that can't be cut within its bound; a program that answers otherwise the second time; a file for the cut that finds no room."""
    long = folder / "long.bin"
    long.write_bytes(b"\2\0\4\0" * 8193)
    out = differ(folder, long, wrong(folder, "late", 'NR == 8193 { print "late"; next }'), 8193, "--cut-runs", "5")
    has("late", out, "record 8193 (byte 32768): clear\n  crate:   refused 13\n  program: late\n", "after 5 runs, the bound; a smaller one may do: ")
    once = '[ -z "$out" ] || [ -e once ] || { : >once; out=x; }'
    moody = script(folder, "moody", f"#!/bin/sh\nout=$({BUILT}/model)\n{once}\nprintf '%s' \"${{out:+$out\n}}\"\n")
    done = command([RUN, "--program", moody, "--keep", "found", "day.bin"], cwd=folder)
    say(done.returncode == 1 and b"the program does not answer the same each time" in done.stdout, "moody", done.stdout.decode() + done.stderr.decode())
    shutil.rmtree(folder / "found")
    (folder / "found").mkdir()
    (folder / "found/day.cut.bin").symlink_to("/dev/full")
    one_line([RUN, "--program", folder / "wrong", "--keep", "found", "day.bin"], 2, ["found/day.cut.bin: No space left"], cwd=folder)


def seeded(folder):
    """A seeded trace that differs is kept, shown and cut too; a program that dies in a batch is told by the trace on which it does."""
    program = wrong(folder, "seeded", GROWN + "/^alloc/ { $6 += 1 }")
    done = command([RUN, "--program", program, "--keep", "found", "--count", "30"], cwd=folder)
    out = done.stdout.decode()
    seed = re.search(r"^seed (\d+): record \d+ \(byte \d+\): alloc ", out, re.MULTILINE)
    say(done.returncode == 1 and seed and f"kept: found/{seed[1]}.bin" in out and f"seed {seed[1]}, cut to 3 records" in out, "a seeded trace", out)
    dies = script(folder, "dies", f"#!/bin/sh\ncat >batch\n[ $(wc -c <batch) -lt 100 ] || kill -SEGV $$\n{BUILT}/model --many <batch\n")
    done = command([RUN, "--program", dies, "--way", "framed", "--keep", "found", "--count", "30", "--cut-runs", "0"], cwd=folder)
    out = done.stdout.decode()
    say(done.returncode == 1 and out.startswith("seed ") and "program: ended by SIGSEGV\n" in out, "a batch that dies", out + done.stderr.decode())
    each = script(folder, "each", f"#!/bin/sh\nfor f in \"$1\"/*.bin; do {BUILT}/model \"$f\" >\"${{f%.bin}}.out\"; done\n")
    done = command([RUN, "--program", each, "--way", "directory", "--count", "30"], cwd=folder)
    say(done.returncode == 0 and b"30 traces, " in done.stdout, "a batch in a folder", (done.stdout + done.stderr).decode())
