"""tools/wear: the crate's ten years anew, with the lines that the gate holds the port to, give what docs/wear keeps; another port's give another
chart; and a port that fails or writes other lines is told."""
from tests.asked import ROOT, WEAR, command, one_line, say, script

KEPT = ("crate.txt", "both.txt", "wear.svg")
PORT = ROOT / "crates/wear/stdout"


def made(folder, name, does):
    """The files that come of a port that does this with the kept lines."""
    port, out = script(folder, name, f"#!/bin/sh\n{does} <{PORT}\n"), folder / f"{name}.d"
    done = command([WEAR, "--port", port, out])
    say((done.returncode, done.stdout, done.stderr) == (0, b"", b""), f"tools/wear with a port of {does}", f"{done}")
    return [(out / file).read_text() if (out / file).is_file() else None for file in KEPT]


def charts(folder):
    kept = [(ROOT / "docs/wear" / file).read_text() for file in KEPT]
    for name, one, other in zip(KEPT, kept, made(folder, "same", "cat")):
        say(one == other, f"docs/wear/{name} is what tools/wear writes", "run tools/wear, and look at what has changed")
    for does in ("sed '/^quarter 9:/s/more labels .*/more labels 0/'", "sed '/^quarter 9:/s/refused 0/refused 9/'"):
        crate, both, drawn = made(folder, "other", does)
        say(crate == kept[0] and both not in (None, kept[1]) and drawn not in (None, kept[2]), f"another chart of {does}")


def wrong(folder):
    """Nothing is written where the port's lines are not there."""
    for does, told in (
        ("false", ["ended with status 1"]),
        ("true", ["40 quarters and a last line were asked for, 0"]),
        ("head -n 40", ["40 quarters and a last line were asked for, 39"]),
        ("sed 2d", ["line 2 is not that of quarter 2: quarter 3:"]),
        ("sed s/free/left/", ["line 1 is not that of quarter 1: quarter 1: refused 0 of 4000"]),
    ):
        port, out = script(folder, "wrong", f"#!/bin/sh\n{does} <{PORT}\n"), folder / "wrong.d"
        one_line([WEAR, "--port", port, out], 2, told)
        say(not out.exists(), f"tools/wear writes nothing with a port of {does}")
