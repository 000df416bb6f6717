"""The kept pictures: programs that draw them, and draw them wrongly; the model and the crate, which draw the same at the end of every trace."""
import shutil

from tests.asked import COMPARE, PICTURES, RUN, command, packed, say, script

KEPT = sorted((COMPARE / "sample/pictures").glob("*.svg"))
# a program that knows the kept traces and their pictures; {turned} is what it writes of one
KNOWS = """#!/bin/sh
for kept in {folder}/*.svg; do
    if cmp -s "${{kept%.svg}}.bin" "${{3-/dev/null}}"; then {turned} <"$kept" >"$2"; fi
done
"""


def checked(folder, turned):
    done = command([PICTURES, script(folder, "draws", KNOWS.format(folder=folder, turned=turned))])
    return done.returncode, done.stdout.decode().splitlines(), done.stderr.decode()


def programs(folder):
    for file in KEPT:
        shutil.copy(file, folder)
        packed(folder, file.stem, f"pictures/{file.stem}")
    status, out, said = checked(folder, "cat")
    say((status, out, said) == (0, [f"{len(KEPT)} passed, 0 failed"], ""), "check-pictures on a program that draws them", f"{out} {said}")
    for turned, told in (
        ("head -c -1", "kept </svg>, program </svg> (without the line's end)"),
        ("head -n -1", "kept </svg>, program (nothing)"),
        ("sed s/282828/323232/", 'fill="#282828"/>, program <rect'),
        ("true", "program (nothing)"),
    ):
        status, out, said = checked(folder, turned)
        right = status == 1 and not said and out[-1] == f"0 passed, {len(KEPT)} failed" and all(told in line for line in out[:-1])
        say(right, f"check-pictures on a program that draws wrongly: {turned}", f"{out} {said}")
    done = command([PICTURES, "true"])
    say(done.returncode == 1 and done.stdout.count(b"program no file was written") == len(KEPT), "check-pictures on a program that draws nothing", f"{done}")


def model(folder):
    done = command([PICTURES, "--model"])
    say((done.returncode, done.stdout) == (0, b"%d passed, 0 failed\n" % len(KEPT)), "check-pictures --model", f"{done}")
    for words, told in (
        ([packed(folder, "marked")], b"1 traces, 15 lines, 0 differences\n"),
        (["--count", "40"], b"lines, 0 differences\n"),
    ):
        done = command([RUN, "--model", "--pictures", *words])
        say(done.returncode == 0 and done.stdout.endswith(told), f"run --model --pictures {words[0]}", f"{done}")
