"""How the tools end where they are not let finish: Ctrl-C, a pipe that nobody reads, a device that is full."""
import array
import fcntl
import os
import pathlib
import shutil
import signal
import subprocess
import sys
import termios
import time

from tests.asked import CHECK, LIMIT, MUTANTS, RUN, SAMPLE, TRACE, say, script, started


def interrupted(name, child, begun):
    """Ctrl-C once the child is at its work: one line, status 130."""
    until = time.monotonic() + LIMIT
    while not begun() and child.poll() is None and time.monotonic() < until:
        time.sleep(0.02)
    time.sleep(0.2)  # what it has started may be quicker than the start itself
    child.send_signal(signal.SIGINT)
    said = child.communicate(timeout=LIMIT)[1].decode()
    say(child.returncode == 130 and said.endswith(": interrupted\n") and said.count("\n") == 1, f"{name}: Ctrl-C", f"{child.returncode} {said}")


def written(path):
    return path.exists() and path.read_text().endswith("\n")


def compilers(folder, trace, tools, environment):
    """A compiler that never ends."""
    begun = folder / "begun"
    script(tools, "cargo", f"#!/bin/sh\necho >{begun}\nexec {shutil.which('sleep')} 600\n")
    for words in ([RUN, trace, "--model"], [CHECK], [MUTANTS]):
        begun.unlink(missing_ok=True)
        interrupted(words[0].name, started([sys.executable, *words], env=environment), lambda: written(begun))


def programs(folder):
    """A program that never ends: what it has started is ended with it."""
    begun = folder / "sleeper"
    endless = script(folder, "endless", f"#!/bin/sh\n{shutil.which('sleep')} 600 & echo $! >{begun}\nwait\n")
    interrupted("check-sample", started([SAMPLE, endless]), lambda: written(begun))
    sleeper = pathlib.Path(f"/proc/{begun.read_text().strip()}/stat")
    until = time.monotonic() + 5
    while sleeper.exists() and ") Z" not in sleeper.read_text() and time.monotonic() < until:
        time.sleep(0.02)
    say(not sleeper.exists() or ") Z" in sleeper.read_text(), "what a program has started ends with it at Ctrl-C")


def lines():
    """Lines that never end: tools/trace is at work once it has taken the first from the pipe."""
    child, left = started([TRACE, "pack"], stdin=subprocess.PIPE), array.array("i", [1])
    child.stdin.write(b"clear\n")
    child.stdin.flush()

    def taken():
        fcntl.ioctl(child.stdin, termios.FIONREAD, left)
        return left[0] == 0
    interrupted("tools/trace", child, taken)


def unread(words, full_status):
    """Standard output is a pipe that nobody reads, then a full device."""
    reader, writer = os.pipe()
    os.close(reader)
    for target, status, line in ((writer, 141, "its output is no longer read"), (os.open("/dev/full", os.O_WRONLY), full_status, "o space left")):
        done = subprocess.run([str(word) for word in words], stdin=subprocess.DEVNULL, stdout=target, stderr=subprocess.PIPE, timeout=LIMIT)
        os.close(target)
        said = done.stderr.decode()
        say(done.returncode == status and said.count("\n") == 1 and line in said, f"{words[0]}: {line}", f"status {done.returncode}: {said}")
