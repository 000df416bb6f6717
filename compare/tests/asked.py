"""What the tests of the tools share: commands, scripts, recorded traces, and the count of what held and what did not."""
import collections
import pathlib
import re
import signal
import subprocess

ROOT = pathlib.Path(__file__).resolve().parent.parent.parent
COMPARE, TRACE, WEAR = ROOT / "compare", ROOT / "tools/trace", ROOT / "tools/wear"
RUN, SAMPLE, PICTURES, CHECK, MUTANTS = (COMPARE / name for name in ("run", "check-sample", "check-pictures", "check-trace", "mutants"))
BUILT = COMPARE / "target/release"
LIMIT = 120  # seconds for one command, far above what any takes
count = collections.Counter()


def say(holds, what, told=""):
    count["passed" if holds else "failed"] += 1
    if not holds:
        print(f"failed: {what}\n{told}".rstrip(), flush=True)


def command(words, **how):
    return subprocess.run([str(word) for word in words], capture_output=True, timeout=LIMIT, **{"stdin": subprocess.DEVNULL, **how})


def started(words, **how):
    """Ctrl-C reaches it, even where this test itself was started in the background, where a shell has it ignored."""
    heard = lambda: signal.signal(signal.SIGINT, signal.SIG_DFL)
    return subprocess.Popen([str(word) for word in words], stdout=subprocess.PIPE, stderr=subprocess.PIPE, preexec_fn=heard, **how)


def one_line(words, status, told, **how):
    """A wrong use: one line on standard error that has all these words, this status, and no traceback anywhere. What a slow machine is told
    on the way, how far a cut is, does not count."""
    done = command(words, **how)
    line = re.sub(r"(?m)^.*: (cut to .* so far, \d+ runs?|replayed again)\n", "", done.stderr.decode())
    fits = line.count("\n") == 1 and all(word in line for word in told) and b"Traceback" not in done.stderr + done.stdout
    say(done.returncode == status and fits, " ".join(map(str, words)), f"status {done.returncode}; {status} and {told} were asked for: {line}")


def script(folder, name, text):
    path = folder / name
    path.write_text(text)
    path.chmod(0o755)
    return path


def packed(folder, name, source=None):
    """A recorded trace, from lines of the sample."""
    made = command([TRACE, "pack", COMPARE / f"sample/{source or name}.txt", folder / f"{name}.bin"])
    say(made.returncode == 0, f"tools/trace pack: {name}", made.stderr.decode())
    return folder / f"{name}.bin"
