"""The oracle and the model as replays that are fed in pieces, and tools/trace beside them: short traces in every way, a day's in some."""
import subprocess

from lib.records import walk
from tests import feeding
from tests.asked import BUILT, LIMIT, TRACE, packed, say

SHORT = ("marked", "damaged-kind", "cut-length", "cut-kind", "cut-payload", "seed-706")


def holds(what, call, *given):
    try:
        call(*given)
        say(True, what)
    except AssertionError as e:
        say(False, what, str(e))


def replays(folder):
    whole = (folder / "panel.bin").read_bytes()
    day = whole[:walk(whole[:200_000])[1]]
    for part in ("oracle", "model"):
        words = [BUILT / part]
        for name in SHORT:
            holds(f"{part}: {name} in pieces", feeding.same_in_pieces, words, packed(folder, name).read_bytes())
        for trace in (day, day + b"\12\0\2\0\1", day + b"\2\0\7\0" + day):
            holds(f"{part}: a long trace in pieces", feeding.same_in_pieces, words, trace, (97, 4096, 65_536), [1])
        holds(f"{part}: memory", feeding.memory_stays, words, whole)
        holds(f"{part}: lines come while the input is open", feeding.answers_while_open, words)
        holds(f"{part}: a reader who leaves", feeding.ends_when_unread, words)


def lines():
    """tools/trace unpack writes a line while its input is open; one that nobody reads any more ends it."""
    with feeding.Fed([TRACE, "unpack"], {}) as fed:
        fed.give(feeding.record("alloc 5 7") + feeding.record("clear")[:3])
        holds("tools/trace: a line while the input is open", fed.written, b"alloc 5 7\n", "unpack")
        fed.give(b"\0")
        got = fed.end()
    say(got == (b"alloc 5 7\nclear\n", 0, b""), "tools/trace: a record in two pieces", str(got))
    child = subprocess.Popen([TRACE, "unpack", "/dev/zero"], stdout=subprocess.PIPE, stderr=subprocess.PIPE)
    first = child.stdout.readline()
    child.stdout.close()
    said = child.communicate(timeout=LIMIT)[1].decode()
    due = "trace: stopped at offset 0: unknown kind 0\ntrace: its output is no longer read\n"
    say((first, child.returncode, said) == (b"raw" + b" 00" * 16 + b"\n", 141, due), "tools/trace unpack without an end", f"{child.returncode} {said}")
