"""How far a long run is, told on standard error every few seconds: a line each time, on a terminal one line in its place. A short run tells
nothing."""
import contextlib
import sys
import time

EVERY = 4  # seconds


class Progress:
    def __init__(self):
        self.told, self.what, self.width = time.monotonic(), "", 0

    def doing(self, what):
        """What is under way."""
        self.what = what

    def tick(self, more=""):
        """A moment to tell it, with how far that is."""
        if self.what and time.monotonic() - self.told >= EVERY:
            self.told = time.monotonic()
            self.say(self.what + more)

    def say(self, text):
        with contextlib.suppress(OSError, AttributeError):  # nobody reads it, or it is closed
            if sys.stderr.isatty():
                print("\r" + text.ljust(self.width), end="", file=sys.stderr, flush=True)
                self.width = len(text)
            else:
                print(text, file=sys.stderr, flush=True)

    def wipe(self):
        """A terminal's line goes before another comes."""
        if self.width:
            print("\r" + " " * self.width + "\r", end="", file=sys.stderr, flush=True)
            self.width = 0


LINE = Progress()
