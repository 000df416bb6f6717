"""How a program here is used wrongly, and how that is told: one line on standard error that says what is wrong and what to do.
The exit status is 2 then; 130 for Ctrl-C, 143 for a TERM signal and 141 for a closed pipe, as the shell counts them."""
import argparse
import errno
import os
import signal
import sys
import tempfile

from lib.progress import LINE

INTERRUPTED, UNREAD = 130, 141


class Wrong(Exception):
    """A wrong use; its text is the line."""


class Words(argparse.ArgumentParser):
    """A command line. Its own words for what is wrong; --help prints the program's opening text."""

    def __init__(self, name, text):
        super().__init__(prog=name, description=text, formatter_class=argparse.RawDescriptionHelpFormatter, allow_abbrev=False)

    def error(self, message):
        raise Wrong(f"{message}; {self.prog} --help says how it is used")

    def read(self, words):
        given, unknown = self.parse_known_args(words)
        if unknown:
            self.error(f"unknown option {unknown[0]}" if unknown[0].startswith("-") else f"{unknown[0]} is one word too many")
        return given


def at_least(least):
    """The type of an argument that is a number."""
    def number(text):
        if not (text.isascii() and text.isdecimal()) or not least <= int(text[:20]) < 2**63:
            raise argparse.ArgumentTypeError(f"{text} is no number from {least} on")
        return int(text)
    return number


def what_failed(error):
    """An error of the system, in one line."""
    if error.errno == errno.ENOSPC and not error.filename:
        return f"no space left where its output goes, or for temporary files in {tempfile.gettempdir()}: make room there"
    return (f"{error.filename}: " if error.filename else "") + (error.strerror or str(error))


def say(name, text, status):
    """What stands in the buffer goes out first; where it can't, it is dropped, so that Python does not tell of it at its end."""
    LINE.wipe()
    try:
        if sys.stdout:
            sys.stdout.flush()
    except OSError:
        os.dup2(os.open(os.devnull, os.O_WRONLY), 1)
    print(f"{name}: {' '.join(str(text).split())}", file=sys.stderr)
    return status


def terminated(number, _):
    """A TERM signal is taken as Ctrl-C is, so that the programs under way are ended too."""
    raise KeyboardInterrupt(128 + number)


def end(name, main):
    """Runs a program's main on its words, and ends with its status."""
    signal.signal(signal.SIGTERM, terminated)
    if sys.stdout:
        sys.stdout.reconfigure(errors="backslashreplace")
    try:
        status = main(sys.argv[1:])
        if sys.stdout:
            sys.stdout.flush()
    except Wrong as e:
        status = say(name, e, 2)
    except KeyboardInterrupt as e:
        status = say(name, "interrupted", *(e.args or [INTERRUPTED]))
    except BrokenPipeError:
        status = say(name, "its output is no longer read", UNREAD)
    except OSError as e:
        status = say(name, what_failed(e), 2)
    sys.exit(status)
