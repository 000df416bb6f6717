"""The two sides of a comparison: the crate, which is the oracle, and a program."""
from lib import lines, programs
from lib.rust import BUILT


class Pair:
    """`start` is the offset at which both sides start to count; the program must be told by its words."""

    def __init__(self, words, way, start=0, alone=None):
        self.words, self.way, self.start = words, way, start
        self.alone = alone or (words, way)  # what replays one trace that may be long
        self.oracle = [str(BUILT / "oracle"), f"--from={start}"]

    def crate(self, traces):
        return programs.framed([*self.oracle, "--many"], traces)

    def program(self, traces):
        return programs.WAYS[self.way](self.words, traces)

    def crate_alone(self, trace):
        return programs.one(self.oracle, trace)

    def program_alone(self, trace):
        words, way = self.alone
        return programs.WAYS[way](words, [trace])[0]

    def outputs(self, trace):
        return self.crate_alone(trace), self.program_alone(trace)


def model(start, pictures):
    """The model in the place of a program, its tables test on; with pictures, what each side draws comes behind its lines."""
    asked = ["--picture"] * pictures
    words = [str(BUILT / "model"), "--sound", f"--from={start}", *asked]
    pair = Pair([*words, "--many"], "framed", start, (words, "each"))
    pair.oracle += asked
    return pair


def refusals(output):
    """The numbers that an output's lines refuse with."""
    return [int(line.split()[1]) for line in lines.lines(output) if line.startswith((b"refused", b"stop"))]
