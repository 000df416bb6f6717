"""How instructions are counted between the bench's marks (src/marks.rs): by valgrind, by single steps of the processor, or under qemu.

Each counter takes the program's command and its words, and gives the cases in their order with four counts each: the crate's calls, the
port's, the port's with a tables test before each, and with a list's test before each; of files write, read and the two tests; of pictures one that
fits its buffer, one that does not, and the two tests; of lists the list's test, then with the list shuffled the call `size`, the tables test and the list's; of shelf heights worked out, from the table, from a
constant of Rust, and the loop alone. What the marks themselves take is off.
"""
import itertools
import os
import pathlib
import re
import subprocess
import tempfile

# The C library has a memset for each kind of processor. This is the one for AVX2 without AVX-512 and transactions, which all three counters can run.
TUNABLES = "glibc.cpu.hwcaps=-AVX512F,-AVX512VL,-AVX512BW,-ERMS,-FSRM,-RTM,-Prefer_No_VZEROUPPER"
MARKS = 255  # the phase between two marks with nothing between them


SIDES = 4  # of a case
# what is held to the processor's single steps: the words of a run, few and small
HELD_TO_STEPS = (["512", "near-empty"], ["lists", "100"])


class Failed(Exception):
    pass


def ran(command, how):
    """What a counter's command wrote; `how` is the kind of mark."""
    env = {**os.environ, "GLIBC_TUNABLES": TUNABLES, "BENCH_COUNT": how}
    done = subprocess.run(command, env=env, capture_output=True, text=True)
    if done.returncode != 0:
        last = (done.stderr.strip() or done.stdout.strip() or "nothing was said").splitlines()[-1]
        raise Failed(f"{command[0]} ended with status {done.returncode}: {last}")
    return done


def cases(lines, phases):
    """NAME, CALLS, SHELVES, BUCKETS, HELD and the four counts, of the program's lines and the counts of its phases."""
    found = []
    for line in lines.splitlines():
        _, k, name, *numbers = line.split()
        sides = [phases.get(SIDES * int(k) + 1 + n) for n in range(SIDES)]
        if None in sides or MARKS not in phases:
            raise Failed(f"no count of {name}")
        found.append([name, *map(int, numbers), *(s - phases[MARKS] for s in sides)])
    if not found:
        raise Failed("the program named no case")
    return found


def told_phases(text):
    """The phases as the stepper and the plugin tell them."""
    return {int(p): int(n) for p, n in re.findall(r"^icount phase (\d+): (\d+)$", text, re.M)}


def by_valgrind(program, words):
    with tempfile.TemporaryDirectory() as folder:
        done = ran(["valgrind", "-q", "--tool=callgrind", f"--callgrind-out-file={folder}/part", *program, *words], "valgrind")
        parts = []
        for n in itertools.count(1):
            part = pathlib.Path(folder, f"part.{n}")
            if not part.exists():
                break
            parts.append(int(re.search(r"^totals: (\d+)$", part.read_text(), re.M)[1]))
    # a part ends at a mark: what is before the first, the marks themselves, the rest, and for each case its sides and the rest
    phases = {MARKS: parts[1]}
    for k, at in enumerate(range(3, len(parts), SIDES + 1)):
        phases.update({SIDES * k + 1 + n: count for n, count in enumerate(parts[at:at + SIDES])})
    return cases(done.stdout, phases)


def by_step(stepper):
    def count(program, words):
        done = ran([str(stepper), *program, *words], "call")
        return cases(done.stdout, told_phases(done.stderr))
    return count


def by_qemu(emulator, plugin):
    def count(program, words):
        command = [str(emulator), "-cpu", "max", "-U", "LD_LIBRARY_PATH", "-plugin", str(plugin)]
        done = ran([*command, *program, *words], "call")
        return cases(done.stdout, told_phases(done.stderr))
    return count


def checked(counter, stepper, program):
    """How many counts of the smallest states a counter and the processor's single steps agree on: all, or it fails."""
    agreed = 0
    for words in HELD_TO_STEPS:
        mine, steps = counter(program, words), by_step(stepper)(program, words)
        if len(mine) != len(steps):
            raise Failed(f"the counter has {len(mine)} cases, and the processor {len(steps)}")
        for one, other in zip(mine, steps):
            if one != other:
                raise Failed(f"the counter has {one[-SIDES:]} for {one[0]}, and the processor {other[-SIDES:]}: take --counter step")
        agreed += SIDES * len(mine)
    return agreed
