"""The comparison at scale with an edit of the model: a copy of it over the archive that is there, and what it says of a difference."""
import os
import pathlib
import platform
import re
import shutil
import subprocess

from lib import rust, use

# what is compared for each edit: pairs of write and read, behind the damaged files; damaged lists and pictures, behind the directed ones
COUNTS = {"files": "3000", "list": "4000", "pictures": "2000"}


def clauses(file):
    """A test of the model with one of its clauses left out, each in turn; where one is asked twice, the second time, which says it all."""
    whole = (rust.COMPARE / "model/src" / file).read_text()
    asked = {clause: text for text, clause in re.findall(r'(ask\(.*, "([^"]+)"\))', whole)}
    return {f"not asked: {clause}": (file, text, f'ask(true, "{clause}")') for clause, text in asked.items()}


def copied(folder):
    """In a folder of its own, over the archive that is there."""
    left = rust.COMPARE.parent / "target/archive" / platform.machine()
    archive = pathlib.Path(os.environ.get("RATTLE_LIBDIR") or left) / "libtreadwharf.a"
    if not archive.exists():
        raise use.Wrong(f"no {archive}; tools/archive makes it")
    for part in ["model", "frames", "oracle", "scale", "sample"]:
        shutil.copytree(rust.COMPARE / part, folder / part, ignore=shutil.ignore_patterns("target"))
    cargo = folder / "scale/Cargo.toml"
    cargo.write_text(cargo.read_text().replace("../../bindings", f"{rust.COMPARE.parent}/bindings"))


def noticed(folder, part):
    """The line that the comparison says of a difference, or its last one, where it fails."""
    environment = dict(os.environ, TMPDIR=str(folder))
    done = subprocess.run([folder / "scale/target/release/scale", part, COUNTS[part]], capture_output=True, text=True, env=environment)
    if done.returncode == 0:
        return None
    lines = done.stdout.strip().split("\n")
    told = [line[line.index("DIFFERENCE"):].split("; a file of")[0] for line in lines if "DIFFERENCE" in line]
    return next(iter(told), lines[-1] or f"status {done.returncode}")
