"""Wrong uses that are told before anything is compiled: words, files, programs, and no Rust or crate to compile with."""
import os
import shutil
import sys

from tests.asked import CHECK, COMPARE, MUTANTS, PICTURES, RUN, SAMPLE, TRACE, WEAR, command, one_line, say, script


def helps():
    for tool in (RUN, SAMPLE, PICTURES, CHECK, MUTANTS, TRACE, WEAR):
        done = command([tool, "--help"])
        name = f"{tool.parent.name}/{tool.name}"
        say(done.returncode == 0 and not done.stderr and name.encode() in done.stdout, f"{name} --help", done.stderr.decode())


def words(folder, trace):
    told = {
        (RUN, "--frob"): ["unknown option --frob", "--help"],
        (RUN, "--count", "many"): ["many is no number from 1 on", "--help"],
        (RUN, "--count", "0"): ["0 is no number from 1 on"],
        (RUN, "--seed", "-1"): ["--seed", "--help"],
        (RUN, "--keep"): ["--keep", "--help"],
        (RUN, "--way", "sideways"): ["sideways", "framed", "--help"],
        (RUN, "--count", "5", trace): ["--count is for seeded traces"],
        (RUN, "--worn", trace): ["--worn is for seeded traces"],
        (RUN, "--worn", "--count", "5"): ["--worn takes no --count"],
        (RUN, "--from", "4294967296", "--model"): ["--from takes an offset of at most 4294967295"],
        (RUN, "--model", "--program", "true"): ["--model takes no --program"],
        (RUN, "--pictures", trace): ["--pictures is for --model", "compare/check-pictures"],
        (SAMPLE,): ["no program is given", "--help"],
        (SAMPLE, "--frob"): ["unknown option --frob", "--help"],
        (PICTURES,): ["no program is given", "--help"],
        (PICTURES, "--frob"): ["unknown option --frob", "--help"],
        (CHECK, "many"): ["many is no number", "--help"],
        (CHECK, "--frob"): ["unknown option --frob", "--help"],
        (CHECK, "100", "100"): ["100 is one word too many", "--help"],
        (MUTANTS, "many"): ["many is no number", "--help"],
        (MUTANTS, "--frob"): ["unknown option --frob", "--help"],
        (MUTANTS, "--sample", "9"): ["--sample, --files, --list and --pictures stand alone", "--help"],
        (MUTANTS, "--files", "9"): ["--sample, --files, --list and --pictures stand alone", "--help"],
        (MUTANTS, "--files", "--sample"): ["--sample, --files, --list and --pictures stand alone", "--help"],
        (MUTANTS, "--list", "--files"): ["--sample, --files, --list and --pictures stand alone", "--help"],
        (MUTANTS, "--pictures", "--list"): ["--sample, --files, --list and --pictures stand alone", "--help"],
        (TRACE,): ["pack or unpack", "--help"],
        (TRACE, "frob"): ["frob is neither pack nor unpack", "--help"],
        (TRACE, "pack", "a", "b", "c"): ["c is one word too many", "--help"],
        (WEAR, "--frob"): ["unknown option --frob", "--help"],
        (WEAR, "--port"): ["--port", "--help"],
        (WEAR, "a", "b"): ["b is one word too many", "--help"],
    }
    for wrong, line in told.items():
        one_line(wrong, 2, line, cwd=folder)
    bare = {**os.environ, "RATTLE_LIBDIR": str(folder)}
    one_line([MUTANTS, "--files"], 2, [f"no {folder}/libtreadwharf.a", "tools/archive makes it"], env=bare)


def files(folder, trace):
    """What can't be read or written. An empty file is a trace of no records, and so none of these."""
    told = {
        (RUN, folder / "none.bin"): (2, ["none.bin: No such file", "give the files of recorded traces"]),
        (RUN, folder): (2, ["Is a directory", "give the files of recorded traces"]),
        (RUN, ""): (2, ["'': No such file"]),
        (RUN, trace, "/dev/zero"): (2, ["/dev/zero: neither a file nor a pipe"]),
        (RUN, "--keep", "/dev/null/found", trace): (2, ["--keep", "/dev/null is no folder", "name another"]),
        (RUN, "--keep", trace, trace): (2, ["--keep", "is no folder"]),
        (TRACE, "unpack", folder / "none.bin"): (1, ["none.bin: No such file"]),
        (TRACE, "pack", folder): (1, ["Is a directory"]),
        (TRACE, "unpack", trace, "/dev/null/lines"): (1, ["/dev/null/lines: Not a directory"]),
        (TRACE, "unpack", trace, "/dev/full"): (1, ["/dev/full: No space left"]),
        (TRACE, "unpack", trace, trace): (1, ["is read: name another file"]),
        (TRACE, "pack", "/dev/zero"): (1, ["line 1: longer than 65536 bytes"]),
    }
    sealed = script(folder, "sealed", "")
    sealed.chmod(0)
    if os.geteuid() != 0:  # the superuser reads what is sealed
        told[RUN, sealed] = (2, ["sealed: Permission denied"])
        told[TRACE, "unpack", sealed] = (1, ["sealed: Permission denied"])
    for wrong, (status, line) in told.items():
        one_line(wrong, status, line)


def programs(folder, trace):
    """Programs that are none, or can't be executed, or fail on an empty trace."""
    text = script(folder, "text", "no program\n")
    lost = script(folder, "lost", "#!/nonexistent/interpreter\n")
    for start in ([RUN, trace, "--program"], [SAMPLE], [PICTURES]):
        one_line([*start, "/nonexistent/program"], 2, ["no program '/nonexistent/program'"])
        one_line([*start, "nonexistent-program"], 2, ["no program 'nonexistent-program'"])
        one_line([*start, COMPARE / "README.md"], 2, ["README.md can not be executed", "chmod +x"])
        one_line([*start, folder], 2, ["can not be executed"])
    one_line([RUN, trace, "--program", "replay 'day"], 2, ["No closing quotation"])
    one_line([RUN, trace, "--program", ""], 2, ["no program ''"])
    one_line([SAMPLE, text], 2, ["text can not be executed: Exec format error"])
    one_line([SAMPLE, lost], 2, ["lost can not be executed: No such file"])
    one_line([SAMPLE, "false"], 2, ["false ended with status 1 on an empty trace"])


def compilers(trace):
    """The commands that compile."""
    return [RUN, trace, "--model"], [RUN, "--count", "1", "--model"], [CHECK], [MUTANTS], [WEAR, trace.parent / "wear"]


def no_source(folder, trace):
    """Without the crate's source, or with one file of it; the environment with both, and both empty."""
    source = folder / "source"
    (source / "src").mkdir(parents=True)
    environment = dict(os.environ, ETAGERE_SRC=str(source))
    for file in ("lib.rs", "bucketed.rs"):
        for start in compilers(trace):
            one_line(start, 2, ["set ETAGERE_SRC", "src/lib.rs and src/bucketed.rs", "etagere 0.2.15"], env=environment)
        (source / "src" / file).write_bytes(b"")
    return environment


def shared(folder):
    """compare/sources where ETAGERE_SRC is not set: what the machine has above it, nothing or a source; then one without lib.rs; then a whole one."""
    beside = folder / "beside"
    (beside / "compare").mkdir(parents=True)
    tool = shutil.copy(COMPARE / "sources", beside / "compare")
    environment = {k: v for k, v in os.environ.items() if k != "ETAGERE_SRC"}
    sources = [up / "shared/docs/src" for up in beside.resolve().parents]
    above = next((source for source in sources if (source / "src/bucketed.rs").is_file()), None)
    if above:
        finds(tool, above, environment)
    else:
        one_line([tool], 1, ["no source of the crate: set ETAGERE_SRC"], env=environment)
    source = beside.resolve() / "shared/docs/src"
    (source / "src").mkdir(parents=True)
    (source / "src/bucketed.rs").write_bytes(b"")
    one_line([tool], 1, [f"no source of the crate in {source}: set ETAGERE_SRC"], env=environment)
    (source / "src/lib.rs").write_bytes(b"")
    finds(tool, source, environment)


def finds(tool, source, environment):
    done = command([tool], env=environment)
    say((done.returncode, done.stdout.decode()) == (0, f"{source.resolve()}\n"), f"{tool} finds {source}", f"{done}")


def no_rust(folder, trace, environment):
    """Without cargo, with a Rust that is too old, with a compiler that fails; the folder for tools that the commands find, and no other."""
    tools = folder / "bin"
    tools.mkdir()
    for name in ("dirname", "awk"):
        (tools / name).symlink_to(shutil.which(name))
    environment["PATH"] = str(tools)
    steps = [("rustc", "echo rustc 1.81.0", ["no cargo", "Rust 1.82 or later is needed"]),
             ("cargo", "exit 0", ["rustc 1.81.0 is too old", "Rust 1.82 or later is needed"]),
             ("rustc", "echo rustc 1.82.0", None),
             ("cargo", "echo note >&2; echo error: no luck >&2; exit 101", ["not compiled: error: no luck", "cargo build"])]
    for name, does, line in steps:
        script(tools, name, f"#!/bin/sh\n{does}\n")
        for start in compilers(trace) if line else ():
            one_line([sys.executable, *start], 2, line, env=environment)
    return tools
