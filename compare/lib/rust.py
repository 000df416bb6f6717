"""The parts in Rust: whether they can be compiled here, where they lie once they are, and how they are compiled."""
import os
import pathlib
import subprocess

from lib.use import Wrong

COMPARE = pathlib.Path(__file__).resolve().parent.parent
BUILT = COMPARE / "target/release"


def ask(script):
    """What compare/sources or compare/rust prints; where it says no, its line is told."""
    done = subprocess.run([COMPARE / script], capture_output=True, text=True)
    if done.returncode:
        raise Wrong(done.stderr.strip() or f"compare/{script} ended with status {done.returncode}")
    return done.stdout.strip()


def build(folder=COMPARE, *options):
    """Compiles a workspace. The first error of the compiler is told, and the command that shows them all."""
    environment = dict(os.environ, ETAGERE_SRC=ask("sources"))
    ask("rust")
    command = ["cargo", "build", "--release", "--offline", "--quiet", "--target-dir", str(folder / "target"), *options]
    done = subprocess.run(command, cwd=folder, env=environment, stderr=subprocess.PIPE, text=True)
    if done.returncode:
        errors = [line for line in done.stderr.splitlines() if line.startswith("error")]
        raise Wrong(f"{folder} was not compiled: {(errors or ['no error was told'])[0]}; (cd {folder} && cargo build --release --offline) shows more")
