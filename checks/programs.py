"""The programs of the repository, for the scripts that run them."""
import pathlib
import subprocess

TOP = pathlib.Path(__file__).resolve().parent.parent


def path_of(name):
    """Where the program of a crate is."""
    return TOP / "crates" / name / "out" / name


def sources():
    """The files that the programs are proved and built from."""
    yield TOP / "crates.txt"
    for part in "src", "specs", "proofs":
        yield from TOP.glob(f"crates/*/{part}/**/*")


def is_current(program):
    """Whether a program is there, and no older than what it is built from."""
    return program.exists() and program.stat().st_mtime > max(file.stat().st_mtime for file in sources())


def is_built(name):
    """Proves and builds a program, where it isn't there or is older than its sources."""
    if is_current(path_of(name)):
        return True
    # What the program does with these words doesn't matter.
    words = ["rt", "run", "--", "0", "replay"]
    done = subprocess.run(words, cwd=TOP / "crates" / name, stdin=subprocess.DEVNULL, capture_output=True, text=True)
    if is_current(path_of(name)):
        return True
    print(done.stderr[-2000:])
    print(f"the program {name} can't be built\n0 passed, 1 failed")
    return False
