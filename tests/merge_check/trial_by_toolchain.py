"""A trial run by the toolchain itself, which has a limit of time: the README's command in a copy of
the repository with nothing built."""

import os
import pathlib
import shutil
import subprocess

from tests.harness import TOP, checks, holds
from tests.merge_check.stand_ins import IS_TRIAL


def copy_sources():
    """Makes a copy of the repository with nothing built."""
    os.makedirs("copy/crates")
    for name in ("crates.txt", "HANDLES", "lms_tool"):
        shutil.copy2(TOP / name, "copy")
    shutil.copytree(TOP / "examples", "copy/examples")
    for folder in sorted(it for kind in ("src", "specs", "proofs") for it in (TOP / "crates").glob(f"*/{kind}")):
        shutil.copytree(folder, pathlib.Path("copy") / folder.relative_to(TOP))


def begin_in_copy(command):
    """Starts a command in the copy, which may leave no temporary file."""
    how = {"stdin": subprocess.DEVNULL, "stdout": subprocess.PIPE, "stderr": subprocess.PIPE, "text": True}
    return subprocess.Popen(command, cwd="copy", env={**os.environ, "TMPDIR": os.path.abspath("left")}, **how)


def is_answer(ran, output, errors, status, verdict):
    """The trial run gave this verdict with this status, and left nothing."""
    said = (ran.returncode, output, errors)
    holds(said == (status, f"{verdict}\n", IS_TRIAL), f"{said}")
    holds(not os.listdir("left"), "files are left behind")
    holds(not list(pathlib.Path("copy/crates").glob("**/out")), "something was built")


@checks
def by_the_toolchain_itself(counter):
    """The README's command, in a copy with nothing built, and beside it the same of another
    message."""
    copy_sources()
    os.mkdir("left")
    pathlib.Path("copy/another").write_text("another message\n")
    lines = (TOP / "README.md").read_text(encoding="utf-8").splitlines()
    command = next(it for it in lines if it.startswith("./lms_tool verify --public examples/"))
    other = "./lms_tool verify --public examples/release.pub --message another --signature examples/firmware.sig"
    with begin_in_copy(["sh", "-c", command]) as first, begin_in_copy(other.split()) as second:
        try:
            # Both have ended before it is seen that no files are left.
            said = [it.communicate() for it in (first, second)]
        finally:
            first.terminate()
            second.terminate()
    counter.check("the README's command by the toolchain itself", is_answer, first, *said[0], 0, "valid")
    counter.check("another message by the toolchain itself", is_answer, second, *said[1], 1, "invalid")
