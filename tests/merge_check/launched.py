"""What the launcher of a package becomes."""

import os
import pathlib
import subprocess

from tests.harness import holds
from tests.merge_check.packages import FLAGS, LEVELS, misleading


def starts_by(launcher, level, name, variables=None):
    """A launcher becomes the program of this name, with its arguments and its status, and prints
    nothing itself, where these variables of the environment are set."""
    home = os.path.abspath("home")
    folders = {"PATH": f"{os.path.abspath('other')}:{os.environ['PATH']}", "HOME": home, "TMPDIR": home}
    how = {"env": {**(variables or {}), **folders}, "stdout": subprocess.PIPE, "stderr": subprocess.PIPE, "text": True}
    with subprocess.Popen([launcher, "a b", "", "-c"], **how) as running:
        found = (*running.communicate(), running.returncode)
    holds(found == (f"{name}\n{running.pid}\na b\n\n-c\n", "", 3), f"{level}: {found}")


def becomes_the_program(package):
    """The launcher in a package becomes the program for the processor, whose /proc/cpuinfo is read
    by a stand-in for sed here, also where each word of it is a variable of the environment that names
    the other level. It leaves no file."""
    launcher = os.path.abspath(f"{package}/bin/lms_tool")
    files = sorted(pathlib.Path(package).rglob("*"))
    for folder in ("other", "home"):
        os.makedirs(folder, exist_ok=True)
    for missing in (None, *FLAGS):
        flags = " ".join(it for it in ("fpu", *FLAGS, "sse2") if it != missing)
        pathlib.Path("other/sed").write_text(f'#!/bin/sh\necho "{flags}"\n')
        os.chmod("other/sed", 0o755)
        level, name = (LEVELS[0], "common") if missing else (LEVELS[1], "fast")
        starts_by(launcher, level, name)
        starts_by(launcher, level, name, misleading(launcher, LEVELS[missing is not None]))
    holds(sorted(pathlib.Path(package).rglob("*")) == files and not os.listdir("home"), "a file is left")
