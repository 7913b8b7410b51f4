"""The program for aarch64, as tests run it: in an emulator, as one program that is run in place of
the common one."""

import os
import re
import shutil
import subprocess
import sys
import tempfile

from tests.harness import TOP, Skipped, holds
from tests.program import CROSS_COMPILER

ARM = TOP / "crates/lms_tool/out/aarch64/lms_tool"
# Where the C library for it is, as Debian has it, and the words that run a program.
LIBRARIES = "/usr/aarch64-linux-gnu"
EMULATOR = ["qemu-aarch64", "-L", LIBRARIES]
PACKAGES = {CROSS_COMPILER[0]: "gcc-aarch64-linux-gnu", EMULATOR[0]: "qemu-user"}
COUNT = re.compile(r"(?:\w+: )?(\d+) passed, (\d+) failed")


def what_is_missing():
    """What is not there, and which package has it, or nothing."""
    for tool, package in PACKAGES.items():
        if not shutil.which(tool):
            return f"there is no {tool}: Debian's {package} has it"
    if not os.path.exists(f"{LIBRARIES}/lib/libc.so.6"):
        return f"there is no C library in {LIBRARIES}: Debian's libc6-dev-arm64-cross has it"
    return ""


def skip_where_missing():
    """Where something is not there a check is skipped."""
    if why := what_is_missing():
        raise Skipped(why)


def script(program=ARM):
    """A script that becomes this program for aarch64, or one that does so already. Another user can
    run it, and a copy of it, too."""
    folder = f"{tempfile.gettempdir()}/emulated"
    file = f"{folder}/run"
    if not os.path.exists(file):
        os.mkdir(folder)
        shutil.copy(program, f"{folder}/lms_tool")
        words = f'exec {" ".join(EMULATOR)} {folder}/lms_tool "$@"'
        with open(file, "w", encoding="utf-8") as text:
            text.write(f"#!/bin/sh\n{words}\n")
        os.chmod(file, 0o755)
    return file


def passes(*modules):
    """All tests of these modules, or of parts of them, pass over the program for aarch64, but for those
    that are skipped, which are told."""
    words = [sys.executable, "-B", TOP / "tests/run", *modules]
    how = {"stdin": subprocess.DEVNULL, "stdout": subprocess.PIPE, "stderr": subprocess.STDOUT, "text": True, "errors": "replace"}
    ran = subprocess.run(words, env={**os.environ, "EMULATED": script()}, check=False, **how)
    lines = ran.stdout.splitlines()
    for line in lines:
        if not line.startswith("ok ") and not COUNT.fullmatch(line):
            print(f"  {line}", flush=True)
    found = COUNT.fullmatch(lines[-1]) if lines else None
    holds(ran.returncode == 0 and found and found[1] != "0" and found[2] == "0", "not all of them pass")
