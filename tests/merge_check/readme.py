"""All commands of README.md as they stand, one block after another: the package's line by stand-ins for sudo and apt,
the tarball's over one that has the program, and by that the rounds of one signature, of many machines and of
a batch; from source by the program in place of the script. They need openssl and basenc."""

import hashlib
import os
import pathlib
import subprocess

from tests.harness import TOP, blocks_of, holds, said_by, test
from tests.merge_check.packages import DEBIAN, NAME
from tests.program import PROGRAM


def make_surroundings():
    """What the commands find where they begin: the tarball with its sum, the Debian package, and the sources' script
    and examples."""
    os.makedirs(f"{NAME}/bin")
    os.symlink(PROGRAM, f"{NAME}/bin/lms_tool")
    said_by("tar", "-czf", f"{NAME}.tar.gz", NAME)
    said_by("rm", "-r", NAME)
    text = pathlib.Path(f"{NAME}.tar.gz").read_bytes()
    pathlib.Path("SHA256SUMS").write_text(f"{hashlib.sha256(text).hexdigest()}  {NAME}.tar.gz\n{'0' * 64}  another\n")
    pathlib.Path(DEBIAN).write_bytes(b"a package")
    os.makedirs("source")
    os.symlink(PROGRAM, "source/lms_tool")
    os.symlink(TOP / "examples", "source/examples")
    os.makedirs("few")
    for name, text in (("sudo", 'exec "$@"'), ("apt", '[ "$1" = install ] && [ -f "$2" ] && echo "apt takes $2"')):
        pathlib.Path("few", name).write_text(f"#!/bin/sh\n{text}\n")
        os.chmod(f"few/{name}", 0o755)


@test
def each_command_does_what_it_says():
    make_surroundings()
    blocks = blocks_of("README.md")
    from_source = [it for it in blocks if it.startswith("./lms_tool ")]
    holds(len(from_source) == 1 and blocks[-1:] == from_source, "another block is from source")
    pathlib.Path("commands").write_text("".join([*blocks[:-1], f"cd {os.getcwd()}/source\n", *from_source]))
    environment = {**os.environ, "HOME": os.getcwd(), "PATH": f"{os.getcwd()}/few:{os.environ['PATH']}"}
    how = {"stdin": subprocess.DEVNULL, "stdout": subprocess.PIPE, "stderr": subprocess.STDOUT, "text": True}
    ran = subprocess.run(["sh", "-eu", "commands"], env=environment, check=False, **how)
    said = f"\n{ran.stdout}"
    holds(ran.returncode == 0, f"ended with {ran.returncode}{said}")
    lines = ran.stdout.splitlines()
    for wanted in (f"apt takes ./{DEBIAN}", f"{NAME}.tar.gz: OK", "capacity 1048576", "index 0", "counter 1"):
        holds(wanted in lines, f"it does not say {wanted}{said}")
    files = sorted(pathlib.Path("keys").glob("*.bin"))
    answers = pathlib.Path("keys/answers").read_text().splitlines()
    holds([it.split()[0] for it in answers] == [str(at + 1) for at in range(len(files))], f"not an answer for each file{said}")
    holds(len(files) == 2 and lines.count("valid") == 3 + len(files), f"not each signature is valid{said}")
