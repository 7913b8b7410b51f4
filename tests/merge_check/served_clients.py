"""`serve` as clients have it: the example of one, and the lines of its help and of docs/SERVICE.md, by bash, by
named pipes, and by a socket."""

import os
import pathlib
import re
import shutil
import socket
import subprocess
import sys
import textwrap
import time

from tests.harness import TOP, Skipped, blocks_of, holds, test
from tests.merge_check.service import ABC, SECONDS, answer
from tests.program import PROGRAM, SERVE, ends, has, put, run, verify
from tests.reference import image, public_of

ONE = ((5, 4),)
EXHAUSTED = "exhausted: 0 left"


def of_the_page(beginning):
    """The block of docs/SERVICE.md that begins so, with the program that is tested."""
    found = [it for it in blocks_of("docs/SERVICE.md") if it.startswith(beginning)]
    holds(len(found) == 1, f"{len(found)} blocks begin with {beginning}")
    return found[0].rstrip("\n").replace("lms_tool", PROGRAM)


def of_the_help():
    """The example that `serve --help` prints, with the program that is tested."""
    found = re.search(r"(?m)^Example.*:\n((?:  .*\n)+)", run(["serve", "--help"]).stdout)
    holds(found, "there is no example")
    return textwrap.dedent(found[1]).rstrip("\n").replace("lms_tool", PROGRAM)


def by_bash(*lines):
    """What bash prints that runs these lines, which have to end well and in time."""
    ran = run([str(SECONDS), "bash", "-euc", "\n".join(lines)], program="timeout")
    holds((ran.returncode, ran.stderr) == (0, ""), f"it ended with {ran.returncode}: {ran.stderr!r}")
    return ran.stdout


def asks_three_times(ours, index):
    """A client on this socket has three lines answered, from an index on, one after another, and ends."""
    ours.settimeout(SECONDS)
    with ours.makefile("rb") as output:
        for at in range(index, index + 3):
            ours.sendall(ABC)
            holds(output.readline() == answer(ONE, at), f"another answer by index {at}")
        ours.shutdown(socket.SHUT_WR)
        holds(output.read() == b"", "it printed more")


@test
def the_example_signs_files():
    """More than its pipes hold, the longest among them, and more than there are indices."""
    names = [f"{at}.bin" for at in range(40)]
    for at, name in enumerate(names):
        put(name, bytes([at + 100]) * (65536 if at % 8 == 0 else at))
    put("key.state", image(ONE, 0))
    put("key.pub", public_of(ONE))
    ran = run([TOP / "examples/serve/client.py", *names, "--", PROGRAM, *SERVE], program=sys.executable)
    said = [f"{name}.sig has index {at}" for at, name in enumerate(names[:32])]
    holds((ran.returncode, ran.stdout.splitlines()) == (4, said), f"it ended with {ran.returncode}: {ran.stderr}")
    holds(f"error: {EXHAUSTED}\n" in ran.stderr and ran.stderr.endswith("32 of 40 files are signed\n"), f"it said {ran.stderr!r}")
    for name in names[:32]:
        ends(verify(name, f"{name}.sig"), 0, "valid\n")

@test
def answers_over_a_socket():
    """It is input and output at once, as a manager of services hands it over."""
    put("key.state", image(ONE, 5))
    ours, theirs = socket.socketpair()
    with ours, subprocess.Popen([PROGRAM, *SERVE], stdin=theirs, stdout=theirs, stderr=subprocess.PIPE) as running:
        try:
            theirs.close()
            asks_three_times(ours, 5)
            holds((running.wait(SECONDS), running.stderr.read()) == (0, b""), f"it ended with {running.returncode}")
        finally:
            running.kill()


@test
def bash_has_it_as_a_coprocess():
    put("key.state", image(ONE, 5))
    said = by_bash(of_the_page("coproc"), 'echo "$index ${#signature}"')
    holds(said == f"5 {len(answer(ONE, 5)) - 3}\n", f"it printed {said!r}")
    has("key.state", image(ONE, 6, 1))


@test
def answers_over_named_pipes():
    put("key.state", image(ONE, 5))
    put("line", ABC)
    client = ["exec 3> jobs 4< answers", "cat line >&3", "head -n 1 <&4", "exec 3>&-", "wait $!"]
    said = by_bash(f"{of_the_help()} &", *client)
    holds(said == answer(ONE, 5).decode(), f"it printed {said[:100]!r}")


@test
def socat_gives_it_to_one_client():
    """Who comes next finds nothing to ask."""
    if not shutil.which("socat"):
        raise Skipped("there is no socat")
    put("key.state", image(ONE, 5))
    with subprocess.Popen(of_the_page("socat"), shell=True, stdin=subprocess.DEVNULL, stderr=subprocess.PIPE) as running:
        try:
            last = time.monotonic() + SECONDS
            while not os.path.exists("jobs"):
                holds(time.monotonic() < last, "there is no socket")
                time.sleep(0.01)
            with socket.socket(socket.AF_UNIX) as ours:
                ours.connect("jobs")
                asks_three_times(ours, 5)
            holds(running.wait(SECONDS) == 0, f"it ended with {running.returncode}: {running.stderr.read()}")
        finally:
            running.kill()
    holds(not pathlib.Path("jobs").exists(), "the socket is still there")
    has("key.state", image(ONE, 8, 3))
