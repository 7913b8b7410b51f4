"""The lock on a state is held while the program computes trees and while it prints, but for
`public`."""

import fcntl
import os
import select
import signal
import subprocess
import time

from tests.harness import Skipped, holds, test
from tests.program import BATCH, INFO, PROGRAM, SERVE, Lock, endorse, ends, has, is_lock_free, job_lines, keygen, public, put, sign
from tests.reference import image, public_of, signature_of

# (in `fcntl` from Python 3.10 on)
SET_PIPE_SIZE = 1031
# How the system tells of a process on x86-64 that waits in `write` to stream 1.
WRITES_OUTPUT = ["1", "0x1"]
# How often the lock is tried at least while a tree is computed.
LEAST_TRIES = 20


def pipe_of_one_write():
    """A pipe that holds one write, or a page of one, and takes no more until that is read. It is
    full already."""
    reader, writer = os.pipe2(os.O_DIRECT | os.O_CLOEXEC)
    fcntl.fcntl(writer, SET_PIPE_SIZE, 1)
    os.write(writer, b"-")
    return reader, writer


def waits_to_print(running):
    """Waits until the program waits in a write to its output, or has ended. Whether it waits."""
    last = time.monotonic() + 120
    while running.poll() is None:
        try:
            with open(f"/proc/{running.pid}/syscall") as file:
                if file.read().split()[:2] == WRITES_OUTPUT:
                    return True
        except ProcessLookupError:
            pass
        except (FileNotFoundError, PermissionError) as why:
            raise Skipped(f"what a program waits for can't be read here: {why}") from why
        holds(time.monotonic() < last, "it was in no write to its output, and did not end, in two minutes")
        time.sleep(0.005)
    return False


def writes_under_the_lock(running, output):
    """In how many writes the program prints to a pipe of one write. In each of them it must hold
    the lock."""
    writes = 0
    while waits_to_print(running):
        writes += 1
        holds(not is_lock_free(), "it dropped its lock before it had printed")
        output.read(4096)
        # (until what it waited to print is in the pipe)
        holds(select.select([output], [], [], 120)[0], "its write did not go on in two minutes")
    return writes


@test
def holds_the_lock_until_all_is_printed():
    """Each command that takes the lock, but for `public`, holds it in each of its writes, and its
    files are complete before the first."""
    levels = ((5, 2),)
    signer = public_of(levels, identifier=b"\x66" * 16)
    put("jobs", job_lines(b"abc"))
    put("signer.pub", signer)
    signature = "text.sig", signature_of(levels, 0, b"abc")
    for words, numbers, made, lines in [
        (keygen("5/2"), (0, 0), ("key.pub", public_of(levels)), 1),
        (sign(), (1, 1), signature, 1),
        (endorse(), (2, 2), ("signer.end", signature_of(levels, 1, signer[4:])), 2),
        (INFO, (2, 2), signature, 6),
        (BATCH, (3, 3), signature, 1),
        (SERVE, (4, 4), signature, 1),
    ]:
        reader, writer = pipe_of_one_write()
        with open("jobs", "rb") as jobs:
            running = subprocess.Popen([PROGRAM, *words], stdin=jobs, stdout=writer, stderr=subprocess.PIPE)
        os.close(writer)
        with running, os.fdopen(reader, "rb", 0) as output:
            try:
                holds(waits_to_print(running), f"{words[0]} ended before it printed")
                has("key.state", image(levels, *numbers))
                has(*made)
                writes = writes_under_the_lock(running, output)
            except BaseException:
                running.kill()
                raise
            holds(running.returncode == 0, f"{words[0]}: {running.stderr.read()!r}")
            holds(writes >= lines, f"{words[0]} printed in {writes} writes")
        with Lock():
            os.remove("key.state.lock")


def processor_time(running):
    """The seconds that a program has taken of the processors, by all its threads."""
    try:
        with open(f"/proc/{running.pid}/stat") as file:
            # (after its name, which may have spaces)
            fields = file.read().rpartition(")")[2].split()
    except (FileNotFoundError, PermissionError) as why:
        raise Skipped(f"what a program has taken of the processors can't be read here: {why}") from why
    return sum(int(it) for it in fields[11:13]) / os.sysconf("SC_CLK_TCK")


def waits_until_a_tree_is_begun(running):
    """Waits until the program has taken half a second of the processors, a hundred times what it
    takes before it computes a tree. A lock that was tried earlier might be in the program's way."""
    last = time.monotonic() + 120
    while running.poll() is None and processor_time(running) < 0.5:
        holds(time.monotonic() < last, "it did next to nothing in two minutes")
        time.sleep(0.005)


def tries_until_the_lock_is_free():
    """Tries the lock again and again until it is acquired. How often that was before there was a
    state."""
    tries, last = 0, time.monotonic() + 600
    while not is_lock_free():
        tries += not os.path.exists("key.state")
        holds(time.monotonic() < last, "the lock was not dropped in ten minutes")
        time.sleep(0.001)
    return tries


@test
def holds_the_lock_while_a_tree_is_computed():
    """`keygen` computes a tree for some seconds of a processor. Its lock can't be acquired before
    all is done."""
    how = {"stdin": subprocess.DEVNULL, "stdout": subprocess.PIPE, "stderr": subprocess.PIPE, "text": True}
    with subprocess.Popen([PROGRAM, *keygen("15/4")], **how) as running:
        try:
            waits_until_a_tree_is_begun(running)
            tries = tries_until_the_lock_is_free()
            files, has_printed = os.listdir("."), bool(select.select([running.stdout], [], [], 0)[0])
            output, errors = running.communicate(timeout=600)
        except BaseException:
            running.kill()
            raise
    holds((running.returncode, output) == (0, "capacity 32768\n"), f"keygen ended with {running.returncode}: {output!r} {errors!r}")
    holds("key.state" in files, f"after {tries} tries its lock was acquired, and no state was stored yet")
    holds("key.pub" in files and has_printed, f"its lock was acquired, and not all was done: {files}")
    holds(tries >= LEAST_TRIES, f"its lock was tried {tries} times before there was a state, and not {LEAST_TRIES} times")
    has("key.state", image(((15, 4),), 0))


@test
def hands_the_lock_back_before_a_tree_is_computed_from_a_state():
    """While `public` computes a tree, another program uses the state."""
    levels = ((15, 4),)
    put("key.state", image(levels, 5))
    how = {"stdin": subprocess.DEVNULL, "stdout": subprocess.PIPE, "stderr": subprocess.PIPE, "text": True}
    with subprocess.Popen([PROGRAM, *public()], **how) as running:
        try:
            waits_until_a_tree_is_begun(running)
            holds(is_lock_free() and not os.path.exists("key.pub"), "it holds the lock, or has computed the tree already")
            running.send_signal(signal.SIGSTOP)
            ends(INFO, 0, "levels 15/4\ncounter 5\ncapacity 32768\nleft 32763\nopenings 0\nburnt 0\n")
            running.send_signal(signal.SIGCONT)
            output, errors = running.communicate(timeout=600)
        except BaseException:
            running.kill()
            raise
    holds((running.returncode, output) == (0, "capacity 32768\n"), f"public ended with {running.returncode}: {output!r} {errors!r}")
    has("key.state", image(levels, 5))
