"""Who may do what with the files that the program makes, whatever the user's mask is: states, locks
and kept nodes are their owner's alone, also as drafts that a kill leaves; public keys and signatures
are plain files, as the mask has them."""

import os
import signal

from tests.harness import add_test, holds, test
from tests.program import (
    BATCH, DRAFT, INFO, NODES, SERVE, VERIFY, endorse, endorsed_lines, ends, job_lines, keygen, mode_of, preload, put, read, run, sign,
)
from tests.reference import public_of

STATE, LOCK, STATE_DRAFT = "key.state", "key.state.lock", "key.state.new"
OWN = 0o600
MASKS = [0, 0o022, 0o077, 0o007]
JOB = job_lines(b"abc").decode()
SIGNER = public_of(((5, 1),), identifier=b"\x66" * 16)


def are(*names, mode):
    """These files have this mode."""
    for name in names:
        holds(mode_of(name) == mode, f"{name} has the mode {mode_of(name):o}, not {mode:o}")


def made_by_commands(mask):
    """All files that there are, after each command."""
    how = {"umask": mask}
    plain = 0o666 & ~mask
    ends(keygen(), 0, "capacity 32\n", **how)
    are(STATE, LOCK, NODES, mode=OWN)
    are("key.pub", mode=plain)
    os.remove(NODES)
    ends(sign(), 0, "index 0\n", **how)
    are(STATE, LOCK, NODES, mode=OWN)
    are("text.sig", mode=plain)
    put("signer.pub", SIGNER)
    ends(endorse(), 0, endorsed_lines(1, SIGNER), **how)
    are(STATE, LOCK, NODES, mode=OWN)
    are("signer.end", mode=plain)
    for words in (BATCH, SERVE):
        holds(run(words, input=JOB, **how).returncode == 0, f"no {words[0]}")
    holds(run(INFO, **how).returncode == 0, "no info")
    ends(VERIFY, 0, "valid\n", **how)
    are(STATE, LOCK, NODES, mode=OWN)
    files = sorted(os.listdir())
    holds(files == ["key.pub", STATE, LOCK, NODES, "signer.end", "signer.pub", "text", "text.sig"], f"the files are {files}")


for one in MASKS:
    add_test(f"files by the mask {one:03o}", made_by_commands, one)


def begins(words, draft):
    """Makes the files that a command finds, with an older draft that all may use."""
    for name in os.listdir():
        if name != "text":
            os.remove(name)
    if words[0] == "sign":
        ends(keygen(), 0, "capacity 32\n")
        os.remove(NODES)
    put(draft, b"an older one")
    os.chmod(draft, 0o666)


def leaves_a_draft(words, draft):
    """A command is killed once half of a draft is written."""
    begins(words, draft)
    run(words, env=preload("stop", STEPS="steps"))
    # (By a path from here, or by a whole one.)
    steps = [step.replace(f"{os.path.realpath('.')}/", "") for step in read("steps").decode().splitlines()]
    step = steps.index(f"write {draft}") + 1
    begins(words, draft)
    ran = run(words, env=preload("stop", STOP=step), umask=0)
    holds(ran.returncode == -signal.SIGKILL, f"it ended with {ran.returncode}")
    holds(read(draft) not in (b"", b"an older one"), "the draft is not begun")
    are(draft, LOCK, mode=OWN)


for command in (keygen(), sign()):
    for name in (STATE_DRAFT, DRAFT):
        add_test(f"{name} that a killed {command[0]} leaves", leaves_a_draft, command, name)


@test
def files_that_are_there():
    """What is kept beside a state is its owner's alone, whatever was there; a file that is given away has the mode of
    the older one."""
    put("key.pub", b"older")
    os.chmod("key.pub", 0o604)
    ends(keygen(), 0, "capacity 32\n", umask=0)
    put("text.sig", b"older")
    os.chmod("text.sig", 0o640)
    put(NODES, b"older")
    for name in (STATE, NODES):
        os.chmod(name, 0o666)
    ends(sign(), 0, "index 0\n", umask=0)
    are(STATE, NODES, mode=OWN)
    are("key.pub", mode=0o604)
    are("text.sig", mode=0o640)
