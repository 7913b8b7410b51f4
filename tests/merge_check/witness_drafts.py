"""The draft of a witness: where it can't be made no index is burnt, what a stop left of one is replaced, and
none is left where no index is used. Where it can't take the witness's place the indices are used, and nothing
leaves."""

import os
import signal
import subprocess

from tests.harness import Skipped, add_test, holds, test
from tests.merge_check.service import ABC
from tests.merge_check.watched import ONE, UNWRITTEN, USERS, begin, files, refuses_all, say, uses
from tests.program import (
    BATCH, NODES, PLACE, PROGRAM, SERVE, WITNESS, as_who_may_not, ends, fails, has, mode_of, preload, put, read, run, sign, signs,
)
from tests.reference import image, witness_of


@test
def burns_no_index_where_no_draft_can_be_made():
    """As on a medium that may only be read, or where a folder is in its way, or another key's state."""
    begin(5)
    how = as_who_may_not()
    os.chmod("other", 0o500)
    refuses_all(UNWRITTEN, **how)
    os.chmod("other", 0o700)
    os.mkdir(f"{PLACE}.new")
    refuses_all(UNWRITTEN)
    os.rmdir(f"{PLACE}.new")
    put(f"{PLACE}.new", image(ONE, 3, seed=b"\x44" * 32))
    refuses_all(UNWRITTEN)
    os.remove(f"{PLACE}.new")
    ends(sign(), 0, "index 5\n", **how)
    say(6)


# What becomes of a medium of two pages, of which the witness takes one.
MEDIA = {"that is full": "head -c 8192 /dev/zero >other/filler 2>&1", "that may only be read": "mount -o remount,ro other"}


def on_a_medium(then):
    """No index is burnt there, and what each command says is the same."""
    put("key.state", image(ONE, 5, 1))
    os.mkdir("other")
    os.symlink("other/witness", WITNESS)
    put("line", witness_of(5))
    make = f'mount -t tmpfs -o size=8k none other && cp line other/witness; {then}; "$@"; status=$?; cat other/witness; ls other; exit $status'
    words = ["-rm" if os.geteuid() else "-m", "sh", "-c", make, "sh"]
    try:
        subprocess.run(["unshare", *words, "grep", "-q", "HSS", "other/witness"], capture_output=True, check=True)
    except (OSError, subprocess.SubprocessError) as why:
        raise Skipped(f"no file system can be made here: {why}") from why
    state = files()
    for command, _ in USERS.values():
        ran = run([*words, PROGRAM, *command], program="unshare", input=ABC.decode())
        listed = ran.stdout.removeprefix(witness_of(5).decode()).split()
        holds((ran.returncode, ran.stderr) == (3, f"error: {UNWRITTEN}\n"), f"{command[0]}: {ran}")
        holds(set(listed) <= {"witness", "filler"} and "witness" in listed, f"{command[0]}: the medium has {listed}, or another witness")
        holds(files() == state, f"{command[0]}: other files than before")


for kind, making in MEDIA.items():
    add_test(f"a medium {kind}", on_a_medium, making)


@test
def replaces_what_a_stop_left():
    """Also where that is a link, to which nothing is written."""
    begin(5)
    draft = f"{PLACE}.new"
    for at, make in enumerate([lambda: put(draft, b"left"), lambda: put(draft, witness_of(9)), lambda: os.symlink("../text", draft)]):
        make()
        signs(ONE, 5 + at)
        say(6 + at)
        has("text", b"abc")


@test
def a_draft_that_a_kill_leaves():
    """It is its owner's alone, whatever the mask is, and in the way of nothing."""
    begin(5)
    run(sign(), env=preload("stop", STEPS="steps"))
    at = next(at for at, step in enumerate(read("steps").decode().splitlines(), 1) if step.endswith(f"write {os.path.realpath(PLACE)}.new"))
    os.remove(NODES)
    ran = run(sign(), env=preload("stop", STOP=at), umask=0)
    holds(ran.returncode == -signal.SIGKILL, f"it ended with {ran.returncode}")
    holds(mode_of(f"{PLACE}.new") == 0o600, f"the draft has the mode {mode_of(f'{PLACE}.new'):o}")
    say(uses("sign", 6))


def removes_its_draft(words, status, line, state, lines):
    """No index is used, and only the witness is left in its folder. So also where a fault comes before anything
    is stored."""
    begin(5)
    if state is None:
        os.remove("key.state")
    else:
        put("key.state", state)
    before = files()
    ends(words, status, errors=f"error: {line}\n" if line else "", input=lines)
    holds(files() == before, "other files than before, or other bytes")


STATE = image(ONE, 5, 1)
for kind, row in {
    "a batch of no jobs": (BATCH, 0, "", STATE, ""),
    "a service of no lines": (SERVE, 0, "", STATE, ""),
    "a batch of a bad line": (BATCH, 2, "line 2: bad job", STATE, f"{ABC.decode()}-\n"),
    "a service of a bad line": (SERVE, 2, "line 1: bad job", STATE, "-\n"),
    "a batch of too many jobs": (BATCH, 4, "exhausted: 27 left", STATE, ABC.decode() * 28),
    "a batch without a state": (BATCH, 3, "cannot read state", None, ""),
    "a sign by a bad state": (sign(), 3, "bad state: Truncated", b"HSSK", ""),
    "a service by a bad state": (SERVE, 3, "bad state: Truncated", b"HSSK", ""),
}.items():
    add_test(f"no draft is left by {kind}", removes_its_draft, *row)


def fails_to_place(name):
    """The rename of the new witness fails: its indices are used, and nothing leaves. The witness catches up."""
    words, count = USERS[name]
    begin(5)
    lines = (ABC * count).decode()
    how = {"input": lines} if name != "sign" else {}
    run(words, env=preload("stop", STEPS="steps"), **how)
    steps = read("steps").decode().splitlines()
    at = next(at for at, step in enumerate(steps, 1) if step.startswith("rename ") and step.endswith(f"/{PLACE}"))
    for path in ("steps", "text.sig", NODES, PLACE, WITNESS, "key.state"):
        if os.path.lexists(path):
            os.remove(path)
    os.rmdir("other")
    begin(5)
    fails(words, 3, f"{UNWRITTEN}: 5 to {4 + count} burnt", env=preload("stop", FAIL=at, LAST=at), **how)
    has(PLACE, witness_of(5))
    has("key.state", image(ONE, 5 + count, 2))
    holds(os.listdir("other") == ["witness"] and not os.path.exists("text.sig"), "a draft or a signature is left")
    say(uses(name, 5 + count))


for command in USERS:
    add_test(f"a witness that a {command} can't place", fails_to_place, command)
