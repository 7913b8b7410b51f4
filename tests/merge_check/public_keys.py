"""`public`: the public key of each state, its faults, and that it changes nothing else."""

import os

from tests.harness import holds, test
from tests.merge_check.wrong_nodes import wrong_way
from tests.program import NODES, Lock, as_who_may_not, ends, fails, has, keygen, public, put, read, signs
from tests.reference import checked, image, kept, kept_parts, public_of

ONE, TWO = ((5, 8),), ((5, 4), (5, 4))
AGAIN = public(name="again.pub")


def stamps(name):
    """Which file has this name, and when it was written."""
    found = os.stat(name)
    return found.st_ino, found.st_mtime_ns, found.st_ctime_ns


def stays(call, *names):
    """Makes this call, after which these are the very files that they were, with the bytes that they
    had."""
    before = [(read(name), stamps(name)) for name in names]
    call()
    for name, found in zip(names, before):
        holds((read(name), stamps(name)) == found, f"{name} was written")


def gives(key, capacity):
    """`public` writes this public key. State and kept nodes stay, and no other file is made."""
    files = {*os.listdir(), "key.state.lock", "again.pub"}
    names = [it for it in ("key.state", NODES) if os.path.exists(it)]
    stays(lambda: ends(AGAIN, 0, f"capacity {capacity}\n"), *names)
    has("again.pub", key)
    holds({*os.listdir()} == files, f"the files are {sorted(os.listdir())}")


def refused(words, status, line, **how):
    """The program fails so. An older file of a public key stays, as does the state."""
    names = ["again.pub", *(["key.state"] if os.path.isfile("key.state") else [])]
    stays(lambda: fails(words, status, line, **how), *names)


@test
def gives_the_key_that_keygen_wrote():
    """By one to eight levels, at first in place of a longer file."""
    put("again.pub", bytes(3000))
    levels = ["5/8", "5/4", "10/1", "5/1", "5/2", "5/2", "5/1", "5/8"]
    for count in range(1, 9):
        capacity = 2 ** (5 * count + 5 * (count > 2))
        ends(keygen(",".join(levels[:count])), 0, f"capacity {capacity}\n")
        gives(read("key.pub"), capacity)
        os.remove("key.state")


@test
def gives_the_key_of_a_state_that_signed():
    ends(keygen("5/4,5/4"), 0, "capacity 1024\n")
    for index in range(3):
        signs(TWO, index)
        gives(public_of(TWO), 1024)
    signs(TWO, 3)


@test
def gives_the_key_of_each_state():
    """Of one that version 1 wrote, of an exhausted one, and of another seed."""
    other = b"\x44" * 32
    for text, seed in [(image(ONE, 10, version=1), None), (image(ONE, 32, 4, 5), None), (image(ONE, 0, seed=other), other)]:
        put("key.state", text)
        gives(public_of(ONE, *[seed] if seed else []), 32)


@test
def takes_nothing_from_kept_nodes():
    """Those of this key, damaged ones, and wrong ones that whoever has the seed made."""
    put("key.state", image(ONE, 5))
    wrong = checked(ONE, kept_parts(5, wrong_way(ONE, 5, 0, 9)))
    for nodes in (kept(ONE, 5), kept(ONE, 5)[:-1], b"", wrong):
        put(NODES, nodes)
        gives(public_of(ONE), 32)


@test
def follows_a_link_to_a_state():
    os.mkdir("keys")
    put("keys/one", image(ONE, 5))
    os.symlink("keys/one", "key.state")
    stays(lambda: ends(AGAIN, 0, "capacity 32\n"), "keys/one")
    has("again.pub", public_of(ONE))
    holds(os.path.islink("key.state") and sorted(os.listdir("keys")) == ["one", "one.lock"], "another file beside the state")


@test
def fails_by_its_state():
    """Each fault, a state in use before all others."""
    put("again.pub", b"as it was")
    rows = [(None, "cannot read state"), (b"HSSX00000000", "bad state: NotAnImage"), (image(ONE, 33), "bad state: CounterTooHigh")]
    for text, line in rows:
        if text:
            put("key.state", text)
        refused(AGAIN, 3, line)
        with Lock():
            refused(AGAIN, 3, "state in use")
    os.remove("key.state")
    os.mkdir("key.state")
    refused(AGAIN, 3, "cannot read state")
    refused(public("none/key.state", "again.pub"), 3, "state in use")


@test
def fails_by_its_file():
    put("again.pub", b"as it was")
    put("key.state", image(ONE, 5))
    for name in ("none/key.pub", ".", "/dev/full"):
        refused(public(name=name), 6, "cannot write output")
    how = as_who_may_not()
    os.chmod("again.pub", 0o400)
    refused(AGAIN, 6, "cannot write output", **how)
    os.chmod("key.state", 0)
    fails(AGAIN, 3, "cannot read state", **how)
