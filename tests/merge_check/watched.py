"""A key and its witness, for the tests on them: what both say, what commands that use indices do, and whether
all is left as it was."""

import os
import stat

from tests.harness import holds
from tests.merge_check.service import ABC, answer
from tests.program import BATCH, PLACE, SERVE, WITNESS, ends, fails, has, put, read, sign, signs
from tests.reference import image, witness_of

ONE = ((5, 4),)
CAPACITY = 32
# What is said of a witness, or of a state beside one.
OLDER, BAD = "state is older than its witness", "bad witness"
UNREAD, UNWRITTEN, THERE = "cannot read witness", "cannot write witness", "witness exists"
# The commands that use indices, and how many each uses here.
USERS = {"sign": (sign(), 1), "batch": (BATCH, 3), "serve": (SERVE, 3)}
# The most bytes that a witness may have.
MOST = 128
# Texts that are no number for `--counter`.
NO_COUNTERS = ["", "x", "-1", "+7", "07", "00", " 7", "7 ", "0x7", "7.0", "7\n", "٧", str(2**64), "9" * 100]


def begin(counter, said=None, levels=ONE):
    """A state that counts so many indices as used, and its witness in another folder, which says as many,
    or this number."""
    os.mkdir("other")
    put("key.state", image(levels, counter, min(counter, 1)))
    put(PLACE, witness_of(counter if said is None else said))
    os.symlink(os.path.abspath(PLACE), WITNESS)


def files():
    """All that is here and below but for locks: where links lead, and of files the numbers, the modes, the
    times and the bytes."""
    found = {}
    for at, folders, names in os.walk("."):
        for path in (os.path.join(at, name) for name in folders + names if not name.endswith(".lock")):
            it = os.lstat(path)
            if stat.S_ISLNK(it.st_mode):
                found[path] = os.readlink(path)
            elif stat.S_ISREG(it.st_mode):
                found[path] = it.st_ino, it.st_mode, it.st_mtime_ns, read(path)
            else:
                found[path] = it.st_mode
    return found


def refuses(words, status, line, **how):
    """The program ends so, and changes nothing."""
    before = files()
    fails(words, status, line, **how)
    holds(files() == before, f"{words[0]}, {line}: other files than before, or other bytes")


def refuses_all(line, **how):
    """Each command that uses indices ends so, and changes nothing."""
    for words, _ in USERS.values():
        refuses(words, 3, line, input=(ABC * 3).decode(), **how)


def answers(words, index, count, **how):
    """A `batch` or a `serve` gives so many indices from this one on."""
    lines = b"".join(answer(ONE, index + at) for at in range(count)).decode()
    ends(words, 0, lines, input=(ABC * count).decode(), **how)


def uses(name, index, **how):
    """A command gives its indices from this one on. The next index."""
    words, count = USERS[name]
    if name == "sign":
        signs(ONE, index, **how)
    else:
        answers(words, index, count, **how)
    return index + count


def say(counter, place=PLACE):
    """The state counts so many indices as used, and its witness says as many. No draft is left."""
    found = int.from_bytes(read("key.state")[-56:-48], "big")
    holds(found == counter, f"the state counts {found} indices, not {counter}")
    has(place, witness_of(counter))
    for name in (place, "key.state"):
        holds(not os.path.lexists(f"{name}.new"), f"a draft of {name} is left")


def made(counter, place=PLACE):
    """What `witness` prints of one of these."""
    return f"{witness_of(counter).decode()}{os.path.realpath(place)}\n"


def replace(contents, name="key.state"):
    """Puts a new file in the place of one."""
    put("another", contents)
    os.rename("another", name)
