"""What the program asks of files and streams, in which order, and what it still asks for where one
operation alone fails.

`stop.c`, which is loaded before the program, writes down each operation before it is done, and has
one fail. All operations of `keygen`, of `public` over an older file, of `sign` by trees that it
computes and by kept ones, of `serve` of one line, of `info`, `inspect`, `join` and `join-public` are
compared one by one; and of `sign`, `serve` and `inspect` beside a witness, of `witness` and of `resume`;
and of those that write a public key, by names that lead into another folder."""

import errno
import itertools
import os

from tests.harness import add_test, holds, test
from tests.merge_check.steps import (
    BESIDE_A_WITNESS, BY_TREES, COMMANDS, DESCRIBE, ENDORSE, FOLDER, INDEX, INSPECT, INSPECT_BESIDE, IN_USE, IS_LINK, JOIN, JOINED, JOINED_KEY,
    JOIN_KEYS, KEPT, KEYGEN, LEVELS, LOCKED, LOCKED_FIRST, LOCKING, MESSAGE, NEW, NODES_READ, NO_NODES, NO_WITNESS, PRINTED, PUBLIC, RESUME,
    SERVICE, SERVICE_BESIDE, SIGNATURE, SIGNATURE_AT, SIGNER, SIGN_BESIDE, SIGN_BY_NODES, SIGN_BY_TREES, STATE, STORED, STREAMS, WATCH,
    WITNESS_READ, WITNESS_SEEN, elsewhere, steps_in,
)
from tests.program import DRAFT, NODES, PLACE, WITNESS, Lock, has, keeps, put, signs
from tests.reference import image, kept, public_of, signature_of, witness_of

# Errors of which each operation is tried, and those of which a few are.
ERRORS = [errno.EINVAL, errno.EOPNOTSUPP, errno.ENOSPC]
OTHER_ERRORS = [
    errno.EPERM, errno.ENOENT, errno.ENXIO, errno.EBADF, errno.EAGAIN, errno.EACCES, errno.EBUSY, errno.EEXIST, errno.ENODEV,
    errno.ENOTDIR, errno.EISDIR, errno.ENOTTY, errno.EFBIG, errno.EROFS, errno.EPIPE, errno.ENOLCK, errno.ENOSYS, errno.ETIMEDOUT,
    errno.ESTALE, errno.EDQUOT,
]
FLUSH_ERRORS = [errno.EIO, errno.ENOSPC, errno.EDQUOT, errno.EACCES]


def fails_at_each(command, number):
    """Each operation of a command fails alone."""
    command.begin()
    command.ends(steps_in(command.parts))
    for at, part in enumerate(command.parts):
        for place in range(len(part.steps)):
            command.fails_at(at, place, number)


for what, one in COMMANDS.items():
    add_test(f"{what}, each operation failing alone", fails_at_each, one, errno.EIO)
    add_test(f"{what}, each operation out of memory", fails_at_each, one, errno.ENOMEM)


def meets_at_each(number):
    """Each operation of each command fails alone with this error: the fault is that of any other, but
    where nothing can be flushed, and nothing is tried again. To remove what is not there is no fault."""
    for command in COMMANDS.values():
        for at, part in enumerate(command.parts):
            for place in range(len(part.steps)):
                command.meets(at, place, number)


for error in ERRORS:
    add_test(f"each operation failing with {errno.errorcode[error]}", meets_at_each, error)


def meets_each_error(command, beginning):
    """The operations of a command that begin so, or as one of these, fail alone, with each other error that a
    system may have for them."""
    places = [(at, place) for at, part in enumerate(command.parts) for place in range(len(part.steps))]
    found = [(at, place) for at, place in places if command.parts[at].steps[place].startswith(beginning)]
    holds(found, f"no operation begins with {beginning}")
    for number in OTHER_ERRORS:
        for at, place in found:
            command.meets(at, place, number)


add_test("a flush failing with each other error", meets_each_error, SIGN_BY_TREES, "flush ")
add_test("a flush beside a witness failing with each other error", meets_each_error, SIGN_BESIDE, "flush ")
add_test("an open of a witness failing with each other error", meets_each_error, SIGN_BESIDE, f"open {WITNESS}")
add_test("a lock failing with each other error", meets_each_error, DESCRIBE, "lock ")
for what, one, file in [
    ("keygen", KEYGEN, "key.pub"), ("public", PUBLIC, "key.pub"), ("sign", SIGN_BY_TREES, "text.sig"), ("join", JOIN, "joined.sig"),
    ("join-public", JOIN_KEYS, "joined.pub"),
]:
    its = tuple(f"{does} {of}" for does, of in itertools.product(["make", "permit", "write", "flush", "rename", "open"], [f"{file}.draft", file, "."]))
    add_test(f"what {what} gives away failing with each other error", meets_each_error, one, its)
add_test("a read of lines failing with each other error", meets_each_error, SERVICE, "read standard input")


def flushes(command, key, target):
    """A command writes this public key there, and flushes it and the folder that it is in; where an operation of
    it fails alone, that is its fault."""
    command.begin()
    command.ends(steps_in(command.parts))
    has(target, key)
    at = next(at for at, part in enumerate(command.parts) if f"flush {FOLDER}" in part.steps)
    for place in range(len(command.parts[at].steps)):
        for number in FLUSH_ERRORS:
            command.meets(at, place, number)


@test
def flushes_a_public_key_where_it_is():
    """In another folder, by short names and by those of over 40 and of over 200 bytes: paths from here and from
    the top, and links."""
    for size in (1, 41, 201):
        target, link = f"{FOLDER}/{'k' * size}", "l" * size
        for name, links in [(target, {}), (os.path.abspath(target), {}), (link, {link: target})]:
            for command, key in elsewhere(name, links):
                flushes(command, key, target)


@test
def asks_once_for_a_lock_that_another_has():
    for command in LOCKING.values():
        command.begin()
        at = command.parts.index(LOCKED_FIRST if command is KEYGEN else LOCKED)
        with Lock():
            command.ends([*steps_in(command.parts[: at + 1]), *IS_LINK, "write standard error"], IN_USE)


def has_signed(message=b"abc"):
    """The index has signed this, and nodes are kept of it."""
    has(STATE, image(LEVELS, INDEX + 1, 1))
    has("text.sig", signature_of(LEVELS, INDEX, message))


@test
def reads_again_where_it_is_interrupted():
    for command in COMMANDS.values():
        steps = steps_in(command.parts)
        for at, step in enumerate(steps):
            if step.startswith("read "):
                command.begin()
                command.ends(steps[: at + 1] + steps[at:], FAIL=at + 1, LAST=at + 1, FAULT=errno.EINTR)


@test
def reads_and_writes_byte_by_byte():
    for command in COMMANDS.values():
        command.begin()
        steps, ran = command.run(SHORT=1)
        found = (ran.returncode, ran.stdout, ran.stderr)
        holds(found == (0, "".join(command.written()), ""), f"{command.arguments[0]}: {found}")
        once = [it for it, _ in itertools.groupby(steps)]
        holds(once == [it for it, _ in itertools.groupby(steps_in(command.parts))], f"{command.arguments[0]}: the operations are {once}")
        if command is KEYGEN:
            has(STATE, image(LEVELS, 0))
            has("key.pub", public_of(LEVELS))
            keeps(LEVELS, 0)
        elif command is PUBLIC:
            has(STATE, image(LEVELS, INDEX))
            has("key.pub", public_of(LEVELS))
        elif command in (SERVICE, SERVICE_BESIDE, RESUME):
            has(STATE, image(LEVELS, INDEX + 1, 1))
        elif command is JOIN:
            has("joined.sig", JOINED)
        elif command is JOIN_KEYS:
            has("joined.pub", JOINED_KEY)
        elif command not in (DESCRIBE, INSPECT, INSPECT_BESIDE, WATCH):
            has_signed(SIGNER[4:] if command is ENDORSE else b"abc")
            has(NODES, kept(LEVELS, KEPT if command.has_nodes else INDEX))
        if command.says[1] is not None:
            has(PLACE, witness_of(command.says[1]))


@test
def writes_through_no_link():
    """A link gets in the way of a draft after the older draft was removed. Of the state that is a
    fault; without new nodes it signs."""
    for draft, fault in [(NEW, STORED.fault), (DRAFT, None)]:
        SIGN_BY_TREES.begin()
        put("others", b"as they were")
        os.symlink("others", draft)
        steps = steps_in(BY_TREES)
        at = steps.index(f"make {draft}")
        rest = ["write standard error"] if fault else steps_in([SIGNATURE, PRINTED])
        SIGN_BY_TREES.ends(steps[: at + 1] + rest, fault, FAIL=at, LAST=at, FAULT=errno.ENOENT)
        has("others", b"as they were")
        if fault:
            has(STATE, image(LEVELS, INDEX))
            signs(LEVELS, INDEX)
            has("others", b"as they were")
        else:
            has_signed()


@test
def reads_no_more_nodes_than_are_reported():
    """A file that is reported to be too long is not opened, nor is what is no file. One that has
    more bytes than were reported is read to one more of them, and not used."""
    name, rest = os.path.realpath(NODES), steps_in(BY_TREES[BY_TREES.index(NO_WITNESS) :])
    before = steps_in([STREAMS, SIGNATURE_AT, MESSAGE, LOCKED])
    for size, count in [(2**40, 1), (1, 3)]:
        SIGN_BY_NODES.begin()
        SIGN_BY_NODES.ends(before + NODES_READ.steps[:count] + rest, NAME=name, SIZE=size)
        has_signed()
        keeps(LEVELS, INDEX)
    SIGN_BY_TREES.begin()
    os.mkfifo(NODES)
    SIGN_BY_TREES.ends(steps_in(BY_TREES))
    has_signed()
    keeps(LEVELS, INDEX)


@test
def reads_no_more_of_a_witness_than_it_may_have():
    """One that is reported to be too long is not opened. The length of others does not count."""
    before = steps_in([STREAMS, SIGNATURE_AT, MESSAGE, LOCKED, NO_NODES, WITNESS_SEEN])
    for size in (129, 2**40):
        SIGN_BESIDE.begin()
        steps = [*before, *WITNESS_READ.steps[:1], "write standard error"]
        SIGN_BESIDE.ends(steps, WITNESS_READ.fault, NAME=os.path.realpath(".") + f"/{WITNESS}", SIZE=size)
    for size in (0, 1, 128):
        SIGN_BESIDE.begin()
        SIGN_BESIDE.ends(steps_in(BESIDE_A_WITNESS), NAME=os.path.realpath(".") + f"/{WITNESS}", SIZE=size)
        has_signed()
