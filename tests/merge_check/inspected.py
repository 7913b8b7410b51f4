"""`inspect`: what it says of states, public keys and signatures, byte for byte; of what is none of them; and
that it takes no lock, writes nothing and changes nothing."""

import hashlib
import os
import resource

from tests.harness import add_test, holds, test
from tests.program import PLACE, PROGRAM, WITNESS, Lock, ends, fails, inspect, put, read
from tests.reference import CHAINS, HEIGHTS, IDENTIFIER, image, joined, number, parts_to_join, public_of, signature_of, witness_of

NOTHING = "no state, public key or signature\n"
ONE = ((5, 1),)
# Levels of keys: one, two of different sets, and the most.
KEYS = [((5, 8),), ((10, 4), (5, 2)), ((5, 2),) * 8]
OTHER = b"\x77" * 16


def spelt(levels):
    """Levels as they are printed."""
    return ",".join(f"{height}/{width}" for height, width in levels)


def files():
    """Each file with which file it is and when it was last changed."""
    return {name: (os.lstat(name).st_ino, os.lstat(name).st_mtime_ns) for name in os.listdir()}


def says(contents, text, status=0, name="file"):
    """This is what is said of a file with these bytes, and no file is made or changed."""
    put(name, contents)
    before = files()
    ends(inspect(name), status, text)
    holds(files() == before, "a file was made or changed")


def state_text(levels, counter, openings, burnt, witness="none", identifier=IDENTIFIER):
    """What is said of a state."""
    capacity = 2 ** sum(height for height, _ in levels)
    numbers = {"counter": counter, "capacity": capacity, "left": capacity - counter, "openings": openings, "burnt": burnt}
    lines = "".join(f"{name} {value}\n" for name, value in numbers.items())
    return f"state\nlevels {spelt(levels)}\n{lines}id {identifier.hex()}\nwitness {witness}\n"


def public_text(levels, contents):
    """What is said of a public key."""
    digest = hashlib.sha256(contents).hexdigest()
    return f"public key\nlevels {contents[3]}\ntop {spelt(levels[:1])}\nid {contents[12:28].hex()}\nsha256 {digest}\n"


def level_in(height, width, leaf):
    """The bytes of a signature by a level, with a leaf, of which no more is looked at than that."""
    front = number(leaf, 4) + number(CHAINS[width][0], 4) + bytes(32 * (CHAINS[width][1] + 1))
    return front + number(HEIGHTS[height], 4) + bytes(range(32)) * height


def key_in(height, width, at):
    """The bytes of a key, whose identifier has this byte."""
    return number(HEIGHTS[height], 4) + number(CHAINS[width][0], 4) + bytes([at]) * 16 + bytes(32)


def signature_in(levels, leaves):
    """The bytes of a signature by these levels and leaves, and what is said of it."""
    parts, lines, index = [number(len(levels) - 1, 4)], [], 0
    for at, (level, leaf) in enumerate(zip(levels, leaves)):
        if at:
            parts.append(key_in(*level, at))
            lines.append(f"id {bytes([at] * 16).hex()}\n")
        parts.append(level_in(*level, leaf))
        lines.append(f"level {spelt([level])} leaf {leaf}\n")
        index = index << level[0] | leaf
    contents = b"".join(parts)
    last = f"index {index} if all levels are one key's\n" if sum(height for height, _ in levels) <= 60 else ""
    return contents, f"signature\nlevels {len(levels)}\nlength {len(contents)}\n{''.join(lines)}{last}"


@test
def says_what_a_state_is():
    """Of either version, used up, by another name, while another program has its lock."""
    for levels in KEYS:
        capacity = 2 ** sum(height for height, _ in levels)
        for counter, openings, burnt in ((0, 0, 0), (7, 3, 2), (capacity, 1, 0)):
            says(image(levels, counter, openings, burnt), state_text(levels, counter, openings, burnt), name="key.state")
        says(image(levels, 5, version=1), state_text(levels, 5, 0, 0), name="key.state")
    put("key.state", image(ONE, 5, identifier=OTHER))
    os.symlink("key.state", "link")
    with Lock():
        for name in ("key.state", "link", "./link"):
            ends(inspect(name), 0, state_text(ONE, 5, 0, 0, identifier=OTHER))


@test
def says_what_a_witness_says():
    """Beside the file that the name leads to; behind, level with and ahead of the state."""
    os.mkdir("other")
    put("key.state", image(ONE, 5))
    os.symlink(os.path.abspath(PLACE), WITNESS)
    os.symlink("key.state", "link")
    put("link.witness", witness_of(31))
    for counter in (0, 5, 6, 2**64 - 1):
        put(PLACE, witness_of(counter))
        before = files()
        for name in ("key.state", "link"):
            ends(inspect(name), 0, state_text(ONE, 5, 0, 0, counter))
        holds(files() == before, "a file was made or changed")
    for text in (witness_of(5, OTHER), witness_of(5)[:-1], b"", b"5\n"):
        put(PLACE, text)
        fails(inspect("key.state"), 3, "bad witness")
    put(PLACE, bytes(129))
    fails(inspect("key.state"), 3, "cannot read witness")
    os.remove(PLACE)
    fails(inspect("key.state"), 3, "cannot read witness")
    put("link.pub", public_of(ONE))
    ends(inspect("link.pub"), 0, public_text(ONE, read("link.pub")))


@test
def says_what_a_public_key_is():
    for levels in KEYS:
        contents = public_of(levels)
        says(contents, public_text(levels, contents))
    for top, signer in ((ONE, ONE), (ONE * 4, ONE * 4)):
        contents = joined(*parts_to_join(top, signer))[0]
        says(contents, public_text(top, contents))


@test
def says_what_a_signature_is():
    """By keys of one and two levels, a joined one, and bytes that are cut as one, of each set, with the first and the last
    leaf, of tall trees and of heights that no key has that signs."""
    says(signature_of(ONE, 9, b"abc"), "signature\nlevels 1\nlength 8688\nlevel 5/1 leaf 9\nindex 9 if all levels are one key's\n")
    by_two = signature_of(ONE * 2, 37, b"abc")
    lower = f"id {by_two[8696:8712].hex()}\nlevel 5/1 leaf 5\nindex 37 if all levels are one key's\n"
    says(by_two, f"signature\nlevels 2\nlength 17428\nlevel 5/1 leaf 1\n{lower}")
    parts = parts_to_join(ONE, ONE)
    lines = f"level 5/1 leaf 7\nid {parts[2][12:28].hex()}\nlevel 5/1 leaf 3\nindex 227 if all levels are one key's\n"
    says(joined(*parts)[1], f"signature\nlevels 2\nlength 17428\n{lines}")
    for height in HEIGHTS:
        for width in CHAINS:
            for leaf in (0, 2**height - 1):
                says(*signature_in([(height, width)], [leaf]))
    for levels in ([(5, 8), (10, 4), (15, 2)], [(20, 8)] * 3, [(25, 8), (25, 8), (10, 8)], [(25, 8)] * 3, [(25, 1)] * 8, [(5, 8)] * 8):
        says(*signature_in(levels, [2**height - 1 - at for at, (height, _) in enumerate(levels)]))


def others(contents, places):
    """These bytes cut, with a byte more, and with a bit of each of these bytes changed."""
    yield from (b"", contents[:3], contents[:-1], contents + b"\0")
    yield from (contents[:at] + bytes([contents[at] ^ 1 << bit]) + contents[at + 1 :] for at in places for bit in range(8))


def is_nothing(contents, places):
    """What is nearly a file of a key is nothing."""
    for other in others(contents, places):
        says(other, NOTHING, 1, "key.state")


LONG = signature_in([(5, 8), (10, 8)], [3, 9])[0]
# Where the typecodes are in it, and of the leaves the bytes that are beyond each tree.
CODES = [at + byte for at in (0, 8, 1132, 1296, 1300, 1356, 2480) for byte in range(4)]
BEYOND = [4, 5, 6, 1352, 1353]
NEARLY = {
    "a state": (image(ONE, 5), range(len(image(ONE, 5)))),
    "a state that counts too many": (image(ONE, 33), range(1)),
    "a public key": (public_of(ONE), [0, 1, 2, 4, 5, 6, 8, 9, 10]),
    "a signature": (LONG, CODES + BEYOND),
}
for what, (near, where) in NEARLY.items():
    add_test(f"nothing is found in what is nearly {what}", is_nothing, near, where)


@test
def finds_nothing_in_other_files():
    for contents in (b"\n", b"abc", bytes(60), bytes(124), bytes(10**6), b"-----BEGIN PUBLIC KEY-----\n", public_of(ONE).hex().encode()):
        says(contents, NOTHING, 1)
    for levels in (0, 9, 2**32 - 1):
        says(number(levels, 4) + public_of(ONE)[4:], NOTHING, 1)
    for lms, ots in ((4, 1), (10, 1), (5, 0), (5, 5)):
        says(number(1, 4) + number(lms, 4) + number(ots, 4) + public_of(ONE)[12:], NOTHING, 1)
    says(number(8, 4) + signature_in([(5, 8)] * 9, [0] * 9)[0][4:], NOTHING, 1)
    # The key and the signature below it have other typecodes.
    says(number(1, 4) + level_in(5, 8, 0) + key_in(5, 4, 1) + level_in(5, 8, 0), NOTHING, 1)
    says(number(1, 4) + level_in(5, 8, 0) + key_in(10, 8, 1) + level_in(5, 8, 0), NOTHING, 1)


@test
def keeps_no_more_of_a_file_than_a_signature_has():
    """The longest signature with a byte more, and a file of two gigabytes, in an eighth of that of memory."""
    says(signature_in([(25, 1)] * 8, [0] * 8)[0] + b"\0", NOTHING, 1)
    os.mkdir("far")
    put("far/file", b"")
    os.truncate("far/file", 2**31)
    ends(inspect("far/file"), 1, NOTHING, preexec_fn=lambda: resource.setrlimit(resource.RLIMIT_AS, (2**28, 2**28)))


@test
def fails_by_its_files():
    for name in ("none", ".", "none/file"):
        fails(inspect(name), 6, "cannot read input")
    put("file", public_of(ONE))
    fails(["-c", 'exec "$0" "$@" >/dev/full', PROGRAM, *inspect("file")], 6, "cannot write output", program="sh")
    put("key.state", image(ONE, 5))
    os.mkdir(WITNESS)
    fails(inspect("key.state"), 3, "cannot read witness")
