"""Keys, messages and signatures of all sets of parameters, and changes of them, as a C header.

A key has one leaf: the other nodes on the paths to the roots are made up, so that tall trees take no
time. Its signatures are as valid as any."""

import random

from tests.harness import TOP
from tests.program import put, read
from tests.reference import CHAINS, HEIGHTS, RANDOMIZER, Tree, digest, joined, number

EXAMPLES = TOP / "examples"
LENGTHS = [0, 1, 54, 55, 56, 63, 64, 65, 119, 120, 128, 200]
# The levels that have the longest signature.
LONGEST = [(25, 1)] * 8
LEVELS = [
    [(5, 2), (25, 4)],
    [(10, 2), (15, 4), (5, 1)],
    [(5, 4), (10, 2), (5, 1), (15, 2), (5, 4), (20, 2), (25, 1), (5, 8)],
    LONGEST,
]
# Of longer signatures there is no copy on the smallest board.
LONGEST_CHANGED = 9000
PARTS = ["public key", "message", "signature"]


class Leaf:
    """A tree of which one leaf is known."""

    def __init__(self, height, width, number_of_leaf, seed):
        self.tree = Tree(height, width, digest(seed)[:16], seed, leaves=[])
        self.leaf = number_of_leaf
        self.path = [digest(seed, number(level, 1)) for level in range(height)]

    def top(self):
        """The root."""
        node, value = 2**self.tree.height + self.leaf, self.tree.leaf(self.leaf)
        for other in self.path:
            children = [other, value] if node % 2 else [value, other]
            node //= 2
            value = digest(self.tree.identifier, number(node, 4), b"\x83\x83", *children)
        return value

    def public(self):
        """The public key."""
        return self.tree.public(self.top())

    def sign(self, message):
        """The signature of a message."""
        return self.tree.sign(self.leaf, RANDOMIZER, message, self.path)


def signed(levels, leaves, message):
    """A public key, the message, and its signature by these leaves, from the top."""
    trees = [Leaf(*level, leaf, digest(named(levels[: at + 1]).encode())) for at, (level, leaf) in enumerate(zip(levels, leaves))]
    keys = [it.public() for it in trees[1:]]
    above = [tree.sign(key) + key for tree, key in zip(trees, keys)]
    signature = b"".join([number(len(above), 4), *above, trees[-1].sign(message)])
    return number(len(levels), 4) + trees[0].public(), message, signature


def named(levels):
    """The name of levels, as an option spells it."""
    return ",".join(f"{height}/{width}" for height, width in levels)


def joined_vector():
    """What is joined of two keys of two levels each."""
    signer, message, signature = signed([(5, 4), (10, 2)], [31, 700], b"joined")
    top, _, endorsement = signed([(5, 2), (5, 8)], [0, 17], signer[4:])
    public, whole = joined(top, endorsement, signer, signature)
    return public, message, whole


def all_vectors():
    """Names, each with public key, message and signature: the examples, every set of parameters with
    its first, last or another leaf, and several levels."""
    found = {"example": tuple(read(EXAMPLES / it) for it in ("release.pub", "firmware.bin", "firmware.sig"))}
    found["example of two levels"] = tuple(read(EXAMPLES / it) for it in ("c/two_levels.pub", "firmware.bin", "c/two_levels.sig"))
    found["joined"] = joined_vector()
    keys = [[(height, width)] for height in HEIGHTS for width in CHAINS] + LEVELS
    for at, levels in enumerate(keys):
        leaves = [[0, 2**height - 1, 2**height // 3][(at + level) % 3] for level, (height, _) in enumerate(levels)]
        message = bytes(range(LENGTHS[at % len(LENGTHS)]))
        found[named(levels)] = signed(levels, leaves, message)
    return found


def some(vectors, *names):
    """These of the vectors."""
    return {name: vectors[name] for name in names}


def all_changes(vectors, count):
    """So many changes at random, and of a key of one level and of one of two each of these: the first
    byte of each field turned, the last byte turned or cut off, a byte added. A change is the vector's
    number, the part's, a place, and the bits that are turned there, or 0 where the part is to have
    that length."""
    names, found = list(vectors), []
    for name in ("5/2", "5/2,25/4"):
        for part, contents in enumerate(vectors[name]):
            places = {3, 7, 11, 12, 43, 44, len(contents) - 1} if part != 1 else {0}
            found += [(names.index(name), part, at, 1) for at in sorted(places) if at < len(contents)]
            found += [(names.index(name), part, length, 0) for length in (0, len(contents) - 1, len(contents) + 1)]
    chance = random.Random(8554)
    small = [at for at, parts in enumerate(vectors.values()) if len(parts[2]) < LONGEST_CHANGED and "/8" not in names[at]]
    most = len(found) + count
    while len(found) < most:
        vector, part = chance.choice(small), chance.choice([0, 1, 2, 2])
        length = len(vectors[names[vector]][part])
        at, turned = chance.randrange(length + 1), chance.choice([1 << chance.randrange(8), 0xFF])
        if chance.randrange(4) == 0:
            found.append((vector, part, chance.choice([at, length - 1, length + 1]) % (length + 2), 0))
        elif length:
            found.append((vector, part, chance.choice([at % length, at % min(12, length)]), turned))
    return [it for it in found if it[3] or it[2] != len(vectors[names[it[0]]][it[1]])]


def c_bytes(name, contents):
    """An array of these bytes."""
    return f"static const uint8_t {name}[] = {{{', '.join(map(str, contents)) or '0'}}};"


def header(vectors, changes=()):
    """The C header. (C has no empty arrays: where nothing is changed, a vector is cut to no key.)"""
    lines = [f"enum {{ LONGEST_CHANGED = {LONGEST_CHANGED} }};", "struct change { uint16_t vector, part; uint32_t at, turned; };"]
    rows = []
    for at, (name, parts) in enumerate(vectors.items()):
        lines += [c_bytes(f"part_{at}_{part}", contents) for part, contents in enumerate(parts)]
        texts = ", ".join(f"{{part_{at}_{part}, {len(contents)}}}" for part, contents in enumerate(parts))
        rows.append(f'    {{"{name}", {{{texts}}}}},')
    lines += ["static const struct vector vectors[] = {", *rows, "};", "static const struct change changes[] = {"]
    lines += [f"    {{{', '.join(map(str, it))}}}," for it in changes or [(0, 0, 0, 0)]]
    return "\n".join([*lines, "};", ""])


def empty_message():
    """An empty message with its signature, as the files that are named."""
    files = ["empty.pub", "empty", "empty.sig"]
    for name, contents in zip(files, signed([(5, 8)], [0], b"")):
        put(name, contents)
    return files
