"""A signer by hashlib, after docs/PROFILE.md, from whole trees, which makes the bytes that the
program is compared with."""

import copy
import functools
import hashlib

SEED, IDENTIFIER, RANDOMIZER = b"\x11" * 32, b"\x22" * 16, b"\x33" * 32
CHAINS = {1: (1, 265, 7), 2: (2, 133, 6), 4: (3, 67, 4), 8: (4, 34, 0)}
HEIGHTS = {5: 5, 10: 6, 15: 7, 20: 8, 25: 9}
# The height of the bottom subtrees of taller trees.
SUBTREE = 10


def digest(*parts):
    """The hash of these parts, one after the other."""
    return hashlib.sha256(b"".join(parts)).digest()


def number(value, size):
    """A number in so many bytes."""
    return value.to_bytes(size, "big")


def derived(identifier, seed, leaf, chain):
    """What the seed of a tree gives for a leaf and this number: the start of a chain, or what is
    derived beside them."""
    return digest(identifier, number(leaf, 4), number(chain, 2), b"\xff", seed)


def walked(identifier, leaf, chain, value, steps):
    """A value after these steps of a chain."""
    head = identifier + number(leaf, 4) + number(chain, 2)
    for step in steps:
        value = digest(head, number(step, 1), value)
    return value


def digits(hashed, width):
    """The digits of a hash and of its checksum."""
    _, chains, shift = CHAINS[width]
    most = 2**width - 1

    def cut(contents):
        return [byte >> at & most for byte in contents for at in range(8 - width, -1, -width)]

    checksum = sum(most - it for it in cut(hashed)) << shift
    return cut(hashed + number(checksum, 2))[:chains]


class Tree:
    """A whole tree of a key, of these leaves' nodes or of its own, with its one-time keys."""

    def __init__(self, height, width, identifier, seed, leaves=None):
        self.height, self.width, self.identifier, self.seed = height, width, identifier, seed
        leaves = [self.leaf(leaf) for leaf in range(2**height)] if leaves is None else leaves
        self.nodes = [*[b""] * len(leaves), *leaves]
        for node in range(len(leaves) - 1, 0, -1):
            self.join(node)

    def public_hash(self, leaf):
        """The hash of a leaf's one-time public key."""
        ends = [
            walked(self.identifier, leaf, chain, derived(self.identifier, self.seed, leaf, chain), range(2**self.width - 1))
            for chain in range(CHAINS[self.width][1])
        ]
        return digest(self.identifier, number(leaf, 4), b"\x80\x80", *ends)

    def leaf(self, leaf):
        """The node of a leaf."""
        return digest(self.identifier, number(2**self.height + leaf, 4), b"\x82\x82", self.public_hash(leaf))

    def join(self, node):
        """Computes a node from the two below it."""
        self.nodes[node] = digest(self.identifier, number(node, 4), b"\x83\x83", *self.nodes[2 * node : 2 * node + 2])

    def public(self, root=None):
        """The public key of the tree, with its root or another one."""
        return number(HEIGHTS[self.height], 4) + number(CHAINS[self.width][0], 4) + self.identifier + (root or self.nodes[1])

    def one_time(self, leaf, randomizer, message):
        """The one-time signature of a message by a leaf."""
        hashed = digest(self.identifier, number(leaf, 4), b"\x81\x81", randomizer, message)
        values = [
            walked(self.identifier, leaf, at, derived(self.identifier, self.seed, leaf, at), range(steps))
            for at, steps in enumerate(digits(hashed, self.width))
        ]
        return b"".join([number(CHAINS[self.width][0], 4), randomizer, *values])

    def sign(self, leaf, randomizer, message, path=None):
        """The signature of a message by a leaf, with the path of the tree or another one."""
        path = path or [self.nodes[(2**self.height + leaf >> level) ^ 1] for level in range(self.height)]
        return b"".join([number(leaf, 4), self.one_time(leaf, randomizer, message), number(HEIGHTS[self.height], 4), *path])

    def signed_key(self, leaf, child):
        """What a leaf signs of the tree below it: its signature, and that tree's public key."""
        public = child.public()
        return self.sign(leaf, derived(self.identifier, self.seed, leaf, 0xFFFD), public) + public

    def altered(self, leaf):
        """This tree with another node in place of a leaf's, and all above it computed from that."""
        other, node = copy.copy(self), 2**self.height + leaf
        other.nodes = [*self.nodes[:node], digest(self.nodes[node]), *self.nodes[node + 1 :]]
        while node > 1:
            node //= 2
            other.join(node)
        return other


@functools.lru_cache(maxsize=None)
def tree(height, width, identifier, seed):
    """A tree, computed once."""
    return Tree(height, width, identifier, seed)


def public_of(levels, seed=SEED, identifier=IDENTIFIER):
    """The public key of the key with these levels."""
    return number(len(levels), 4) + tree(*levels[0], identifier, seed).public()


def way_of(levels, index, given=(), seed=SEED, identifier=IDENTIFIER):
    """For each level from the top the tree that an index goes through, its leaf there, and what the
    level above signs of the tree. A tree of a given way takes the place of the one with its
    identifier, with what is signed of it there."""
    below, way = sum(height for height, _ in levels), []
    for at, level in enumerate(levels):
        below -= level[0]
        leaf, one, signed = (index >> below) % 2 ** level[0], tree(*level, identifier, seed), b""
        if given[at:] and given[at][0].identifier == identifier:
            one, _, signed = given[at]
        elif way:
            signed = way[-1][0].signed_key(way[-1][1], one)
        way.append((one, leaf, signed))
        identifier, seed = derived(identifier, seed, leaf, 0xFFFF)[:16], derived(identifier, seed, leaf, 0xFFFE)
    return way


def signature_by(way, message, randomizer=RANDOMIZER):
    """The signature of a message by the index that goes this way."""
    one, leaf, _ = way[-1]
    return b"".join([number(len(way) - 1, 4), *(signed for _, _, signed in way), one.sign(leaf, randomizer, message)])


def signature_of(levels, index, message):
    """The signature of a message by an index of the key with these levels."""
    return signature_by(way_of(levels, index), message)


def joined(top, endorsement, signer, signature):
    """The public key and the signature that are joined of a top public key, its endorsement of a
    signer's key, that public key and a signature by it."""
    levels = top[3] + signer[3]
    return number(levels, 4) + top[4:], number(levels - 1, 4) + endorsement[4:] + signer[4:] + signature[4:]


def parts_to_join(top_levels, signer_levels, message=b"abc"):
    """A top key of these levels, its endorsement of a signer's key of those, that key, and its signature
    of a message."""
    above, below = b"\x44" * 32, b"\x55" * 32
    signer = public_of(signer_levels, below)
    endorsement = signature_by(way_of(top_levels, 7, seed=above), signer[4:])
    return [public_of(top_levels, above), endorsement, signer, signature_by(way_of(signer_levels, 3, seed=below), message)]


def sealed(contents):
    """These bytes and their hash."""
    return contents + digest(contents)


def typecodes(levels):
    """The typecodes of levels."""
    return [code for height, width in levels for code in (HEIGHTS[height], CHAINS[width][0])]


def image(levels, *numbers, version=2, types=None, seed=SEED, identifier=IDENTIFIER):
    """The state image of the key with these levels, and with its numbers: the counter, and in
    version 2 the openings and the burnt indices."""
    types = types or typecodes(levels)
    numbers = [*numbers, 0, 0][: 1 if version == 1 else 3]
    head = b"HSSK" + number(version, 4) + number(len(types) // 2, 4) + b"".join(number(it, 4) for it in types)
    return sealed(head + seed + identifier + b"".join(number(it, 8) for it in numbers))


def witness_of(counter, identifier=IDENTIFIER):
    """The witness of a key of which all indices below this one are used."""
    return b"HSS key %s has used all indices below %d\n" % (identifier.hex().encode(), counter)


def kept_parts(index, way, version=1):
    """What kept nodes have before their check value, part by part, by the way of an index."""
    parts = [b"HSSN", number(version, 4), number(index, 8)]
    for one, leaf, signed in way:
        served = min(one.height, SUBTREE)
        above = one.height - served
        root = 2**above + (leaf >> served)
        rows = [one.nodes[root << row : root + 1 << row] for row in range(served + 1)]
        parts += [signed, b"".join(one.nodes[1 : 2 ** (above + 1)]), b"".join(node for row in rows for node in row)]
    return [part for part in parts if part]


def checked(levels, parts, seed=SEED):
    """These parts with their check value."""
    body = b"".join(parts)
    sets = number(len(levels), 4) + b"".join(number(it, 4) for it in typecodes(levels))
    return body + digest(derived(IDENTIFIER, seed, 0, 0xFFFC), digest(sets, body))


def kept(levels, index, held=None):
    """The kept nodes of the key with these levels, on the way of an index, of so many levels, or
    all."""
    return checked(levels, kept_parts(index, way_of(levels, index)[:held]))
