"""Calls of each function of the verifier's module, on memories and arguments as its callers might make
them: random, at edges, and with keys and signatures that are valid or changed."""

import random
import re

from tests.merge_check.portable_vectors import Leaf, all_vectors
from tests.merge_check.wasm_functions import STACK_END, Case, wasm_stack
from tests.reference import CHAINS, HEIGHTS, number

CALLS = 1000
WILD = [1 << 33, 1 << 63, (1 << 64) - 64]
LENGTHS = [0, 1, 3, 4, 55, 56, 63, 64, 65, 119, 120, 127, 128, 129, 300]
FLAGS = [0, 0, 0, 0, 0, 0, 1, 2, 0xFFFFFFFF]


def little(value):
    """A number of 64 bits as in the module's memory."""
    return value.to_bytes(8, "little")


class Memory:
    """What a call is given, at the end of the stack, one thing below another. Frames lie below all."""

    def __init__(self, chance):
        # (What goes past them is random, too, and stays below the constants.)
        self.chance, self.at, self.places, self.arguments = chance, STACK_END - 512, [], []

    def room(self, size):
        """Bytes that stay random: their address."""
        self.at -= size + self.chance.randrange(9)
        return self.at

    def put(self, contents):
        """These bytes: their address."""
        at = self.room(len(contents))
        self.places.append((at, contents))
        return at

    def give(self, *values, valtype="i64"):
        """Arguments of this type."""
        self.arguments += [(valtype, it) for it in values]

    def give_bytes(self, contents):
        """Bytes and their length; for none, mostly, a null pointer."""
        at = self.put(contents) if contents or self.chance.randrange(4) == 0 else 0
        self.give(at, len(contents))

    def number(self):
        """A number of 64 bits: small, large, or at an edge."""
        edges = [0, 1, 63, 64, 1 << 32, (1 << 64) - 1, self.chance.randrange(1 << 10), self.chance.randrange(1 << 64)]
        return self.chance.choice(edges)


def changed(chance, contents):
    """Bytes with one of them turned, mostly one of the first; or with some cut off, or one more."""
    kind = chance.randrange(6)
    if kind == 0:
        return contents[: chance.randrange(len(contents) + 1)]
    if kind == 1:
        return contents + b"\0"
    at = chance.randrange(min(len(contents), chance.choice([12, 1 << 20])) or 1)
    return contents[:at] + bytes(it ^ chance.choice([1, 4, 0xFF]) for it in contents[at : at + 1]) + contents[at + 1 :]


def compress(memory):
    """A state of 32 bytes and a block of 64, which may lie over each other."""
    state, block = memory.room(32), memory.room(64)
    memory.give(state, memory.chance.choice([block, block, state + 8]))


def update(memory):
    """A hash, which has its length at its end, and bytes, which may lie in its buffer."""
    core = memory.room(104)
    memory.places.append((core + 96, little(memory.number())))
    size = memory.chance.choice(LENGTHS)
    data = memory.room(size)
    memory.give(core, memory.chance.choice([data, data, data, core + memory.chance.randrange(100), *WILD[:1]]), size)


def finalize(memory):
    """Where the hash goes, and its state."""
    out, core = memory.room(32), memory.room(104)
    memory.places.append((core + 96, little(memory.number())))
    memory.give(out, core)


def candidate(memory):
    """Where the candidate goes; a one-time signature: its width, and at 16 the place of its values; a
    leaf's identifier and number; a hash."""
    width = memory.chance.choice([0, 0, 1, 1, 2, 2, 2, 3] if memory.chance.randrange(8) == 0 else [0, 1, 2])
    values = memory.room(32 * list(CHAINS.values())[width][1])
    parts = memory.put(bytes([width]) + bytes(15) + little(values))
    leaf = memory.room(20)
    edges = [bytes(32), b"\xff" * 32, memory.chance.randbytes(32)]
    memory.give(memory.room(32), parts, leaf, memory.put(memory.chance.choice(edges)))


def root(memory):
    """An identifier, a root, a leaf's number as a node, its candidate, the path and its length: they
    fit each other, but for a bit in one of four."""
    height = memory.chance.choice([0, 1, 5, 10, 25])
    leaf = Leaf(height, 8, memory.chance.randrange(1 << height), memory.chance.randbytes(8))
    # (Any candidate will do, with no chain computed.)
    candidate_hash = memory.chance.randbytes(32)
    leaf.tree.public_hash = lambda _: candidate_hash
    top = leaf.top()
    if memory.chance.randrange(4) == 0:
        top = changed(memory.chance, top + bytes(32))[:32].ljust(32, b"\0")
    memory.give(memory.put(leaf.tree.identifier), memory.put(top))
    memory.give((1 << height) + leaf.leaf, valtype="i32")
    memory.give(memory.put(candidate_hash), memory.put(b"".join(leaf.path)), height)


def verifier(memory):
    """Where the verifier goes, a parsed public key, and a signature of its sets, or a changed one."""
    height, width = memory.chance.randrange(5), memory.chance.randrange(4)
    typecode, chains, _ = list(CHAINS.values())[width]
    levels = list(HEIGHTS)[height]
    leaf = memory.chance.choice([0, 1, 2**levels - 1, 2**levels, 2**32 - 1])
    one_time = number(typecode, 4) + memory.chance.randbytes(32 + 32 * chains)
    signature = number(leaf, 4) + one_time + number(height + 5, 4) + bytes(32 * levels)
    if memory.chance.randrange(3) == 0:
        signature = changed(memory.chance, signature)
    if memory.chance.randrange(3) == 0:
        at = 4 + len(one_time) + memory.chance.randrange(4)
        signature = signature[:at] + b"\7" + signature[at + 1 :]
    out, key = memory.room(240), memory.put(bytes([height, width]) + memory.chance.randbytes(48))
    memory.give(out, key)
    memory.give(memory.put(signature), len(signature))


class Whole:
    """A public key, a message and a signature, valid or changed, as the four calls take them."""

    vectors = []

    def __init__(self, memory):
        self.memory, chance = memory, memory.chance
        if not self.vectors:
            # (Of width 8, which takes long, there is one.)
            self.vectors += [it for name, it in all_vectors().items() if name == "5/8" or not re.search("example|/8|,.*,.*,", name)]
        parts = list(chance.choice(self.vectors))
        if chance.randrange(3):
            at = chance.choice([0, 1, 2, 2])
            parts[at] = changed(chance, parts[at]) if parts[at] else b"x"
        self.key, self.message, self.signature = parts

    def verify(self):
        for it in (self.key, self.message, self.signature):
            self.memory.give_bytes(it)

    def pieces(self):
        """The message in pieces: an array of addresses and lengths."""
        cuts = sorted(self.memory.chance.randrange(len(self.message) + 1) for _ in range(self.memory.chance.randrange(4)))
        at, ends = self.memory.put(self.message), [0, *cuts, len(self.message)]
        array = b"".join(little(at + start) + little(end - start) for start, end in zip(ends, ends[1:]))
        self.memory.give_bytes(self.key)
        self.memory.give(self.memory.put(array), len(ends) - 1)
        self.memory.give_bytes(self.signature)

    def head(self):
        self.memory.give_bytes(self.key)
        self.memory.give_bytes(self.signature)
        self.memory.give(self.memory.room(54))

    def hash(self):
        self.memory.give_bytes(self.key)
        self.memory.give_bytes(self.signature)
        self.memory.give(self.memory.room(32))

    def begin(self):
        self.memory.give(self.memory.room(240))
        for it in (self.key, self.signature):
            self.memory.give(self.memory.put(it), len(it))


GIVEN = {
    "__rattle_enter": lambda memory: None,
    "__rattle_leave": lambda memory: None,
    "__rattle_trap": lambda memory: None,
    "lms_hss::verification::Verifier::begin": lambda memory: Whole(memory).begin(),
    "lms_verification::verification::PublicKey::verifier": verifier,
    "sha2::block256::Core256::update": update,
    "sha2::Sha256Digest::finalize": finalize,
    "lms_ots::verification::candidate_by_hash": candidate,
    "lms_verification::verification::is_root": root,
    "sha2::block256::compress": compress,
    "lms_verify": lambda memory: Whole(memory).verify(),
    "lms_verify_pieces": lambda memory: Whole(memory).pieces(),
    "lms_message_head": lambda memory: Whole(memory).head(),
    "lms_verify_hash": lambda memory: Whole(memory).hash(),
}


def kind_of(name):
    """What a function of this name is given: the exported ones are wrapped in others."""
    return re.sub(r"^rattle::export |::<.*", "", name)


def unknown(module):
    """The functions of which nobody knows what they are given."""
    return [it.name for it in module.functions if kind_of(it.name) not in GIVEN]


def cases_of(module):
    """Calls of each function of the module."""
    chance, cases = random.Random(8554), []
    for at, function in enumerate(module.functions):
        below = wasm_stack.need_of(module, at) + 16
        for _ in range(CALLS):
            memory = Memory(chance)
            GIVEN[kind_of(function.name)](memory)
            seed, flag, pointer = chance.randrange(1, 1 << 32), chance.choice(FLAGS), memory.at & ~15
            cases.append(Case(at, memory.arguments, memory.places, pointer - below, pointer, seed, flag))
    return cases
