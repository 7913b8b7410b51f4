"""Makes all expected bytes again that tests of crates, `examples/` and the run of the program hold,
and compares them.

The state images, digests and signatures of crates are made by `reference` alone. The keys and
signatures of `lms_slow` and `examples/` are those of another implementation, made again from their
seeds."""

import concurrent.futures
import itertools
import re

from tests.harness import TOP
from tests.reference import (
    CHAINS, IDENTIFIER, RANDOMIZER, SEED, Tree, derived, digest, digits, image, number,
    public_of, signature_by, signature_of, tree, walked, way_of,
)

MESSAGE = b"abc"
EIGHT = ((5, 8),) * 8
TALL = (15, 2)
# How many keys and signatures of another implementation `lms_slow` has.
VECTORS = 7


def state_images():
    """State images of both versions."""
    two = ((5, 8), (10, 4))
    yield "the state image of 5/8", image(((5, 8),), 5, 2, 1)
    yield "the state image of 5/8,10/4", image(two, 258, 3, 7)
    yield "the state image of 5/8 in version 1", image(((5, 8),), 5, version=1)
    yield "the state image of 5/8,10/4 in version 1", image(two, 258, version=1)


def state_images_of_books():
    """State images of version 1 that a book opens."""
    yield "the state image of 5/8 with counter 10 in version 1", image(((5, 8),), 10, version=1)
    yield "the state image of 5/8 with no index left in version 1", image(((5, 8),), 32, version=1)
    yield "the state image of 15/8 four times with one index left in version 1", image(((15, 8),) * 4, 2**60 - 1, version=1)


def lanes():
    """Where chains end, each with a head, a first step, a number of steps and a value of its
    own."""
    for chain, (first, steps) in enumerate([(7, 0), (0, 1), (255, 2), (250, 15), (128, 100), (1, 255), (255, 256), (65535, 300)]):
        head, value = bytes(range(22 * chain, 22 * chain + 22)), bytes(range(32 * chain, 32 * chain + 32))
        for step in range(first, first + steps):
            value = digest(head, number(step % 256, 1), value)
        yield f"the end of chain {chain}", value


def one_time_keys():
    """Hashes of a leaf's one-time keys, and of its signatures, of each width."""
    yield "the hash of the bytes with which all hashed bytes of leaf 5 begin", digest(IDENTIFIER, number(5, 4))
    yield "the secret of chain 264 of leaf 5", derived(IDENTIFIER, SEED, 5, 264)
    yield "a step of chain 3 of leaf 5", walked(IDENTIFIER, 5, 3, SEED, [7])
    for width in CHAINS:
        one = tree(5, width, IDENTIFIER, SEED)
        yield f"the public hash of leaf 5, w={width}", one.public_hash(5)
        yield f"the digest of its signature, w={width}", digest(one.one_time(5, RANDOMIZER, MESSAGE))


def signed():
    """Digests of public keys and signatures by one to eight levels."""
    for levels, index in [
        (((5, 8),), 5),
        (((5, 8), (5, 8)), 32),
        (((5, 8), (10, 4), (5, 8)), 33000),
        (((5, 1), (5, 2), (5, 4), (5, 8)), 74565),
        (EIGHT, 2**35),
    ]:
        name = ",".join(f"{height}/{width}" for height, width in levels)
        yield f"the digest of a public key and a signature of {name}", digest(public_of(levels), signature_of(levels, index, MESSAGE))


def planted():
    """Digests of public keys and signatures by one leaf's path alone, whose nodes are of bytes 1,
    2, 3 and so on."""
    for height, width, leaf in [(5, 8, 31), (10, 4, 600), (15, 2, 32767), (20, 1, 2**20 - 1), (25, 1, 2**25 - 1)]:
        one = Tree(height, width, IDENTIFIER, SEED, leaves=[])
        path, node, at = [bytes([level + 1]) * 32 for level in range(height)], one.leaf(leaf), 2**height + leaf
        for sibling in path:
            pair = [sibling, node] if at % 2 else [node, sibling]
            node, at = digest(IDENTIFIER, number(at // 2, 4), b"\x83\x83", *pair), at // 2
        public = number(1, 4) + one.public(node)
        yield f"the digest of a planted signature of {height}/{width}", digest(public, bytes(4), one.sign(leaf, RANDOMIZER, MESSAGE, path))


def part_of_leaves(first):
    """A part of the leaves' nodes of the tall tree."""
    one = Tree(*TALL, IDENTIFIER, SEED, leaves=[])
    return [one.leaf(leaf) for leaf in range(first, first + 1024)]


def tall_tree():
    """The root of a tree of 15/2, and digests of signatures by leaves beside the edge of two bottom
    subtrees and by the last one."""
    with concurrent.futures.ProcessPoolExecutor() as pool:
        leaves = [node for part in pool.map(part_of_leaves, range(0, 2**15, 1024)) for node in part]
    one = Tree(*TALL, IDENTIFIER, SEED, leaves)
    yield "the root of 15/2", one.nodes[1]
    for leaf in (1000, 1023, 1024, 1100, 32767):
        yield f"the digest of a signature of 15/2 by leaf {leaf}", digest(one.sign(leaf, RANDOMIZER, MESSAGE))


def vectors():
    """The keys and signatures of another implementation: by each name what it was made of, and its
    public key and signature."""
    for file in sorted((TOP / "crates/lms_slow/src/vectors").glob("*.rt")):
        for name, body in re.findall(r"(?s)pub const (\w+): Vector = Vector \{(.*?)\n\};", file.read_text()):
            sets = [(int(height), int(width)) for height, width in re.findall(r"LmsType::H(\d+), OtsType::W(\d)", body)]
            fields = dict(re.findall(r'(?s)(\w+): "(.*?)"', body), index=re.search(r"index: (\d+)", body)[1])
            yield name, tuple(sets), {word: joined(it) for word, it in fields.items()}


def of_vectors(with_tall):
    """The public key and the signature of each vector. A tree of 10/8 takes some time."""
    for name, levels, fields in vectors():
        if (10, 8) in levels and not with_tall:
            print(f"skipped {name}: its tree takes some time")
            continue
        seed, identifier, randomizer = (bytes.fromhex(fields[word]) for word in ("seed", "id", "randomizer"))
        way = way_of(levels, int(fields["index"]), seed=seed, identifier=identifier)
        made = signature_by(way, fields["message"].replace("\\n", "\n").encode(), randomizer)
        public = public_of(levels, seed, identifier)
        yield f"the public key of {name}", public.hex(), fields["public"]
        yield f"the signature of {name}", made.hex(), fields["signature"]
        if name == "ONE_5_8":
            yield "examples/release.pub", public, read("examples/release.pub")
            yield "examples/firmware.sig", made, read("examples/firmware.sig")
            yield "examples/firmware.bin", fields["message"].replace("\\n", "\n").encode(), read("examples/firmware.bin")


def files():
    """The files of the run that `rt ci` repeats, and those of two levels, which `tests/run c` makes
    by the program, too."""
    yield "crates/lms_tool/data/key.pub", public_of(((5, 8),)), read("crates/lms_tool/data/key.pub")
    yield "crates/lms_tool/data/message.sig", signature_of(((5, 8),), 5, MESSAGE), read("crates/lms_tool/data/message.sig")
    yield "crates/lms_tool/data/message", MESSAGE, read("crates/lms_tool/data/message")
    levels, seed, identifier = ((5, 8), (5, 8)), b"\x55" * 32, b"\x66" * 16
    made = signature_by(way_of(levels, 0, seed=seed, identifier=identifier), read("examples/firmware.bin"), b"\x77" * 32)
    yield "examples/c/two_levels.pub", public_of(levels, seed, identifier), read("examples/c/two_levels.pub")
    yield "examples/c/two_levels.sig", made, read("examples/c/two_levels.sig")


def blocks(length):
    """The compressions of a hash of so many bytes."""
    return (length + 9 + 63) // 64


def one_time_counts(width, identifier, leaf, randomizer, message):
    """The compressions of a one-time signature, and of its verification."""
    chains, hashed = CHAINS[width][1], digest(identifier, number(leaf, 4), b"\x81\x81", randomizer, message)
    steps = sum(digits(hashed, width))
    first = blocks(54 + len(message))
    return first + chains + steps, first + chains * (2**width - 1) - steps + blocks(22 + 32 * chains)


def tree_count(height, width):
    """The compressions of a whole tree."""
    return 2**height * (public_hash_count(width) + 1) + 2 * (2**height - 1)


def public_hash_count(width):
    """The compressions of a leaf's public hash."""
    chains = CHAINS[width][1]
    return chains * 2**width + blocks(22 + 32 * chains)


def counts(with_tall):
    """Lines of `bench_keys` on compressions, but for those of signing by kept trees."""
    for width in CHAINS:
        one = public_hash_count(width)
        sign, verify = one_time_counts(width, IDENTIFIER, 5, RANDOMIZER, MESSAGE)
        yield f"eight_public_hashes w={width}", 8 * one
        yield f"public_hash w={width}", one
        yield f"public_hash chain by chain w={width}", one
        yield f"sign_into w={width}", sign
        yield f"candidate w={width}", verify
        yield f"a tree of 10/{width}", tree_count(10, width)
    yield "subtree_root 10/4", tree_count(10, 4)
    for name, height, width in [("5/4", 5, 4), ("10/8", 10, 8), ("10/4", 10, 4)]:
        yield f"WholeTree::build {name}", tree_count(height, width)
        yield f"BandTree::build {name}", tree_count(height, width)
    yield "BandTree::build 15/4", tree_count(15, 4)
    for levels in [((5, 8),), ((10, 4),), ((10, 8),), ((5, 8), (5, 8)), EIGHT, *([((10, 8), (10, 8))] if with_tall else [])]:
        name, total, cover, sign = ",".join(f"{height}/{width}" for height, width in levels), 0, 0, 0
        trees = [one for one, _, _ in way_of(levels, 0)]
        keys = [(derived(one.identifier, one.seed, 0, 0xFFFD), below.public()) for one, below in zip(trees, trees[1:])]
        for one, (randomizer, message) in zip(trees, [*keys, (RANDOMIZER, MESSAGE)]):
            # (A tree below another one has a seed and an identifier, and its key a randomizer, that
            # are derived.)
            cover += tree_count(one.height, one.width) + (sign + 3 if sign else 0)
            sign, verify = one_time_counts(one.width, one.identifier, 0, randomizer, message)
            total += verify + 1 + 2 * one.height
        if levels == ((10, 8), (10, 8)):
            yield f"Forest::sign {name}", sign
            yield f"Forest::cover {name}", cover
        else:
            yield f"verify {name}", total
            if name in ("10/4", "10/8"):
                yield f"verify {name} chain by chain", total


def read(name):
    """The bytes of a file of the repository."""
    return (TOP / name).read_bytes()


def joined(source):
    """A text of a program, with its lines joined that a backslash ends."""
    return re.sub(r"\\\n\s*", "", source)


def source_of(crate):
    """The source of a crate of tests."""
    return "\n".join(joined(file.read_text()) for file in sorted((TOP / "crates" / crate / "src").rglob("*.rt")))


# What makes bytes whose digits the tests hold, and the crate that holds them.
HELD = [
    ("lms_book_tests", state_images),
    ("lms_book_tests", state_images_of_books),
    ("lms_ots_tests", lanes),
    ("lms_ots_tests", one_time_keys),
    ("lms_ots_tests", signed),
    ("lms_ots_tests", planted),
    ("lms_tree_tests", tall_tree),
]


class Comparison:
    """What is the same, and what differs, counted."""

    def __init__(self, with_tall):
        self.with_tall, self.passed, self.failed = with_tall, 0, 0

    def count(self, name, is_same, why):
        """Prints whether this is the same."""
        self.passed, self.failed = self.passed + is_same, self.failed + (not is_same)
        print(f"ok {name}" if is_same else f"FAILED {name}: {why}", flush=True)

    def compare_held(self):
        """The bytes whose digits a crate of tests holds."""
        for crate, make in HELD:
            if make is tall_tree and not self.with_tall:
                print("skipped a tree of 15/2, which takes some time: --tall")
                continue
            source = source_of(crate)
            for name, made in make():
                self.count(f"{crate}: {name}", made.hex() in source, f"it does not hold {made.hex()}")

    def compare_files(self):
        """The keys and signatures of another implementation, and files."""
        found = len(list(vectors()))
        self.count(f"{VECTORS} keys and signatures of another implementation", found == VECTORS, f"{found} are found")
        for name, made, there in itertools.chain(of_vectors(self.with_tall), files()):
            self.count(name, made == there, "other bytes")

    def compare_counts(self):
        """The counts of compressions that `bench_keys` prints."""
        lines = read("crates/bench_keys/stdout").decode().splitlines()
        for name, number_of in counts(self.with_tall):
            line = f"{name}: {number_of} compressions"
            self.count(line, line in lines, "crates/bench_keys/stdout has another number")


def compare(with_tall):
    """Makes all, and prints of each whether the repository holds the same. How many differ."""
    it = Comparison(with_tall)
    it.compare_held()
    it.compare_files()
    it.compare_counts()
    print(f"{it.passed} passed, {it.failed} failed")
    return it.failed
