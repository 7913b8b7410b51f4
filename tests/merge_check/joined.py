"""`join` and `join-public`: what they write, byte for byte, each fault, and that they change no other
file. Four machines that sign at once under one public key. And what becomes of a key that somebody has
signed as a message, by levels as docs/KEYS.md rules them out and as it asks for."""

import concurrent.futures
import itertools
import os
import signal

from tests.harness import TOP, add_test, holds, test
from tests.program import (
    TO_JOIN, endorse, endorsed_lines, ends, fails, has, index_in, join, join_public, keygen, preload, put, read, run, sign, verify,
)
from tests.reference import image, joined, number, parts_to_join, public_of, signature_by, way_of

ONE = ((5, 1),)
# The levels of a top key and of a signer's: up to eight together, and of different heights and widths.
PAIRS = [(ONE, ONE), (ONE * 4, ONE * 4), (ONE * 7, ONE), (ONE, ONE * 7), (((5, 4), (5, 1)), ((5, 8),)), (((10, 1),), ((5, 2), (5, 4)))]
BAD_KEY, BAD_ENDORSEMENT, BAD_SIGNATURE = "bad public key", "bad endorsement", "bad signature"
# What may be wrong with levels under one top key. Twice two ways from that key down to one that signs
# messages, of keys that are named by a letter and how many levels they have: the joined key of the first
# way is what devices hold, and whoever asks has the last key of the second one sign a key of their own. At
# first so, and then as it should be.
LEVELS = [
    ("signers of other levels", ("t1 b2", "t1 a1"), ("t1 b2", "t1 a2")),
    ("a middle tier beside direct signers", ("t1 m1 b1", "t1 a1"), ("t1 m1 b1", "t1 m1 a1")),
    ("a key at two depths", ("t1 m1 a1", "t1 a1"), ("t1 m1 a1", "t1 m1 a1")),
    ("a top key that signs messages", ("t1 a1", "t1"), ("t1 a1", "t1 a1")),
    ("a middle key that signs messages", ("t1 m2 a1", "t1 m2"), ("t1 m2 a1", "t1 m2 a1")),
    ("devices ahead of signers", ("t1 b3", "t1 a1"), ("t1 a1", "t1 a1")),
]


class Key:
    """A key of these levels, whose seed is 32 times this byte."""

    def __init__(self, levels, byte):
        self.levels, self.seed = levels, bytes([byte]) * 32
        self.public = public_of(levels, self.seed)

    def signs(self, index, message):
        """Its signature of a message by an index."""
        return signature_by(way_of(self.levels, index, seed=self.seed), message)


def files():
    """Each file with its bytes, which file it is, and when it was written."""
    found = {name: os.stat(name) for name in os.listdir()}
    return {name: (read(name), it.st_ino, it.st_mtime_ns) for name, it in found.items() if os.path.isfile(name)}


def put_parts(parts):
    """The four files, and a state."""
    for name, contents in zip(TO_JOIN, parts):
        put(name, contents)
    put("key.state", image(ONE, 5))


def joins(parts, message=b"abc", verdict="valid"):
    """What is joined of these parts, in place of a longer file, and the public key. This is the verdict
    on it. No other file is changed or made."""
    put_parts(parts)
    put("message", message)
    put("joined.sig", bytes(90000))
    put("joined.pub", b"")
    before = files()
    ends(join(), 0)
    ends(join_public(), 0)
    after = files()
    public, signature = joined(*parts)
    has("joined.sig", signature)
    has("joined.pub", public)
    holds(after.keys() == before.keys(), f"the files are {sorted(after)}")
    changed = {name for name in before if after[name] != before[name]}
    holds(changed == {"joined.sig", "joined.pub"}, f"{sorted(changed)} were written")
    ends(verify("message", "joined.sig", "joined.pub"), int(verdict == "invalid"), f"{verdict}\n")


def refused(parts, line, status=2, words=None):
    """Nothing is joined of these parts, by this fault. No file is changed, and none is made."""
    put_parts(parts)
    put("joined.sig", b"as it was")
    before = files()
    fails(words or join(), status, line)
    holds(files() == before, f"{line}: a file was written")


@test
def joins_two_keys():
    for top, signer in PAIRS:
        joins(parts_to_join(top, signer))


@test
def joins_three_tiers():
    """In either order: the joined key above is a top key, and the joined key below a signer's."""
    top, middle, low = Key(((5, 8),), 0x44), Key(ONE, 0x55), Key(ONE * 2, 0x66)
    above = [top.public, top.signs(7, middle.public[4:]), middle.public, middle.signs(9, low.public[4:])]
    below = [middle.public, above[3], low.public, low.signs(40, b"abc")]
    joins(above, low.public[4:])
    key, endorsement = read("joined.pub"), read("joined.sig")
    joins([key, endorsement, *below[2:]])
    found = read("joined.pub"), read("joined.sig")
    joins(below)
    joins([*above[:2], read("joined.pub"), read("joined.sig")])
    holds(found == (read("joined.pub"), read("joined.sig")), "another signature in the other order")


@test
def joins_a_key_of_another_implementation():
    public, message, signature = (read(TOP / "examples" / it) for it in ("release.pub", "firmware.bin", "firmware.sig"))
    top = Key(ONE, 0x44)
    joins([top.public, top.signs(0, public[4:]), public, signature], message)


@test
def refuses_nine_levels():
    for top, signer in ((5, 4), (8, 1), (1, 8)):
        parts = parts_to_join(ONE * top, ONE * signer)
        refused(parts, BAD_KEY)
        refused(parts, BAD_KEY, words=join_public())


@test
def refuses_what_is_no_key():
    """Either of the two, empty, cut, longer, with another number of levels or another typecode."""
    parts = parts_to_join(ONE, ONE)
    for at in (0, 2):
        key = parts[at]
        others = [b"", key[:3], key[:59], key + b"\0", number(0, 4) + key[4:], number(9, 4) + key[4:]]
        for other in [*others, key[:7] + b"\x0a" + key[8:], key[:11] + b"\5" + key[12:]]:
            parts[at] = other
            refused(parts, BAD_KEY)
            refused(parts, BAD_KEY, words=join_public())
        parts[at] = key


@test
def refuses_what_is_no_endorsement():
    """That of another signer's key, by another top key, of the whole file of the key; one that is
    empty, cut, longer, or counts another number of signed keys."""
    top, other, signer = Key(ONE, 0x44), Key(ONE, 0x66), Key(ONE, 0x55)
    good = top.signs(7, signer.public[4:])
    bad = [top.signs(7, other.public[4:]), other.signs(7, signer.public[4:]), top.signs(7, signer.public)]
    for endorsement in [*bad, b"", good[:3], good[:-1], good + b"\0", number(1, 4) + good[4:]]:
        refused([top.public, endorsement, signer.public, signer.signs(3, b"abc")], BAD_ENDORSEMENT)


@test
def refuses_signatures_by_no_such_key():
    """One of other levels, cut, longer, of other typecodes, of a leaf that there is not; of two levels, by
    another key, and with each part of the signed key's signature changed."""
    *parts, good = parts_to_join(ONE, ONE)
    others = [b"", good[:3], good[:4], good[:-1], good + b"\0", number(1, 4) + good[4:], Key(ONE * 2, 0x55).signs(3, b"abc")]
    others += [Key(levels, 0x55).signs(3, b"abc") for levels in (((5, 2),), ((10, 1),))]
    for signature in [*others, good[:4] + number(32, 4) + good[8:]]:
        refused([*parts, signature], BAD_SIGNATURE)
    *parts, good = parts_to_join(ONE, ONE * 2)
    for at in (4, 8, 12, 44, 8500, 8524, 8600, len(good) // 2):
        refused([*parts, good[:at] + bytes([good[at] ^ 1]) + good[at + 1 :]], BAD_SIGNATURE)
    refused([*parts, Key(ONE * 2, 0x66).signs(3, b"abc")], BAD_SIGNATURE)


@test
def joins_what_is_invalid():
    """Where the signer's signature is in what only its message tells: by another key of one level, of
    another message, with its last byte changed."""
    *parts, good = parts_to_join(ONE, ONE)
    for signature in (Key(ONE, 0x66).signs(3, b"abc"), Key(ONE, 0x55).signs(3, b"abd"), good[:-1] + bytes([good[-1] ^ 1])):
        joins([*parts, signature], verdict="invalid")


@test
def finds_the_first_fault():
    """A file that can't be read, then keys, endorsement, signature, and at last the file that is
    written."""
    parts = parts_to_join(ONE, ONE)
    refused([b"", b"", parts[2], b""], BAD_KEY)
    refused([parts[0], b"", parts[2], b""], BAD_ENDORSEMENT)
    refused([*parts[:3], b""], BAD_SIGNATURE, words=join(out="none/joined.sig"))
    refused([b""] * 4, "cannot read input", 6, join(signature="none"))


@test
def fails_by_its_files():
    parts = parts_to_join(ONE, ONE)
    for option in ("public", "endorsement", "signer", "signature"):
        for name in ("none", "."):
            refused(parts, "cannot read input", 6, join(**{option: name}))
    for option in ("public", "signer"):
        refused(parts, "cannot read input", 6, join_public(**{option: "none"}))
    for out in ("none/joined", ".", "/dev/full", "key.state"):
        refused(parts, "cannot write output", 6, join(out=out))
        refused(parts, "cannot write output", 6, join_public(out=out))


def killed(words, out, contents):
    """A command is killed at each of its operations in turn: a draft of the file of this name may be
    left, that file is as it was or has all its bytes, and no other is changed."""
    for at in itertools.count(1):
        put_parts(parts_to_join(ONE, ONE))
        put(out, b"as it was")
        before = files()
        ran = run(words, env=preload("stop", STOP=at, MET=os.path.abspath("met")))
        if not os.path.exists("met"):
            holds(ran.returncode == 0 and at > 10, f"it ended with {ran.returncode} after {at - 1} operations")
            return
        os.remove("met")
        holds(ran.returncode == -signal.SIGKILL, f"killed at {at}, it ended with {ran.returncode}")
        if os.path.exists(f"{out}.draft0"):
            os.remove(f"{out}.draft0")
        holds({**files(), out: None} == {**before, out: None}, f"killed at {at}, it changed another file")
        holds(read(out) in (b"as it was", contents), f"killed at {at}, it left a part of its file")


@test
def a_kill_changes_no_other_file():
    key, signature = joined(*parts_to_join(ONE, ONE))
    killed(join(), "joined.sig", signature)
    killed(join_public(), "joined.pub", key)


def signs_all(name, count):
    """The signer's key in the folder of this name signs so many messages. Its indices, as they are
    printed."""
    said = []
    for at in range(count):
        put(f"{name}/{at}", f"{name}, {at}".encode())
        said.append(run(sign(str(at), f"{at}.sig", f"e{at:03}" * 16), cwd=name).stdout)
    return said


@test
def four_machines_sign_at_once():
    """25 messages each: 100 joined signatures are valid under one key, and no index of a key is used
    twice, nor one of the top key's."""
    machines, count = "1234", 25
    ends(keygen("5/2", "a" * 64, "b" * 32, "top.state", "top.pub"), 0, "capacity 32\n")
    for at, name in enumerate(machines):
        os.mkdir(name)
        ends(keygen("5/2", name * 64, f"c{name}" * 16), 0, "capacity 32\n", cwd=name)
        signer = f"{name}/key.pub"
        ends(endorse(2, signer, f"{name}/key.end", f"e{at:03}" * 16, "top.state"), 0, endorsed_lines(at, read(signer)))
    with concurrent.futures.ThreadPoolExecutor(len(machines)) as pool:
        said = list(pool.map(lambda name: signs_all(name, count), machines))
    holds(said == [[f"index {at}\n" for at in range(count)]] * len(machines), f"the indices are {said}")
    keys = set()
    for name, at in itertools.product(machines, range(count)):
        parts = [f"{name}/{it}" for it in ("key.end", "key.pub", f"{at}.sig")]
        holds(index_in(read(parts[2]), ((5, 2),)) == at, "another index is in a signature")
        ends(join("top.pub", *parts), 0)
        ends(join_public(signer=parts[1]), 0)
        keys.add(read("joined.pub"))
        ends(verify(f"{name}/{at}", "joined.sig", "joined.pub"), 0, "valid\n")
    holds(len(keys) == 1, "several joined keys")


def joins_way(way, index, message):
    """The keys of a way sign, from the top one down: each the next one's key, and the last one the
    message. The public key and the signature that are joined of all, tier by tier. Each is valid."""
    keys = [Key(ONE * int(levels), ord(letter)) for letter, levels in way.split()]
    signed = [*(key.public[4:] for key in keys[1:]), message]
    public, signature = keys[0].public, keys[0].signs(index, signed[0])
    for key, its in zip(keys[1:], signed[1:]):
        joins([public, signature, key.public, key.signs(index, its)], its)
        public, signature = read("joined.pub"), read("joined.sig")
    return public, signature


def signs_for_devices(devices, asked):
    """The key of who asks signs any message, which is valid under what devices hold."""
    held, _ = joins_way(devices, 0, b"abc")
    levels = held[3] - sum(int(levels) for _, levels in asked.split())
    public, _ = joins_way(f"{asked} k{levels}", 1, b"any message")
    holds(public == held, "devices hold another joined key")


def signs_for_no_device(devices, asked):
    """What the key that is asked signs is valid under what devices hold, and what the key of who asks
    signs is not: neither as it is joined nor with any one level left out."""
    held, _ = joins_way(devices, 0, b"abc")
    holds(joins_way(asked, 1, b"abc")[0] == held, "devices hold another joined key")
    _, signature = joins_way(f"{asked} k1", 2, b"any message")
    put("held.pub", held)
    # (Each level's signature but the last is followed by the key that it signs.)
    size = (len(signature) + 52) // (held[3] + 1)
    levels = [signature[at : at + size] for at in range(4, len(signature), size)]
    for left in [levels, *itertools.combinations(levels, held[3])]:
        for count in (held[3] - 1, held[3]):
            put("cut.sig", number(count, 4) + b"".join(left)[: len(left) * size - 56])
            ends(verify("message", "cut.sig", "held.pub"), 1, "invalid\n")


for what, broken, kept in LEVELS:
    add_test(f"a key signed as a message, by {what}: any message is valid", signs_for_devices, *broken)
    add_test(f"a key signed as a message, without {what}: no other message is valid", signs_for_no_device, *kept)
