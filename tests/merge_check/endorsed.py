"""`endorse`: what it writes and prints, byte for byte; that `join` takes it; which keys it refuses, which leaves
the state as it was; and that else it does what `sign` does."""

import os

from tests.harness import holds, test
from tests.program import PLACE, WITNESS, Lock, described, endorse, endorsed_lines, ends, fails, has, join, join_public, put, read, resume, verify
from tests.reference import RANDOMIZER, image, number, public_of, signature_by, signature_of, way_of, witness_of

ONE, TWO = ((5, 1),), ((5, 1), (5, 2))
SIGNER = {"seed": b"\x55" * 32, "identifier": b"\x66" * 16}
MOST = 8


def endorses(top, index, signer, **how):
    """A key of these levels endorses a signer's of those by its next index: the bytes, and what is printed."""
    contents = public_of(signer, **SIGNER)
    put("signer.pub", contents)
    put("signer.end", bytes(90000))
    ends(endorse(len(top) + len(signer)), 0, endorsed_lines(index, contents), **how)
    has("signer.end", signature_by(way_of(top, index), contents[4:]))


def refuses(words, status, line):
    """Nothing is stored or written, by this fault."""
    before = {name: read(name) for name in ("key.state", "signer.end") if os.path.exists(name)}
    fails(words, status, line)
    for name, contents in before.items():
        has(name, contents)


@test
def endorses_signers_of_all_levels():
    for levels, signers in ((ONE, ONE), (TWO, ONE), (ONE, TWO), (ONE, ONE * 7), (ONE * 7, ONE)):
        put("key.state", image(levels, 6, 1))
        for index in (6, 7):
            endorses(levels, index, signers)
        put("top.pub", public_of(levels))
        put("signer.sig", signature_by(way_of(signers, 3, **SIGNER), b"abc"))
        ends(join(), 0)
        ends(join_public(), 0)
        ends(verify("text", "joined.sig", "joined.pub"), 0, "valid\n")
        for name in ("key.state", "key.state.nodes"):
            os.remove(name)


@test
def endorses_a_middle_key_by_all_levels():
    """Of three tiers the top key endorses what `join-public` makes of the middle key and a signer's, which is an
    endorsement of the middle key, and is joined with its signatures in either order."""
    low = {"seed": b"\x77" * 32, "identifier": b"\x88" * 16}
    middle, lowest = public_of(ONE, **SIGNER), public_of(TWO, **low)
    put("key.state", image(ONE, 5))
    for name, contents in {"top.pub": public_of(ONE), "middle.pub": middle, "low.pub": lowest}.items():
        put(name, contents)
    put("low.end", signature_by(way_of(ONE, 2, **SIGNER), lowest[4:]))
    put("low.sig", signature_by(way_of(TWO, 3, **low), b"abc"))
    ends(join_public("middle.pub", "low.pub", "signer.pub"), 0)
    refuses(endorse(2), 2, "bad public key")
    ends(endorse(4), 0, endorsed_lines(5, read("signer.pub")))
    has("signer.end", signature_by(way_of(ONE, 5), middle[4:]))
    ends(join_public(), 0)
    ends(join("middle.pub", "low.end", "low.pub", "low.sig", "signer.sig"), 0)
    ends(join(), 0)
    ends(verify("text", "joined.sig", "joined.pub"), 0, "valid\n")
    ends(join("top.pub", "signer.end", "middle.pub", "low.end", "above.sig"), 0)
    ends(join_public("top.pub", "middle.pub", "above.pub"), 0)
    ends(join("above.pub", "above.sig", "low.pub", "low.sig", "again.sig"), 0)
    has("again.sig", read("joined.sig"))


@test
def signs_no_other_bytes():
    """What is no public key of known typecodes: empty, cut, longer, of other levels, of other typecodes, the
    key without its levels, a signature, a state."""
    put("key.state", image(ONE, 5))
    put("signer.end", b"as it was")
    key = public_of(ONE, **SIGNER)
    others = [b"", key[:3], key[:59], key + b"\0", number(0, 4) + key[4:], number(9, 4) + key[4:], key[4:], b"abc"]
    others += [key[:7] + b"\x0a" + key[8:], key[:11] + b"\5" + key[12:], signature_of(ONE, 3, b"abc")]
    for other in others:
        put("signer.pub", other)
        refuses(endorse(), 2, "bad public key")
    refuses(endorse(signer="key.state"), 2, "bad public key")
    described("5/1", 5, 32, 0, 0)


@test
def endorses_neither_itself_nor_other_levels():
    """The top key itself, by whatever number of levels; joined keys of another number of levels than both
    have together."""
    put("key.state", image(TWO, 5))
    for levels in range(1, 7):
        put("signer.pub", number(levels, 4) + public_of(TWO)[4:])
        refuses(endorse(2 + levels), 2, "bad public key")
    for levels in range(1, MOST + 1):
        put("signer.pub", public_of(ONE * levels, **SIGNER))
        for joined in range(2, MOST + 1):
            if joined != 2 + levels:
                refuses(endorse(joined), 2, "bad public key")
    described("5/1,5/2", 5, 1024, 0, 0)
    endorses(TWO, 5, ONE)


@test
def finds_the_first_fault():
    """The randomizer, the number of levels, the signer's file, the signer's key, the lock, the state."""
    bad = {"joined": 9, "randomizer": "a", "signer": "none"}
    fails(endorse(**bad), 2, "bad random")
    del bad["randomizer"]
    for joined in (0, 1, 9, "02", "+2", "2 ", "", "two", 2**64):
        fails(endorse(joined, signer="none"), 2, "bad levels")
    fails(endorse(signer="none"), 6, "cannot read input")
    put("signer.pub", b"")
    fails(endorse(state="none/state"), 2, "bad public key")
    put("signer.pub", public_of(ONE, **SIGNER))
    put("key.state", b"")
    with Lock():
        fails(endorse(), 3, "state in use")
    fails(endorse(), 3, "bad state: Truncated")
    put("key.state", image(ONE, 32))
    fails(endorse(3), 2, "bad public key")
    fails(endorse(), 4, "exhausted: 0 left")
    put("key.state", image(ONE, 31))
    fails(endorse(out="none/out"), 6, "cannot write output")
    described("5/1", 32, 32, 1, 0)


@test
def goes_by_the_witness():
    put("key.state", image(ONE, 5))
    os.mkdir("other")
    put(PLACE, witness_of(5))
    os.symlink(os.path.abspath(PLACE), WITNESS)
    put("signer.pub", public_of(ONE, **SIGNER))
    fails(endorse(3), 2, "bad public key")
    has(PLACE, witness_of(5))
    endorses(ONE, 5, ONE)
    has(PLACE, witness_of(6))
    holds(sorted(os.listdir("other")) == ["witness"], "a draft is left")
    put("key.state", image(ONE, 5))
    fails(endorse(), 3, "state is older than its witness")
    ends(resume(6), 0, "indices 5 to 5 burnt; right only if the witness is the newest\n")
    endorses(ONE, 6, ONE)
