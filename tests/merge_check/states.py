"""The program over states: new ones, those of both versions, those that another program has, bad
ones, and files that may not be used."""

import hashlib
import itertools
import mmap
import os
import select
import subprocess
import time

from tests.harness import Wrong, holds, test
from tests.program import (
    BATCH, INFO, NODES, PROGRAM, VERIFY, Lock, as_who_may_not, described, ends, fails, has, job_lines, keeps, keygen, preload, put, read,
    run, sign, signs,
)
from tests.reference import IDENTIFIER, SEED, image, public_of, signature_of

ONE, TWO = ((5, 8),), ((5, 8), (5, 8))


@test
def makes_a_key_and_signs():
    """Longer files are there already where it writes."""
    put("key.pub", bytes(3000))
    put(NODES, bytes(3000))
    fails(INFO, 3, "cannot read state")
    fails(sign(), 3, "cannot read state")
    ends(keygen(), 0, "capacity 32\n")
    has("key.pub", public_of(ONE))
    has("key.state", image(ONE, 0))
    signs(ONE, 0)
    has("key.state", image(ONE, 1, 1))
    keeps(ONE, 0)
    ends(VERIFY, 0, "valid\n")
    described("5/8", 1, 32, 1, 0)
    signs(ONE, 1)


@test
def signs_by_eight_levels():
    """As many levels as there may be, a long message, and a long name."""
    levels = "5/1,5/1,5/1,5/2,5/2,5/2,5/4,10/1"
    name = f"{'signature-of-the-firmware-for-the-first-board-/' * 2}a-name-as-long-as-it"
    os.makedirs(os.path.dirname(name))
    put("text", b"\x07" * 70000)
    ends(keygen(levels), 0, f"capacity {2**45}\n")
    ends(sign(out=name), 0, "index 0\n")
    ends([*VERIFY[:-1], name], 0, "valid\n")
    described(levels, 1, 2**45, 1, 0)


@test
def signs_and_verifies_a_large_message():
    """One of more than 16 MiB, of no whole number of blocks, with no two blocks alike."""
    message = hashlib.shake_256(b"a large message").digest(17 * 2**20 + 4321)
    put("text", message)
    ends(keygen(), 0, "capacity 32\n")
    ends(sign(), 0, "index 0\n")
    has("text.sig", signature_of(ONE, 0, message))
    ends(VERIFY, 0, "valid\n")
    put("text", message[:-1] + bytes([message[-1] ^ 1]))
    ends(VERIFY, 1, "invalid\n")
    put("text", message[: 2**24])
    ends(VERIFY, 1, "invalid\n")
    put("text", message)
    put("text.sig", signature_of(ONE, 1, message))
    ends(VERIFY, 0, "valid\n")


def put_large(length, last):
    """A message of so many bytes, which are zeros but for the last one. It takes next to no space."""
    put("text", b"")
    os.truncate("text", length)
    with open("text", "r+b") as file:
        file.seek(length - 1)
        file.write(last)


@test
def signs_and_verifies_256_mib_and_a_byte():
    """Each byte counts, also the last one, and the one after it."""
    length = 2**28 + 1
    put_large(length, b"\x07")
    ends(keygen(), 0, "capacity 32\n")
    ends(sign(), 0, "index 0\n")
    with open("text", "rb") as file, mmap.mmap(file.fileno(), 0, access=mmap.ACCESS_READ) as message:
        has("text.sig", signature_of(ONE, 0, message))
    ends(VERIFY, 0, "valid\n")
    put_large(length, b"\x06")
    ends(VERIFY, 1, "invalid\n")
    put_large(length, b"\x07")
    with open("text", "ab") as file:
        file.write(b"\0")
    ends(VERIFY, 1, "invalid\n")


@test
def verifies_by_very_many_reads():
    """Byte by byte, by more reads than a message of a GiB takes."""
    message = bytes(2**18) + b"\x07"
    put("text", message)
    put("key.pub", public_of(ONE))
    put("text.sig", signature_of(ONE, 3, message))
    how = {"env": preload("stop", SHORT=1)}
    ends(VERIFY, 0, "valid\n", **how)
    put("text", message[:-1] + b"\x06")
    ends(VERIFY, 1, "invalid\n", **how)


@test
def signs_by_each_number_of_levels():
    """By `keygen`, `sign` and `batch`, beside the end of a tree in the middle of all indices."""
    for count in range(1, 9):
        levels, text, capacity = ((5, 1),) * count, ",".join(["5/1"] * count), 32**count
        ends(keygen(text), 0, f"capacity {capacity}\n")
        has("key.pub", public_of(levels))
        described(text, 0, capacity, 0, 0)
        index = capacity * 3 // 8 - 2
        put("key.state", image(levels, index))
        signs(levels, index)
        ends(VERIFY, 0, "valid\n")
        lines = "".join(f"{it} {signature_of(levels, it, b'abc').hex()}\n" for it in (index + 1, index + 2))
        ends(BATCH, 0, lines, input=job_lines(b"abc", b"abc").decode())
        described(text, index + 3, capacity, 2, 0)
        os.remove("key.state")


@test
def reads_each_height_and_width():
    for levels, capacity in [("5/2,10/4,15/8,20/1,10/1", 2**60), ("5/2,25/8", 2**30)]:
        ends(keygen(levels), 0, f"capacity {capacity}\n")
        described(levels, 0, capacity, 0, 0)
        os.remove("key.state")


def reads_until(terminal, what):
    """Reads what a program prints to a terminal until this is in it."""
    printed, last = b"", time.monotonic() + 120
    while what not in printed:
        holds(select.select([terminal], [], [], last - time.monotonic())[0], f"it reported {printed!r} in two minutes")
        try:
            printed += os.read(terminal, 4096)
        except OSError as why:
            raise Wrong(f"it ended, and reported {printed!r}") from why


def begins_trees_of_height_25(words, jobs, leaves, **how):
    """The program reports some of so many leaves, so it has the memory for the first tree. All of
    them would take some minutes: it is killed then."""
    put("jobs", job_lines(*[b"abc"] * jobs))
    terminal, errors = os.openpty()
    with open("jobs", "rb") as lines:
        running = subprocess.Popen([PROGRAM, *words], stdin=lines, stdout=subprocess.DEVNULL, stderr=errors, **how)
    os.close(errors)
    with running, os.fdopen(terminal, "rb", 0):
        try:
            reads_until(terminal, f" of {leaves} leaves".encode())
        finally:
            running.kill()


@test
def begins_the_tallest_trees():
    """A key of one, a signature by its last leaf, and two jobs on both sides of the edge between two
    bottom subtrees; then of two levels, and of the most indices that there may be. The indices are
    stored as used before. On a clock on which seconds pass between two looks the first report comes at
    once."""
    begins_trees_of_height_25(keygen("25/1"), 0, 2**25)
    holds(not os.path.exists("key.state"), "the state was stored before the public key was made")
    one, two, three = ((25, 1),), ((25, 1), (25, 1)), ((25, 1), (25, 1), (10, 1))
    for words, levels, index, jobs, leaves in [
        (sign(), one, 2**25 - 1, 1, 2**25),
        (BATCH, one, 1023, 2, 2**25),
        (sign(), two, 2**50 - 1, 1, 2 * 2**25),
        (BATCH, two, 2**49 - 1, 2, 3 * 2**25),
        (sign(), three, 2**59, 1, 2 * 2**25 + 2**10),
        (BATCH, three, 2**60 - 2, 2, 2 * 2**25 + 2**10),
    ]:
        put("key.state", image(levels, index))
        begins_trees_of_height_25(words, jobs, leaves, env=preload("machine", TICK=10**9))
        has("key.state", image(levels, index + jobs, 1))


@test
def reads_digits_in_either_case():
    secret = bytes([*range(31), 0xFE])
    mixed = "".join(it.upper() if at % 3 else it for at, it in enumerate(secret.hex()))
    for text in [secret.hex(), secret.hex().upper(), mixed]:
        ends(keygen(seed=text), 0, "capacity 32\n")
        has("key.state", image(ONE, 0, seed=secret))
        os.remove("key.state")


@test
def describes_what_a_state_says():
    text = image(TWO, 12, 2, 3)
    put("key.state", text)
    described("5/8,5/8", 12, 1024, 2, 3)
    has("key.state", text)


@test
def replaces_version_1():
    """`info` leaves what version 1 wrote; the first signature is stored as version 2."""
    text = image(ONE, 10, version=1)
    put("key.state", text)
    described("5/8", 10, 32, 0, 0)
    has("key.state", text)
    signs(ONE, 10)
    has("key.state", image(ONE, 11, 1))
    described("5/8", 11, 32, 1, 0)


@test
def refuses_options():
    """Of several mistakes the first is reported, and a state in use after all of them."""
    seed, identifier = SEED.hex(), IDENTIFIER.hex()
    bad = ["", ",", "5/8,", ",5/8", "5/3", "6/8", "05/8", "5/8 ", "5-8", "5/8/8", "5/8,,5/8", "5/", "/8", "8/5"]
    rows = [(text, "", "", "bad levels") for text in bad]
    rows += [
        (",".join(["20/8"] * 9), "", "", "too many levels"),
        ("15/8,15/8,15/8,15/8,5/8", "", "", "too tall"),
        ("25/8,25/8,15/8", "", "", "too tall"),
        ("20/8", "", "", "bad seed"),
        ("25/8,25/8,10/8", seed, "2", "bad id"),
        ("5/8", "11", "", "bad seed"),
        ("5/8", identifier, identifier, "bad seed"),
        ("5/8", seed, seed, "bad id"),
        ("", seed, identifier, "bad levels"),
    ]
    rows += [("5/8", (seed + "22")[:length], identifier, "bad seed") for length in (62, 63, 65)]
    others = (identifier[:-1] + "g", identifier[:-2] + " 2", identifier[:-1] + " ", identifier * 2)
    rows += [("5/8", seed, it, "bad id") for it in others]
    with Lock():
        for levels, seed, identifier, line in rows:
            fails(keygen(levels, seed, identifier), 2, line)
            holds(not os.path.exists("key.state") and not os.path.exists("key.pub"), f"{levels}: something was written")


@test
def refuses_a_bad_randomizer():
    put("key.state", image(ONE, 5))
    fails(sign("none", randomizer="33"), 2, "bad random")
    has("key.state", image(ONE, 5))


@test
def keeps_a_state_that_exists():
    put("key.state", image(ONE, 5))
    put("key.pub", b"as it was")
    fails(keygen("5/8,5/8"), 3, "state exists")
    has("key.state", image(ONE, 5))
    has("key.pub", b"as it was")


@test
def leaves_a_state_in_use():
    """A message is read before the lock is acquired, and the lock is acquired before the state is
    read."""
    put("key.state", image(ONE, 5))
    with Lock():
        for words in (INFO, sign(), keygen()):
            fails(words, 3, "state in use")
        fails(sign("none"), 6, "cannot read input")
        has("key.state", image(ONE, 5))
        put("key.state", b"HSSX00000000")
        fails(INFO, 3, "state in use")
        fails(sign(), 3, "state in use")
        os.remove("key.state")
        fails(INFO, 3, "state in use")
        fails(sign(), 3, "state in use")
    put("key.state", image(ONE, 5))
    signs(ONE, 5)


@test
def finds_no_memory():
    """Each request for memory that `info` makes is refused in turn, those for the lock among them:
    it is out of memory, or does without, and never says that the state is in use or can't be
    read."""
    put("key.state", image(ONE, 5))
    wanted, refused = [(0, run(INFO).stdout, ""), (5, "", "error: out of memory\n")], 0
    for number in itertools.count(1):
        ran = run(INFO, env=preload("refuse", REFUSE=number, REQUESTS="requests"))
        if number > int(read("requests")):
            break
        found = (ran.returncode, ran.stdout, ran.stderr)
        holds(found in wanted, f"with request {number} refused: {found}")
        refused += ran.returncode == 5
    holds(ran.returncode == 0 and refused > 20, f"it was out of memory {refused} times in {number}")


@test
def refuses_bad_states():
    good = image(ONE, 5)
    rows = [
        (b"", "Truncated"),
        (good[:11], "Truncated"),
        (b"HSSX00000000", "NotAnImage"),
        (b"HSSK00000000", "UnknownVersion"),
        (image(ONE, 5, version=3), "UnknownVersion"),
        (image(ONE * 9, 5), "BadLevels"),
        (good[:-1], "WrongLength"),
        (good + b"0", "WrongLength"),
        (good[:-1] + bytes([good[-1] ^ 1]), "Damaged"),
        (image(ONE, 5, types=[5, 5]), "BadType"),
        (image(ONE, 5, types=[4, 4]), "BadType"),
        (image(((20, 8),) * 4, 5), "TooTall"),
        (image(ONE, 33), "CounterTooHigh"),
        (image(ONE, 5, 6), "OpeningTooHigh"),
        (image(ONE, 5, 0, 6), "BurntTooHigh"),
    ]
    for text, fault in rows:
        put("key.state", text)
        fails(INFO, 3, f"bad state: {fault}")
        fails(sign(), 3, f"bad state: {fault}")
        has("key.state", text)


@test
def meets_folders_in_the_way():
    ends(keygen(), 0, "capacity 32\n")
    os.mkdir("key.state.new")
    fails(sign(), 3, "cannot write state: 0 to 0 burnt")
    os.rmdir("key.state.new")
    os.mkdir("text.sig")
    fails(sign(), 6, "cannot write output")
    os.rmdir("text.sig")
    signs(ONE, 1)


@test
def meets_files_that_are_none():
    os.mkdir("key.state")
    fails(sign(), 3, "cannot read state")
    os.remove("text")
    fails(sign(), 6, "cannot read input")


@test
def meets_a_full_device():
    """The index is used, and the next signature has another. A key whose public key finds no space
    is stored."""
    ends(keygen(), 0, "capacity 32\n")
    fails(sign(out="/dev/full"), 6, "cannot write output")
    signs(ONE, 1)
    fails(keygen(state="other", public="/dev/full"), 6, "cannot write output")
    has("other", image(ONE, 0))


@test
def may_not_change_the_folder():
    ends(keygen(), 0, "capacity 32\n")
    how = as_who_may_not()
    os.chmod(".", 0o500)
    fails(sign(), 3, "cannot write state: 0 to 0 burnt", **how)
    os.chmod(".", 0o700)
    ends(sign(), 0, "index 0\n", **how)


@test
def may_not_use_a_file():
    ends(keygen(), 0, "capacity 32\n")
    ends(sign(), 0, "index 0\n")
    how = as_who_may_not()
    for name, words, status, line in [
        ("key.state", INFO, 3, "cannot read state"),
        ("text", sign(), 6, "cannot read input"),
        ("text.sig", sign(), 6, "cannot write output"),
    ]:
        os.chmod(name, 0)
        fails(words, status, line, **how)
        os.chmod(name, 0o600)
