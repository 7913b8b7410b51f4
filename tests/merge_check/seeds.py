"""`keygen --seed -`: which inputs give a seed, which fault each other one has, and who sees it."""

import os
import subprocess
import time

from tests.harness import holds, test
from tests.program import PROGRAM, Lock, ends, fails, has, keygen, put, read
from tests.reference import SEED, image, public_of

ONE = ((5, 8),)
WORDS = keygen(seed="-")
DIGITS = SEED.hex().encode()
SECRET = bytes([*range(31), 0xFE])
MOST = 66


def makes(seed, words=WORDS, **how):
    """The key of this seed is made."""
    ends(words, 0, "capacity 32\n", **how)
    has("key.state", image(ONE, 0, seed=seed))
    has("key.pub", public_of(ONE, seed))
    os.remove("key.state")
    os.remove("key.pub")


def refuses(status, line, words=WORDS, **how):
    """The program ends so, and writes nothing."""
    fails(words, status, line, **how)
    holds(not os.path.exists("key.state") and not os.path.exists("key.pub"), f"{line}: something was written")


@test
def makes_the_key_of_the_digits():
    """In either case, with LF and without, from a pipe and from a file: the key that the same digits
    on the command line make."""
    mixed = "".join(it.upper() if at % 3 else it for at, it in enumerate(SECRET.hex()))
    for text in (SECRET.hex(), SECRET.hex().upper(), mixed):
        for ending in ("", "\n"):
            makes(SECRET, input=text + ending)
            makes(SECRET, keygen(seed=text))
            put("digits", (text + ending).encode())
            with open("digits", "rb") as digits:
                makes(SECRET, stdin=digits)
    makes(SEED, [*keygen()[:3], "--seed=-", *keygen()[5:]], input=SEED.hex())


@test
def makes_the_key_of_each_byte():
    """Each of 256 stands at each place of a seed, and begins one four times; lower and upper case by turns."""
    for byte in range(256):
        seed = bytes([byte] * 4 + [(byte + 9 * at) % 256 for at in range(1, 29)])
        digits = "".join(f"{it:02x}" if at % 2 else f"{it:02X}" for at, it in enumerate(seed))
        ends(keygen("5/1", "-"), 0, "capacity 32\n", input=digits)
        has("key.state", image(((5, 1),), 0, seed=seed))
        os.remove("key.state")


@test
def waits_for_the_end_of_a_slow_input():
    how = {"stdin": subprocess.PIPE, "stdout": subprocess.PIPE, "stderr": subprocess.PIPE}
    with subprocess.Popen([PROGRAM, *WORDS], **how) as running:
        for byte in DIGITS + b"\n":
            running.stdin.write(bytes([byte]))
            running.stdin.flush()
            time.sleep(0.001)
        time.sleep(0.2)
        holds(running.poll() is None and not os.path.exists("key.state"), "it did not wait for the end of its input")
        found = running.communicate()
    holds((running.returncode, found) == (0, (b"capacity 32\n", b"")), f"keygen ended with {running.returncode}: {found}")
    has("key.state", image(ONE, 0))


@test
def refuses_what_is_no_seed():
    put("text", b"abc")
    rows = [b"", b"\n", b"-", DIGITS[:-1], DIGITS[:-1] + b"\n", DIGITS + b"1", DIGITS + b"11", DIGITS * 2, DIGITS[:-1] + b"g"]
    rows += [DIGITS + ending for ending in (b"\n\n", b"\r\n", b"\r", b" ", b"\0", b" \n", b"\n ")]
    rows += [begin + DIGITS for begin in (b"\n", b" ", b"0x", b"\xef\xbb\xbf")]
    with Lock():
        for text in rows:
            put("digits", text)
            with open("digits", "rb") as digits:
                refuses(2, "bad seed", stdin=digits)


@test
def refuses_what_can_not_be_read():
    with open("/dev/zero", "rb") as zeros:
        refuses(2, "bad seed", stdin=zeros)
    folder = os.open(".", os.O_RDONLY)
    refuses(6, "cannot read input", stdin=folder)
    os.close(folder)
    refuses(2, "bad seed", ["-c", 'exec "$0" "$@" <&-', PROGRAM, *WORDS], program="sh")


@test
def takes_no_more_than_it_needs():
    """Of a longer input the rest is left to whoever reads it next."""
    for text in (DIGITS + b"\n" + bytes(100), DIGITS * 10, b"\n" * 300):
        reader, writer = os.pipe()
        os.write(writer, text)
        os.close(writer)
        refuses(2, "bad seed", stdin=reader)
        holds(os.read(reader, 10**6) == text[MOST:], "it took more, or less")
        os.close(reader)


@test
def reads_in_its_turn():
    """After the levels, before the identifier, and before the lock is asked for; and nothing where
    the option has digits."""
    put("digits", DIGITS)
    seed = SEED.hex()
    for words, status, line, taken in [
        (keygen("5/3", "-"), 2, "bad levels", 0),
        (keygen("25/8,25/8,15/8", "-"), 2, "too tall", 0),
        (keygen("5/8", "-", "2"), 2, "bad id", 64),
        (keygen("5/8", seed, "2"), 2, "bad id", 0),
        (keygen("-", seed), 2, "bad levels", 0),
        (keygen("5/8", seed, "-"), 2, "bad id", 0),
    ]:
        with open("digits", "rb", 0) as digits:
            refuses(status, line, words, stdin=digits)
            holds(digits.tell() == taken, f"{line}: {digits.tell()} bytes were read")
    with Lock(), open("digits", "rb", 0) as digits:
        refuses(3, "state in use", stdin=digits)
        holds(digits.tell() == 64, "the input was not read")


@test
def nobody_sees_it():
    """Neither the command line nor the environment of the program has the seed while it computes a
    tree. (Whose command line has it is the test's own check that they are read.)"""
    for seed, is_seen in [("-", False), (SECRET.hex(), True)]:
        how = {"stdin": subprocess.PIPE, "stdout": subprocess.DEVNULL, "stderr": subprocess.DEVNULL, "text": True}
        with subprocess.Popen([PROGRAM, *keygen("15/4", seed)], **how) as running:
            running.stdin.write(SECRET.hex())
            running.stdin.close()
            while running.poll() is None and not os.path.exists("key.state.lock"):
                time.sleep(0.01)
            seen = [SECRET.hex().encode() in read(f"/proc/{running.pid}/{name}") for name in ("cmdline", "environ")]
            running.kill()
        os.remove("key.state.lock")
        holds(seen == [is_seen, False], f"seen on the command line and in the environment: {seen}")
