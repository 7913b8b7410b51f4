"""`verify` over files that are right, wrong, empty and missing, and how lines are printed."""

import os

from tests.harness import TOP, holds, test
from tests.merge_check.weak_disk import operations
from tests.program import INFO, VERIFY, ends, fails, has, join, keygen, preload, public, put, read, run, sign, verify
from tests.reference import SEED, image, public_of, signature_of

ONE = ((5, 8),)


def put_signed():
    """A public key, a message and its signature."""
    put("key.pub", public_of(ONE))
    put("text", b"abc")
    put("text.sig", signature_of(ONE, 5, b"abc"))


@test
def gives_a_verdict():
    """Each file in turn has other bytes, or none."""
    put_signed()
    ends(VERIFY, 0, "valid\n")
    for name in ("key.pub", "text", "text.sig"):
        for contents in (b"another", b"", read(name) + b"\0"):
            put_signed()
            put(name, contents)
            ends(VERIFY, 1, "invalid\n")


@test
def misses_a_file():
    for name in ("key.pub", "text", "text.sig"):
        put_signed()
        os.remove(name)
        fails(VERIFY, 6, "cannot read input")


@test
def a_dash_is_a_name():
    """A file named `-` is read or written, and the input is not read, but for a seed."""
    files = ("text", "text.sig", "key.pub")
    for place, name in enumerate(files):
        put_signed()
        given = read(name)
        arguments = verify(*(*files[:place], "-", *files[place + 1 :]))
        fails(arguments, 6, "cannot read input", input=given.decode("latin-1"))
        put("-", given)
        ends(arguments, 0, "valid\n", input="another")
        os.remove("-")
    ends(keygen(public="-"), 0, "capacity 32\n")
    has("-", public_of(ONE))
    put("text", b"abc")
    ends(sign(out="-"), 0, "index 0\n", input="")
    has("-", signature_of(ONE, 0, b"abc"))
    put("-", b"another")
    ends(sign("-"), 0, "index 1\n", input="abc")
    has("text.sig", signature_of(ONE, 1, b"another"))
    ends(keygen(seed="-", public="./-pub", state="other.state"), 0, "capacity 32\n", input=SEED.hex())
    has("-pub", public_of(ONE))
    ends(verify("-", public="./-pub"), 0, "valid\n", input="")


@test
def accepts_the_signature_of_another_implementation():
    message, signature, public = (TOP / "examples" / name for name in ("firmware.bin", "firmware.sig", "release.pub"))
    ends(verify(message, signature, public), 0, "valid\n")
    put("text", read(message)[:-1])
    ends(verify("text", signature, public), 1, "invalid\n")


def writes(arguments):
    """What the program writes to each of its streams, write by write."""
    put("record", b"")
    run(arguments, env=preload("record", RECORD="record"))
    done = [(first, data) for word, first, _, data in operations(read("record")) if word == "write" and first in (1, 2)]
    return [data for first, data in done if first == 1], [data for first, data in done if first == 2]


def prints(arguments, output=(), errors=()):
    """Each of these lines is one write to its stream."""
    wanted = ([f"{it}\n".encode() for it in output], [f"{it}\n".encode() for it in errors])
    found = writes(arguments)
    holds(found == wanted, f"{' '.join(map(str, arguments))}: the writes are {found}")


@test
def each_line_is_one_write():
    prints(keygen(), ["capacity 32"])
    prints(sign(), ["index 0"])
    prints(INFO, ["levels 5/8", "counter 1", "capacity 32", "left 31", "openings 1", "burnt 0"])
    prints(public(), ["capacity 32"])
    prints(join(*["none"] * 4), errors=["error: cannot read input"])
    prints(VERIFY, ["valid"])
    put("text", b"another")
    prints(VERIFY, ["invalid"])
    prints(keygen(), errors=["error: state exists"])


@test
def a_text_of_many_lines_is_one_write():
    for arguments, at in [(["--help"], 0), (["sign"], 1)]:
        found = writes(arguments)
        holds(len(found[at]) == 1 and found[at][0].count(b"\n") > 3 and not found[1 - at], f"{arguments}: the writes are {found}")


@test
def describes_the_longest_numbers():
    """As many levels as there may be, as tall as they may be, with no index left."""
    levels = ((10, 8),) * 4 + ((5, 8),) * 4
    put("key.state", image(levels, 2**60, 2**60, 2**60))
    most = 2**60
    first, rest = "levels 10/8,10/8,10/8,10/8,5/8,5/8,5/8,5/8", [f"openings {most}", f"burnt {most}"]
    prints(INFO, [first, f"counter {most}", f"capacity {most}", "left 0", *rest])
    fails(sign(), 4, "exhausted: 0 left")
    has("key.state", image(levels, 2**60, 2**60, 2**60))
