"""The lines of shell in docs/INTEROP.md, block by block, over the key and the signature of the examples:
which files they make, byte by byte. The block of botan is skipped where there is none with HSS-LMS."""

import base64
import os
import re
import subprocess
import textwrap

from tests.harness import TOP, Skipped, add_test, blocks_of, holds, test
from tests.merge_check.peer_programs import PREFIX, has_botan
from tests.program import put, read

KEY, SIGNATURE, MESSAGE = (read(TOP / "examples" / name) for name in ("release.pub", "firmware.sig", "firmware.bin"))
DER = PREFIX + KEY
PEM = "\n".join(["-----BEGIN PUBLIC KEY-----", *textwrap.wrap(base64.b64encode(DER).decode(), 64), "-----END PUBLIC KEY-----", ""]).encode()
# The files that each block is given, and those that it has to make.
BLOCKS = {
    "to DER and PEM": ({"key.pub": KEY}, {"key.der": DER, "key.pem": PEM}),
    "from PEM": ({"key.pem": PEM}, {"key.der": DER, "key.pub": KEY}),
    "to LMS": ({"key.pub": KEY, "firmware.sig": SIGNATURE}, {"key.lms": KEY[4:], "firmware.lms": SIGNATURE[4:]}),
    "from LMS": ({"key.lms": KEY[4:], "firmware.lms": SIGNATURE[4:]}, {"key.pub": KEY, "firmware.sig": SIGNATURE}),
    "by botan": ({"key.pem": PEM, "firmware.bin": MESSAGE, "firmware.sig": SIGNATURE}, {"firmware.sig": SIGNATURE}),
}


def blocks():
    """The blocks of commands by their names."""
    found = blocks_of("docs/INTEROP.md")
    holds(len(found) == len(BLOCKS), f"{len(found)} blocks, and not {len(BLOCKS)}")
    return dict(zip(BLOCKS, found))


def run_block(name, given):
    """Runs a block where these files are."""
    for file, contents in given.items():
        put(file, contents)
    how = {"stdin": subprocess.DEVNULL, "stdout": subprocess.PIPE, "stderr": subprocess.STDOUT, "text": True}
    return subprocess.run(["sh", "-eu", "-c", blocks()[name]], check=False, **how)


def makes(name):
    """A block ends well, and makes its files."""
    if "botan" in blocks()[name] and not has_botan():
        raise Skipped("there is no botan with HSS-LMS")
    given, wanted = BLOCKS[name]
    ran = run_block(name, given)
    holds(ran.returncode == 0, f"ended with {ran.returncode}: {ran.stdout}")
    holds("botan" not in blocks()[name] or ran.stdout == "Signature is valid\n", f"it says {ran.stdout!r}")
    for file, contents in wanted.items():
        holds(read(file) == contents, f"{file} has other bytes")


for block in BLOCKS:
    add_test(block, makes, block)


@test
def another_prefix_is_refused():
    """A key of another kind is not taken."""
    for at in range(len(PREFIX)):
        other = bytes(byte ^ (place == at) for place, byte in enumerate(DER))
        ran = run_block("from PEM", {"key.pem": PEM.replace(base64.b64encode(DER)[:40], base64.b64encode(other)[:40])})
        holds(ran.returncode == 1 and not os.path.exists("key.pub"), f"byte {at}: ended with {ran.returncode}: {ran.stdout}")


@test
def the_key_is_well_formed():
    """By openssl, which reads the structure."""
    put("key.pem", PEM)
    how = {"stdin": subprocess.DEVNULL, "capture_output": True, "text": True, "check": False}
    ran = subprocess.run(["openssl", "asn1parse", "-in", "key.pem"], **how)
    kinds = re.findall(r"(?m)l= +(\d+) (?:cons|prim): (.*?) *(?::|$)", ran.stdout)
    holds(kinds == [("78", "SEQUENCE"), ("13", "SEQUENCE"), ("11", "OBJECT"), ("61", "BIT STRING")], f"{ran.stdout} {ran.stderr}")
