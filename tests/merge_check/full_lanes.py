"""How many instructions a signature's verification takes, which `count.c` counts: as many as its chains have
steps together, however these are spread over the chains, since a lane whose chain is at its end takes the
next one."""

import platform

from tests.harness import Skipped, holds, test
from tests.program import EMULATED, VERIFY, preload, put, read, run
from tests.reference import CHAINS, HEIGHTS, IDENTIFIER, digest, digits, number

HEIGHT, WIDTH = 5, 4
MESSAGE = b"abc"
# Randomizers of two signatures of the message by leaf 0. Their chains have as many steps together; if all
# chains of an eight waited for its longest, those of the second would take 1.1 times as long.
EVEN, UNEVEN = number(0x200E, 32), number(0x3E58, 32)
# How many times as long the one may take as the other.
MOST = 1.02


def steps_with(randomizer):
    """How many steps each chain has to its end, from a signature with this randomizer, the longest first."""
    hashed = digest(IDENTIFIER, number(0, 4), b"\x81\x81", randomizer, MESSAGE)
    return sorted((2**WIDTH - 1 - it for it in digits(hashed, WIDTH)), reverse=True)


def instructions(randomizer):
    """How many the program needs to find a signature with this randomizer, made up else, not valid."""
    ots, chains, _ = CHAINS[WIDTH]
    values, path = bytes(32 * chains), bytes(32 * HEIGHT)
    put("key.pub", b"".join([number(1, 4), number(HEIGHTS[HEIGHT], 4), number(ots, 4), IDENTIFIER, bytes(32)]))
    put("text.sig", b"".join([bytes(8), number(ots, 4), randomizer, values, number(HEIGHTS[HEIGHT], 4), path]))
    put("text", MESSAGE)
    put("counted", bytes(8))
    ran = run(VERIFY, env=preload("count", COUNTED="counted"))
    holds((ran.returncode, ran.stdout) == (1, "invalid\n"), f"verify ended with {ran.returncode}: {ran.stderr!r}")
    return int.from_bytes(read("counted"), "little")


@test
def as_many_steps_take_as_long_however_they_are_spread():
    if EMULATED or platform.machine() != "x86_64":
        raise Skipped("instructions are counted on x86-64 alone")
    even, uneven = steps_with(EVEN), steps_with(UNEVEN)
    holds(sum(even) == sum(uneven) and 1.1 * sum(even[::8]) < sum(uneven[::8]), "these are other signatures")
    found = [instructions(EVEN), instructions(UNEVEN)]
    holds(min(found) > 1000 * sum(even) // 8, f"instructions were not counted: {found}")
    holds(max(found) <= MOST * min(found), f"{found[0]} instructions, and {found[1]} where the chains are less even")
