"""What the portable file takes on each board: bytes of code and constants, and of one lms_verify the
stack, with its caller's frame, and the instructions, as the emulator counts them. They are no
cycles."""

import re

from tests.harness import holds, said_by, test
from tests.merge_check.portable_targets import BOARDS
from tests.merge_check.portable_vectors import all_vectors, header, some
from tests.program import put

NAMES = ["example", "5/4", "example of two levels"]
COUNTED = ["-icount", "shift=0"]


def costs(board, mode, optimized):
    """A line of what it takes."""
    board.compile(mode, optimized)
    size = said_by("size", "lms_verify.o").splitlines()[-1].split()[0]
    board.link("judge.c", "-DMEASURED=3", "-I.")
    found = re.findall(r"(?m)^cost (.*) (\d+) (\d+)$", board.run(*COUNTED))
    holds([name for name, _, _ in found] == NAMES, f"measured {found}")
    stack = max(int(it) for _, it, _ in found)
    counts = ", ".join(f"{name} {int(it) / 1e6:.1f} million" for name, _, it in found)
    return f"{board.name}, {mode}, {optimized}: {size} bytes, {stack} of stack, {counts}"


@test
def portable_costs():
    put("vectors.h", header(some(all_vectors(), *NAMES)).encode())
    for board in BOARDS:
        board.skip_where_missing()
        for mode in ("checked", "direct"):
            for optimized in ("-Os", "-O2"):
                print(costs(board, mode, optimized), flush=True)
