"""Computes trees of 20/2, for up to a minute each on four processors. Where fewer may be used, it is
skipped; in the merge check on a machine that has four, it fails.

By `bench_keys`, which has to be built, by `rt ci` or by `rt run` in its folder: the last six
indices alone are covered, and a signature by the last one is valid under the public key of the
forest. By the program: `keygen` says on standard error every ten seconds how far it is, and prints
what it prints of any key; signatures by what it kept of the tree are quick. A key of 15/2 whose
kept nodes are removed computes the tree again with the next signature, and the one after it is as
quick. All of them are valid."""

import os
import re
import subprocess

from tests.harness import ARGUMENTS, TOP, Skipped, Wrong, checks, holds
from tests.program import ends, keygen, measured, sign, verify

LEAST_PROCESSORS = 4
# The argument by which the merge check asks for it.
NEEDED = "--needed"
# In milliseconds of processor time: what a signature by kept nodes takes at most, and one by a tree
# that is computed at least.
QUICK, SLOW = 50, 500


def reports(ran, seconds, leaves, output):
    """It printed this, and said every ten seconds, or somewhat later, how far it was, each time of
    more leaves than before."""
    lines = ran.stderr.splitlines()
    found = [re.fullmatch(rf"(\d+) of {leaves} leaves", line) for line in lines]
    numbers = [int(it[1]) for it in found if it]
    is_reported = len(numbers) == len(lines) and numbers == sorted(set(numbers)) and seconds // 12 <= len(lines) <= seconds // 10 + 1
    said = f"in {seconds:.0f} seconds, in place of {output!r}: {ran.returncode} {ran.stdout!r} {ran.stderr!r}"
    holds((ran.returncode, ran.stdout) == (0, f"{output}\n") and is_reported, said)


def makes_key(level, leaves):
    """Makes a key of this level, which has so many leaves."""
    for name in os.listdir():
        if name.startswith("key."):
            os.remove(name)
    ran, seconds, _ = measured(keygen(level))
    reports(ran, seconds, leaves, f"capacity {leaves}")


def signs(index, leaves):
    """Signs by this index, and finds the signature valid. How many milliseconds that took, and what
    was said."""
    ran, seconds, taken = measured(sign())
    ends(verify(), 0, "valid\n")
    reports(ran, seconds, leaves, f"index {index}")
    return 1000 * taken, ran.stderr


def signs_quickly(index, leaves):
    """Signs so by kept nodes, and says nothing."""
    milliseconds, errors = signs(index, leaves)
    holds(milliseconds < QUICK and not errors, f"index {index}: in {milliseconds:.0f} milliseconds: {errors!r}")


def signs_slowly(index, leaves):
    """Signs so by a tree that is computed, which takes more than ten times as long."""
    milliseconds, _ = signs(index, leaves)
    holds(milliseconds > SLOW, f"index {index}: in {milliseconds:.0f} milliseconds")


def covers_the_last_indices():
    """`bench_keys` makes a forest of the last indices of 20/2, and signs by the last one."""
    program = TOP / "crates/bench_keys/out/bench_keys"
    ran = subprocess.run([program, "tall"], stdin=subprocess.DEVNULL, capture_output=True, text=True, check=False)
    wanted = "20/2: index 1048575 signed, 4944 bytes, valid\n"
    if (ran.returncode, ran.stdout) != (0, wanted):
        raise Wrong(f"bench_keys tall: {ran.returncode} {ran.stdout!r} {ran.stderr!r}")


def signs_three_times():
    """Signs by the first three indices."""
    for index in range(3):
        signs_quickly(index, 2**20)


def signs_without_nodes():
    """Signs where the kept nodes are removed."""
    makes_key("15/2", 2**15)
    os.remove("key.state.nodes")
    signs_slowly(0, 2**15)


@checks
def tall_trees(counter):
    processors = len(os.sched_getaffinity(0))
    if processors < LEAST_PROCESSORS:
        why = f"trees of height 20 need four processors, and {processors} of {os.cpu_count()} may be used here"
        raise Wrong(why) if NEEDED in ARGUMENTS and os.cpu_count() >= LEAST_PROCESSORS else Skipped(why)
    counter.check("a forest of 20/2 over the last six indices", covers_the_last_indices)
    counter.check("a key of 20/2, which says how far it is", makes_key, "20/2", 2**20)
    counter.check("three quick signatures by its nodes", signs_three_times)
    counter.check("a signature of 15/2 with no nodes", signs_without_nodes)
    counter.check("a quick one by the nodes that this kept", signs_quickly, 1, 2**15)
