"""Verifications in one thread by each verifier for C that was built, one after another in turns, and how many
times as many as by the library for boot loaders each makes in a second: the table of docs/PERFORMANCE.md.
Beside other work single rounds say little, so the best of each counts. `-- ROUNDS` makes another number of
rounds of a second."""

from tests.harness import ARGUMENTS, TOP, Skipped, holds, said_by, test
from tests.merge_check.c_programs import LIBRARY, SHARED, build, levels_here
from tests.merge_check.portable_targets import FILE, MODES
from tests.merge_check.portable_vectors import signed
from tests.program import put

LEVELS = {"10/8": [(10, 8)], "10/4": [(10, 4)], "10/8,10/8": [(10, 8), (10, 8)]}
ROUNDS = int(ARGUMENTS[0]) if ARGUMENTS else 5
SPEED = TOP / "tests/c/speed.c"
# What the library by eight lanes with AVX2 may take of the time of that for boot loaders, for 10/8.
MOST, FAST = 0.22, "liblms.so.1, x86-64-v3"


def verifiers():
    """The programs that verify, by the names of what they verify by, that for boot loaders first."""
    found = {LIBRARY.name: "boot"}
    build(LIBRARY, SPEED, "boot")
    for level in levels_here():
        build(SHARED / level / "liblms.so.1", SPEED, level, f"-Wl,-rpath,{SHARED / level}")
        found[f"liblms.so.1, {level}"] = level
    for mode in ("checked", "direct"):
        build(FILE, SPEED, mode, *MODES[mode])
        found[f"{FILE.name}, {mode}"] = mode
    return found


@test
def verifications_a_second():
    if not LIBRARY.exists() or not SHARED.exists():
        raise Skipped("the libraries are not built")
    programs, shares = verifiers(), {}
    for name, levels in LEVELS.items():
        files = []
        for kind, contents in zip(("public", "message", "signature"), signed(levels, [5] * len(levels), b"firmware" * 8)):
            put(kind, contents)
            files.append(kind)
        best = dict.fromkeys(programs, 0)
        for _ in range(ROUNDS):
            for verifier, program in programs.items():
                best[verifier] = max(best[verifier], float(said_by(f"./{program}", "1", *files)))
        for verifier, count in best.items():
            times = count / best[LIBRARY.name]
            print(f"{name}, {verifier}: {count:.0f} a second, {times:.2f} times as many, in {1 / times:.3f} of the time", flush=True)
            shares[name, verifier] = 1 / times
    if ("10/8", FAST) not in shares:
        raise Skipped("this processor has no AVX2")
    holds(shares["10/8", FAST] <= MOST, f"{FAST} takes {shares['10/8', FAST]} of the time, not {MOST} at most")
