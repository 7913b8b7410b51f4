"""How many functions of each crate may wait, as `crates.txt` says it, compared with what the
toolchain counts. `rt ci` does not compare them.

The argument FILE has what a `rt ci` printed, which counts the crates that it proved, and not again
those that it had kept. A crate's line of `crates.txt` is part of what decides whether it is kept,
so the first run over a line that is changed counts it, and that run alone finds it wrong. Without
FILE each crate is checked here, over what is kept in crates/NAME/out, and proved first where
nothing is."""

import pathlib
import re
import subprocess

from tests.harness import ARGUMENTS, TOP, Skipped, Wrong, test

COUNT = re.compile(r"logic=proved functions=\d+\b(?:.*? may-wait=(\d+))?")
PROVED = re.compile(r"rt: (\w+) proved")
KEPT = re.compile(r"rt: (\w+) is kept: ")
# (FILE is named from where the tests are run.)
GIVEN = [pathlib.Path(it).resolve() for it in ARGUMENTS]


def said():
    """How many functions of each crate may wait, as `crates.txt` says it."""
    lines = (TOP / "crates.txt").read_text(encoding="utf-8").splitlines()
    heads = [line.split(":")[0] for line in lines if ":" in line and not line.startswith("#")]
    counts = [re.search(r"\bmay_wait=(\d+)", head) for head in heads]
    return {head.split()[0]: int(count[1]) if count else 0 for head, count in zip(heads, counts)}


def count_in(lines):
    """The last count in these lines, or None."""
    counts = [found for found in map(COUNT.match, lines) if found]
    return int(counts[-1][1] or 0) if counts else None


def printed(text):
    """The counts that a `rt ci` printed: each comes before the line that says of which crate it is.
    And the crates that it had kept."""
    found, kept, lines = {}, set(), []
    for line in text.splitlines():
        lines.append(line)
        if crate := PROVED.fullmatch(line):
            found[crate[1]] = count_in(lines)
            lines = []
        if crate := KEPT.match(line):
            kept.add(crate[1])
    return found, kept - found.keys()


def checked(crate):
    """The count of a crate, which is checked here."""
    ran = subprocess.run(["rt", "check"], cwd=TOP / "crates" / crate, stdin=subprocess.DEVNULL, capture_output=True, text=True, check=False)
    return count_in(ran.stdout.splitlines()) if ran.returncode == 0 else None


@test
def as_many_functions_wait_as_crates_txt_says():
    wanted = said()
    if GIVEN:
        found, kept = printed(GIVEN[0].read_text(encoding="utf-8", errors="replace"))
    else:
        found, kept = {crate: checked(crate) for crate in wanted}, set()
    if kept == wanted.keys():
        raise Skipped("all crates were kept")
    wrong = [crate for crate in wanted if crate not in kept and found.get(crate) != wanted[crate]]
    if wrong:
        lines = [f"{crate}: crates.txt has may_wait={wanted[crate]}, and the toolchain counts {found.get(crate)}" for crate in wrong]
        raise Wrong("; ".join(lines))
    print(f"of {len(wanted)} crates {len(kept)} were kept, and are not counted")
