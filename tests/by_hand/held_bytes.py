"""How many bytes a forest of 1024 indices of 15/8,10/8 holds: `bench_keys` prints a line before it
makes one and one while it is there, and tests/preload/weigh.c counts at each. It has to be built,
by `rt run` in its folder."""

import os
import subprocess

from tests.harness import TOP, test
from tests.program import preload


@test
def a_forest_of_1024_indices():
    """Prints the bytes that are held before it is made and while it is there, and the most that
    were held in between."""
    environment = preload("weigh", WEIGHED=os.path.abspath("weighed"))
    subprocess.run([TOP / "crates/bench_keys/out/bench_keys", "cover"], env=environment, stdin=subprocess.DEVNULL, check=True)
    with open("weighed", encoding="utf-8") as weighed:
        (before, _), (then, most) = (line.split() for line in weighed.readlines()[:2])
    print(f"before: {before} bytes; with the forest: {then}; at most: {most}")
