"""Tests of crates with each of their requests for memory refused in turn, until a run meets no
refusal.

The tests have to be built, by `rt ci`, or by `rt test` in the crate's folder. With arguments CRATE
TEST only this test is run."""

import concurrent.futures
import os
import pathlib
import subprocess

from tests.harness import ARGUMENTS, TOP, Wrong, add_test, holds
from tests.program import preload

# The tests that are written for it, of each crate.
TESTS = {
    "lms_tree_tests": [
        "builds_after_refused_memory",
        "builds_a_band_after_refused_memory",
        "kept::moves_after_refused_memory",
        "moves::goes_on_after_refused_memory",
        "progress::no_leaf_is_computed_where_memory_is_refused",
    ],
    "lms_kept_tests": ["no_leaf_is_computed_where_memory_is_refused", "signs_after_refused_memory"],
    "lms_hss_tests": ["forests::no_leaf_is_computed_where_memory_is_refused", "forests::covers_and_signs_after_refused_memory", "moves::goes_on_after_refused_memory"],
    "lms_book_tests": ["a_book_works_after_refused_memory"],
    "lms_pool_tests": [
        "a_pool_is_made_after_refused_memory",
        "shared_book::a_book_is_shared_after_refused_memory",
    ],
    "lms_open_lease_tests": ["a_lease_signs_after_refused_memory"],
    "lms_batch_tests": [
        "kept::kept_trees_after_refused_memory",
        "memory::four_workers_after_refused_memory",
        "memory::one_worker_after_refused_memory",
    ],
    "lms_lines_tests": ["pieces::pieces_after_refused_memory", "signing::memory::lines_after_refused_memory"],
    "lms_file_store_tests": [
        "a_store_works_after_refused_memory",
        "nodes::nodes_are_kept_after_refused_memory",
        "witness::a_witness_is_kept_after_refused_memory",
    ],
    "lms_tool_tests": ["faults::memory::refused_memory_is_said", "faults::batch_faults::a_batch_says_what_it_used"],
}
# More requests than any of these tests makes.
MOST_REQUESTS = 5000


def refuses_one(program, test, number):
    """Runs a test with the request of this number refused. Whether there was such a request."""
    folder = pathlib.Path(str(number)).resolve()
    folder.mkdir()
    made = pathlib.Path(f"{folder}.made")
    how = {"cwd": folder, "env": preload("refuse", REFUSE=number, REQUESTS=made), "stdin": subprocess.DEVNULL}
    ran = subprocess.run([program, test], stdout=subprocess.PIPE, stderr=subprocess.STDOUT, check=False, **how)
    if ran.returncode or not made.exists() or not made.stat().st_size:
        raise Wrong(f"with request {number} refused:\n{ran.stdout.decode(errors='replace')}")
    return number <= int(made.read_text())


def refuses_each(crate, test):
    """Refuses the requests of one test in turn, some at once, until a run meets no refusal."""
    program, at_once = TOP / f"crates/{crate}/out/{crate}_tests", len(os.sched_getaffinity(0))
    holds(os.access(program, os.X_OK), "the tests are not built")
    preload("refuse")
    with concurrent.futures.ThreadPoolExecutor(at_once) as pool:
        for first in range(1, MOST_REQUESTS, at_once):
            refused = list(pool.map(lambda number: refuses_one(program, test, number), range(first, first + at_once)))
            if not all(refused):
                holds(first > 1 or refused[0], "no request was refused")
                return
    raise Wrong(f"more than {MOST_REQUESTS} requests")


ROWS = [tuple(ARGUMENTS)] if ARGUMENTS else [(crate, f"tests::{test}") for crate, tests in TESTS.items() for test in tests]
for row in ROWS:
    add_test(" ".join(row), refuses_each, *row)
