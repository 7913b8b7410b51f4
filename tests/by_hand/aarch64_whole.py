"""The modules of tests that run the program, whole, over that for aarch64 in an emulator, among them
those that refuse memory, have calls fail, kill it and lose power. The merge check runs parts of some
(`aarch64`). The program has to be built, by `./lms_tool build aarch64`. Takes ten minutes."""

from tests.harness import add_test, holds
from tests.merge_check.emulator import ARM, passes, skip_where_missing

MODULES = [
    "vectors", "states", "closed_streams", "kept_nodes", "locks", "job_lines", "help_texts", "verdicts", "modes", "seeds", "public_keys",
    "outputs", "progress", "refused_requests", "file_steps", "crashes", "power_cuts", "tall_nodes", "longest_batch",
    "serve", "served_states",
]


def passes_whole(module):
    """All its tests pass."""
    skip_where_missing()
    holds(ARM.exists(), "the program is not built")
    passes(module)


for name in MODULES:
    add_test(f"{name} by the program for aarch64", passes_whole, name)
