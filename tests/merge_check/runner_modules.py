"""Modules of tests that stand in for others in `runner`."""

# How many checks of a module fail: as the status of a program that is as none.
FAILURES = 256
# The most that a script may take over stand-ins, which is far more than it needs.
SECONDS = 300
PASSES = """\
from tests.harness import ARGUMENTS, TOP, Skipped, Wrong, add_test

def passes():
    name = __name__.rpartition(".")[2]
    with open(TOP.parent / "ran", "a") as ran, open(TOP.parent / "given", "a") as given:
        ran.write(f"{name}\\n")
        # (Of a file that is named here, what it has.)
        given.write("".join(f"{name} {open(it).read() if it[0] == '/' else it}\\n" for it in ARGUMENTS))

def fails():
    raise Wrong("it does")

def skips():
    raise Skipped("it can't be run")

add_test("passes", passes)
"""
FAILS = f'{PASSES}for _ in range({FAILURES}):\n    add_test("fails", fails)\n'
SKIPS = f'{PASSES}add_test("skips", skips)\n'
# (It prints what looks like its count.)
BREAKS_OFF = f"""{PASSES}
def breaks_off():
    print("locks: 9 passed, 0 failed\\nand more", flush=True)
    raise SystemExit(0)

add_test("breaks off", breaks_off)
"""
WAITS = f"""{PASSES}
import time

def waits():
    print("waits", flush=True)
    time.sleep({SECONDS})

add_test("waits", waits)
"""
NO_MODULE = "This is no module.\n"
# What a check or a group of checks can raise, and what is printed of it then.
ERRORS = [
    "OSError('the disk is full')",
    "FileNotFoundError(2, 'no tool')",
    "TimeoutExpired('tool', 5)",
    "CalledProcessError(1, 'tool')",
    "AssertionError()",
    "NotImplementedError()",
    "MemoryError()",
]
RAISED = {"Skipped('no tool')": ("skipped", "no tool"), "Wrong('it is')": ("FAILED", "it is")}
RAISED.update({error: ("FAILED", error) for error in ERRORS})
# Commands that do not end well, and what they end with.
COMMANDS = {"exit 1": 1, "exit 255": 255, "kill -9 $$": -9}
RAISES = f"""\
import os
from subprocess import CalledProcessError, TimeoutExpired
from tests.harness import Skipped, Wrong, add_test, checks, said_by

def raises(error):
    raise error

def group_of(error):
    def group(counter):
        counter.check("one of a group", int)
        raise error
    group.__name__ = f"group of {{error!r}}"
    checks(group)

for error in ({", ".join(RAISED)}):
    add_test(repr(error), raises, error)
    group_of(error)
for command in {list(COMMANDS)}:
    add_test(command, said_by, "sh", "-c", command)
add_test("takes rights away", os.chmod, ".", 0)
"""
