"""How fast trees are computed: by ratios of times of one machine, within wide bounds.

By one processor, which `machine.c` has the program find, a hash of a tree takes less time than one of a
message, since eight leaves are computed side by side; and a `sign`, a `batch` and a `serve` that compute a
tree, or a bottom subtree, take no longer than the `keygen` of such a tree, so they compute it once. These times are
taken in turn, of each the least counts, and more are taken while a ratio is too great, since other
programs may have been in the way. By all processors `keygen` of 15/2 gets as much of them as programs do
that only spin. And with no time taken it is seen that a thread with much left gives a part away where a
processor is free."""

import os
import pathlib
import subprocess
import time

from tests.harness import Skipped, Wrong, checks, holds, test
from tests.program import BATCH, NODES, SERVE, job_lines, keygen, measured, preload, put, read, run, sign, taken, verify
from tests.reference import CHAINS, SUBTREE, image

WIDTH, LEAVES = 2, 2**10
SMALL, TALL = ((10, WIDTH),), ((15, WIDTH),)
# How many bytes a message has whose hash is compared with.
LENGTH = 2**26
# How long a hash of a tree may take, and a call that computes a tree, as a part of what is compared; and
# how much of the processors a `keygen` gets at least, as a part of what it could.
MOST_OF_A_HASH, MOST_OF_A_TREE, LEAST_AT_WORK = 0.85, 1.5, 0.7
# How often times are taken, at least and at most.
LEAST_ROUNDS, MOST_ROUNDS = 3, 12
# How late a thread begins, in milliseconds: all others are done by then.
LATE = 500


def remove(*names):
    """Removes files that are there."""
    for name in names:
        pathlib.Path(name).unlink(missing_ok=True)


def begins_at(levels, index, nodes=None):
    """The state gives this index next, and these nodes are kept, or none."""
    put("key.state", image(levels, index))
    remove(NODES)
    if nodes:
        put(NODES, nodes)


def time_of(arguments, lines=b"", status=0):
    """How many seconds of one processor the program takes."""
    ran, _, seconds = measured(arguments, input=lines, text=False, env=preload("machine", PROCESSORS=1))
    holds(ran.returncode == status, f"{arguments[0]} ended with {ran.returncode}: {ran.stderr!r}")
    return seconds


def hashes_of_a_leaf():
    """How often a leaf needs the compression function: for its chains, with their secrets, for the hash
    over their ends, and for its node and one above."""
    chains = CHAINS[WIDTH][1]
    return chains * 2**WIDTH + (22 + 32 * chains + 9 + 63) // 64 + 3


class Times:
    """The least seconds of each call so far. A tree of SMALL is computed by each but the first, which
    hashes a message."""

    def __init__(self, nodes):
        self.nodes, self.seconds, self.rounds = nodes, {}, 0

    def take(self):
        """Takes each time once more."""
        self.rounds += 1
        begins_at(SMALL, 5)
        self.add("sign", time_of(sign()))
        for words in (BATCH, SERVE):
            begins_at(SMALL, 5)
            self.add(words[0], time_of(words, job_lines(b"abc")))
        begins_at(TALL, self.rounds << SUBTREE, self.nodes)
        self.add("moved", time_of(sign()))
        remove("key.state")
        self.add("tree", time_of(keygen("10/2")))
        self.add("message", time_of(verify("long", "long.sig", "long.pub"), status=1))

    def add(self, what, seconds):
        """Notes a time."""
        self.seconds[what] = min(seconds, self.seconds.get(what, seconds))

    def part(self, what):
        """How long a call takes, as a part of a tree's time; of the tree itself, a hash as a part of one of
        the message."""
        if what == "tree":
            return self.seconds["tree"] / (LEAVES * hashes_of_a_leaf()) / (self.seconds["message"] / (LENGTH / 64))
        return self.seconds[what] / self.seconds["tree"]

    def check(self, what, most):
        """It is less than this. Times are taken while it is not."""
        while self.rounds < LEAST_ROUNDS or self.part(what) >= most and self.rounds < MOST_ROUNDS:
            self.take()
        holds(self.part(what) < most, f"{self.part(what):.2f} times as long, and not less than {most}")


def processors():
    """How many the program uses here."""
    try:
        limit, period = pathlib.Path("/sys/fs/cgroup/cpu.max").read_text(encoding="ascii").split()
        quota = max(1, int(limit) // int(period))
    except (OSError, ValueError):
        quota = os.cpu_count()
    return min(len(os.sched_getaffinity(0)), quota)


def spinning(count):
    """How many processors so many programs get that only spin."""
    begun, before = time.monotonic(), taken()
    running = []
    try:
        for _ in range(count):
            running.append(subprocess.Popen(["sh", "-c", "while :; do :; done"]))
        time.sleep(0.5)
    finally:
        for it in running:
            it.kill()
            it.wait()
    return (taken() - before) / (time.monotonic() - begun)


def makes_a_tall_key():
    """By all processors."""
    count, found = processors(), []
    while len(found) < MOST_ROUNDS and max(found, default=0) < LEAST_AT_WORK:
        remove("key.state")
        possible = spinning(count)
        ran, seconds, used = measured(keygen("15/2"))
        holds(ran.returncode == 0, f"keygen ended with {ran.returncode}: {ran.stderr!r}")
        found.append(used / seconds / possible)
    if count == 1:
        raise Skipped("there is one processor here")
    holds(max(found) >= LEAST_AT_WORK, f"it had {max(found):.2f} of what {count} processors could give")


@checks
def trees(counter):
    counter.check("a tree is computed by all processors", makes_a_tall_key)
    times = Times(read(NODES))
    put("long", b"")
    os.truncate("long", LENGTH)
    run(keygen(state="long.state", public="long.pub"))
    run(sign(out="long.sig", state="long.state"))
    counter.check("a hash of a tree takes less than one of a message", times.check, "tree", MOST_OF_A_HASH)
    for what, name in [("sign", "a tree is computed once by a signature"), ("batch", "and once by a batch"), ("serve", "and by a service")]:
        counter.check(name, times.check, what, MOST_OF_A_TREE)
    counter.check("a bottom subtree is computed once by a signature", times.check, "moved", MOST_OF_A_TREE)


@test
def a_thread_gives_a_part_away():
    """Of two threads one begins when the other is done with its half: it gives a part to a third one."""
    put("threads", b"")
    ran = run(keygen("10/1"), env=preload("machine", PROCESSORS=2, LATE=LATE, THREADS="threads"))
    holds(ran.returncode == 0, f"keygen ended with {ran.returncode}: {ran.stderr!r}")
    started = len(read("threads"))
    if started == 0:
        raise Wrong("no thread was started")
    holds(started > 1, "a thread kept all that it had to do, and a processor was free")
