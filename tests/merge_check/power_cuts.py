"""Power is lost after each operation of `keygen`, `sign`, `endorse`, `batch`, `serve`, `public`, `join-public`,
`witness` and `resume` on files, by a model of a weak file system, and the program goes on.

`record.c`, which is loaded before the program, records what it does to files, folders and streams.
After each operation that changes something, every state of the files is made that a loss of power
may leave then (`weak_disk.py`):

- Each write to a file that was not flushed since is there whole, or its first half, or zeros in its
  place, or its second half after zeros, or nothing. A file that was emptied to be written anew may
  have its old bytes still.
- Each name in a folder that was not flushed since leads to what it led to at some moment since,
  whatever the other names do. So a file that was made or removed is there or not, and a rename is
  lost, kept, or done to one of its two names alone. The new name leads to the old file or to the
  new one: the program relies on that.
- A flush of a file flushes none of its names, and a flush of a folder nothing of what its files
  hold. A flush of kept nodes does nothing, so they are absent, old, new or damaged.
- What the runs before did not flush may be lost as well, but for what they gave away, which no run
  reads.

The state's file must be old and whole, or absent before a `keygen` stored it, or new and whole; and
new once a byte of a public key, of a signature or of standard output was written. A `serve` stores
one for each group: it must be that of a group, or a newer one, once a byte of the group's answers
was written. A signature or a public key must be whole, or as it was: absent, or an older one. Once
`keygen` or `public` has printed its line, or `join-public` has ended, its public key must be whole,
also in another folder, to which a link may lead.
From some of the states the program goes on, as if what is left were flushed: `info` prints what the
state says, or `keygen` makes it where it is absent, and `sign` gives its next index, which was not
given before, with the right signature. In this `keygen` and this `sign` power is lost again, after
each operation, and the state's file is compared.

A key has a witness on another disk. It must be the old one or the new one, whole, and the new one once a byte
of a signature or of an answer was written; once `witness` printed a line it must be there. So the state and the
witness each count all indices that may have been given. Where one of the two disks is put back to what it was
at first, the other one being as the loss left it, `sign` refuses the older state, or gives an index that was not
given. Where both are put back together it gives an index again: against that there is nothing.

Where there are more than 4000 states of a moment, some 4000 are drawn, by a fixed seed. The program
goes on from 25 states of each run, from the first moment to the last, and with `--all` from all
that differ in the state's file or those beside it. A failure prints up to 20 faults of a run.

The last three tests see that faults are found of each run by a model in which flushes of files do
nothing, and by one in which those of folders do nothing, and that the program does not go on well
from there, where the run stores a state; and of each run that gives a file away by a model in which
the flush of its draft alone does nothing. With `--ignore files` or `--ignore folders` the
other tests use such a model, and fail.

It does not show what a file system does, nor whether a flush is one, since no machine loses power.
No operation fails. No file system is tried that puts other bytes into a file, loses what was
flushed, or lets a name that was renamed over lead to neither file. Heights are 5 alone."""

import argparse
import concurrent.futures
import functools
import itertools
import os

from tests.harness import ARGUMENTS, Wrong, add_test, holds
from tests.merge_check.recorded_runs import ELSEWHERE, MOST_LINES, PARTS, Key
from tests.merge_check.weak_disk import Link, differs_by, witness_in
from tests.program import PLACE, TO_JOIN
from tests.reference import image, kept

ONE, TWO = ((5, 8),), ((5, 4), (5, 4))
MOST_CASES = 25


def asked():
    """The module's arguments."""
    parser = argparse.ArgumentParser("tests/run power_cuts --")
    parser.add_argument("--all", action="store_true")
    parser.add_argument("--ignore", choices=["files", "folders"])
    return parser.parse_args(ARGUMENTS)


KEYS_TO_JOIN = dict(zip(TO_JOIN[::2], PARTS[::2]))
PUBLISHED = [("public", "again.pub"), ("join-public", "joined.pub")]
PLAIN = Key("5/8", ONE, ["keygen", "sign", "sign", "endorse", 3, [2, 1], *PUBLISHED], files=KEYS_TO_JOIN)
# (Indices 31 and 32 go through two trees.)
APART = Key(
    "5/4,5/4 in another folder", TWO, ["keygen", "sign", "sign", 29, "sign", "sign", 2, [1, 1, 1]], "keys/key.state",
    public_key=f"{{folder}}/{ELSEWHERE}{'k' * 201}",
)
# Version 1 wrote this state, and a crash left drafts beside it.
OLD = image(TWO, 31, version=1)
CRASHED = Key("5/4,5/4 by a link", TWO, ["sign", "sign", 2, [2, 1]], "keys/state", "key.state", {
    "keys/state": OLD, "keys/state.new": OLD[:50], "keys/state.nodes": kept(TWO, 0), "keys/state.nodes.new": kept(TWO, 0)[:100], "text.sig": bytes(30000),
})
CRASHED.numbers[OLD] = 31, 0
WATCHED = Key(
    "5/4 beside a witness", ((5, 4),), ["keygen", "witness", "sign", "sign", "endorse", 3, [2, 1], "resume", "sign"],
    files={"key.link": Link(f"{ELSEWHERE}key.pub".encode())}, place=PLACE, public_key="key.link",
)


def names_for(command):
    """Names by which a command writes public keys into another folder: short ones, and those of over 40 and
    of over 200 bytes; whole paths, and links."""
    for size in (1, 41, 201):
        name = f"{command}-{'k' * size}"
        yield from (f"{ELSEWHERE}{name}", f"{{folder}}/{ELSEWHERE}{name}.pub", f"{name}.link")


GIVEN = [(command, name) for command in ("public", "join-public") for name in names_for(command)]
LINKED = {name: Link(f"{ELSEWHERE}{name}ed".encode()) for _, name in GIVEN if name.endswith(".link")}
PUBLIC = Key(
    "5/8 with public keys elsewhere", ONE, ["keygen", *GIVEN], files={**KEYS_TO_JOIN, **LINKED}, public_key=f"{ELSEWHERE}key.pub"
)
KEYS = {
    "in one folder": PLAIN, "in another folder": APART, "by a link": CRASHED, "beside a witness": WATCHED,
    "with public keys elsewhere": PUBLIC,
}


def say(lines, count):
    """Prints the first lines on so many faults, and how many more there are, and fails where there
    is one."""
    for line in lines[:MOST_LINES]:
        print(line)
    if count > MOST_LINES:
        print(f"and {count - MOST_LINES} more")
    holds(not count, f"{count} faults, or more")


@functools.lru_cache(maxsize=None)
def cuts(key):
    """Loses power in each run on a key: how many faults there are, lines on the first ones, and of
    each run the states to go on from that differ in the state's file or those beside it."""
    ignored, total, lines, cases = asked().ignore, 0, [], []
    disk = key.runs()[0].disk()
    for made in key.runs():
        # (Without flushes all that the runs before left is lost, and so each run has a disk of its
        # own then, as has one before which a state is put back.)
        disk = made.disk(ignored) if ignored or made.name == "resume" else disk
        disk.begin()
        found = {}
        for left, least, fault, where in made.cuts(disk):
            total += fault is not None
            if fault and len(lines) < MOST_LINES:
                lines.append(f"{where()}; found: {fault[1]}")
            elif not fault and (by := (least, differs_by(left, disk.beside))) not in found:
                found[by] = left, least, where()
        cases.append(list(found.values()))
    return total, lines, cases


def loses_power(key):
    """Loses power in each run on a key."""
    total, lines, _ = cuts(key)
    say(lines, total)


def spread(cases):
    """As many of a run's cases as the program goes on from."""
    most = len(cases) if asked().all else min(len(cases), MOST_CASES)
    return [cases[at * (len(cases) - 1) // max(1, most - 1)] for at in range(most)]


def goes_on(key):
    """Goes on from what is left of the runs on a key."""
    chosen, lines = [case for cases in cuts(key)[2] for case in spread(cases)], []
    with concurrent.futures.ThreadPoolExecutor(len(os.sched_getaffinity(0))) as pool:
        try:
            for found in pool.map(lambda case: goes_on_from(key, *case), chosen):
                lines += found
        except BaseException:
            # (Interrupted, it does not go on from the others.)
            pool.shutdown(cancel_futures=True)
            raise
    say(lines, len(lines))


def goes_on_from(key, left, least, where):
    """Lines on what is wrong where the program goes on from there."""
    try:
        return [f"{where}; {line}" for line in key.goes_on(left, least)]
    except Exception as why:  # pylint: disable=broad-except
        return [f"{where}; found: {why}"]


def first_found(made, ignored, word):
    """Of a run a model with flushes that do nothing finds this fault, and no other. What the first
    one is found in, and where."""
    first = None
    for left, least, fault, where in made.cuts(made.disk(ignored)):
        if fault:
            first = first or (left, least, where())
            holds(fault[0] == word, f"{where()}; found: {fault[1]}")
    holds(first, f"{made.key.name}, {made.name}: no fault is found")
    return first


def finds(ignored, word):
    """Such faults are found of each run, and the program does not go on well from the first, where
    the run stores a state."""
    for key in KEYS.values():
        for made in key.runs():
            first = first_found(made, ignored, word)
            # (A key without a state is made again, since no index of it was given. A state that is older than its
            # witness still is taken up again.)
            is_older = made.name == "resume" and word == "older"
            if made.states[0] != made.states[-1] and key.state in first[0] and not is_older:
                is_refused(key, *first)


def finds_given():
    """A fault is found of each run that gives a file away where its draft alone is not flushed."""
    for made in (made for key in KEYS.values() for made in key.runs() if made.given):
        first_found(made, f"{made.given[0]}.draft0", "torn")


def is_refused(key, left, least, where):
    """The program does not go on well from there."""
    try:
        key.goes_on(left, least)
    except Wrong:
        return
    raise Wrong(f"it goes on well: {where}")


def puts_back(key):
    """Of the runs on a key with a witness what is left is on two disks. One is put back: no index is given twice.
    Both are put back: where indices were given one is given again."""
    # (Before a `resume` the state's disk is put back already.)
    cases = [case for found in cuts(key)[2] for case in spread(found) if witness_in(case[0], key.state)[0] and key.counts(*case[:2])]
    with concurrent.futures.ThreadPoolExecutor(len(os.sched_getaffinity(0))) as pool:
        again = sum(pool.map(lambda case: puts_back_in(key, *case), cases))
    holds(again, "no index is given again in any case")


def puts_back_in(key, left, least, where):
    """The same, of one case. Whether an index is given again where both are put back."""
    for name, is_first in itertools.product((key.state, key.place), (True, False)):
        index = key.signs_after(left, [name], is_first)
        holds(index is None or index >= least, f"{where}; with an older {name} index {index} is given again")
    index = key.signs_after(left, [key.state, key.place], True)
    holds(index == 0, f"{where}; with both put back index {index} is given")
    return least > 0


for at, one in KEYS.items():
    add_test(f"loses power {at}", loses_power, one)
for at, one in KEYS.items():
    add_test(f"goes on {at}", goes_on, one)
add_test("puts back one of two disks", puts_back, WATCHED)
if not asked().ignore:
    add_test("finds flushes of files that do nothing", finds, "files", "torn")
    add_test("finds flushes of folders that do nothing", finds, "folders", "older")
    add_test("finds a flush of what is given away alone that does nothing", finds_given)
