"""States that are older than their witness: each command that uses indices refuses them, and `resume` takes
them up. Older witnesses are no fault. And what is unguarded: states under other names, and an older state with
the witness of its time.

A refusal leaves the state, the witness and all else as they were, and prints nothing."""

import os

from tests.harness import add_test, holds, test
from tests.merge_check.service import ABC, Service, answer
from tests.merge_check.watched import BAD, CAPACITY, NO_COUNTERS, OLDER, ONE, UNREAD, UNWRITTEN, USERS
from tests.merge_check.watched import begin, files, made, refuses, refuses_all, replace, say, uses
from tests.program import (
    PLACE, SERVE, WITNESS, Lock, described, ends, fails, has, is_lock_free, preload, put, read, resume, run, sign, signs, witness,
)
from tests.reference import image, witness_of
from tests.seeds import STATES

TALL = ((5, 1), (10, 1))
# How many bytes of a job line are written first.
HALF = 30


def an_older_state(name):
    """One that is put back is refused by each command, also after the first refusal; the state that was taken
    away goes on."""
    begin(5)
    older, index = read("key.state"), uses(name, 5)
    newer = read("key.state")
    for text in (older, image(ONE, index - 1, 1), image(ONE, 5, version=1)):
        put("key.state", text)
        refuses_all(OLDER)
        described("5/4", int.from_bytes(text[68:76], "big"), CAPACITY, 0 if text[7] == 1 else 1, 0)
    put("key.state", newer)
    say(uses(name, index))


for command in USERS:
    add_test(f"an older state after a {command}", an_older_state, command)


@test
def an_older_state_before_a_service_reads():
    """It takes nothing of its input."""
    begin(5, 6)
    reader, writer = os.pipe()
    os.write(writer, ABC)
    refuses(SERVE, 3, OLDER, stdin=reader)
    holds(os.read(reader, 1000) == ABC, "it read its input")
    os.close(reader)
    os.close(writer)


def between_two_turns(what, line, make):
    """While it waits for the rest of a line, `make` changes something: nothing more is signed, and all is left
    as it was."""
    begin(5)
    with Service() as it:
        it.write(ABC + ABC[:HALF])
        it.answers(answer(ONE, 5))
        it.has_read()
        say(6)
        make()
        before = files()
        it.write(ABC[HALF:] + ABC)
        it.ends(3, line)
    holds(files() == before, f"{what}: other files than before, or other bytes")
    holds(is_lock_free(), "its lock is held")


for change, fault, makes in [
    ("an older state", OLDER, lambda: replace(image(ONE, 5, 1))),
    ("an older state that was never stored", OLDER, lambda: replace(image(ONE, 4, 2))),
    ("a newer witness", OLDER, lambda: replace(witness_of(7), PLACE)),
    ("a witness of another key", BAD, lambda: replace(witness_of(6, bytes(16)), PLACE)),
    ("a medium that is taken away", UNREAD, lambda: os.rename("other", "elsewhere")),
    ("a draft that can't be made", UNWRITTEN, lambda: os.mkdir(f"{PLACE}.new")),
    ("another state with the same counter", "cannot read state", lambda: replace(image(ONE, 6, 1))),
]:
    add_test(f"between two turns: {change}", between_two_turns, change, fault, makes)


@test
def a_witness_that_comes_and_goes_between_two_turns():
    """While a service runs none can be made, since the state is locked; one that is taken away guards no more,
    and is not made again."""
    begin(5)
    with Service() as it:
        it.write(ABC)
        it.answers(answer(ONE, 5))
        os.remove(WITNESS)
        fails(witness(6, "other/new"), 3, "state in use")
        it.write(ABC)
        it.answers(answer(ONE, 6))
        it.finishes()
    has(PLACE, witness_of(6))
    holds(not os.path.lexists(WITNESS), "a witness was made")


def resumed(first, last):
    """What `resume` prints."""
    return f"indices {first} to {last} burnt; right only if the witness is the newest\n"


@test
def resumes_from_where_the_witness_says():
    begin(5, 9)
    refuses_all(OLDER)
    ends(resume(9), 0, resumed(5, 8))
    say(9)
    refuses(resume(9), 3, "state is not older than its witness")
    index = 9
    for name in USERS:
        index = uses(name, index)
        say(index)


@test
def resumes_to_the_last_index():
    """None is left then."""
    begin(5, CAPACITY)
    ends(resume(CAPACITY), 0, resumed(5, CAPACITY - 1))
    say(CAPACITY)
    refuses(sign(), 4, "exhausted: 0 left")
    holds(os.listdir("other") == ["witness"], "a draft of the witness is left")


@test
def resumes_over_many_indices():
    """More than are burnt by one write, over edges of trees."""
    begin(100, 20000, TALL)
    ends(resume(20000), 0, resumed(100, 19999))
    say(20000)
    signs(TALL, 20000)
    say(20001)


@test
def resumes_again_where_a_later_write_failed():
    """What was burnt before stays so."""
    begin(100, 3000, TALL)
    run(resume(3000), env=preload("stop", STEPS="steps"))
    steps = read("steps").decode().splitlines()
    _, at, *_ = (at for at, step in enumerate(steps, 1) if step.startswith("rename "))
    put("key.state", image(TALL, 100, 1))
    fails(resume(3000), 3, "cannot write state: 1124 to 2147 burnt", env=preload("stop", FAIL=at, LAST=at))
    ends(resume(3000), 0, resumed(1124, 2999))
    say(3000)


@test
def resumes_nothing_else():
    """Of several faults the first is reported, and nothing is burnt."""
    begin(5, 9)
    with Lock():
        for text in NO_COUNTERS:
            refuses([*resume(0)[:-2], f"--counter={text}"], 2, "bad counter")
        refuses(resume(9), 3, "state in use")
    for text in (0, 5, 8, 10, 2**64 - 1):
        refuses(resume(text), 3, "counter is 9")
    for said in (5, 4, 0):
        put(PLACE, witness_of(said))
        for text in (5, 6, said):
            refuses(resume(text), 3, "state is not older than its witness")
    for said in (CAPACITY + 1, 2**64 - 1):
        put(PLACE, witness_of(said))
        refuses(resume(said - 1), 3, f"counter is {said}")
        refuses(resume(said), 4, f"exhausted: {CAPACITY - 5} left")
    put("key.state", b"HSSK")
    refuses(resume(9), 3, "bad state: Truncated")
    os.remove("key.state")
    refuses(resume(9), 3, "cannot read state")
    os.remove(WITNESS)
    refuses(resume(9), 3, UNREAD)
    put("key.state", image(ONE, 5, 1))
    refuses(resume(9), 3, UNREAD)
    signs(ONE, 5)


@test
def resumes_no_state_that_can_not_be_written():
    begin(5, 9)
    os.mkdir("key.state.new")
    refuses(resume(9), 3, "cannot write state: 5 to 8 burnt")
    os.rmdir("key.state.new")
    ends(resume(9), 0, resumed(5, 8))
    say(9)


def an_older_witness(name):
    """One that is put back, or that says less for another reason, is no fault, and catches up."""
    begin(5)
    uses(name, 5)
    index = uses(name, 5 + USERS[name][1])
    for said in (5, 0, index - 1):
        put(PLACE, witness_of(said))
        index = uses(name, index)
        say(index)


for command in USERS:
    add_test(f"an older witness before a {command}", an_older_witness, command)


@test
def an_older_state_and_the_witness_of_its_time():
    """Both put back are as they were: the one case in which an index is given again."""
    begin(5)
    older = read("key.state")
    signs(ONE, 5)
    first = read("text.sig")
    put("key.state", older)
    put(PLACE, witness_of(5))
    signs(ONE, 5)
    has("text.sig", first)


@test
def states_by_other_names():
    """By a symbolic link the witness is the one beside the state's file. By a hard link, under a new name, and
    as a copy, a state has no witness: it is signed with as ever, and the witness is left."""
    begin(5, 6)
    os.symlink("key.state", "soft")
    fails(sign(state="soft"), 3, OLDER)
    names = ["hard", "copy", "folder/key.state", "moved"]
    STATES.update(map(os.path.abspath, names))
    os.link("key.state", "hard")
    put("copy", read("key.state"))
    os.mkdir("folder")
    put("folder/key.state", read("key.state"))
    os.rename("key.state", "moved")
    for name in names:
        signs(ONE, 5, state=name)
        has(PLACE, witness_of(6))
    holds(os.path.islink(WITNESS), "the link is gone")


@test
def states_by_a_link():
    """The witness is the one beside the state's file, whichever command. An older file in the place of the link
    has none."""
    os.mkdir("other")
    older = image(ONE, 5, 1)
    put("key.state", older)
    os.symlink("key.state", "soft")
    ends(witness(5, state="soft"), 0, made(5))
    signs(ONE, 5, state="soft")
    say(6)
    put("key.state", older)
    ends(resume(6, state="soft"), 0, resumed(5, 5))
    say(6)
    os.remove("soft")
    put("soft", older)
    STATES.add(os.path.abspath("soft"))
    signs(ONE, 5, state="soft")
