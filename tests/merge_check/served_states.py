"""`serve` and the files of its state: what it asks for before it reads, what is locked meanwhile, what it
does where the state that it finds is another one than it stored last, and what a signal leaves.

States are put in place while it waits for the rest of a line of which it has read the beginning, so they are
there before the line's turn, and after all that was before it."""

import os
import signal
import stat
import threading

from tests.harness import Wrong, add_test, holds, test
from tests.merge_check.service import ABC, Service, answer
from tests.program import (
    BATCH, INFO, NODES, SERVE, Lock, as_who_may_not, described, ends, fails, has, is_lock_free, keygen, mode_of, public, put, read, run, sign,
    signs,
)
from tests.reference import image, kept, signature_of

ONE, THREE, OTHER = ((5, 4),), ((5, 4),) * 3, ((5, 2),)
CAPACITY = 2**15
HALF = 30
UNREAD = "cannot read state"


def replace(contents, name="key.state"):
    """Puts a new file in the place of one that is there, if any, or takes that away."""
    if contents is None:
        os.remove(name)
        return
    put("another", contents)
    os.rename("another", name)


def states():
    """The state's file, what is beside it, and when that was written."""
    found = {name: os.lstat(name) for name in os.listdir() if name != "key.state.lock"}
    return {name: (it.st_ino, it.st_mtime_ns, read(name) if stat.S_ISREG(it.st_mode) else b"") for name, it in found.items()}


# What may stand in the place of a state with these numbers: its counter, its openings and its burnt indices.
OTHERS = {
    "older": lambda *it: image(ONE, it[0] - 1, it[1] - 1, it[2]),
    "later": lambda *it: image(ONE, it[0] + 1, it[1] + 1, it[2]),
    "with fewer openings": lambda *it: image(ONE, it[0], it[1] - 1, it[2]),
    "with more burnt": lambda *it: image(ONE, it[0], it[1], it[2] + 1),
    "of version 1": lambda *it: image(ONE, it[0], version=1),
    "of another seed": lambda *it: image(ONE, *it, seed=b"\x12" + b"\x11" * 31),
    "of another identifier": lambda *it: image(ONE, *it, identifier=b"\x22" * 15 + b"\x23"),
    "of other levels": lambda *it: image(OTHER, *it),
    "removed": lambda *it: None,
    "empty": lambda *it: b"",
    "damaged": lambda *it: image(ONE, *it)[:-1] + b"-",
    "longer": lambda *it: image(ONE, *it) + b"-",
}


def finds_another(what, count):
    """Such a state is in place before the turn that follows so many others: nothing more is signed, and it is
    left as it is."""
    put("key.state", image(ONE, 7, 3, 2))
    with Service() as it:
        for at in range(count):
            it.write(ABC)
            it.answers(answer(ONE, 7 + at))
        it.write(ABC[:HALF])
        it.has_read()
        has("key.state", image(ONE, 7 + count, 3 + count, 2))
        replace(OTHERS[what](7 + count, 3 + count, 2))
        before = states()
        it.write(ABC[HALF:] + ABC)
        it.running.stdin.close()
        it.ends(3, UNREAD)
    holds(states() == before, f"other files than {sorted(before)}, or other bytes")
    holds(is_lock_free(), "its lock is held")


for kind in OTHERS:
    for turns in (0, 2):
        add_test(f"a state {kind} after {turns} turns", finds_another, kind, turns)


@test
def the_state_that_was_opened_after_a_turn():
    """As a backup of before has it: the index would be given again. The input stays open."""
    put("key.state", image(ONE, 7, 3, 2))
    with Service() as it:
        it.write(ABC + ABC[:HALF])
        it.answers(answer(ONE, 7))
        it.has_read()
        replace(image(ONE, 7, 3, 2))
        before = states()
        it.write(ABC[HALF:])
        it.ends(3, UNREAD)
    holds(states() == before, "the state was written")


@test
def another_state_at_the_end_of_the_input():
    """It is seen there, too."""
    put("key.state", image(ONE, 7))
    with Service() as it:
        it.write(ABC)
        it.answers(answer(ONE, 7))
        replace(image(ONE, 7))
        it.running.stdin.close()
        it.ends(3, UNREAD)
    has("key.state", image(ONE, 7))


@test
def the_same_state_in_another_file():
    """It goes on by that."""
    put("key.state", image(ONE, 7))
    with Service() as it:
        for at in range(3):
            it.write(ABC[:HALF])
            it.has_read()
            replace(read("key.state"))
            it.write(ABC[HALF:])
            it.answers(answer(ONE, 7 + at))
        it.finishes()
    has("key.state", image(ONE, 10, 3))


@test
def a_link_that_leads_elsewhere():
    """The state stays the one that it led to at first."""
    os.mkdir("first")
    os.mkdir("second")
    for folder in ("first", "second"):
        put(f"{folder}/state", image(ONE, 7))
    os.symlink("first/state", "key.state")
    with Service() as it:
        it.write(ABC + ABC[:HALF])
        it.answers(answer(ONE, 7))
        it.has_read()
        os.symlink("second/state", "link")
        os.rename("link", "key.state")
        it.write(ABC[HALF:])
        it.answers(answer(ONE, 8))
        it.finishes()
    has("first/state", image(ONE, 9, 2))
    has("second/state", image(ONE, 7))


@test
def a_service_beside_it():
    """The second one is refused. Where the lock's file is taken away both work, and the first one sees at its
    next line that the second one has given an index."""
    put("key.state", image(ONE, 7))
    with Service() as first:
        first.write(ABC)
        first.answers(answer(ONE, 7))
        fails(SERVE, 3, "state in use", input=ABC.decode())
        os.remove("key.state.lock")
        with Service() as second:
            second.write(ABC)
            second.answers(answer(ONE, 8))
            first.write(ABC)
            first.ends(3, UNREAD)
            second.write(ABC)
            second.answers(answer(ONE, 9))
            second.finishes()
    has("key.state", image(ONE, 10, 3))


def is_in_use():
    """No other command gets the state."""
    before = states()
    for words in (INFO, sign(), BATCH, SERVE, public(), keygen()):
        fails(words, 3, "state in use", input="")
    holds(states() == before, "something was written")


@test
def holds_the_lock_from_before_its_first_line_to_its_end():
    put("key.state", image(ONE, 7))
    with Service() as it:
        it.write(ABC[:HALF])
        it.has_read()
        is_in_use()
        it.write(ABC[HALF:])
        it.answers(answer(ONE, 7))
        is_in_use()
        it.write(ABC * 2)
        it.answers(answer(ONE, 8), answer(ONE, 9))
        holds(not is_lock_free(), "its lock is not held between two groups")
        it.finishes()
    described("5/4", 10, 32, 2, 0)
    signs(ONE, 10)


@test
def asks_for_the_state_before_it_reads():
    """And for the number of workers before that. Of its input nothing is taken."""

    def refuses(status, fault, workers="2"):
        reader, writer = os.pipe()
        os.write(writer, ABC)
        fails([*SERVE[:-1], workers], status, fault, stdin=reader)
        holds(os.read(reader, 1000) == ABC, f"{fault}: it read its input")
        os.close(reader)
        os.close(writer)

    refuses(3, UNREAD)
    put("key.state", b"HSSK")
    refuses(3, "bad state: Truncated")
    put("key.state", image(ONE, 7))
    with Lock():
        refuses(2, "bad workers", workers="0")
        refuses(3, "state in use")
    how = as_who_may_not()
    os.chmod("key.state", 0)
    fails(SERVE, 3, UNREAD, input=ABC.decode(), **how)


@test
def a_state_that_cannot_be_written():
    """The answers before stay, and the indices of the group are not given."""
    put("key.state", image(ONE, 7))
    with Service() as it:
        it.write(ABC)
        it.answers(answer(ONE, 7))
        os.mkdir("key.state.new")
        it.write(ABC * 3)
        it.ends(3, "cannot write state: 8 to 10 burnt")
    has("key.state", image(ONE, 8, 1))
    os.rmdir("key.state.new")
    with Service() as it:
        it.write(ABC)
        it.answers(answer(ONE, 8))
        it.finishes()
    os.mkdir("key.state.new")
    fails(BATCH, 3, "cannot write state: 9 to 10 burnt", input=(ABC * 2).decode())
    has("key.state", image(ONE, 9, 2))


@test
def leaves_kept_nodes():
    """It neither reads nor makes any. The state is its owner's alone."""
    put("key.state", image(ONE, 7))
    for nodes in (None, b"others", kept(ONE, 3)):
        if nodes is not None:
            put(NODES, nodes)
        before = states()
        ran = run(SERVE, input=ABC.decode(), umask=0)
        holds(ran.returncode == 0, f"it ended with {ran.returncode}: {ran.stderr}")
        after = states()
        holds(before.keys() == after.keys() and after.get(NODES) == before.get(NODES), f"the files are {sorted(after)}")
        holds((mode_of("key.state"), mode_of("key.state.lock")) == (0o600, 0o600), "others may use the state, or the lock")
    has("key.state", image(ONE, 10, 3))


@test
def a_signal_ends_it():
    """While it waits for the rest of a line. The lock is dropped, and the next index follows."""
    put("key.state", image(ONE, 5))
    for at, number in enumerate([signal.SIGTERM, signal.SIGINT, signal.SIGHUP, signal.SIGKILL]):
        with Service() as it:
            it.write(ABC + ABC[:-1])
            it.answers(answer(ONE, 5 + at))
            it.has_read()
            it.running.send_signal(number)
            it.ends(-number)
        has("key.state", image(ONE, 6 + at, 1 + at))
        holds(is_lock_free(), "its lock is held")


def feed(service, lines):
    """Writes lines for as long as they are read."""
    try:
        service.write(lines)
    except (BrokenPipeError, Wrong):
        pass


def counter():
    """The counter that the state of THREE has."""
    return int.from_bytes(read("key.state")[84:92], "big")


def killed_in_a_flood(lines, count):
    """What a service has printed that is killed once so many of its answers are read, while more lines are
    written than it can answer."""
    with Service(3) as it:
        feeder = threading.Thread(target=feed, args=(it, lines))
        feeder.start()
        try:
            printed = [it.line() for _ in range(count)]
        finally:
            it.running.kill()
            feeder.join()
        rest, errors = it.said()
        holds((it.running.returncode, errors) == (-signal.SIGKILL, ""), f"it ended with {it.running.returncode}: {errors}")
    return b"".join(printed) + rest


@test
def gives_no_index_twice_after_kills():
    """In the middle of a flood of lines, again and again. No line is cut but the last one, each has the next
    index, and the state counts it."""
    ends(keygen("5/4,5/4,5/4"), 0, f"capacity {CAPACITY}\n")
    length = len(signature_of(THREE, 0, b"abc").hex())
    for count in (1, 5, 40, 300, 700, 1):
        first = counter()
        *whole, cut = killed_in_a_flood(ABC * 3000, count).split(b"\n")
        indices = [int(it.partition(b" ")[0]) for it in whole]
        holds(indices == list(range(first, first + len(whole))), f"after {first} indices it gave {indices[:3]} to {indices[-3:]}")
        holds(all(len(it.partition(b" ")[2]) == length for it in whole), "a line is cut, and is not the last one")
        holds(whole[-1] + b"\n" == answer(THREE, indices[-1]), f"another answer by index {indices[-1]}")
        is_begun = b" " in cut
        holds(not is_begun or cut.startswith(b"%d " % (first + len(whole))), f"another index is begun: {cut[:20]}")
        holds(counter() >= first + len(whole) + is_begun, "an index is given that the state does not count")
    first = counter()
    ends(SERVE, 0, "".join(answer(THREE, first + at).decode() for at in range(2)), input=(ABC * 2).decode())
