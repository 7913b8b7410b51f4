"""What `keygen`, `sign`, `batch` and `serve` tell of the leaves that they compute: on a terminal, elsewhere,
and when.

`machine.c`, which is loaded before the program, gives it a clock that goes on at each look alone. The
program looks when it begins with leaves and each time that some are done, so each count can be due,
and by one processor all that is printed is known byte by byte. What is printed to standard output and
to standard error is one text where both are one terminal."""

import os
import re
import select
import statistics
import subprocess
import time

from tests.harness import holds, test
from tests.merge_check.service import WINDOW, Service
from tests.merge_check.wrong_nodes import wrong_way
from tests.program import BATCH, INFO, NODES, PROGRAM, SERVE, VERIFY, job_lines, keygen, on_terminal, preload, put, read, run, sign
from tests.reference import checked, image, kept_parts, public_of, signature_of

ONE, TWO, THREE = (((5, 1),) * count for count in (1, 2, 3))
# What clears a line, how many leaves are computed at once, and how often a count may be shown on a
# terminal and elsewhere, in nanoseconds.
WIPED, AT_ONCE, SHOWN, PRINTED = "\r\x1b[K", 8, 5 * 10**8, 10**10
# The first counts of a tall tree.
BEGINNING = [*range(AT_ONCE, 1025, AT_ONCE), *range(2048, 6145, 1024)]
# A count is told too early where the work before it takes less than this part of what it takes else.
EARLY = 0.4


def machine(tick, processors=1, **settings):
    """The environment of a machine with so many processors, whose clock goes on by so much at each
    look."""
    put("looks", b"")
    return preload("machine", PROCESSORS=processors, TICK=tick, LOOKS="looks", **settings)


def counts(leaves, of=None, every=1):
    """The line on a terminal as it is after each count, or after every so many counts."""
    return "".join(f"{WIPED}{at} of {of or leaves} leaves" for at in range(every * AT_ONCE, leaves + 1, every * AT_ONCE))


def shows(arguments, status, text, begins=1, tick=SHOWN, every=1, **how):
    """The program ends so and shows this on a terminal, its line among it, and looks at the clock no
    more often than it begins and than it is done with some leaves."""
    status_is, shown, _ = on_terminal(arguments, env=machine(tick), **how)
    holds((status_is, shown) == (status, text), f"{arguments[0]}: {status_is} {shown!r}, and not {status} {text!r}")
    looks, wanted = len(read("looks").splitlines()), begins + every * text.count("leaves")
    holds(looks == wanted, f"{arguments[0]} looked at the clock {looks} times, and not {wanted} times")


def begins_at(levels, index, nodes=None):
    """The state gives this index next, and these nodes are kept, or none."""
    put("key.state", image(levels, index))
    if os.path.exists(NODES):
        os.remove(NODES)
    if nodes:
        put(NODES, nodes)


@test
def shows_each_count_once_and_wipes_it():
    """By `keygen`, `sign` by trees of three levels, all announced at once, by those that are not kept
    and by kept ones, and `batch` over the end of a tree. What computes no tree shows nothing."""
    shows(keygen("5/1,5/1,5/1"), 0, f"{counts(32)}{WIPED}capacity 32768\n")
    shows(sign(), 0, f"{counts(64)}{WIPED}index 0\n")
    shows(sign(), 0, "index 1\n", begins=0)
    begins_at(THREE, 1)
    shows(sign(), 0, f"{counts(96)}{WIPED}index 1\n")
    shows(VERIFY, 0, "valid\n", begins=0)
    put("jobs", job_lines(*[b"abc"] * 3))
    begins_at(THREE, 30)
    answers = "".join(f"{index} {signature_of(THREE, index, b'abc').hex()}\n" for index in (30, 31, 32))
    with open("jobs", "rb") as jobs:
        shows(BATCH, 0, f"{counts(128)}{WIPED}{answers}", stdin=jobs)
    numbers = "levels 5/1,5/1,5/1\ncounter 33\ncapacity 32768\nleft 32735\nopenings 1\nburnt 0\n"
    shows(INFO, 0, numbers, begins=0)


@test
def a_service_wipes_its_line_before_an_answer():
    put("jobs", job_lines(b"abc"))
    begins_at(THREE, 30)
    with open("jobs", "rb") as jobs:
        answer = f"30 {signature_of(THREE, 30, b'abc').hex()}\n"
        shows(SERVE, 0, f"{counts(32 + 32 + WINDOW)}{WIPED}{answer}", stdin=jobs)


@test
def a_service_wipes_its_line_where_its_input_has_none():
    begins_at(THREE, 30)
    shows(SERVE, 0, f"{counts(32 + 32 + WINDOW)}{WIPED}")


def tells(service, lines, leaves):
    """A `serve` tells so many leaves, each eight of them by a line, before it reads these lines or a part of
    one, or before it answers them."""
    service.write(lines)
    service.has_read()
    for _ in range(lines.count(b"\n")):
        service.line()
    is_told = select.select([service.running.stderr], [], [], 0)[0]
    told = os.read(service.running.stderr.fileno(), 65536).decode() if is_told else ""
    wanted = "".join(f"{at} of {leaves} leaves\n" for at in range(AT_ONCE, leaves + 1, AT_ONCE))
    holds(told == wanted, f"of {leaves} leaves it told {told[-200:]!r}")


@test
def a_service_computes_trees_before_it_reads():
    """All those that go with 1024 indices. No more are computed until the next ones are begun, and then none
    again that is there; nor at its end, nor where no index is left."""
    line = job_lines(b"abc")
    begins_at(THREE, WINDOW - 3)
    with Service(1, env=machine(PRINTED)) as it:
        tells(it, line[:30], 32 + 32 + WINDOW)
        tells(it, line[30:], 0)
        tells(it, 2 * line, 0)
        tells(it, line[:30], 0)
        tells(it, line[30:], 32 + WINDOW)
        tells(it, line, 0)
        it.finishes()
    begins_at(ONE, 32)
    with Service(1, env=machine(PRINTED)) as it:
        tells(it, line[:30], 0)
        it.running.kill()


@test
def announces_each_level():
    """Of the top tree alone `keygen` tells the leaves, and `sign` those of all trees."""
    for count in range(1, 9):
        levels = ((5, 1),) * count
        shows(keygen(",".join(["5/1"] * count)), 0, f"{counts(32)}{WIPED}capacity {32**count}\n")
        begins_at(levels, 0)
        shows(sign(), 0, f"{counts(32 * count)}{WIPED}index 0\n")
        os.remove("key.state")


@test
def wipes_before_a_fault():
    """Where no public key and no signature can be written, and where the state can't."""
    fault, reason = f"{counts(32)}{WIPED}error: cannot write", "No such file or directory"
    shows(keygen("5/1", public="none/key.pub"), 6, f"{fault} output\nnote: none/key.pub: {reason}\n")
    begins_at(ONE, 0)
    shows(sign(out="none/text.sig"), 6, f"{fault} output\nnote: none/text.sig: {reason}; index 0 is used\n")
    os.remove("key.state")
    os.mkdir("key.state.new")
    shows(keygen("5/1"), 3, f"{fault} state\nnote: info tells whether the key is stored; none of its indices is used\n")


@test
def begins_anew():
    """Kept nodes turn out to be wrong once a tree is computed: then all leaves are announced, and
    counted from none on."""
    begins_at(TWO, 64, checked(TWO, kept_parts(45, wrong_way(TWO, 45, 0, 2))))
    put("key.pub", public_of(TWO))
    shows(sign(), 0, f"{counts(32)}{counts(64)}{WIPED}index 64\n", begins=2)
    shows(VERIFY, 0, "valid\n", begins=0)


@test
def tells_no_progress_but_its_own():
    """A key of very many signatures begins once, with the leaves of its top tree."""
    for text, capacity in [("5/1,25/8", 2**30), ("5/1,25/8,25/8,5/8", 2**60), ("10/1,25/8", 2**35)]:
        leaves = 1024 if text.startswith("10") else 32
        shows(keygen(text), 0, f"{counts(leaves)}{WIPED}capacity {capacity}\n")
        os.remove("key.state")


@test
def shows_a_count_twice_a_second():
    """And elsewhere prints one every ten seconds. Where less has passed, none is due."""
    shows(keygen("5/1"), 0, f"{counts(32, every=2)}{WIPED}capacity 32\n", tick=SHOWN - 1, every=2)
    os.remove("key.state")
    for tick, wanted in [(PRINTED, [8, 16, 24, 32]), (PRINTED - 1, [16, 32]), (SHOWN, [])]:
        ran = run(keygen("5/1"), env=machine(tick))
        text = "".join(f"{at} of 32 leaves\n" for at in wanted)
        holds((ran.returncode, ran.stdout, ran.stderr) == (0, "capacity 32\n", text), f"{ran.returncode} {ran.stdout!r} {ran.stderr!r}")
        os.remove("key.state")


@test
def shows_no_count_by_a_clock_that_does_not_go_on():
    """It can't be read, stands at zero or at a later time, or goes back."""
    for tick, stands in [(SHOWN, {"CLOCK": seconds}) for seconds in (-1, 0, 1000)] + [(-SHOWN, {})]:
        found = on_terminal(keygen("5/1"), env=machine(tick, **stands))
        holds(found == (0, "capacity 32\n", ""), f"on a terminal, by {tick} {stands}: {found}")
        os.remove("key.state")
        ran = run(keygen("5/1"), env=machine(20 * tick, **stands))
        holds((ran.returncode, ran.stdout, ran.stderr) == (0, "capacity 32\n", ""), f"elsewhere, by {tick} {stands}: {ran}")
        os.remove("key.state")


@test
def shows_a_line_where_errors_go():
    """What the other stream is does not matter."""
    found = on_terminal(keygen("5/1"), ["stderr"], env=machine(SHOWN))
    holds(found == (0, counts(32) + WIPED, "capacity 32\n"), f"errors on a terminal: {found}")
    os.remove("key.state")
    found = on_terminal(keygen("5/1"), ["stdout"], env=machine(PRINTED))
    lines = "".join(f"{at} of 32 leaves\n" for at in range(8, 33, 8))
    holds(found == (0, "capacity 32\n", lines), f"the output on a terminal: {found}")


@test
def shows_a_taller_tree_by_the_clock_of_the_machine():
    """A line comes at most twice a second, each with more leaves than the one before, and the last one is
    wiped before the result."""
    began = time.monotonic()
    status, shown, _ = on_terminal(keygen("15/4"), env=preload("machine", PROCESSORS=1))
    most = 2 * (time.monotonic() - began)
    line, wiped = r"(\d+) of 32768 leaves", re.escape(WIPED)
    holds(status == 0 and re.fullmatch(f"(?:{wiped}{line})+{wiped}capacity 32768\n", shown), f"{status} {shown!r}")
    told = [int(it) for it in re.findall(line, shown)]
    holds(told == sorted(set(told)) and told[-1] <= 2**15 and len(told) <= most, f"{told} in {most / 2} seconds")


@test
def shows_one_line_of_those_due_at_once():
    """A thread for each of 32 processors looks at the clock with its first leaves, all of them together.
    One count is shown, and the clock stands still from then on."""
    status, shown, _ = on_terminal(keygen("10/1"), env=machine(SHOWN, 32, MANY=32))
    wanted = rf"{re.escape(WIPED)}\d+ of 1024 leaves{re.escape(WIPED)}capacity 1024\n"
    holds(status == 0 and re.fullmatch(wanted, shown), f"keygen: {status} {shown!r}")


def taken_between_looks():
    """How much of the processor the program took from one look at the clock to the next."""
    looks = [int(it) for it in read("looks").split()]
    return [after - before for before, after in zip(looks, looks[1:])]


def begins_to_tell(arguments, leaves):
    """The program tells the first of so many leaves, as each count is due: eights of the bottom subtree that
    is kept, and then whole ones. It is killed then."""
    how = {"stdin": subprocess.DEVNULL, "stdout": subprocess.DEVNULL, "stderr": subprocess.PIPE, "text": True, "env": machine(PRINTED)}
    with subprocess.Popen([PROGRAM, *arguments], **how) as running:
        try:
            lines = [running.stderr.readline() for _ in BEGINNING]
        finally:
            running.kill()
    holds(lines == [f"{at} of {leaves} leaves\n" for at in BEGINNING], f"of {leaves} leaves it told {lines[:3]} .. {lines[-7:]}")


@test
def tells_each_leaf_of_the_tallest_trees():
    for text, leaves in [("20/1", 2**20), ("25/1", 2**25)]:
        begins_to_tell(keygen(text, state=f"{leaves}.state"), leaves)
    put("key.state", image(((25, 1), (25, 1)), 0))
    begins_to_tell(sign(), 2**26)


@test
def tells_no_leaf_before_it_is_computed():
    """From the beginning to the first count it takes no less of a processor than from one count to the
    next; nor with the roots of bottom subtrees, whose leaves are told together."""
    ran = run(keygen("10/4"), env=machine(PRINTED))
    holds(ran.returncode == 0, f"keygen ended with {ran.returncode}: {ran.stderr}")
    taken = taken_between_looks()
    holds(len(taken) == 1024 // AT_ONCE, f"{len(taken)} counts")
    holds(taken[0] > EARLY * statistics.median(taken), "the first leaves were told before they were computed")
    begins_to_tell(keygen("15/1", state="tall.state"), 2**15)
    taken = taken_between_looks()[len(BEGINNING) - 5 : len(BEGINNING)]
    holds(taken[0] > EARLY * statistics.median(taken), "the leaves of a bottom subtree were told before they were computed")
