"""`serve` over job lines as they come: by bytes, lines and groups, over the edges of windows, and how it
ends by its input and by its output.

Its input is a pipe that stays open, or a file, of which it is known what its reads bring together. How many
groups there were is seen by the openings that the state counts. Answers are compared with Python's, or with
those of a `batch` over a copy of the state."""

import hashlib
import itertools
import os
import pathlib
import resource

from tests.harness import Skipped, Wrong, holds, test
from tests.merge_check.service import ABC, BLOCK, LONGEST_LINE, Service, answer, groups_in
from tests.program import BATCH, SERVE, fails, has, job_lines, put, read, run
from tests.reference import RANDOMIZER, image

ONE, TWO, THREE = (((5, 4),) * count for count in (1, 2, 3))
CAPACITY = 2**15
RANDOM = RANDOMIZER.hex().encode()
EXHAUSTED = "exhausted: 0 left"
# How many bytes more may be held after many lines than after a few, and how many files.
MOST_GROWTH, MOST_FILES = 2**22, 32


def all_answers(levels, first, *messages):
    """The answer lines of these messages, one after another."""
    return b"".join(answer(levels, first + at, it) for at, it in enumerate(messages))


def serves(lines, status, output, fault="", workers=2):
    """A `serve` of these lines, which a file has, ends so, prints this, and says this fault, if any."""
    put("jobs", lines)
    with open("jobs", "rb") as jobs, Service(workers, stdin=jobs) as it:
        try:
            it.ends(status, fault, output)
        except Wrong as why:
            raise Wrong(f"{len(lines)} bytes of lines, {lines[64:100]}..: {why}") from why


def by_batches(levels, index, *lines):
    """The answers of batches of these lines, one after another, from an index on."""
    put("key.state", image(levels, index))
    printed = b""
    for it in lines:
        ran = run(BATCH, input=it, text=False)
        holds(ran.returncode == 0, f"the batch ended with {ran.returncode}: {ran.stderr}")
        printed += ran.stdout
    return printed


@test
def answers_each_line_at_once():
    """While its input stays open, also while half of the next line is there. The state counts the index by
    then."""
    put("key.state", image(TWO, 30))
    half = job_lines(b"half")
    with Service() as it:
        for at in range(4):
            it.write(job_lines(bytes([at]) * at))
            it.answers(answer(TWO, 30 + at, bytes([at]) * at))
            has("key.state", image(TWO, 31 + at, 1 + at))
        it.write(ABC + half[:40])
        it.answers(answer(TWO, 34))
        it.has_read()
        has("key.state", image(TWO, 35, 5))
        it.write(half[40:] + ABC[:-1])
        it.answers(answer(TWO, 35, b"half"))
        it.has_read()
        has("key.state", image(TWO, 36, 6))
        it.write(b"\n")
        it.answers(answer(TWO, 36))
        it.finishes()
    has("key.state", image(TWO, 37, 7))


@test
def takes_its_input_byte_by_byte():
    """Each is read before the next one is written."""
    put("key.state", image(ONE, 5))
    with Service(1) as it:
        for at, message in enumerate([b"", b"abc", b"\0"]):
            for byte in job_lines(message):
                it.has_read()
                it.write(bytes([byte]))
            it.answers(answer(ONE, 5 + at, message))
        it.finishes()
    has("key.state", image(ONE, 8, 3))


@test
def answers_groups_as_a_batch_does():
    """More lines than its reads bring together, with messages of many lengths and randomizers of their own,
    by each number of workers. The state is stored once for each group."""
    jobs = [hashlib.shake_256(bytes([at % 256, at // 256])).digest(37 * at % 700 + 32) for at in range(300)]
    lines = b"".join(job_lines(it[32:], randomizer=it[:32]) for it in jobs)
    groups = groups_in(lines, 1000)
    holds(len(groups) > 3 and groups[0] == 24, f"the groups are {groups}")
    answers = by_batches(THREE, 1000, lines)
    for workers in (1, 2, 64):
        put("key.state", image(THREE, 1000))
        serves(lines, 0, answers, workers=workers)
        has("key.state", image(THREE, 1300, len(groups)))


@test
def goes_on_over_the_edges_of_windows():
    """A group ends at such an edge. The last one is the end of the key."""
    put("key.state", image(THREE, 1022))
    with Service() as it:
        for index, count in [(1022, 1), (1023, 3), (1026, 2)]:
            it.write(ABC * count)
            it.answers(*(answer(THREE, index + at) for at in range(count)))
        it.finishes()
    has("key.state", image(THREE, 1028, 4))
    for first, lines, count, groups, status in [(2047, 2, 2, 2, 0), (CAPACITY - 2, 3, 2, 1, 4)]:
        put("key.state", image(THREE, first))
        serves(ABC * lines, status, all_answers(THREE, first, *[b"abc"] * count), EXHAUSTED if status else "")
        has("key.state", image(THREE, first + count, groups))


@test
def goes_on_as_batches_do():
    """Over such an edge by trees of each kind: those of the bottom level, of those above, and a part of a tall
    one. And over two edges, by all indices in between."""
    for levels in (((5, 1), (10, 1)), ((10, 1), (5, 1)), ((10, 2), (5, 1), (5, 2), (5, 4)), ((15, 2),)):
        answers = by_batches(levels, 2045, ABC * 6)
        put("key.state", image(levels, 2045))
        serves(ABC * 6, 0, answers)
        has("key.state", image(levels, 2051, 2))
    levels = ((5, 4), (10, 4))
    lines, answers = ABC * 1028, by_batches(levels, 1022, ABC * 1024, ABC * 4)
    put("key.state", image(levels, 1022))
    serves(lines, 0, answers, workers=3)
    has("key.state", image(levels, 2050, len(groups_in(lines, 1022))))


def files():
    """Each file with its bytes, which file it is, and when it was written, but for the lock and an input."""
    found = {name: os.stat(name) for name in os.listdir() if name not in ("key.state.lock", "jobs")}
    return {name: (read(name), it.st_ino, it.st_mtime_ns) for name, it in found.items()}


@test
def an_empty_input_changes_nothing():
    """Of either version of the state, with indices left and without."""
    for text in (image(TWO, 5, 2, 1), image(TWO, 5, version=1), image(ONE, 32, 3)):
        put("key.state", text)
        before = files()
        serves(b"", 0, b"")
        with Service() as it:
            it.finishes()
        holds(files() == before, f"other files than {sorted(before)}, or other bytes")


@test
def the_last_line_may_lack_its_end():
    put("key.state", image(ONE, 0, version=1))
    for at, message in enumerate([b"abc", b""]):
        serves(job_lines(message)[:-1], 0, answer(ONE, at, message))
    serves(job_lines(b"abc", b"a")[:-1], 0, all_answers(ONE, 2, b"abc", b"a"))
    with Service() as it:
        it.write(ABC)
        it.answers(answer(ONE, 4))
        it.write(ABC[:-1])
        it.has_read()
        it.finishes(answer(ONE, 5))
    has("key.state", image(ONE, 6, 6))


@test
def answers_all_lines_before_a_bad_one():
    """In the same read and in earlier ones. It is told with its number in the whole input, and no line behind
    it is answered."""
    ends_of_lines = [b"", b"\n", b" 6162\r\n", b"  6162\n", b" 616\n", b" 61 62\n", b" 6g\n"]
    for bad in [b"\n", RANDOM[1:] + b" 61\n", *(RANDOM + it for it in ends_of_lines)]:
        put("key.state", image(ONE, 5))
        with Service() as it:
            it.write(ABC * 2)
            it.answers(answer(ONE, 5), answer(ONE, 6))
            it.write(ABC + bad + ABC)
            it.answers(answer(ONE, 7))
            it.ends(2, "line 4: bad job")
        has("key.state", image(ONE, 8, 2))
    put("key.state", image(ONE, 5))
    before = files()
    for lines in (b"\n", b"\n" + ABC, ABC[:-2], b"\n" * 2000):
        serves(lines, 2, b"", "line 1: bad job")
    holds(files() == before, "something was written")
    serves(ABC * 3 + ABC[:-2], 2, all_answers(ONE, 5, *[b"abc"] * 3), "line 4: bad job")


@test
def gives_the_first_lines_what_is_left():
    """A line that has no index ends it, whatever is behind it, and the end of the input does not."""
    bad = b"bad\n"
    for used, lines, count, status, fault in [
        (0, ABC * 40, 32, 4, EXHAUSTED),
        (0, ABC * 32, 32, 0, ""),
        (27, ABC * 8, 5, 4, EXHAUSTED),
        (27, ABC * 6 + bad, 5, 4, EXHAUSTED),
        (27, ABC * 5 + bad + ABC, 5, 2, "line 6: bad job"),
        (27, ABC * 3 + bad + ABC * 5, 3, 2, "line 4: bad job"),
        (32, ABC + bad, 0, 4, EXHAUSTED),
        (32, bad + ABC, 0, 2, "line 1: bad job"),
    ]:
        put("key.state", image(ONE, used, 0))
        serves(lines, status, all_answers(ONE, used, *[b"abc"] * count), fault)
        has("key.state", image(ONE, used + count, min(count, 1)))
    put("key.state", image(ONE, 31))
    with Service() as it:
        it.write(ABC)
        it.answers(answer(ONE, 31))
        it.write(ABC)
        it.ends(4, EXHAUSTED)


def held_by(running):
    """The most bytes of memory that a program has had."""
    try:
        text = pathlib.Path(f"/proc/{running.pid}/status").read_text(encoding="ascii")
    except OSError as why:
        raise Skipped(f"what a program holds can't be read here: {why}") from why
    return 1024 * next(int(it.split()[1]) for it in text.splitlines() if it.startswith("VmHWM:"))


@test
def holds_nothing_of_lines_that_are_answered():
    """Lines of the greatest length: after many the program has had no more memory than after a few, nor more
    files."""
    message, held = bytes(range(256)) * 256, []
    put("key.state", image(THREE, 0))
    with Service() as it:
        resource.prlimit(it.running.pid, resource.RLIMIT_NOFILE, (MOST_FILES, MOST_FILES))
        for index in range(80):
            it.write(job_lines(message))
            found = it.line()
            holds(index % 40 or found == answer(THREE, index, message), f"another answer by index {index}")
            held.append(held_by(it.running))
        it.finishes()
    holds(held[-1] < held[9] + MOST_GROWTH, f"after ten lines it had had {held[9]} bytes, and after all {held[-1]}")


@test
def refuses_a_line_without_end():
    """By its first byte that is one too many, while its input stays open; by 300,000 bytes in a file; and
    where there is no end, of which it takes no more than it needs."""
    put("key.state", image(ONE, 5))
    longest = bytes(65536)
    with Service() as it:
        it.write(job_lines(longest)[:-1])
        it.has_read()
        it.write(b"\n" + b"0" * LONGEST_LINE)
        it.answers(answer(ONE, 5, longest))
        it.has_read()
        it.write(b"0")
        it.ends(2, "line 2: bad job")
    serves(ABC * 2 + RANDOM + b" " + b"0" * 300000, 2, all_answers(ONE, 6, b"abc", b"abc"), "line 3: bad job")
    serves(ABC + RANDOM + b" " + b"0" * 131074 + b"\n" + ABC, 2, answer(ONE, 8), "line 2: bad job")
    written = 0
    with Service() as it:
        it.write(ABC)
        it.answers(answer(ONE, 9))
        try:
            for written in itertools.count(1):
                it.write(b"0" * BLOCK)
        except BrokenPipeError:
            pass
        it.ends(2, "line 2: bad job")
    holds(written <= 6, f"it read more than {written - 2} blocks of a line without an end")
    has("key.state", image(ONE, 10, 4))


@test
def refuses_what_can_not_be_read():
    put("key.state", image(ONE, 5))
    before = files()
    folder = os.open(".", os.O_RDONLY)
    for words in (SERVE, BATCH):
        fails(words, 6, "cannot read input", stdin=folder)
    os.close(folder)
    with open("/dev/zero", "rb") as zeros:
        fails(SERVE, 2, "line 1: bad job", stdin=zeros)
    holds(files() == before, "something was written")


@test
def refuses_numbers_of_workers():
    put("key.state", image(ONE, 5))
    before = files()
    for workers in ("", "0", "65", "01", "+1", "2x", "100"):
        fails([*SERVE[:-1], workers], 2, "bad workers", input=ABC.decode())
    holds(files() == before, "something was written")
    for at, workers in enumerate(("1", "9", "64")):
        serves(ABC, 0, answer(ONE, 5 + at), workers=workers)


@test
def ends_where_nobody_reads_its_answers():
    """The indices are used. So it does where there is no space for them."""
    put("key.state", image(ONE, 5))
    with Service() as it:
        it.write(ABC)
        it.answers(answer(ONE, 5))
        it.running.stdout.close()
        it.write(ABC * 2)
        it.ends(6, "cannot write output")
    has("key.state", image(ONE, 8, 2))
    with open("/dev/full", "wb") as full, Service(stdout=full) as it:
        it.write(ABC)
        it.ends(6, "cannot write output")
    has("key.state", image(ONE, 9, 3))
