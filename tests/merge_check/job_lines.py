"""`batch` over job lines at the ends of what it takes and over ones that it refuses, and how many
threads sign at once.

Each batch is run by 1, 2 and 64 workers. A refusal answers nothing and leaves the bytes of the
state."""

import os

from tests.harness import holds, test
from tests.program import BATCH, VERIFY, Lock, described, ends, fails, has, job_lines, keygen, preload, put, read, run
from tests.reference import RANDOMIZER, image, public_of, signature_by, signature_of, way_of

RANDOM = RANDOMIZER.hex()
ONE, TWO = ((5, 8),), ((5, 8), (5, 8))


class State:
    """A state of 5/8 of which so many indices are used, after so many openings."""

    def __init__(self, used, openings):
        self.used, self.openings = used, openings
        ends(keygen(), 0, "capacity 32\n")
        if used:
            ran = run(["batch", "--state", "key.state", "--workers", "1"], input=job_lines(*[b"abc"] * used), text=False)
            holds(ran.returncode == 0, f"{used} jobs: {ran.stderr}")
        self.bytes = read("key.state")

    def ended(self, jobs, workers, status, errors):
        """A batch of these lines by these workers ends so, and prints these errors. What it
        answers."""
        put("key.state", self.bytes)
        ran = run(["batch", "--state", "key.state", "--workers", workers], input=jobs, text=False)
        said = f"a batch by the workers {workers!r}: {ran.returncode} {ran.stderr}, of {jobs[:200]}"
        holds((ran.returncode, ran.stderr.decode()) == (status, errors), said)
        return ran.stdout

    def does_nothing(self, jobs, workers, status, errors=""):
        """It ends so, answers nothing, and leaves the state as it was."""
        holds(self.ended(jobs, workers, status, errors) == b"", f"a batch by the workers {workers!r} of {jobs[:200]} answered")
        has("key.state", self.bytes)

    def refuses(self, jobs, status, line):
        """The lines are refused so, by each number of workers."""
        for workers in ("1", "2", "64"):
            self.does_nothing(jobs, workers, status, f"error: {line}\n")

    def answers(self, jobs, message):
        """The one line is answered by the next index, which alone is used, by each number of
        workers."""
        for workers in ("1", "2", "64"):
            answer = self.ended(jobs, workers, 0, "")
            wanted = f"{self.used} {signature_of(ONE, self.used, message).hex()}\n".encode()
            holds(answer == wanted, f"another answer to {jobs[:200]}: {answer[:200]}")
            described("5/8", self.used + 1, 32, self.openings + 1, 0)


def line(message, end="\n", random=RANDOM):
    """A job line, of which the message is given by its digits."""
    return f"{random} {message}{end}".encode()


ABC = line("616263")


@test
def takes_the_shortest_line_of_a_new_key():
    """And refuses a line more than there are indices."""
    state = State(0, 0)
    state.answers(line("", ""), b"")
    state.refuses(ABC * 33, 4, "exhausted: 32 left")


@test
def answers_over_the_end_of_a_tree():
    """Jobs with randomizers and messages of their own, by the last two indices of a tree and the
    first two of the next one, whoever signs which."""
    jobs = [(bytes([at]) + RANDOMIZER[1:], bytes([at]) + b"bc") for at in range(4)]
    lines = b"".join(job_lines(message, randomizer=randomizer) for randomizer, message in jobs)
    signatures = [signature_by(way_of(TWO, 30 + at), message, randomizer) for at, (randomizer, message) in enumerate(jobs)]
    wanted = "".join(f"{30 + at} {it.hex()}\n" for at, it in enumerate(signatures))
    for workers in ("1", "2", "64"):
        put("key.state", image(TWO, 30))
        ends([*BATCH[:-1], workers], 0, wanted, input=lines.decode())
        has("key.state", image(TWO, 34, 1))
    put("key.pub", public_of(TWO))
    for (_, message), signature in zip(jobs, signatures):
        put("text", message)
        put("text.sig", signature)
        ends(VERIFY, 0, "valid\n")


@test
def asks_for_the_state_before_the_lines():
    """And for the number of workers before both. The one line is bad."""

    def refuses(status, fault, workers="1"):
        fails([*BATCH[:-1], workers], status, fault, input="\n")

    put("key.state", image(ONE, 5))
    with Lock():
        refuses(2, "bad workers", workers="0")
        refuses(3, "state in use")
    refuses(2, "line 1: bad job")
    put("key.state", b"HSSK")
    refuses(3, "bad state: Truncated")
    os.remove("key.state")
    refuses(3, "cannot read state")


@test
def refuses_numbers_of_workers():
    """And takes no lines by each number that there is."""
    state = State(5, 1)
    for workers in ("", "0", "65", "01", "+1", "1 ", " 1", "2x", "100", "18446744073709551617"):
        state.does_nothing(b"", workers, 2, "error: bad workers\n")
    for workers in ("1", "2", "9", "10", "64"):
        state.does_nothing(b"", workers, 0)


@test
def takes_the_shortest_and_the_longest_line():
    """And refuses one that is longer by a byte."""
    state = State(5, 1)
    state.answers(line("", ""), b"")
    state.answers(line("A" * 131072, ""), b"\xaa" * 65536)
    state.refuses(line("A" * 131074, ""), 2, "line 1: bad job")


@test
def refuses_bad_lines():
    """The second of two lines is cut, empty, or has other digits or blanks than a job line, or
    another end."""
    state = State(5, 1)
    for end in ("", "\n", " 6162\r\n", "  6162\n", " 616\n", " 61 62\n", " 6g\n"):
        state.refuses(ABC + f"{RANDOM}{end}".encode(), 2, "line 2: bad job")
    state.refuses(ABC + b"\n", 2, "line 2: bad job")
    state.refuses(ABC + line("61", random=RANDOM[1:]), 2, "line 2: bad job")
    state.refuses(ABC + line("", "", random=RANDOM[1:]), 2, "line 2: bad job")


@test
def refuses_too_many_lines():
    """More than a batch takes, and more than there are indices. A bad line before them is reported
    first."""
    state = State(5, 1)
    state.refuses(ABC * 1025, 2, "too many jobs")
    state.refuses(ABC * 2 + b"\n" + ABC * 1025, 2, "line 3: bad job")
    state.refuses(ABC * 28, 4, "exhausted: 27 left")


@test
def signs_by_as_many_threads_as_workers():
    """No thread has its first signature, of 8980 bytes, before the last one is about to make its
    own. They print what one worker prints."""
    ends(keygen("5/2,5/2"), 0, "capacity 1024\n")
    state = read("key.state")
    # (No more workers than jobs sign.)
    for jobs, workers, threads in [*((64, workers, workers) for workers in (1, 2, 3, 4, 64)), (3, 64, 3)]:
        printed = []
        for number, environment in [(1, None), (workers, preload("together", SIZE=8980, MANY=threads, CAME="came"))]:
            put("key.state", state)
            put("came", b"")
            ran = run(["batch", "--state", "key.state", "--workers", str(number)], input=ABC * jobs, text=False, env=environment)
            holds((ran.returncode, ran.stderr) == (0, b""), f"{jobs} jobs by {number} workers: {ran.returncode} {ran.stderr}")
            printed.append(ran.stdout)
        holds(len(read("came")) == threads, f"{jobs} jobs by {workers} workers: {len(read('came'))} threads signed, and not {threads}")
        holds(printed[0] == printed[1], f"{jobs} jobs by {workers} workers: other answers")
