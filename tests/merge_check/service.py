"""A `serve` that runs beside a test, and inputs of which it is known which lines it reads together."""

import fcntl
import os
import select
import subprocess
import termios
import time

from tests.harness import holds
from tests.program import PROGRAM, SERVE, job_lines, without_counts
from tests.reference import signature_of
from tests.seeds import keeps_secret

# How many bytes it asks for at once, how many indices its trees are of, and how many bytes a job line
# has at most before its end.
BLOCK, WINDOW, LONGEST_LINE = 65536, 1024, 131137
# How many seconds it has for whatever a test waits for, and for all lines of a file.
SECONDS, SECONDS_OF_A_FILE = 60, 600
# A job line.
ABC = job_lines(b"abc")


def answer(levels, index, message=b"abc"):
    """The answer line of an index."""
    return b"%d %s\n" % (index, signature_of(levels, index, message).hex().encode())


def messages_of_groups(*counts):
    """Messages whose job lines, in a file, are read as groups of so many: each group but the first begins with
    a line that ends behind the block that the read before has brought."""
    messages, length = [], 0
    for count in counts:
        first = b"abc"
        if messages:
            to_the_end_of_a_block = BLOCK - length % BLOCK
            first = bytes((to_the_end_of_a_block - 66) // 2 + 1)
        messages += [first, *[b"abc"] * (count - 1)]
        length += sum(66 + 2 * len(it) for it in messages[-count:])
    return messages


def groups_in(lines, index=0):
    """How many lines each group of a file of these lines has, from this index on, if none is refused: those of
    which the end was read, but none past the window of the first. Only where there is none more is read."""
    groups, held, at = [], b"", 0
    while True:
        count = min(held.count(b"\n"), WINDOW - index % WINDOW)
        if count:
            groups.append(count)
            index += count
            held = held.split(b"\n", count)[count]
        elif at < len(lines):
            held += lines[at : at + BLOCK]
            at += BLOCK
        else:
            return groups + [1] * bool(held)


class Service:
    """A `serve` by so many workers. Its input is a pipe that stays open, and so are its output and its
    errors, where nothing else is said."""

    def __init__(self, workers=2, **how):
        self.arguments, self.rest, self.began = [*SERVE[:-1], str(workers)], b"", time.monotonic()
        self.seconds = SECONDS_OF_A_FILE if "stdin" in how else SECONDS
        how = {**dict.fromkeys(("stdin", "stdout", "stderr"), subprocess.PIPE), "bufsize": 0, **how}
        self.running = subprocess.Popen([PROGRAM, *self.arguments], **how)
        if self.running.stdin:
            os.set_blocking(self.running.stdin.fileno(), False)

    def __enter__(self):
        return self

    def __exit__(self, *_):
        self.running.kill()
        self.running.wait()
        for stream in (self.running.stdin, self.running.stdout, self.running.stderr):
            if stream:
                stream.close()

    def write(self, contents):
        """Writes to its input, at once where so much is free in the pipe."""
        last, pipe = time.monotonic() + SECONDS, self.running.stdin.fileno()
        while contents:
            holds(select.select([], [pipe], [], max(0, last - time.monotonic()))[1], f"it did not read its input in {SECONDS} seconds")
            contents = contents[os.write(pipe, contents) :]

    def has_read(self):
        """Waits until it has read all that was written. So it has opened its state, too."""
        last = time.monotonic() + SECONDS
        while any(fcntl.ioctl(self.running.stdin.fileno(), termios.FIONREAD, bytes(4))):
            holds(self.running.poll() is None, f"it ended with {self.running.returncode}, and has not read all")
            holds(time.monotonic() < last, f"it did not read its input in {SECONDS} seconds")
            time.sleep(0.001)

    def line(self):
        """The next line that it prints."""
        last, output = time.monotonic() + SECONDS, self.running.stdout.fileno()
        while b"\n" not in self.rest:
            holds(select.select([output], [], [], max(0, last - time.monotonic()))[0], f"it printed no line in {SECONDS} seconds")
            part = os.read(output, BLOCK)
            holds(part, f"it ended before it printed a line, and printed {self.rest[-100:]!r}")
            self.rest += part
        found, _, self.rest = self.rest.partition(b"\n")
        return found + b"\n"

    def answers(self, *wanted):
        """It prints these lines next."""
        for it in wanted:
            found = self.line()
            holds(found == it, f"it answered {found[:100]}, and not {it[:100]}")

    def said(self):
        """All that it prints from here on, and its errors, once it ends by itself."""
        streams = {"stdout": self.running.stdout, "stderr": self.running.stderr}
        numbers = {name: it.fileno() for name, it in streams.items() if it and not it.closed}
        parts, last = {it: [] for it in numbers.values()}, time.monotonic() + self.seconds
        left = set(parts)
        while left:
            ready = select.select(left, [], [], max(0, last - time.monotonic()))[0]
            holds(ready, f"it did not end in {self.seconds} seconds")
            for it in ready:
                parts[it].append(os.read(it, BLOCK))
                if not parts[it][-1]:
                    left.remove(it)
        self.running.wait(self.seconds)
        output, errors = (b"".join(parts.get(numbers.get(name), [])) for name in streams)
        keeps_secret(self.arguments, (self.rest + output, errors))
        return self.rest + output, without_counts(errors.decode(), self.began)

    def ends(self, status, fault="", output=b""):
        """It ends with this status, by itself or since its input has ended, and says this fault, if any; it
        prints this, and nothing more."""
        found, errors = self.said()
        wanted = f"error: {fault}\n" if fault else ""
        said = f"{self.running.returncode} {errors!r}, and not {status} {wanted!r}"
        holds((self.running.returncode, errors) == (status, wanted), f"it ended with {said}; it printed {found[:100]}")
        holds(found == output, f"it printed {found[:100]}, and not {output[:100]}")

    def finishes(self, output=b""):
        """Its input ends, and so it ends well, and prints this, and nothing more."""
        self.running.stdin.close()
        self.ends(0, output=output)
