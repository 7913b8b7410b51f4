"""One run of the program as a life of `random_lives`: what becomes of it, and what it gave. And how lives ended."""

import collections
import pathlib
import subprocess
import threading
import time

from tests.harness import Wrong, holds
from tests.program import PROGRAM, index_in, job_lines, preload, put, sign, without_counts
from tests.seeds import keeps_secret

MESSAGE = b"a message"
# How many bytes a job line has.
LINE = len(job_lines(MESSAGE))
OLDER = "error: state is older than its witness\n"


class Totals:
    """What has happened so far, counted by all threads."""

    def __init__(self, lives, end, ignored):
        self.lock, self.lives, self.end, self.ignored = threading.Lock(), lives, end, ignored
        self.counts, self.endings = collections.Counter(), collections.Counter()

    def count(self, what, more=1):
        """Counts so many more of these, and answers how many there are."""
        with self.lock:
            self.counts[what] += more
            return self.counts[what]

    def begins(self):
        """Whether there is to be another life, which is counted."""
        return time.monotonic() < self.end and self.count("lives") <= self.lives

    def ended(self, what):
        """Counts how a life ended."""
        with self.lock:
            self.endings[what] += 1


class Life:
    """One run of the program on a key's state."""

    def __init__(self, key, number):
        dice = key.dice
        self.key, self.name = key, f"{key.folder}/{number}"
        self.command = dice.choices(["sign", "batch", "serve"], [50, 25, 25])[0]
        self.jobs = 1 if self.command == "sign" else dice.choice([0, 1, 1, 2, 2, 3, 3, 4, 6, 9, 33])
        self.workers = dice.choice([1, 2, 2, 3, 4])
        self.fault = dice.choices(["none", "stop", "fail", "refuse", "kill", "full"], [30, 20, 22, 8, 15, 5])[0]
        self.settings = {}
        operations = {"sign": 50, "batch": 75, "serve": 200}[self.command]
        if self.fault == "stop":
            self.settings = {"STOP": dice.randint(1, operations)}
        elif self.fault == "fail":
            first = dice.randint(1, operations)
            self.settings = {"FAIL": first, "LAST": first + dice.choice([0, 0, 0, 1, 2, 5, 1000])}
            if dice.random() < 0.5:
                self.settings["LATE"] = 1
        elif self.fault == "refuse":
            self.settings = {"REFUSE": dice.randint(1, 160)}
        if self.command == "serve" and self.fault != "refuse" and dice.random() < 0.7:
            self.settings["TAKE"] = dice.choice([LINE, LINE, 2 * LINE, 2 * LINE + 1, 5 * LINE])
        # (It computes the trees of all indices that are near.)
        self.patience = dice.choice([1, 3, 10]) if self.command == "serve" else 1
        self.moment, self.power, self.record = dice.random() * 1.2, None, None

    def arguments(self):
        """What the program is asked for."""
        state = f"{self.key.folder}/key.state"
        if self.command != "sign":
            return [self.command, "--state", state, "--workers", str(self.workers)]
        to = "/dev/full" if self.fault == "full" and self.moment < 0.6 else f"{self.name}.sig"
        return sign(f"{self.key.folder}/text", to, state=state)

    def start(self):
        """Starts the program."""
        libraries = ["refuse" if self.fault == "refuse" else "stop"] if self.settings else []
        settings = dict(self.settings)
        if self.power:
            # (After the other one it sees what is done of an operation that fails.)
            libraries.append("record")
            settings["RECORD"] = self.record = f"{self.name}.record"
        put(f"{self.name}.in", job_lines(*[MESSAGE] * self.jobs))
        to = "/dev/full" if self.fault == "full" and self.moment >= 0.6 else f"{self.name}.out"
        with open(f"{self.name}.in", "rb") as given, open(to, "wb") as output, open(f"{self.name}.err", "wb") as errors:
            how = {"stdin": given, "stdout": output, "stderr": errors, "env": preload(*libraries, **settings)}
            self.began = time.monotonic()
            self.process = subprocess.Popen([PROGRAM, *self.arguments()], **how)

    def wait(self):
        """Waits for its end, or for the moment at which it is killed."""
        try:
            moment = self.moment * self.key.seconds * self.patience
            self.status = self.process.wait(moment if self.fault == "kill" else 600)
        except subprocess.TimeoutExpired:
            self.process.kill()
            self.status = self.process.wait()
            holds(self.fault == "kill", f"{self.name}: it did not end")
        self.output, self.signature = self.read("out"), self.read("sig")
        self.errors = without_counts(self.read("err").decode(), self.began)
        keeps_secret(self.arguments(), (self.output, self.errors), self.key.folder, self.key.seeds, self.record)
        holds(self.status in (0, 1, 3, 4, 5, 6, -9), f"{self.name}: it ended with {self.status}: {self.errors}")

    def read(self, ending):
        """The bytes of one of its files, or none where it does not exist."""
        path = pathlib.Path(f"{self.name}.{ending}")
        return path.read_bytes() if path.exists() else b""

    def answers(self):
        """The indices that were given, each with its signature as far as that was written."""
        if self.command == "sign":
            printed = self.output.removeprefix(b"index ").removesuffix(b"\n") if self.output.endswith(b"\n") else b""
            found = index_in(self.signature, self.key.levels)
            if printed and found is not None and int(printed) != found:
                raise Wrong(f"{self.name}: index {printed.decode()} was printed, and {found} used")
            index = int(printed) if printed else found
            return [] if index is None else [(index, self.signature)]
        lines = [it.partition(b" ") for it in self.output.splitlines() if b" " in it]
        answers = [(int(index), bytes.fromhex(digits[: len(digits) // 2 * 2].decode())) for index, _, digits in lines]
        for index, signature in answers:
            holds(index_in(signature, self.key.levels) in (None, index), f"{self.name}: an answer with index {index} uses another one")
        return answers

    def check_end(self, before, answers, is_alone):
        """A life that ended well gave all that was asked for, and one without a fault ended well,
        or said why it could not."""
        whole = [index for index, signature in answers if len(signature) == self.key.length]
        ended = f"it ended with {self.status}: {self.errors}"
        if self.status == 0 and (len(whole) != self.jobs or len(answers) != self.jobs):
            raise Wrong(f"{self.name}: {len(whole)} of {self.jobs} signatures at a good end")
        if self.fault != "none":
            return
        left = self.key.capacity - before
        # (A `serve` gives the first lines what is left.)
        first = min(self.jobs, left) if self.jobs <= left or self.command == "serve" else 0
        if is_alone:
            holds(whole == list(range(before, before + first)), f"{self.name}: it gave {whole} from {before} on, and {ended}")
        if is_alone and self.jobs > left:
            is_right = (self.status, self.errors) == (4, f"error: exhausted: {left - first} left\n")
            holds(is_right, f"{self.name}: {self.jobs} of {left} indices, and {ended}")
        if not is_alone and self.status != 0:
            holds(self.errors == "error: state in use\n" or "exhausted" in self.errors, f"{self.name}: beside another one {ended}")

    def how(self):
        """How it ended, in a word."""
        if self.power:
            return f"lost power with the {'new' if self.power.is_state_new else 'old'} state"
        reason = "in use" if "in use" in self.errors else "exhausted" if "exhausted" in self.errors else "failed"
        reason = "refused" if self.errors == OLDER else reason
        return {0: "done", -9: "killed"}.get(self.status, reason)
