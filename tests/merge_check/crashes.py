"""The program killed at each of its operations on files and streams in turn, or with this operation
failing, alone or with all after it, or, beside a witness, with all on its medium alone from there on.

This is done to a `keygen`, to a `public`, to a `sign` by trees that it computes and keeps, to one by
kept trees, to an `endorse`, to a `batch` of three jobs, and to a `serve` of them, of which its reads bring two
and then one.
Then a `sign` and a `batch` follow. No index may be given twice, the next one is what the old state counts or
what a new one does, the new signature must be valid, and no draft of a file may be left. Once the second group
of a `serve` is counted, the answers of the first are whole.

It is done to `sign`, `endorse`, `batch` and `serve` beside a witness, too, and to a `witness` and a `resume`. The witness
is whole then, says no more than the state counts, and that all indices are used that were given. Where the state
or the witness alone is put back as it was, in a copy, a `sign` is refused or gives another index.

What is given away is whole, or as it was, at each of them: missing, or an older file of the same name."""

import concurrent.futures
import os
import pathlib
import shutil
import signal

from tests.harness import add_test, holds
from tests.merge_check.service import messages_of_groups
from tests.program import (
    BATCH, PLACE, SERVE, WITNESS, endorse, ends, index_in, job_lines, keygen, preload, public, resume, run, sign, verify, witness,
)
from tests.reference import public_of, witness_of

LEVELS = ((5, 2),)
# How many operations each command has; if the program changes, these change with it. Each opens
# /dev/null (1), acquires the lock (3, or 4 where there is no state) and stores the state by way of
# a draft (7). It may keep nodes by way of another one (5), find where a file is (2), write it by way of
# a draft (10, or 15 over an older one) and print a line (1). `keygen` looks whether there is a state (1).
# It and `public`, which reads the state (3) and stores none, flush the folder of their file (2). `sign`
# reads the message (4), the kept nodes (4, or 1 where there are none) and the state (3). `endorse` does what
# `sign` does, with a signer's key as the message, and prints a line more (1). `batch` reads the state (3) and
# the lines (3, the last of which brings none), and prints each answer by 8 writes. `serve` reads the state
# before the first of these reads and after each (12), and stores it twice. All but `public` look for a witness
# before they read the state (1). Where there is one it is read (4), a draft of the next one is made (9), and
# takes its place (5) or is removed (1). `witness` makes one (12) and prints by 3 writes; `resume` reads one and
# stores the state.
OPERATIONS = {"keygen": 34, "public": 22, "sign by trees": 38, "sign by kept trees": 41, "endorse": 37, "batch": 42, "serve": 61}
OPERATIONS |= {"sign beside a witness": 54, "endorse beside a witness": 55, "batch beside a witness": 60, "serve beside a witness": 125}
OPERATIONS |= {"witness": 23, "resume": 20}
# What each command is run with, which of the made files it finds, and the next index before it, after it, and
# between two groups.
KEYGEN, MADE_FILES = keygen("5/2"), ["key.pub", "key.state", "key.state.nodes"]
ENDORSE, SIGNER = endorse(out="first.sig"), public_of(LEVELS, identifier=b"\x66" * 16)
COMMANDS = {
    "keygen": (KEYGEN, [], [0]),
    "public": (public(name="again.pub"), MADE_FILES, [1]),
    "sign by trees": (sign(out="first.sig"), ["key.pub", "key.state"], [1, 2]),
    "sign by kept trees": (sign(out="first.sig"), MADE_FILES, [1, 2]),
    "endorse": (ENDORSE, MADE_FILES, [1, 2]),
    "batch": (BATCH, MADE_FILES, [1, 4]),
    "serve": (SERVE, MADE_FILES, [1, 3, 4]),
    "sign beside a witness": (sign(out="first.sig"), MADE_FILES, [1, 2]),
    "endorse beside a witness": (ENDORSE, MADE_FILES, [1, 2]),
    "batch beside a witness": (BATCH, MADE_FILES, [1, 4]),
    "serve beside a witness": (SERVE, MADE_FILES, [1, 3, 4]),
    "witness": (witness(1), MADE_FILES, [1]),
    "resume": (resume(3), MADE_FILES, [3]),
}
# What each command gives away, and which of them finds an older file of that name.
GIVEN = {"keygen": "key.pub", "public": "again.pub", "sign": "first.sig", "endorse": "first.sig"}
OLDER_FILE, OVER = b"older", "sign by kept trees"
# What the witness says that a command finds, if any.
SAYS = {"sign beside a witness": 1, "endorse beside a witness": 1, "batch beside a witness": 1, "serve beside a witness": 1, "resume": 3}
OLDER = b"error: state is older than its witness\n"
# How the command ends where it meets the operation.
STATUSES = {"killed": [-signal.SIGKILL], "failed": [3, 5, 6], "failed alone": [0, 3, 5, 6], "with its medium pulled out": [0, 3]}
# What is on the medium, and what leads there.
MEDIUM = {"BELOW": "/other", "LINK": WITNESS}
FILES = ["key.pub", "key.state", "key.state.lock", "key.state.nodes"]
# What its reads bring together.
GROUPS = [2, 1]
LINES = job_lines(*messages_of_groups(*GROUPS))
MADE = pathlib.Path("made")


def indices_in(answers):
    """The indices of answer lines, the last of which may be cut. Each is that of its signature."""
    lines = [it.split(b" ") for it in answers.splitlines() if b" " in it]
    for index, digits in lines:
        holds(len(digits) < 16 or int(digits[8:16], 16) == int(index), "another index is printed")
    return [int(index) for index, digits in lines if digits]


class Crash:
    """One run of a command in a folder of its own, where the operation of a number crashes it or
    fails."""

    def __init__(self, what, how, number):
        self.what, self.how, self.number = what, how, number
        self.arguments, found, self.next = COMMANDS[what]
        self.command, self.says = self.arguments[0], SAYS.get(what)
        self.folder = pathlib.Path(how, str(number)).resolve()
        (self.folder / PLACE).parent.mkdir(parents=True)
        for name in found:
            shutil.copy(MADE / name, self.folder)
        if self.says:
            (self.folder / PLACE).write_bytes(witness_of(self.says))
            (self.folder / WITNESS).symlink_to(PLACE)
        shutil.copy("text", self.folder)
        # (An endorsement is a signature of the last 56 bytes.)
        (self.folder / "signer.pub").write_bytes(SIGNER)
        (self.folder / "signer.key").write_bytes(SIGNER[4:])
        (self.folder / "lines").write_bytes(LINES)
        self.older = OLDER_FILE if what == OVER else b""
        if self.older:
            (self.folder / GIVEN[self.command]).write_bytes(self.older)

    def holds(self, is_so, why):
        """Fails where this is not so."""
        holds(is_so, f"at operation {self.number}: {why}")

    def bytes_of(self, name):
        """The bytes of a file, or none where it does not exist."""
        path = self.folder / name
        return path.read_bytes() if path.exists() else b""

    def is_there(self, name):
        """Whether there is such a file."""
        return (self.folder / name).exists()

    def is_as_made(self, name):
        """Whether a file is as it was made."""
        return self.bytes_of(name) == (MADE / name).read_bytes()

    def run(self, arguments, folder=None, **how):
        """Runs the program here, or in another folder."""
        with open(self.folder / "lines", "rb") as lines:
            return run(arguments, cwd=folder or self.folder, stdin=lines, text=False, **how)

    def begin(self):
        """Runs the command. Whether it has an operation of this number."""
        met = self.folder / "met"
        last = self.number if self.how == "failed alone" else 10**6
        settings = {"STOP": self.number} if self.how == "killed" else {"FAIL": self.number, "LAST": last}
        settings |= MEDIUM if self.how == "with its medium pulled out" else {}
        ran = self.run(self.arguments, env=preload("stop", MET=met, **settings))
        self.status, self.printed, self.is_met = ran.returncode, ran.stdout, met.exists()
        # (The last operation of a `serve` beside a witness removes a draft, without a fault.)
        is_last = self.what == "serve beside a witness" and self.number == OPERATIONS[self.what] and self.how != "killed"
        wanted = STATUSES[self.how] if self.is_met and not is_last else [0]
        self.holds(ran.returncode in wanted, f"ended with {ran.returncode}: {ran.stderr}")
        self.holds(ran.returncode or self.is_whole(), "ended well, and did not do all")
        self.given_is_whole()
        self.nodes_are_in_turn()

    def is_whole(self):
        """What a command that ended well gives is there."""
        if self.what == "keygen":
            return self.is_as_made("key.pub")
        if self.what == "public":
            return self.bytes_of("again.pub") == (MADE / "key.pub").read_bytes()
        if self.command in ("batch", "serve"):
            return len(indices_in(self.printed)) == sum(GROUPS)
        if self.command in ("witness", "resume"):
            return self.printed.count(b"\n") == (2 if self.command == "witness" else 1) and self.is_there(WITNESS)
        signed = "signer.key" if self.command == "endorse" else "text"
        return self.run(verify(signed, "first.sig")).returncode == 0

    def given_is_whole(self):
        """What is given away is as it was, or whole. A draft of it is left by a kill alone, or where it could not be
        removed."""
        name = GIVEN.get(self.command)
        if name:
            self.holds(self.bytes_of(name) == self.older or self.is_whole(), f"a beginning of {name} is written")
            left = [it.name for it in self.folder.glob("*.draft*")]
            self.holds(left in ([], [f"{name}.draft0"]) and (not left or self.how != "failed alone"), f"drafts are left: {left}")
            for draft in left:
                (self.folder / draft).unlink()

    def nodes_are_in_turn(self):
        """Nodes are written after the state alone is stored, and before the signature; and none
        where the kept ones are used."""
        nodes = self.is_there("key.state.nodes")
        if self.what == "keygen":
            self.holds(self.is_there("key.state") or not nodes, "nodes are kept without a state")
        elif self.what == "sign by trees":
            self.holds(not self.is_as_made("key.state") or not nodes, "nodes are kept before the state is stored")
            is_alone = self.how == "failed alone"
            self.holds(is_alone or not self.is_there("first.sig") or nodes, "no nodes are kept, and a signature is written")
        else:
            self.holds(self.how == "failed alone" or self.is_as_made("key.state.nodes"), "the kept nodes are others")

    def make_again(self):
        """Makes the key of a `keygen` that left no state, and puts the public key there, which may
        not be written."""
        if not self.is_there("key.state"):
            self.holds(self.run(KEYGEN).returncode == 0, "the next keygen fails")
            self.holds(self.is_as_made("key.pub"), "another public key")
        shutil.copy(MADE / "key.pub", self.folder)

    def resume_again(self):
        """Takes up the state that a `resume` left as it was."""
        if self.is_as_made("key.state"):
            self.holds(self.run(self.arguments).returncode == 0, "the next resume fails")

    def witness_is_in_turn(self):
        """The witness is whole. It says no more than the state counts, and no less than was given."""
        counter, said = int.from_bytes(self.bytes_of("key.state")[-56:-48], "big"), self.bytes_of(PLACE)
        numbers = [it for it in range(max(self.given(), default=-1) + 1, counter + 1) if said == witness_of(it)]
        self.holds(numbers, f"the state counts {counter}, and the witness says {said}")

    def put_back(self, name, contents):
        """The state or the witness alone is put back as it was, in a copy: a `sign` is refused, by an older state,
        or gives an index that was not given."""
        copy = self.folder.with_name(f"{self.number}.copy")
        shutil.copytree(self.folder, copy, symlinks=True)
        (copy / name).write_bytes(contents)
        ran = self.run(sign(out="again.sig"), copy)
        if (ran.returncode, ran.stderr) != (3, OLDER) or name != "key.state":
            self.holds(ran.returncode == 0, f"with an older {name} the next sign fails: {ran.stderr}")
            index = index_in((copy / "again.sig").read_bytes(), LEVELS)
            self.holds(index not in self.given(), f"with an older {name} index {index} is given twice")
        shutil.rmtree(copy)

    def given(self):
        """The indices that the command gave."""
        if self.command in ("batch", "serve"):
            return indices_in(self.printed)
        signature = self.bytes_of("first.sig")
        return [] if signature in (b"", OLDER_FILE) else [index_in(signature, LEVELS)]

    def sign_again(self):
        """Signs by a `sign` and by a `batch`. The first index that is given."""
        ran = self.run(sign(out="second.sig"))
        self.holds(ran.returncode == 0, f"the next sign fails: {ran.stderr}")
        self.holds(self.run(verify(signature="second.sig")).returncode == 0, "an invalid signature")
        index = index_in(self.bytes_of("second.sig"), LEVELS)
        self.holds(ran.stdout == b"index %d\n" % index, "another index is printed")
        self.holds(index in self.next, f"the next index is {index}")
        self.holds(self.status or index == self.next[-1], f"the next index is {index} after a good end")
        is_second = self.command == "serve" and index == self.next[-1]
        self.holds(not is_second or self.printed.count(b"\n") >= GROUPS[0], "answers are lost, and more indices are used")
        files = sorted(it.name for it in self.folder.glob("key.*") if it.name != WITNESS)
        self.holds(files == FILES, f"the files are {files}")
        beside = os.listdir(self.folder / "other")
        self.holds(beside in ([], ["witness"]) and (beside or not self.says), f"the files of the witness are {beside}")
        ran = self.run(BATCH)
        self.holds(ran.returncode == 0, f"the next batch fails: {ran.stderr}")
        third = indices_in(ran.stdout)
        self.holds(len(third) == sum(GROUPS), "the next batch is not whole")
        all_given = [*self.given(), index, *third]
        self.holds(len(set(all_given)) == len(all_given), f"an index is given twice: {all_given}")
        return index

    def end(self):
        """Has the command crash, and goes on. The next index, and whether there was such an
        operation."""
        self.begin()
        if self.what == "keygen":
            self.make_again()
        if self.what == "resume":
            self.resume_again()
        if self.says:
            self.witness_is_in_turn()
            self.put_back("key.state", (MADE / "key.state").read_bytes())
            self.put_back(PLACE, witness_of(1))
        index = self.sign_again()
        shutil.rmtree(self.folder)
        return index, self.is_met


def make():
    """Makes a key of which one index has signed, with the nodes that were kept then."""
    ends(KEYGEN, 0, "capacity 32\n")
    ends(sign(), 0, "index 0\n")
    MADE.mkdir()
    for name in ("key.pub", "key.state", "key.state.nodes"):
        shutil.copy(name, MADE)


def crashes(what, how):
    """Has a command end so at each of its operations, some at once."""
    make()
    wanted = COMMANDS[what][2]
    preload("stop")
    at_once, ended = len(os.sched_getaffinity(0)), []
    with concurrent.futures.ThreadPoolExecutor(at_once) as pool:
        while all(is_met for _, is_met in ended):
            numbers = range(len(ended) + 1, len(ended) + 1 + at_once)
            ended += pool.map(lambda number: Crash(what, how, number).end(), numbers)
    operations = next(at for at, (_, is_met) in enumerate(ended) if not is_met)
    holds(operations == OPERATIONS[what], f"there are {operations} operations, and should be {OPERATIONS[what]}")
    indices = [index for index, _ in ended[: operations + 1]]
    holds(indices[-1] == wanted[-1], f"the next index is {indices[-1]}, and should be {wanted[-1]}")
    # An operation that fails alone may be before the state is stored, or one after which the
    # command goes on.
    holds(how == "failed alone" or indices == sorted(indices), f"the next indices are {indices}, from {wanted[0]} on")
    holds(how == "failed alone" or set(indices) == set(wanted), f"the next indices are {sorted(set(indices))}, and should be {wanted}")


for command in COMMANDS:
    for way in STATUSES if command.endswith("beside a witness") else list(STATUSES)[:3]:
        add_test(f"{command}, {way} at each of {OPERATIONS[command]} operations", crashes, command, way)
