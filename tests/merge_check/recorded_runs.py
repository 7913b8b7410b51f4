"""Runs on a key, recorded one after another, for `power_cuts`: what they do to files, what a loss of power may
leave of it by the model of `weak_disk`, and how the program goes on from there."""

import functools
import itertools
import os
import tempfile
import time

from tests.harness import holds
from tests.merge_check.service import messages_of_groups
from tests.merge_check.weak_disk import Disk, fault_of, found_in, lay, operations, printed, witness_in
from tests.program import (
    endorse, endorsed_lines, ends, fails, has, job_lines, join_public, keygen, preload, public, put, read, resume, run, sign, without_counts, witness,
)
from tests.reference import image, joined, parts_to_join, public_of, signature_of, witness_of
from tests.seeds import tells

# What the public keys are of that are joined.
PARTS = parts_to_join(((5, 1),), ((5, 1),))
MESSAGE = b"abc"
# A signer's key that a key endorses, by its name in each folder.
SIGNER, SIGNER_NAME = public_of(((5, 1),), identifier=b"\x66" * 16), "endorsed.pub"
# Another folder, for public keys.
ELSEWHERE = "public/"
# How many faults of a run are told.
MOST_LINES = 20


def given_name(folder, name):
    """The name of a public key as a command gets it, and that of its file, after links, from the folder."""
    given, above = name.format(folder=folder), os.path.realpath(folder)
    return given, os.path.relpath(os.path.realpath(os.path.join(above, given)), above)


class Run:
    """A recorded run of the program: the files that it found and what it did; the state before it,
    if there was one, and each one that it stores; the index that is next by each of these; and the name and
    the bytes of the file that it gives away, if it does, which a loss of power after its end leaves where it
    is a public key. Of a run that stores several the answers to what is stored first are the first of what it
    prints, up to one of the `ends`, and so on. Where the key has a witness, that says these numbers with these
    states, or None where there is none yet."""

    def __init__(self, key, name, states, indices, public_key=None, signature=None, ends_of_answers=(), says=None):
        self.key, self.name, self.states, self.indices, self.ends = key, name, states, indices, ends_of_answers
        self.given, self.is_kept = public_key or signature, public_key is not None
        self.witnesses = [None if it is None else witness_of(it) for it in says or [None] * len(states)]

    def record(self, folder, arguments, jobs=b""):
        """Runs the program, and records all that it does to files in the folder. What it
        printed."""
        self.folder, self.found, log, lines = folder, found_in(folder), f"{folder}.record", f"{folder}.jobs"
        put(lines, jobs)
        began = time.monotonic()
        with open(lines, "rb") as given:
            ran = run(arguments, cwd=folder, stdin=given, text=False, env=preload("record", RECORD=log))
        self.done = list(operations(read(log)))
        os.remove(log)
        os.remove(lines)
        unknown = [data for word, _, _, data in self.done if word == "unknown"]
        said = f"{self.name} ended with {ran.returncode}: {ran.stderr}; calls that are not known: {unknown}"
        holds((ran.returncode, without_counts(ran.stderr.decode(), began), unknown) == (0, "", []), said)
        holds(printed(self.done) == ran.stdout, f"{self.name}: not all that was printed is recorded")
        self.keeps_secret()
        disk = self.disk()
        for number, operation in enumerate(self.done, 1):
            disk.do(*operation, number)
        there = {name: contents for name, (_, contents) in found_in(folder).items()}
        recorded = {name: disk.file(name).contents for name in disk.names if disk.file(name)}
        holds(recorded == there, f"{self.name}: not all that was done to files is recorded")
        holds(there.get(self.key.state) == self.states[-1], f"{self.name}: it left another state")
        return ran.stdout

    def least(self, disk):
        """How many of its states are too old, by what it gave away."""
        return 1 + sum(disk.printed > it for it in self.ends) if disk.has_left else 0

    def keeps_secret(self):
        """Of all files and streams the seed is written to the state's draft alone."""
        names, disk = {}, self.disk()
        for word, number, _, data in self.done:
            if word == "open":
                names[number] = disk.name(data)
            elif word == "write" and tells(data):
                name = names.get(number, f"stream {number}")
                holds(name == f"{self.key.state}.new", f"{self.name}: the seed is written to {name}")

    def disk(self, ignored=None):
        """The files that it found."""
        return Disk(self.folder, self.found, self.key.state, ignored, self.key.place)

    def cuts(self, disk):
        """Loses power at each moment. Of each loss: what it leaves, the index below which all may
        have been given, what is wrong, and a call that says where that was, until the next loss."""
        for number, operation in enumerate([None, *self.done]):
            at = f"{self.name} #{number}"
            moment = disk.do(*operation, at) if operation else at
            for left, lost in disk.losses() if moment else ():
                fault = fault_of(left.get(self.key.state, (0, None))[1], self.states, self.least(disk))
                fault = fault or self.witness_fault(left, self.least(disk))
                if self.given:
                    fault = fault or self.given_fault(left, self.is_kept and (disk.printed or number == len(self.done)))
                yield left, self.indices[self.least(disk)], fault, lambda: f"{self.key.name}, after {moment}; lost: {disk.said(lost)}"

    def witness_fault(self, left, least):
        """What is wrong with the witness, if anything, where so many are too old. Only before a `resume` a state is
        older than that."""
        found, fault = witness_in(left, self.key.state)
        fault = fault or fault_of(found, self.witnesses, least, "witness")
        if found and not fault and self.name != "resume" and not self.key.counts(left, int(found.split()[-1])):
            return "older", "a state that is older than its witness"
        return fault

    def given_fault(self, left, is_due):
        """What is wrong with the file that it gives away, if anything: it is whole, or as it was where it is not due
        yet."""
        name, contents = self.given
        found, older = left.get(name, (0, None))[1], self.found.get(name, (0, None))[1]
        if found == contents or found == older and not is_due:
            return None
        return ("older", f"{name} as it was") if found == older else ("torn", f"{len(found or b'')} bytes that are not {name}")

    def faults(self):
        """Lines on the first faults that are found, where all was flushed before this run."""
        found = (f"{where()}; found: {fault[1]}" for _, _, fault, where in self.cuts(self.disk()) if fault)
        return list(itertools.islice(found, MOST_LINES))


class Key:
    """A key in a folder, and the runs on it, one after another, where a number is a `batch` of so
    many jobs, a list is a `serve` of groups of so many, and a tuple is a command and the name of the public
    key that it writes. Where a state has another name, by which the program finds it, that is a link to it.
    Where it gets a witness, that is at a place. `keygen` writes its public key by this name, where
    `{folder}` stands for the folder."""

    def __init__(self, name, levels, steps, state="key.state", option=None, files=None, place=None, public_key="key.pub"):
        self.name, self.levels, self.steps, self.state, self.option = name, levels, steps, state, option or state
        self.files, self.place, self.public_key = {"text": MESSAGE, SIGNER_NAME: SIGNER, **(files or {})}, place, public_key
        # The counter and the openings of each state image.
        self.numbers = {}

    def levels_text(self):
        """The levels as the program prints them."""
        return ",".join(f"{height}/{width}" for height, width in self.levels)

    def capacity(self):
        """How many indices the key has."""
        return 2 ** sum(height for height, _ in self.levels)

    def lay(self, folder, files):
        """Puts files into a folder, with the name by which the program finds the state, and a folder for public
        keys."""
        lay(folder, files)
        for name in filter(None, (self.state, self.place, ELSEWHERE)):
            os.makedirs(os.path.dirname(f"{folder}/{name}"), exist_ok=True)
        if self.option != self.state:
            os.symlink(self.state, f"{folder}/{self.option}")

    def image(self, counter, openings, version=2):
        """A state image of the key, whose numbers are noted."""
        contents = image(self.levels, counter, openings, version=version)
        self.numbers[contents] = counter, openings
        return contents

    def makes(self, folder):
        """Runs `keygen`."""
        given, name = given_name(folder, self.public_key)
        made = Run(self, "keygen", [None, self.image(0, 0)], [0, 0], (name, public_of(self.levels)))
        said = made.record(folder, keygen(self.levels_text(), state=self.option, public=given))
        holds(said == b"capacity %d\n" % self.capacity(), "keygen printed something else")
        has(f"{folder}/{name}", public_of(self.levels))
        return made

    def says(self, folder):
        """The number that the witness of the state in a folder says, or None where there is none."""
        found, _ = witness_in(found_in(folder), self.state)
        return None if found is None else int(found.split()[-1])

    def watches(self, folder, before):
        """Runs `witness` on a state, which stays."""
        counter, _ = self.numbers[before]
        made = Run(self, "witness", [before] * 2, [counter] * 2, says=[None, counter])
        said = made.record(folder, witness(counter, self.place, self.option))
        holds(said == witness_of(counter) + f"{folder}/{self.place}\n".encode(), "witness printed something else")
        return made

    def resumes(self, folder, before):
        """Runs `resume` on a state that is older than its witness."""
        (counter, openings), end = self.numbers[before], self.says(folder)
        made = Run(self, "resume", [before, self.image(end, openings + 1)], [end] * 2, says=[end] * 2)
        said = f"indices {counter} to {end - 1} burnt; right only if the witness is the newest\n"
        holds(made.record(folder, resume(end, self.option)) == said.encode(), "resume printed something else")
        return made

    def watched(self, folder, indices):
        """What the witness in a folder says with each of the states of a run that uses indices."""
        said = self.says(folder)
        return None if said is None else [said, *indices[1:]]

    def signs(self, folder, before):
        """Runs `sign` on a state."""
        counter, _ = self.numbers[before]
        return self.uses_an_index(folder, before, sign(state=self.option), MESSAGE, f"index {counter}\n")

    def endorses(self, folder, before):
        """Runs `endorse` on a state."""
        counter, _ = self.numbers[before]
        words = endorse(len(self.levels) + 1, SIGNER_NAME, state=self.option)
        return self.uses_an_index(folder, before, words, SIGNER[4:], endorsed_lines(counter, SIGNER))

    def uses_an_index(self, folder, before, words, message, lines):
        """Runs what signs a message by one index of a state, writes the signature by its last argument, and prints
        these lines."""
        counter, openings = self.numbers[before]
        name, indices, given = f"{words[0]} {counter}", [counter, counter + 1], (words[-1], signature_of(self.levels, counter, message))
        states, says = [before, self.image(counter + 1, openings + 1)], self.watched(folder, indices)
        made = Run(self, name, states, indices, signature=given, says=says)
        holds(made.record(folder, words) == lines.encode(), f"{name} printed something else")
        has(f"{folder}/{given[0]}", given[1])
        return made

    def answers(self, folder, before, command, counts):
        """Runs `batch` or `serve` on a state, with groups of so many jobs."""
        counter, openings = self.numbers[before]
        messages, states, indices, said, ends_of_answers = messages_of_groups(*counts), [before], [counter], b"", []
        for at, count in enumerate(counts, 1):
            for index in range(indices[-1], indices[-1] + count):
                said += b"%d %s\n" % (index, signature_of(self.levels, index, messages[index - counter]).hex().encode())
            ends_of_answers.append(len(said))
            indices.append(indices[-1] + count)
            states.append(self.image(indices[-1], openings + at))
        says = self.watched(folder, indices)
        made = Run(self, f"{command} {counter} to {indices[-1] - 1}", states, indices, ends_of_answers=ends_of_answers[:-1], says=says)
        printed_now = made.record(folder, [command, "--state", self.option, "--workers", "2"], job_lines(*messages))
        holds(printed_now == said, f"{made.name} printed something else")
        return made

    def publishes(self, folder, before, command, out):
        """Runs `public` or `join-public` beside a state, which stays. The file that it writes was not there."""
        given, name = given_name(folder, out)
        words, contents, line = {
            "public": (public(self.option, given), public_of(self.levels), b"capacity %d\n" % self.capacity()),
            "join-public": (join_public(out=given), joined(*PARTS)[0], b""),
        }[command]
        made = Run(self, f"{command} to {out}", [before] * 2, self.numbers[before][:1] * 2, (name, contents))
        holds(made.record(folder, words) == line, f"{made.name} printed something else")
        has(f"{folder}/{name}", contents)
        return made

    @functools.lru_cache(maxsize=None)
    def runs(self):
        """All runs, one after another, once they are made."""
        folder = os.path.realpath(tempfile.mkdtemp())
        self.lay(folder, {name: (name, contents) for name, contents in self.files.items()})
        before, made = self.files.get(self.state), []
        for step in self.steps:
            if step == "keygen":
                made.append(self.makes(folder))
            elif isinstance(step, tuple):
                made.append(self.publishes(folder, before, *step))
            elif step == "witness":
                made.append(self.watches(folder, before))
            elif step == "resume":
                # (The state of before the first signature is put back.)
                put(f"{folder}/{self.state}", made[0].states[-1])
                made.append(self.resumes(folder, made[0].states[-1]))
            elif step == "sign":
                made.append(self.signs(folder, before))
            elif step == "endorse":
                made.append(self.endorses(folder, before))
            else:
                made.append(self.answers(folder, before, *(("serve", step) if isinstance(step, list) else ("batch", [step]))))
            before = made[-1].states[-1]
        return made

    def goes_on(self, left, least):
        """Goes on from what a loss of power left, where all indices below one may have been given.
        Lines on what is wrong where power is lost again; what is wrong before is raised."""
        with tempfile.TemporaryDirectory() as folder:
            self.lay(folder, left)
            before, made = left.get(self.state, (0, None))[1], []
            if before is None:
                self.describes(folder, 3, "", "error: cannot read state\n")
                made.append(self.makes(folder))
                before = made[0].states[-1]
            counter, openings = self.numbers.get(before, (0, 0))
            capacity = self.capacity()
            numbers = f"counter {counter}\ncapacity {capacity}\nleft {capacity - counter}\nopenings {openings}\nburnt 0\n"
            self.describes(folder, 0, f"levels {self.levels_text()}\n{numbers}")
            holds(before in self.numbers, "info describes a state that is none")
            if counter < min(least, self.says(folder) or 0):
                self.refuses(folder, left)
                made.append(self.resumes(folder, before))
                before = made[-1].states[-1]
                counter, _ = self.numbers[before]
            made.append(self.signs(folder, before))
            holds(counter >= least, f"index {counter} is given again")
            holds(f"{self.state}.new" not in found_in(folder), "a draft of the state is left")
            return [f"with power back, {line}" for it in made for line in it.faults()]

    def refuses(self, folder, left):
        """`sign` refuses a state that is older than its witness, and leaves all as it is."""
        fails(sign(state=self.option), 3, "state is older than its witness", cwd=folder)
        # (A draft that a loss of power left is removed.)
        before, after = (
            {name: contents for name, (_, contents) in files.items() if name not in (f"{self.state}.lock", f"{self.place}.new")}
            for files in (left, found_in(folder))
        )
        holds(before == after, "sign changed something")

    def counts(self, left, least):
        """Whether a state that a loss of power left counts all indices below one as used."""
        return self.numbers[left[self.state][1]][0] >= least

    def older(self, left, name, is_first):
        """What the state or the witness was at first, or just before it was what a loss of power left."""
        if name == self.place:
            said, _ = witness_in(left, self.state)
            return witness_of(0 if is_first else max(int(said.split()[-1]) - 1, 0))
        counter, _ = self.numbers[left[self.state][1]]
        before = [it for it in self.numbers if self.numbers[it][0] < counter]
        return self.runs()[0].states[-1] if is_first or not before else max(before, key=self.numbers.get)

    def signs_after(self, left, names, is_first):
        """The index that `sign` gives where these files, of the state and the witness, are put back to what they were
        at first, or just before, and all else is what a loss of power left; or None where it refuses the state."""
        left = {**left, **{name: (name, self.older(left, name, is_first)) for name in names}}
        with tempfile.TemporaryDirectory() as folder:
            self.lay(folder, left)
            counter, _ = self.numbers[left[self.state][1]]
            if counter < self.says(folder):
                self.refuses(folder, left)
                return None
            ends(sign(state=self.option), 0, f"index {counter}\n", cwd=folder)
            return counter

    def describes(self, folder, status, output, errors=""):
        """`info` ends so."""
        ends(["info", "--state", self.option], status, output, errors, cwd=folder)
