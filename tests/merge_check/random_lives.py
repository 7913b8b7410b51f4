"""Lives of keys over files, at random. A life is one run of `sign`, `batch` or `serve`: it ends well, is
killed at one of its operations on files and streams or at some moment, has operations that fail,
done or not, a request for memory refused, or a full device for its output, and some run beside
another one on the same state. A read of some `serve`s brings a line or a few, so that they answer several
groups. Before some the kept nodes are removed, cut or changed, or older ones
or another key's are put in their place.

Some keys have a witness in another folder. Before some of their lives an older witness is put back, which is no
fault, and before some an older state: such a life gives nothing, leaves that as it is, and is refused where
nothing else ends it. Then the newest state takes its place again, or a `resume` takes the older one up.

Every index that a life gave, by what it printed or by what is in a signature's file, is compared
with all others of the key and with the counter that is stored. Each tenth signature is verified,
and each of a life before which the nodes were changed or power was lost.

Some that are alone lose power, however they end: before their operations, as `record.c` records
them, or after one that changes something. The state's file and those beside it become what the
model of `weak_disk.py` may leave then, and what came after never happened. The state must be the
old one or a new one, whole, and a new one once a byte of a signature or of an answer was
written. What a life finds counts as flushed. With `--ignore` the model takes flushes of files, or
of folders, to do nothing, and the check must fail.

A key's lives follow from the seed and the key's number alone, but for the moments of some kills and
for which of two programs comes first. Where a life fails its files are kept. With arguments, what
happened is printed, too: `[--seed S] [--lives N | --seconds N] [--ignore files | --ignore
folders]`."""

import argparse
import concurrent.futures
import hashlib
import os
import pathlib
import random
import shutil
import tempfile
import time

from tests.harness import ARGUMENTS, Wrong, holds, test
from tests.merge_check.lives import MESSAGE, OLDER, Life, Totals
from tests.merge_check.power import PLACE, Power
from tests.program import keygen, preload, put, resume, run, sign, verify, witness
from tests.reference import CHAINS, witness_of

LEVELS = ["5/1"] * 5 + ["5/2"] * 3 + ["5/4", "5/8"] + ["5/1,5/1"] * 5 + ["5/2,5/1"] * 2 + ["5/1,5/4,5/1", "5/8,5/8"]
# What may become of the kept nodes before a life.
MISHAPS = ["removed", "emptied", "cut", "changed", "older", "another key's"]


class Key:
    """A key in a folder, with all indices that it gave."""

    def __init__(self, seed, number, above):
        self.dice, self.folder = random.Random(f"{seed}/{number}"), f"{above}/key{number}"
        self.text = self.dice.choice(LEVELS)
        self.levels = [tuple(map(int, it.split("/"))) for it in self.text.split(",")]
        self.capacity = 2 ** sum(height for height, _ in self.levels)
        sizes = [12 + 32 * (CHAINS[width][1] + 1 + height) for height, width in self.levels]
        self.length = 4 + sum(sizes) + 56 * (len(sizes) - 1)
        self.given, self.older, self.seeds, self.has_lost_power = {}, [], [], False
        # (Those of before, each with its counter.)
        self.states, self.is_watched, self.has_older = [], self.dice.random() < 0.5, False
        os.mkdir(self.folder)
        put(f"{self.folder}/text", MESSAGE)
        begun = time.monotonic()
        self.make("key")
        self.seconds = 2 * (time.monotonic() - begun)
        if self.is_watched:
            os.mkdir(f"{self.folder}/{os.path.dirname(PLACE)}")
            self.call(witness(0, f"{self.folder}/{PLACE}", f"{self.folder}/key.state"))
        self.make("another")
        self.call(sign(f"{self.folder}/text", f"{self.folder}/another.sig", state=f"{self.folder}/another.state"))
        self.another = self.nodes("another")

    def call(self, arguments):
        """Runs the program, which ends well."""
        ran = run(arguments)
        holds(ran.returncode == 0, f"{' '.join(arguments)}: {ran.returncode} {ran.stderr}")

    def make(self, name):
        """Makes a key of these levels, in files of this name."""
        seed, identifier = self.dice.randbytes(32), self.dice.randbytes(16).hex()
        if not self.seeds:
            self.identifier = bytes.fromhex(identifier)
        self.seeds.append(seed)
        self.call(keygen(self.text, seed.hex(), identifier, f"{self.folder}/{name}.state", f"{self.folder}/{name}.pub"))

    def nodes(self, name):
        """The kept nodes, or no bytes."""
        path = pathlib.Path(f"{self.folder}/{name}.state.nodes")
        return path.read_bytes() if path.exists() else b""

    def change_nodes(self):
        """Something becomes of the kept nodes."""
        mishap, place = self.dice.choice(MISHAPS), self.dice.random()
        nodes, name = self.nodes("key"), f"{self.folder}/key.state.nodes"
        at = int(place * len(nodes))
        if mishap == "older" and self.older:
            nodes = self.older[int(place * len(self.older))]
        elif mishap == "another key's":
            nodes = self.another
        elif mishap == "cut":
            nodes = nodes[:at]
        elif mishap == "changed" and nodes:
            nodes = nodes[:at] + bytes([nodes[at] ^ 1 << at % 8]) + nodes[at + 1 :]
        elif mishap == "emptied":
            nodes = b""
        put(name, nodes)
        if mishap == "removed":
            os.remove(name)

    def counter(self):
        """The counter that is stored, in a state image that is whole."""
        state = pathlib.Path(f"{self.folder}/key.state").read_bytes()
        at = 12 + 8 * len(self.levels) + 48
        is_whole = len(state) == at + 56 and hashlib.sha256(state[:-32]).digest() == state[-32:]
        holds(is_whole, f"{self.folder}: the state is damaged")
        return int.from_bytes(state[at : at + 8], "big")

    def said(self):
        """The number that the witness says, which is whole."""
        text = pathlib.Path(f"{self.folder}/{PLACE}").read_bytes()
        number = int(text.split()[-1])
        holds(text == witness_of(number, self.identifier), f"{self.folder}: the witness is damaged: {text}")
        return number

    def watches(self, number, totals):
        """The witness says that all indices are used that were given, and no more than the state, or an older one
        was put back. Now and then an older state is put back, or such a witness."""
        counter, said, given = self.counter(), self.said(), max(self.given, default=-1)
        self.has_older = self.has_older and said <= given
        holds(said <= counter and (said > given or self.has_older), f"{self.folder}: the witness says {said}, and {counter} is stored")
        self.states.append((counter, pathlib.Path(f"{self.folder}/key.state").read_bytes()))
        if self.dice.random() < 0.15:
            self.puts_back(number, totals)
        elif self.dice.random() < 0.05:
            put(f"{self.folder}/{PLACE}", witness_of(self.dice.randint(0, said), self.identifier))
            self.has_older = True

    def puts_back(self, number, totals):
        """An older state is put back, and a life gives nothing of it."""
        name, said = f"{self.folder}/key.state", self.said()
        older = [state for counter, state in self.states if counter < said]
        # (An older state and an older witness are both put back, against which there is nothing.)
        if not older or self.has_older:
            return
        newest, state = pathlib.Path(name).read_bytes(), self.dice.choice(older)
        put(name, state)
        life = Life(self, f"{number}older")
        life.start()
        life.wait()
        holds(not life.answers(), f"{life.name}: it gave indices of an older state: {life.answers()}")
        holds(pathlib.Path(name).read_bytes() == state, f"{life.name}: it changed an older state")
        is_refused = (life.status, life.errors) == (3, OLDER)
        holds(is_refused or life.fault not in ("none", "full"), f"{life.name}: it ended with {life.status}: {life.errors}")
        totals.count("refusals", is_refused)
        totals.ended(f"{life.how()} by an older state")
        if self.dice.random() < 0.5:
            put(name, newest)
        else:
            self.call(resume(said, name))
            holds(self.counter() == said, f"{life.name}: {self.counter()} is stored after a resume to {said}")

    def compare(self, life, answers, is_doubtful):
        """Compares what a life gave with all that was given before. In doubt each signature is
        verified."""
        for index, signature in answers:
            if index in self.given or index >= self.capacity:
                raise Wrong(f"{life.name}: index {index} was given by {self.given.get(index, 'none')}, too")
            self.given[index] = life.name
            if len(signature) == self.length and (self.dice.random() < 0.1 or is_doubtful):
                put(f"{life.name}.whole", signature)
                ran = run(verify(f"{self.folder}/text", f"{life.name}.whole", f"{self.folder}/key.pub"))
                holds(ran.stdout == "valid\n", f"{life.name}: an invalid signature")

    def live(self, number, totals):
        """One life, or two at once. Whether there is to be another one."""
        if self.is_watched:
            self.watches(number, totals)
        before, nodes = self.counter(), self.nodes("key")
        if nodes not in self.older:
            self.older.append(nodes)
        has_mishap = self.dice.random() < 0.2
        if has_mishap:
            self.change_nodes()
            totals.count("mishaps")
        lives = [Life(self, number)]
        if self.dice.random() < 0.15 and totals.begins():
            lives.append(Life(self, f"{number}b"))
        elif self.dice.random() < 0.15:
            lives[0].power = Power(lives[0], self.dice.random(), totals.ignored)
        for life in lives:
            life.start()
        for life in lives:
            life.wait()
        for life in lives:
            life.check_end(before, life.answers(), len(lives) == 1)
            if life.power:
                life.power.lose()
            totals.ended(f"{life.how()}{' beside another one' if len(lives) == 2 else ''}")
            self.compare(life, life.answers(), has_mishap or self.has_lost_power)
        self.has_lost_power = lives[0].power is not None
        counter = self.counter()
        if counter < before or any(index >= counter for index in self.given):
            raise Wrong(f"{lives[0].name}: {counter} is stored, after {before} and {max(self.given, default=None)} given")
        for name in os.listdir(self.folder):
            if name.startswith((f"{number}.", f"{number}b.", f"{number}older.")):
                os.remove(f"{self.folder}/{name}")
        return counter < self.capacity or self.dice.random() < 0.5


def live(seed, folder, totals):
    """Lives of one key after another, until there are enough."""
    while totals.begins():
        key = Key(seed, totals.count("keys"), folder)
        number, most = 1, key.dice.randint(5, 150)
        while key.live(number, totals) and number < most and totals.begins():
            number += 1
        totals.count("given", len(key.given))
        shutil.rmtree(key.folder)


def asked():
    """The module's arguments."""
    parser = argparse.ArgumentParser("tests/run random_lives --")
    parser.add_argument("--seed", default="8554")
    parser.add_argument("--lives", type=int)
    parser.add_argument("--seconds", type=float)
    parser.add_argument("--ignore", choices=["files", "folders"])
    given = parser.parse_args(ARGUMENTS)
    if not given.lives and not given.seconds:
        given.seconds = 60
    return given


def live_all(given, folder):
    """Makes the lives, as many at once as there are processors."""
    for name in ("stop", "refuse", "record"):
        preload(name)
    begun, threads, faults = time.monotonic(), len(os.sched_getaffinity(0)), []
    end = begun + given.seconds if given.seconds else float("inf")
    totals = Totals(given.lives or 10**9, end, given.ignore)
    with concurrent.futures.ThreadPoolExecutor(threads) as pool:
        try:
            for done in concurrent.futures.as_completed([pool.submit(live, given.seed, folder, totals) for _ in range(threads)]):
                if done.exception():
                    totals.end = 0
                    faults.append(f"seed {given.seed}: {done.exception()}; the files are in {folder}")
        except BaseException:
            # (Interrupted, it begins no other life.)
            totals.end = 0
            raise
    holds(not faults, "\n".join(faults))
    holds(totals.counts["given"], "no index was given")
    # (A number of lives may be too small.)
    holds(totals.counts["refusals"] or given.lives, "no older state was refused")
    if ARGUMENTS:
        counts, seconds = totals.counts, time.monotonic() - begun
        lives = sum(totals.endings.values())
        print(f"{lives} lives of {counts['keys']} keys in {seconds:.0f} seconds, {counts['mishaps']} with other nodes:")
        print(", ".join(f"{number} {what}" for what, number in sorted(totals.endings.items())))
        print(f"seed {given.seed}: {counts['given']} indices were given, none twice, and {counts['refusals']} older states were refused")


@test
def no_index_is_given_twice():
    """All lives are one check. What they leave where one fails is kept."""
    folder = tempfile.mkdtemp(dir=os.path.dirname(tempfile.gettempdir()))
    try:
        live_all(asked(), folder)
    except Wrong:
        raise
    except BaseException:
        shutil.rmtree(folder, ignore_errors=True)
        raise
    shutil.rmtree(folder)
