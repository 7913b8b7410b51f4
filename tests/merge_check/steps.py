"""The operations of commands on files and streams, part by part, and what a command does where one of them
fails, for `file_steps`."""

import errno
import os

from tests.harness import holds
from tests.program import (
    DRAFT, INFO, NODES, PLACE, SERVE, TO_JOIN, WITNESS, endorse, endorsed_lines, ends, inspect, job_lines, join, join_public, keygen, preload,
    public, put, read, resume, run, sign, signs, witness,
)
from tests.reference import IDENTIFIER, image, joined, kept, parts_to_join, public_of, signature_of, witness_of

LEVELS = ((5, 1),)
STATE = "key.state"
# The index that signs next, and that at which the nodes of the only tree were kept.
INDEX, KEPT = 5, 3
IN_USE, NOT_READ, NOT_WRITTEN, NO_MEMORY = (3, "state in use"), (6, "cannot read input"), (6, "cannot write output"), (5, "out of memory")


class Part:
    """Operations that follow one another. Where one fails the program ends with a fault, which is
    another one at the places in `memory` where memory is refused; or it does without the part,
    where that has no fault. At the places in `cleaned` it removes its draft then. Where the program has a
    draft of a witness by then, it removes that, too. At some places it does other operations `again`
    before that."""

    def __init__(self, steps, fault=None, memory=(), draft=None, cleaned=(), has_next=False, again=None):
        self.steps, self.fault, self.memory, self.draft, self.cleaned = steps, fault, memory, draft, cleaned
        self.has_next, self.again = has_next, again or {}

    def beside_a_witness(self):
        """The same, once there is a draft of a witness."""
        return Part(self.steps, self.fault, self.memory, self.draft, self.cleaned, True)

    def instead(self, place, number):
        """The operations of this part that follow where the one at a place fails with the error of this number,
        and the part is done all the same; None where it is not."""
        del place, number
        return None

    def after(self, place):
        """The operations with which it ends where the one at a place fails."""
        removed = [f"remove {self.draft}"] if place in self.cleaned else []
        return self.again.get(place, []) + removed + ([f"remove {NEXT}"] if self.has_next else [])

    def fault_at(self, place, number):
        """The fault where the operation at a place fails with the error of this number, or None."""
        if self.instead(place, number) is not None:
            return None
        return NO_MEMORY if number == errno.ENOMEM and place in self.memory else self.fault


class Planned(Part):
    """It is found where a file is that is to be written, by way of these operations on links: where that
    can't be found the file is written in place."""

    def __init__(self, name, folder=".", links=()):
        steps = [*links, f"resolve {folder}", f"follow {name}"]
        super().__init__(steps, memory=range(len(steps)))

    def is_lost(self, place):
        """Whether it isn't known where the file is where the operation at a place fails."""
        return self.steps[place].startswith("resolve ")


class Given(Part):
    """A file that is given away is written by a draft: one of this name, at that place in that folder, which is
    flushed or not, over none or over an older one, whose owner and mode it then gets."""

    def __init__(self, name, place=None, folder=".", older=False, flushed=False):
        self.name, self.place, self.folder, self.flushed, self.like = name, place or name, folder, flushed, older
        before = [*[f"open {folder}"] * flushed, f"look up {self.place}", *[f"open {self.place}"] * older]
        steps = [*before, *self.by_draft(0)]
        memory = range(len(steps)) if flushed else ()
        placed = len(steps) - len(self.end())
        super().__init__(steps, NOT_WRITTEN, memory, f"{self.place}.draft0", range(len(before) + 1, placed))

    def looks(self, place):
        """The operations by which it is seen that what is at a place may be written, and that the name leads there."""
        return [f"look up {place}", *[f"open {place}", f"read {place}"] * self.like, *self.leads(place)]

    def leads(self, place):
        """Those by which it is seen that the name leads to a place."""
        return [f"look up {place}", f"look up {self.name}"]

    def end(self):
        """The operations once the file has its bytes."""
        return [*self.leads(self.place), *[f"flush {self.folder}"] * self.flushed]

    def by_draft(self, number):
        """The operations by which the draft of this number takes its place."""
        draft = f"{self.place}.draft{number}"
        like = [f"look up {draft}", f"permit {draft}"] if self.like else []
        return [f"make {draft}", *like, f"write {draft}", f"flush {draft}", *self.looks(self.place), f"rename {draft} to {self.place}", *self.end()]

    def in_place(self, place):
        """The operations by which what is at a place is written there."""
        return [*self.looks(place), f"empty {place}", f"write {place}", f"flush {place}"]

    def instead(self, place, number):
        """Where no draft can be made, or none may take the older file's place or have its rights, the file is written in
        place, as where something is mounted there; the next draft is tried where there is one of this name; and what
        can't be flushed is only written."""
        what = self.steps[place].split(" ")[0]
        is_draft = self.steps[place].endswith(self.draft)
        if what == "make" and number == errno.EEXIST:
            return self.by_draft(1)
        if what == "make" and number in (errno.EPERM, errno.EACCES, errno.EROFS):
            return [*self.in_place(self.place), *self.end()]
        if is_draft and what in ("look", "permit") or what == "rename" and number in (errno.EBUSY, errno.EPERM, errno.EACCES):
            return [f"remove {self.draft}", *self.in_place(self.place), *self.end()]
        if is_draft and what == "flush" and number == errno.EINVAL:
            return self.steps[place + 1 :]
        return None


def taken(name, length=0):
    """The operations by which a file of this length is read whole, 8 KiB at once."""
    return [f"open {name}", f"look up {name}", *[f"read {name}"] * (2 + length // 8192)]


def replaced(name, draft):
    """The operations by which a new file takes the place of another one."""
    return [f"remove {draft}", f"make {draft}", f"write {draft}", f"flush {draft}", f"rename {draft} to {name}"]


NEW = f"{STATE}.new"
STORE = ["open .", *replaced(STATE, NEW), "flush ."]
# How many of these are done once the new state is in its place.
PLACED = 6
LOCK = [f"open to write {STATE}.lock", f"lock {STATE}.lock"]
# The draft of a witness, and the folder of both.
NEXT, FOLDER = f"{PLACE}.new", os.path.dirname(PLACE)


def filled(name):
    """The operations by which a draft of a witness gets what it is to have."""
    return [f"write {name}", f"cut {name}", f"flush {name}"]


STREAMS = Part(["open /dev/null"], NOT_READ)
MESSAGE = Part(taken("text"), NOT_READ, range(4))
# (A note names the lock by where a link to the state leads.)
IS_LINK = [f"look up {STATE}"]
LOCKED = Part([f"resolve {STATE}", *LOCK], IN_USE, range(3), again=dict.fromkeys(range(3), IS_LINK))
LOCKED_FIRST = Part([f"resolve {STATE}", f"look up {STATE}", *LOCK], IN_USE, (0, 2, 3), again=dict.fromkeys(range(4), IS_LINK))
NONE_THERE = Part([f"look up {STATE}"], (3, "state exists"))
NO_NODES = Part([f"look up {NODES}"])
NODES_READ = Part([f"look up {NODES}", f"open {NODES}", f"read {NODES}", f"read {NODES}"])
NO_WITNESS = Part([f"look up {WITNESS}"], (3, "cannot read witness"), again={0: [f"look up {WITNESS}"]})
STATE_READ = Part([f"open {STATE}", f"read {STATE}", f"read {STATE}"], (3, "cannot read state"), range(3))
# What `inspect` reads of a state, whose lock it does not take.
STATE_TAKEN, FOUND = Part(taken(STATE), NOT_READ, range(4)), Part([f"resolve {STATE}"], (3, "cannot read witness"), range(1))
STORED = Part(STORE, (3, f"cannot write state: {INDEX} to {INDEX} burnt"), draft=NEW, cleaned=range(3, PLACED))
STORED_FIRST = Part(STORE, (3, "cannot write state"), draft=NEW, cleaned=range(3, PLACED))
NODES_KEPT = Part(replaced(NODES, DRAFT), draft=DRAFT, cleaned=range(2, 5))
SIGNATURE_AT, SIGNATURE = Planned("text.sig"), Given("text.sig")
# (Where nobody knows whether there is a witness, it is asked for.)
WITNESS_SEEN = Part([f"look up {WITNESS}"])
WITNESS_READ = Part([f"look up {WITNESS}", f"open {WITNESS}", *[f"read {WITNESS}"] * 2], (3, "cannot read witness"), range(4))
LOOKED_AT = f"look up {NEXT}"
RESERVE = [f"resolve {WITNESS}", LOOKED_AT, f"open {FOLDER}", f"remove {NEXT}", f"make {NEXT}", *filled(NEXT), f"flush {FOLDER}"]
RESERVED = Part(RESERVE, (3, "cannot write witness"), range(len(RESERVE)), NEXT, range(5, len(RESERVE)))
DISCARDED = Part([f"remove {NEXT}"])
PLACE_NEXT = [*filled(NEXT), f"rename {NEXT} to {PLACE}", f"flush {FOLDER}"]
PLACED_NEXT = Part(PLACE_NEXT, (3, f"cannot write witness: {INDEX} to {INDEX} burnt"), draft=NEXT, cleaned=range(4))
# How many of these are done once the new witness is in its place.
NEXT_PLACED = 4
OPENED = [WITNESS_SEEN, WITNESS_READ, RESERVED, STATE_READ.beside_a_witness()]
MAKE = [f"look up {WITNESS}", "open .", f"make {PLACE}", f"write {PLACE}", f"flush {PLACE}", f"resolve {PLACE}", LOOKED_AT]
MAKE += [f"open {FOLDER}", f"flush {FOLDER}", f"look up {WITNESS}", f"link {WITNESS} to {PLACE}", "flush ."]
# (Where it is not known whether something has a name, it is taken to be there, and asked where that leads.)
ASKED = {9: [f"resolve {WITNESS}", f"look up {WITNESS}"]}
MADE = Part(MAKE, (3, "cannot write witness"), [1, 2, 3, 4, 5, 7, 8, 10, 11], PLACE, range(3, len(MAKE) - 1), again=ASKED)
PUBLIC_KEY_AT = Planned("key.pub")
PUBLIC_KEY, PUBLIC_KEY_AGAIN = Given("key.pub", flushed=True), Given("key.pub", older=True, flushed=True)
PRINTED = Part(["write standard output"], NOT_WRITTEN)
SIGNER = public_of(LEVELS, identifier=b"\x66" * 16)
SIGNER_READ = Part(taken("signer.pub"), NOT_READ, range(4))
ENDORSED = Part(["write standard output"] * 2, NOT_WRITTEN)
DESCRIBED = Part(["write standard output"] * 6, NOT_WRITTEN)
MADE_PRINTED = Part(["write standard output"] * 3, NOT_WRITTEN)
LINES_READ = Part(["read standard input"], NOT_READ)
DIGITS = signature_of(LEVELS, INDEX, b"abc").hex()
ANSWER = [f"{INDEX}", " ", *(DIGITS[at : at + 2048] for at in range(0, len(DIGITS), 2048)), "\n"]
ANSWERED = Part(["write standard output"] * len(ANSWER), NOT_WRITTEN)
# What is joined.
PARTS = dict(zip(TO_JOIN, parts_to_join(LEVELS, LEVELS)))
JOINED_KEY, JOINED = joined(*PARTS.values())
READ_TO_JOIN = [Part(taken(name, len(part)), NOT_READ, range(5)) for name, part in PARTS.items()]
JOINED_AT, JOINED_FILE = Planned("joined.sig"), Given("joined.sig")
JOINED_FILE.memory = range(len(JOINED_FILE.steps))
JOINED_KEY_AT, JOINED_KEY_FILE = Planned("joined.pub"), Given("joined.pub", flushed=True)


def steps_in(parts):
    """The operations of these parts."""
    return [step for part in parts for step in part.steps]


class Command:
    """A command with its parts, what it prints, line by line or by these writes, the counter of the state
    before it, if any, and after it, whether it finds nodes, the name of an older file over which it writes,
    the other files that it finds, its input, if any, what the witness says before it and after it, or
    None where there is none, and where links lead that it finds."""

    def __init__(
        self, arguments, parts, output, counters, has_nodes=False, older=None, files=None, lines=None, says=(None, None), links=None
    ):
        self.arguments, self.parts, self.counters, self.says, self.links = arguments, parts, counters, says, links or {}
        self.writes = output if isinstance(output, list) else output.splitlines(True)
        self.has_nodes, self.older, self.files, self.input = has_nodes, older, files or {}, {"input": lines} if lines else {}

    def states(self):
        """The state before it, or none, and after it."""
        return [None if it is None else image(LEVELS, it, int(it > INDEX)) for it in self.counters]

    def written(self):
        """What it prints, by these writes. (The place of a witness is printed as a whole path.)"""
        return [os.path.realpath(it) if it == PLACE else it for it in self.writes]

    def begin(self):
        """Makes the files that it finds, and no others."""
        os.makedirs(FOLDER, exist_ok=True)
        for name in [*os.listdir("."), *(f"{FOLDER}/{name}" for name in os.listdir(FOLDER))]:
            if name != FOLDER:
                os.remove(name)
        put("text", b"abc")
        if self.says[0] is not None:
            put(PLACE, witness_of(self.says[0]))
            os.symlink(PLACE, WITNESS)
        before, _ = self.states()
        if before:
            put(STATE, before)
        if self.has_nodes:
            put(NODES, kept(LEVELS, KEPT))
        if self.older:
            put(self.older, bytes(60))
        for name, contents in self.files.items():
            put(name, contents)
        for name, target in self.links.items():
            os.symlink(target, name)

    def run(self, **settings):
        """The operations of a run, by paths from here, and how it ended."""
        ran = run(self.arguments, env=preload("stop", STEPS="steps", **settings), **self.input)
        here = os.path.realpath(".")
        steps = read("steps").decode().replace(f"{here}/", "").replace(here, ".").splitlines()
        os.remove("steps")
        return steps, ran

    def ends(self, steps, fault=None, **settings):
        """A run does these operations, and ends with this fault, or well where it is none."""
        found, ran = self.run(**settings)
        status, errors = (fault[0], f"error: {fault[1]}\n") if fault else (0, "")
        writes = self.written()[: found.count("write standard output")]
        if found[-2:] == ["write standard output", "write standard error"]:
            # (Half of what was to be written is printed.)
            writes[-1] = writes[-1][: len(writes[-1]) // 2]
        output = "".join(writes)
        said = f"{self.arguments[0]}, {settings}: {ran.returncode} {ran.stdout!r} {ran.stderr!r}, by the operations {found}, not {steps}"
        holds((ran.returncode, ran.stdout, ran.stderr, found) == (status, output, errors, steps), said)

    def rest(self, at, in_place):
        """The operations of the parts after one, where the file that is given away is written in place or not."""
        lost = lambda part: isinstance(part, Given) and in_place
        return [step for part in self.parts[at + 1 :] for step in ([*part.in_place(part.name), *part.leads(part.name)] if lost(part) else part.steps)]

    def after(self, at, place, number, fault):
        """The operations that follow where the one at a place of a part fails with the error of this number, with
        this fault or with none."""
        part = self.parts[at]
        cleaned = part.after(place)
        if fault:
            return [*cleaned, "write standard error"]
        if isinstance(part, Planned):
            return [*part.steps[place + 1 :] * (not part.is_lost(place)), *self.rest(at, part.is_lost(place))]
        if part is NODES_READ:
            return steps_in(BY_TREES[BY_TREES.index(NO_WITNESS) :])
        rest = steps_in(self.parts[at + 1 :])
        if part.instead(place, number) is not None:
            return [*part.instead(place, number), *rest]
        if part is DISCARDED and LOOKED_AT in rest:
            # (The draft that is left is no state image, and so it is replaced.)
            rest[rest.index(LOOKED_AT) + 1 : rest.index(LOOKED_AT) + 1] = [f"open {NEXT}", f"read {NEXT}"]
        return [*cleaned, *rest]

    def meets(self, at, place, number):
        """The operation at a place of a part fails alone, with the error of this number: no others
        follow than should. That operation, and the fault."""
        done = steps_in(self.parts[:at]) + self.parts[at].steps[: place + 1]
        self.begin()
        fault = self.parts[at].fault_at(place, number)
        self.ends(done + self.after(at, place, number, fault), fault, FAIL=len(done), LAST=len(done), FAULT=number)
        return done[-1], fault

    def fails_at(self, at, place, number):
        """The operation at a place of a part fails so. The state is the old or the new one, and the
        next command does well."""
        last, fault = self.meets(at, place, number)
        stores = [it for it, part in enumerate(self.parts) if part.steps is STORE]
        # (Without a fault it goes on to the end.)
        is_stored = not fault or (bool(stores) and (at, place) >= (stores[0], PLACED))
        left = self.states()[is_stored]
        holds((read(STATE) if os.path.exists(STATE) else None) == left, f"{last}: another state is left")
        for draft in (DRAFT, NEW):
            holds(not os.path.exists(draft), f"{last}: the draft {draft} is left")
        holds(is_stored or not os.path.exists("text.sig"), f"{last}: a signature is written before the state")
        self.keeps_witness(at, place, fault, last)
        self.goes_on(left, self.counters[is_stored])

    def keeps_witness(self, at, place, fault, last):
        """Where the operation at a place of a part fails the witness is the old or the new one, and is placed
        before a signature is written. No draft of it is left, but by a removal that failed."""
        placing = [(it, NEXT_PLACED) for it, part in enumerate(self.parts) if part is PLACED_NEXT]
        placing += [(it, len(MAKE) - 1) for it, part in enumerate(self.parts) if part is MADE]
        is_placed = not fault or (bool(placing) and (at, place) >= placing[0])
        said = self.says[is_placed]
        found = read(PLACE) if os.path.exists(PLACE) else None
        holds(found == (None if said is None else witness_of(said)), f"{last}: another witness is left: {found}")
        holds(os.path.lexists(WITNESS) == (said is not None), f"{last}: a link to the witness is missing, or left")
        holds(self.parts[at] is DISCARDED or not os.path.exists(NEXT), f"{last}: the draft {NEXT} is left")
        holds(is_placed or said is None or not os.path.exists("text.sig"), f"{last}: a signature is written before the witness")

    def goes_on(self, state, counter):
        """The next commands do well, from this state with this counter, or from none."""
        if not state:
            ends(keygen("5/1"), 0, "capacity 32\n")
        if self is RESUME and counter == INDEX:
            ends(self.arguments, 0, *self.writes)
            counter = INDEX + 1
        signs(LEVELS, counter or 0)
        for draft in (NEW, NEXT):
            holds(not os.path.exists(draft), f"the draft {draft} is left")


BY_TREES = [STREAMS, SIGNATURE_AT, MESSAGE, LOCKED, NO_NODES, NO_WITNESS, STATE_READ, STORED, NODES_KEPT, SIGNATURE, PRINTED]
BY_NODES = [STREAMS, SIGNATURE_AT, MESSAGE, LOCKED, NODES_READ, NO_WITNESS, STATE_READ, STORED, SIGNATURE, PRINTED]
# (An endorsement has the name of a signature here.)
BY_ENDORSING = [STREAMS, SIGNATURE_AT, SIGNER_READ, *BY_TREES[3:-1], ENDORSED]
FIRST = [STREAMS, PUBLIC_KEY_AT, LOCKED_FIRST, NONE_THERE, NO_WITNESS, STORED_FIRST, NODES_KEPT, PUBLIC_KEY, PRINTED]
BESIDE_A_WITNESS = [STREAMS, SIGNATURE_AT, MESSAGE, LOCKED, NO_NODES, *OPENED, STORED.beside_a_witness(), PLACED_NEXT, NODES_KEPT, SIGNATURE, PRINTED]
NUMBERS = f"levels 5/1\ncounter {INDEX}\ncapacity 32\nleft {32 - INDEX}\nopenings 0\nburnt 0\n"
KEYGEN = Command(keygen("5/1"), FIRST, "capacity 32\n", (None, 0))
AGAIN = [STREAMS, LOCKED, STATE_READ, PUBLIC_KEY_AT, PUBLIC_KEY_AGAIN, PRINTED]
PUBLIC = Command(public(), AGAIN, "capacity 32\n", (INDEX, INDEX), has_nodes=True, older="key.pub")
SIGN_BY_TREES = Command(sign(), BY_TREES, f"index {INDEX}\n", (INDEX, INDEX + 1))
SIGN_BY_NODES = Command(sign(), BY_NODES, f"index {INDEX}\n", (INDEX, INDEX + 1), has_nodes=True)
ENDORSE = Command(
    endorse(out="text.sig"), BY_ENDORSING, endorsed_lines(INDEX, SIGNER), (INDEX, INDEX + 1), files={"signer.pub": SIGNER}
)
DESCRIBE = Command(INFO, [STREAMS, LOCKED, STATE_READ, DESCRIBED], NUMBERS, (INDEX, INDEX), has_nodes=True)
# The use of an index is stored before its answer is printed, and that is printed before more is read.
ANSWERING = [LINES_READ, NO_WITNESS, STATE_READ, STORED, ANSWERED]
SERVED = [STREAMS, LOCKED, NO_WITNESS, STATE_READ, *ANSWERING, LINES_READ, NO_WITNESS, STATE_READ]
LINES = job_lines(b"abc").decode()
SERVICE = Command(SERVE, SERVED, ANSWER, (INDEX, INDEX + 1), has_nodes=True, lines=LINES)
# Where no index is used the draft of the witness is removed.
ANSWERING_BESIDE = [LINES_READ, *OPENED, STORED.beside_a_witness(), PLACED_NEXT, ANSWERED]
SERVED_BESIDE = [STREAMS, LOCKED, *OPENED, DISCARDED, *ANSWERING_BESIDE, LINES_READ, *OPENED, DISCARDED]
SERVICE_BESIDE = Command(SERVE, SERVED_BESIDE, ANSWER, (INDEX, INDEX + 1), has_nodes=True, lines=LINES, says=(INDEX, INDEX + 1))
SIGN_BESIDE = Command(sign(), BESIDE_A_WITNESS, f"index {INDEX}\n", (INDEX, INDEX + 1), says=(INDEX, INDEX + 1))
SAID = [witness_of(INDEX).decode(), PLACE, "\n"]
WATCH = Command(witness(INDEX), [STREAMS, LOCKED, NO_WITNESS, STATE_READ, MADE, MADE_PRINTED], SAID, (INDEX, INDEX), says=(None, INDEX))
BURNT = [f"indices {INDEX} to {INDEX} burnt; right only if the witness is the newest\n"]
RESUMED = [STREAMS, LOCKED, WITNESS_SEEN, WITNESS_READ, STATE_READ, STORED, PRINTED]
RESUME = Command(resume(INDEX + 1), RESUMED, BURNT, (INDEX, INDEX + 1), says=(INDEX + 1, INDEX + 1))
LOCKING = {
    "keygen": KEYGEN, "public": PUBLIC, "sign by trees": SIGN_BY_TREES, "sign by kept trees": SIGN_BY_NODES, "endorse": ENDORSE,
    "info": DESCRIBE, "serve": SERVICE, "sign beside a witness": SIGN_BESIDE, "serve beside a witness": SERVICE_BESIDE,
    "witness": WATCH, "resume": RESUME,
}
JOIN = Command(join(), [STREAMS, *READ_TO_JOIN, JOINED_AT, JOINED_FILE], "", (INDEX, INDEX), files=PARTS)
JOIN_KEYS = Command(join_public(), [STREAMS, *READ_TO_JOIN[::2], JOINED_KEY_AT, JOINED_KEY_FILE], "", (INDEX, INDEX), files=PARTS)
DESCRIPTION = f"state\n{NUMBERS}id {IDENTIFIER.hex()}\nwitness "
INSPECT = Command(inspect(), [STREAMS, STATE_TAKEN, FOUND, NO_WITNESS, PRINTED], [f"{DESCRIPTION}none\n"], (INDEX, INDEX), has_nodes=True)
LOOKED = [STREAMS, STATE_TAKEN, FOUND, WITNESS_SEEN, WITNESS_READ, PRINTED]
INSPECT_BESIDE = Command(inspect(), LOOKED, [f"{DESCRIPTION}{INDEX}\n"], (INDEX, INDEX), says=(INDEX, INDEX))
COMMANDS = {**LOCKING, "join": JOIN, "join-public": JOIN_KEYS, "inspect": INSPECT, "inspect beside a witness": INSPECT_BESIDE}


def elsewhere(name, links):
    """The commands that write a public key, by a name that leads into the folder of the witness, each with that
    key."""
    told = os.path.relpath(name)
    target = links.get(name, told)
    at = Planned(target, FOLDER, ["resolve .", f"follow {told}"] if links else ())
    written = Given(told, target, FOLDER, flushed=True)
    first = [STREAMS, at, *FIRST[2:-2], written, PRINTED]
    again, joining = [*AGAIN[:-3], at, written, PRINTED], [STREAMS, *READ_TO_JOIN[::2], at, written]
    return [
        (Command(keygen("5/1", public=name), first, "capacity 32\n", (None, 0), links=links), public_of(LEVELS)),
        (Command(public(name=name), again, "capacity 32\n", (INDEX, INDEX), has_nodes=True, links=links), public_of(LEVELS)),
        (Command(join_public(out=name), joining, "", (INDEX, INDEX), files=PARTS, links=links), JOINED_KEY),
    ]
