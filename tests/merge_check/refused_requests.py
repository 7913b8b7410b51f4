"""The program with each of its requests for memory refused in turn, until a run meets no refusal.

It ends well, or with a fault that says what became of the state, as the state then shows. A public
key, endorsement or joined signature that it writes is whole then; after a fault it is whole or absent. A next
`sign` does well, and no index is given twice. `refuse.c` refuses the request. `machine.c` gives the
program one processor, so that its requests are the same in each run, and a clock by which it tells of
all leaves that it has computed: so it is seen how many are computed when a request is refused. `sign` and
`endorse` ask for all memory before they compute a leaf, and again where kept nodes turn out to be wrong; `keygen`
asks for that of its state and tree before, and `batch` and `serve` for all of a tree before its leaves. A
`serve` has answered all groups but the one that it is refused memory for. A witness says what the state does,
but where an index is burnt that signs nothing."""

import collections
import concurrent.futures
import functools
import os
import pathlib
import re

from tests.harness import Wrong, add_test, holds
from tests.merge_check.made_up_trees import MadeUpTree
from tests.merge_check.service import WINDOW, messages_of_groups
from tests.merge_check.wrong_nodes import misfitting
from tests.program import (
    BATCH, INFO, NODES, SERVE, TO_JOIN, WITNESS, endorse, index_in, inspect, job_lines, join, join_public, keygen, preload, public, put, resume, run, sign,
    verify, witness,
)
from tests.reference import (
    IDENTIFIER, SEED, SUBTREE, checked, image, joined, kept, kept_parts, number, parts_to_join, public_of, signature_of, witness_of,
)

ONE, TWO, TALL = ((5, 1),), ((5, 1),) * 2, ((15, 1), *((5, 1),) * 4)
# A signer's key.
SIGNER = public_of(ONE, identifier=b"\x66" * 16)
# A key of which the second level's trees are as large as what a `serve` keeps.
WIDE = ((5, 1), (10, 1))
# The last index of a tree of height 5, and the first one of the second bottom subtree of TALL's top tree.
LAST, EDGE = 31, 2 ** (SUBTREE + 20)
# A batch has a job on either side of the end of a tree.
JOBS, SERVE_BY_ONE = 2, [*SERVE[:-1], "1"]
# How far the clock goes on at a look, so that each count is told.
TICK = 10**10
# More requests than any command makes.
MOST_REQUESTS = 10**6
COUNT = re.compile(r"(\d+) of (\d+) leaves\n")
FAULT = re.compile(r"(?:error: (.*)\n)?")


def key_of(levels):
    """The file of a public key."""
    return {"key.pub": public_of(levels)}


def with_nodes():
    """And kept nodes of the index LAST."""
    return {**key_of(TWO), NODES: kept(TWO, LAST)}


def with_another_root():
    """And kept nodes of the index LAST, but for the root of the top tree."""
    return {**key_of(TWO), NODES: misfitting(TWO, LAST)["another root of the top tree"]}


def with_signature():
    """And a signature."""
    return {**key_of(TWO), "old.sig": signature_of(TWO, 0, b"abc")}


def with_signer():
    """And a signer's key."""
    return {**key_of(TWO), "signer.pub": SIGNER}


def with_witness():
    """And kept nodes of the index LAST, and a witness that says that all before it are used."""
    return {**with_nodes(), WITNESS: witness_of(LAST)}


def with_lower_witness():
    """The same of a key of one level, two indices lower."""
    return {**key_of(ONE), WITNESS: witness_of(LAST - 2)}


def with_newer_witness():
    """And a witness that says that JOBS more are used."""
    return {**key_of(TWO), WITNESS: witness_of(LAST + JOBS)}


def with_parts():
    """And what is to be joined."""
    return {**key_of(TWO), **dict(zip(TO_JOIN, parts_to_join(ONE, TWO)))}


@functools.lru_cache(maxsize=None)
def joined_parts():
    """The public key and the signature that are joined."""
    return joined(*parts_to_join(ONE, TWO))


def with_tall_nodes():
    """The public key and the top tree of TALL, as `keygen` keeps it, with nodes that are made up, but for
    the bottom subtree that the index EDGE goes through."""
    top = MadeUpTree(*TALL[0], IDENTIFIER, SEED, {0: [], 1: range(2**SUBTREE, 2 * 2**SUBTREE)})
    nodes = checked(TALL, kept_parts(0, [(top, 0, b"")]))
    return {"key.pub": number(len(TALL), 4) + top.public(), NODES: nodes}


class Command:
    """A command: its arguments, the levels of the key, the index that the state gives next, or None where
    there is no state, how many indices it uses, its input, and a call for the other files that it finds.
    `late` says how many leaves were computed where it ends by a refusal and some were: each number with
    that of these refusals, or the numbers alone. Where only those are tried that burn an index, the others
    are as in another command. What it makes is a file of a name with the bytes of a call, if that is said.
    `says` is the number of the witness that it finds, if any.
    A `serve` answers its jobs one by one, and all others at once."""

    def __init__(self, arguments, levels, late, index=LAST, uses=1, lines=b"", files=None, burns=False, makes=None, says=None):
        self.arguments, self.levels, self.late, self.index, self.uses, self.lines = arguments, levels, late, index, uses, lines
        self.files, self.burns, self.makes, self.says = files or (lambda: key_of(levels)), burns, makes, says
        self.at_once = 1 if arguments is SERVE_BY_ONE else uses

    def begin(self, folder, files):
        """Makes the files that it finds."""
        folder.mkdir()
        for name, contents in {"text": b"abc", "lines": self.lines, **files}.items():
            put(folder / name, contents)
        if self.index is not None:
            put(folder / "key.state", image(self.levels, self.index))

    def ends(self, fault, answers):
        """With which status it may end where it prints this fault and so many answers, and how many
        indices are used by then, or None without a state."""
        # (All that was asked for at once before is answered.)
        before = answers - answers % self.at_once if self.at_once < self.uses else 0
        if fault is None:
            return 0, [self.uses]
        if fault == "out of memory":
            return 5, [0, None] if self.index is None else [before]
        if self.uses and fault == f"out of memory: {self.at_once} burnt":
            return 5, [before + self.at_once]
        if self.uses and fault == f"partial: {answers - before} of {self.at_once} signed":
            return 1, [before + self.at_once]
        holds(self.uses and fault == "cannot write output", f"it says {fault!r}")
        return 6, [before + self.at_once]


class Run:
    """A command with the request of a number refused, in a folder of its own."""

    def __init__(self, command, files, request):
        self.command, self.folder, made = command, pathlib.Path(str(request)).resolve(), pathlib.Path(f"{request}.made").resolve()
        command.begin(self.folder, files)
        settings = {"REFUSE": request, "REQUESTS": made, "PROCESSORS": 1, "TICK": TICK}
        self.ran = self.run(command.arguments, env=preload("refuse", "machine", **settings))
        self.made = int(made.read_text())
        self.told, announced = max(((int(told), int(all_of)) for told, all_of in COUNT.findall(self.ran.stderr)), default=(0, 0))
        found = FAULT.fullmatch(COUNT.sub("", self.ran.stderr))
        holds(found, f"it printed {self.ran.stderr!r}")
        self.fault = found[1]
        holds(self.fault or self.told == announced, f"it told of {self.told} leaves, and announced {announced}")

    def run(self, arguments, **how):
        """Runs the program here."""
        with open(self.folder / "lines", "rb") as lines:
            return run(arguments, cwd=self.folder, stdin=lines, **how)

    def used(self):
        """How many indices were used since, by the state, or None where there is none."""
        state, first = self.folder / "key.state", self.command.index or 0
        if not state.exists():
            return None
        for used in range(JOBS + 1):
            if state.read_bytes() == image(self.command.levels, first + used, used if self.command.at_once == 1 else min(used, 1)):
                return used
        raise Wrong("another state is left")

    def given(self):
        """The indices that it gave, by its answers or by its signature."""
        if self.command.lines:
            return [int(it.partition(" ")[0]) for it in self.ran.stdout.splitlines()]
        signature = self.folder / "text.sig"
        return [index_in(signature.read_bytes(), self.command.levels)] if signature.exists() else []

    def check(self):
        """Compares the end, and goes on."""
        used, given, status = self.used(), self.given(), self.ran.returncode
        wanted, may_use = self.command.ends(self.fault, len(given))
        holds(status == wanted and used in may_use, f"it ended with {status} and {self.fault!r}, and {used} indices are used")
        if self.command.makes:
            name, contents = self.command.makes
            left = (self.folder / name).read_bytes() if (self.folder / name).exists() else None
            holds(left == contents() or (status and left is None), f"it ended with {status}, and {name} is missing or has other bytes")
        if self.command.says is not None:
            # (What is burnt before a witness is written stays out of it.)
            before = self.command.says if not given else self.command.index + len(given) // self.command.at_once * self.command.at_once
            numbers = [before, self.command.index + used] if self.fault and used else [self.command.index + used if used else before]
            said = (self.folder / WITNESS).read_bytes()
            holds(said in map(witness_of, numbers), f"{used} indices are used, and the witness says {said}")
        if used is None:
            ran = self.run(self.command.arguments)
            holds(ran.returncode == 0, f"the next keygen fails: {ran.stderr!r}")
        elif used or self.command.index is None:
            self.goes_on((self.command.index or 0) + used, given)

    def goes_on(self, index, given):
        """The next `sign` gives this index."""
        ran = self.run(sign(out="next.sig"))
        holds(ran.stdout == f"index {index}\n", f"the next sign: {ran.returncode} {ran.stdout!r} {ran.stderr!r}, and not index {index}")
        holds(index not in given, f"index {index} is given twice")
        if self.command.index is not None or self.fault is None:
            holds(self.run(verify(signature="next.sig")).stdout == "valid\n", "the next signature is invalid")


def refuses(command, files, request):
    """Refuses the request of a number, if there is one that is to be tried. Whether it was, and how many
    leaves were computed where that ended the command, or None."""
    try:
        one = Run(command, files, request)
        one.check()
    except Wrong as why:
        raise Wrong(f"with request {request} refused: {why}") from why
    is_tried = request <= one.made and not (command.burns and one.fault == "out of memory")
    return is_tried, one.told if is_tried and one.fault else None


def refuses_each(command):
    """Refuses each request of a command, some at once; or from the last one down, while an index is
    burnt."""
    preload("refuse", "machine")
    files, late, at_once = command.files(), collections.Counter(), len(os.sched_getaffinity(0))
    last = Run(command, files, MOST_REQUESTS).made
    requests = list(range(1, last + 2) if not command.burns else range(last, 0, -1))
    with concurrent.futures.ThreadPoolExecutor(at_once) as pool:
        while requests:
            found = list(pool.map(lambda request: refuses(command, files, request), requests[:at_once]))
            late.update(told for _, told in found if told)
            requests = requests[at_once:] if all(is_tried for is_tried, _ in found) else []
    is_as_said = late == command.late if isinstance(command.late, dict) else set(late) == command.late
    holds(is_as_said, f"leaves computed where memory is refused: {dict(late)}, and not {command.late}")


COMMANDS = {
    "keygen": Command(keygen("5/1,5/1", public="new.pub"), TWO, {}, index=None, uses=0, makes=("new.pub", lambda: public_of(TWO))),
    "public": Command(public(name="again.pub"), TWO, {}, uses=0, makes=("again.pub", lambda: public_of(TWO))),
    "info": Command(INFO, TWO, {}, uses=0),
    "inspect": Command(inspect(), TWO, {}, uses=0, files=with_witness),
    "inspect of a signature": Command(inspect("old.sig"), TWO, {}, uses=0, files=with_signature),
    "verify": Command(verify(signature="old.sig"), TWO, {}, uses=0, files=with_signature),
    "join": Command(join(), TWO, {}, uses=0, files=with_parts, makes=("joined.sig", lambda: joined_parts()[1])),
    "join-public": Command(join_public(), TWO, {}, uses=0, files=with_parts, makes=("joined.pub", lambda: joined_parts()[0])),
    "sign by two trees": Command(sign(), TWO, {}),
    "sign by one tree": Command(sign(), ONE, {}, index=LAST - 1, burns=True),
    "sign by kept trees": Command(sign(), TWO, {}, files=with_nodes, burns=True),
    "sign beside a witness": Command(sign(), TWO, {}, files=with_witness, says=LAST),
    "endorse": Command(endorse(len(TWO) + 1, out="text.sig"), TWO, {}, files=with_signer, makes=("text.sig", lambda: signature_of(TWO, LAST, SIGNER[4:]))),
    "batch beside a witness": Command([*BATCH[:-1], "1"], TWO, {32: 4, 64: 3, 96: 5}, uses=JOBS, lines=job_lines(*[b"abc"] * JOBS), files=with_witness, says=LAST),
    "serve beside a witness": Command(SERVE_BY_ONE, ONE, {32}, index=LAST - 2, uses=JOBS, lines=job_lines(*messages_of_groups(*[1] * JOBS)), files=with_lower_witness, says=LAST - 2),
    "witness": Command(witness(LAST, "new.witness"), TWO, {}, uses=0, makes=("new.witness", lambda: witness_of(LAST))),
    "resume": Command(resume(LAST + JOBS), TWO, {}, uses=JOBS, files=with_newer_witness, says=LAST + JOBS),
    "sign by the next tree": Command(sign(), TWO, {}, index=LAST + 1, files=with_nodes, burns=True),
    "sign by the next tree, under another root": Command(sign(), TWO, {32: 8}, index=LAST + 1, files=with_another_root, burns=True),
    "sign by the next bottom subtree": Command(sign(), TALL, {}, index=EDGE, files=with_tall_nodes, burns=True),
    "batch": Command([*BATCH[:-1], "1"], TWO, {32: 4, 64: 3, 96: 5}, uses=JOBS, lines=job_lines(*[b"abc"] * JOBS)),
    "serve": Command(SERVE_BY_ONE, ONE, {32}, index=LAST - 2, uses=JOBS, lines=job_lines(*messages_of_groups(*[1] * JOBS))),
    "serve over the edge of its trees": Command(SERVE_BY_ONE, WIDE, {32, 1056}, index=WINDOW - 1, uses=JOBS, lines=job_lines(*[b"abc"] * JOBS)),
}
for what, one_of_them in COMMANDS.items():
    add_test(f"{what}, each request for memory refused", refuses_each, one_of_them)
