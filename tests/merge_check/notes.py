"""What follows a fault or a verdict where standard error is a terminal: one line more, of names and numbers, which
tells no value of an option that a seed may be typed into; and elsewhere nothing. Each text that the program has is
met."""

import os
import shutil
import subprocess
import threading
import tty

from tests.harness import add_test, holds, test
from tests.merge_check.service import ABC, Service, answer
from tests.program import (
    BATCH, TO_JOIN, VERIFY, WITNESS, Lock, as_who_may_not, endorse, join, join_public, keygen, on_terminal, preload, public, put, read, resume, run, said_on, sign,
    verify, witness,
)
from tests.reference import image, number, parts_to_join, public_of, signature_of, witness_of
from tests.seeds import given

ONE, TWO = ((5, 8),), ((5, 8),) * 2
SEED = "5e" * 32
PUBLIC, SIGNATURE, OF_TWO = public_of(ONE), signature_of(ONE, 0, b"abc"), signature_of(TWO, 0, b"abc")
NO_FILE, A_FOLDER = "No such file or directory", "Is a directory"
LEVELS = "heights are 5, 10, 15, 20, 25, widths 1, 2, 4, 8, as in 10/8,10/8"
IN_USE, UNREAD, UNWRITTEN = "state in use", "cannot read input", "cannot write output"
# More requests for memory than a run makes.
MOST_REQUESTS = 500


def clear():
    """Removes all files."""
    for name in os.listdir():
        if os.path.isdir(name) and not os.path.islink(name):
            shutil.rmtree(name)
        else:
            os.remove(name)


def said(words, looked_on=True, text=b"", output=os.devnull, **how):
    """What a run ends with and says, on a terminal or elsewhere, with this input and its output to this file."""
    put("input", text)
    with open("input", "rb") as lines, open(output, "wb") as printed:
        how = {"stdin": lines, "stdout": printed, **how}
        if looked_on:
            return on_terminal(words, ("stderr",), **how)[:2]
        ran = run(words, capture_output=False, stderr=subprocess.PIPE, **how)
        return ran.returncode, ran.stderr


def is_note(words, errors):
    """The last line of these errors is a note that tells no option's value."""
    last = errors.splitlines(True)[-1]
    holds(last.startswith("note: ") and len(last) <= 200 and all(0x20 <= ord(it) <= 0x7E for it in last[:-1]), f"no note: {last!r}")
    for option in ("--levels", "--seed", "--id", "--random"):
        value = given(words, option)
        holds(not value or len(value) < 8 or value not in last, f"it tells {option}: {last!r}")


def says(words, status, fault, note, make=None, **how):
    """On a terminal this note follows the fault's line, or the verdict; elsewhere there is none."""
    line = f"error: {fault}\n" if fault else ""
    for looked_on in (True, False):
        if make:
            clear()
            make()
        ended, errors = said(words, looked_on, **how)
        wanted = f"{line}note: {note}\n" if looked_on else line
        holds((ended, errors) == (status, wanted), f"{words}: {ended} {errors!r}")
        if looked_on:
            is_note(words, errors)


def begin():
    """A key that has signed, a message, what is to be joined, and a key that may be endorsed."""
    put("key.state", image(ONE, 3))
    put("key.pub", PUBLIC)
    put("text", b"abc")
    put("text.sig", SIGNATURE)
    put("other.pub", public_of(ONE, identifier=b"other identifier"))
    for name, contents in zip(TO_JOIN, parts_to_join(ONE, ONE)):
        put(name, contents)


def having(files, *folders):
    """What makes these files and folders, too."""

    def make():
        begin()
        for name, contents in files.items():
            put(name, contents)
        for name in folders:
            os.mkdir(name)

    return make


def state(contents):
    """What makes a state of these bytes."""
    return having({"key.state": contents})


def seen(counter):
    """What makes a witness of this counter."""
    return having({WITNESS: witness_of(counter)})


def info(name="key.state"):
    """The arguments of an `info`."""
    return ["info", "--state", name]


def new(**how):
    """The arguments of a `keygen` of a new key."""
    return keygen(**{"state": "new.state", "public": "new.pub", **how})


LONG = "n" * 100
# Each case of a file or a stream that can't be read or written: what is made, the arguments, the status, the fault and the
# note.
FILES = {
    "a missing file": (begin, verify(signature="nothere.sig"), 6, UNREAD, f"nothere.sig: {NO_FILE}"),
    "a long name": (begin, verify(signature=LONG), 6, UNREAD, f"...{LONG[20:]}: {NO_FILE}"),
    "a name of other letters": (begin, verify(signature="n\u00e4me"), 6, UNREAD, f"n??me: {NO_FILE}"),
    "a folder in place of a file": (begin, sign(message="."), 6, UNREAD, f".: {A_FOLDER}"),
    "a folder in place of a message": (begin, verify(message="."), 6, UNREAD, f".: {A_FOLDER}"),
    "a full device": (begin, sign(out="/dev/full"), 6, UNWRITTEN, "/dev/full: No space left on device; index 3 is used"),
    "an endorsement on a full device": (begin, endorse(signer="other.pub", out="/dev/full"), 6, UNWRITTEN, "/dev/full: No space left on device; index 3 is used"),
    "a message as output": (begin, sign(out="text"), 6, UNWRITTEN, "text: this run has read it; index 3 is used"),
    "a state as output": (begin, public(name="key.state"), 6, UNWRITTEN, "key.state: it is a state or a witness"),
    "a lock as output": (begin, public(name="key.state.lock"), 6, UNWRITTEN, "key.state.lock: the program writes it beside a state or a witness"),
}
# Each case of an option: the arguments, the fault and the note.
OPTIONS = {
    "a short seed": (new(seed=SEED[1:]), "bad seed", "63 hexadecimal digits; a seed has 64"),
    "a seed of other letters": (new(seed="x" * 64), "bad seed", "a seed has 64 hexadecimal digits, and nothing else"),
    "a seed in place of levels": (new(levels=SEED), "bad levels", LEVELS),
    "a short seed in place of levels": (new(levels=SEED[1:]), "bad levels", LEVELS),
    "nine levels": (new(levels=",".join(["5/8"] * 9)), "too many levels", "a key has at most 8 levels"),
    "a tall key": (new(levels="25/8,25/8,15/8"), "too tall", "the heights sum to at most 60"),
    "a seed in place of an identifier": (new(identifier=SEED), "bad id", "an identifier has 32 hexadecimal digits, and nothing else"),
    "a short randomizer": (sign(randomizer=SEED[1:]), "bad random", "a randomizer has 64 hexadecimal digits, and nothing else"),
    "workers": ([*BATCH[:-1], "65"], "bad workers", "workers are 1 to 64, in decimal"),
    "a counter": (resume("x"), "bad counter", "a counter is a number below 2^64, in decimal"),
    "nine joined levels": (endorse(9), "bad levels", "joined keys have 2 to 8 levels, in decimal"),
}
NO_KEY = "{} is no public key of 60 bytes, 1 to 8 levels and known types"
# Each case of a key, a signature or a line that is refused.
INPUTS = {
    "a top key that endorses itself": (begin, endorse(signer="key.pub"), 2, "bad public key", "it is the top key, or has its identifier"),
    "levels of both keys": (
        begin, endorse(3, "other.pub"), 2, "bad public key", "the levels of the top key, 1, and of the signer's, 1, are not 3 together",
    ),
    "a signer's key that is none": (begin, endorse(signer="text"), 2, "bad public key", NO_KEY.format("it")),
    "a top key that is none": (having({"top.pub": PUBLIC[1:]}), join(), 2, "bad public key", NO_KEY.format("the top key")),
    "a signer's key that can't be joined": (having({"signer.pub": b"x"}), join_public(), 2, "bad public key", NO_KEY.format("the signer's key")),
    "keys of nine levels": (
        having({"top.pub": number(8, 4) + PUBLIC[4:]}), join(), 2, "bad public key", "the keys have 8 and 1 levels; a joined one has 8 at most",
    ),
    "an endorsement of another key": (
        having({"signer.pub": PUBLIC}), join(), 2, "bad endorsement", "it is no signature of the signer's key by the top key",
    ),
    "a signature that can't be joined": (
        having({"signer.sig": SIGNATURE[:1000]}), join(), 2, "bad signature", "it is cut off, or by another key than the signer's",
    ),
}
# Each case of a state or a witness.
STATES = {
    "a lock's folder that is missing": (begin, sign(state="no/key.state"), 3, IN_USE, f"no/key.state.lock can't be made: {NO_FILE}"),
    "a link that leads nowhere": (lambda: os.symlink("no/key.state", "link.state"), info("link.state"), 3, IN_USE, f"link.state: {NO_FILE}"),
    "a state that is there": (begin, keygen(), 3, "state exists", "key.state is there, or nobody knows; keygen makes new ones alone"),
    "no state": (begin, info("none"), 3, "cannot read state", f"none: {NO_FILE}"),
    "a state that is cut off": (state(b"HSSK"), info(), 3, "bad state: Truncated", "key.state is cut off, or no state"),
    "other bytes": (state(b"x" * 200), info(), 3, "bad state: NotAnImage", "key.state is no state"),
    "another version": (
        state(image(ONE, 3, version=3)), info(), 3, "bad state: UnknownVersion", "key.state is a state of another version of this program",
    ),
    "a damaged state": (
        state(image(ONE, 3)[:-1] + b"-"), info(), 3, "bad state: Damaged", "key.state is damaged; KEYS says what to do with a bad state",
    ),
    "a state of another writer": (state(image(ONE, 33)), info(), 3, "bad state: CounterTooHigh", "key.state is no state that this program wrote"),
    "a new state that can't be written": (
        having({}, "new.state.new"), new(), 3, "cannot write state", "info tells whether the key is stored; none of its indices is used",
    ),
    "a state that can't be written": (
        having({}, "key.state.new"), sign(), 3, "cannot write state: 3 to 3 burnt", "info tells whether the index is counted; it signed nothing",
    ),
    "no index": (state(image(ONE, 32)), sign(), 4, "exhausted: 0 left", "the key has no more indices; make a new one"),
    "no witness": (begin, resume(5), 3, "cannot read witness", "there is none beside the state"),
    "a medium that is not there": (
        lambda: (begin(), os.symlink("no/file", WITNESS)), sign(), 3, "cannot read witness", f"the witness: {NO_FILE}",
    ),
    "a witness that is there": (seen(3), witness(3, "file"), 3, "witness exists", "beside the state; it was made before, or is another key's"),
    "a witness that is none": (having({WITNESS: b"x"}), sign(), 3, "bad witness", "it is another key's, or no witness"),
    "a witness that can't be made": (begin, witness(3, "no/file"), 3, "cannot write witness", f"no/file: {NO_FILE}"),
    "a witness by the name of a state's draft": (
        begin, witness(3, "key.state.new"), 3, "cannot write witness", "key.state.new: the program writes it, or something has the name of its draft",
    ),
    "a witness whose draft is a state": (
        having({WITNESS: witness_of(3), f"{WITNESS}.new": image(ONE, 3, seed=b"\x44" * 32)}), sign(), 3, "cannot write witness", "the witness: a state has the name of its draft",
    ),
    "a long witness": (
        having({WITNESS: bytes(129)}), sign(), 3, "cannot read witness", "the witness: no plain file of at most 128 bytes",
    ),
    "an older state": (seen(9), sign(), 3, "state is older than its witness", "the state is an older copy; KEYS says what to do with it"),
    "a state that is the newest": (seen(3), resume(3), 3, "state is not older than its witness", "there is nothing to resume"),
    "another counter": (begin, witness(2, "file"), 3, "counter is 3", "that is what is counted, and --counter says another number"),
    "another counter of a witness": (seen(9), resume(5), 3, "counter is 9", "that is what the witness says, and --counter says another number"),
    "indices that can't be counted": (
        lambda: (seen(9)(), os.mkdir("key.state.new")), resume(9), 3, "cannot write state: 3 to 8 burnt", "info tells whether the indices are counted; give resume again",
    ),
    "a witness of more than all": (seen(99), resume(99), 4, "exhausted: 29 left", "the witness counts more indices than the key has"),
}
# Each case of a batch: what is made, its input, the status, the fault and the note.
BATCHES = {
    "no job line": (begin, b"x\n", 2, "line 1: bad job", "a job is 64 hexadecimal digits, a space, and a message in hexadecimal"),
    "a long batch": (begin, ABC * 1025, 2, "too many jobs", "a batch has at most 1024 jobs; serve answers any number"),
    "too few indices": (state(image(ONE, 31)), ABC * 2, 4, "exhausted: 1 left", "each line takes an index; hand in 1 at most"),
    "a state that a batch can't write": (
        having({}, "key.state.new"), ABC * 2, 3, "cannot write state: 3 to 4 burnt", "info tells whether the indices are counted; they signed nothing",
    ),
}
# Each command whose output can't be written, what it finds, and what it has done.
PRINTING = {
    "keygen": (begin, new(), "; the state and the public key are written"),
    "info": (begin, info(), ""),
    "public": (begin, public(name="again.pub"), "; the public key is written"),
    "sign": (begin, sign(), "; the signature is written, and its index is used"),
    "endorse": (begin, endorse(signer="other.pub"), "; the endorsement is written, and its index is used"),
    "batch": (begin, BATCH, "; the indices of lines that are not printed are used"),
    "witness": (begin, witness(3, "file"), "; the witness is made"),
    "resume": (seen(9), resume(9), "; the indices are counted"),
    "verify": (begin, VERIFY, ""),
}
TYPES = number(99, 4)
# Each case of a public key, or of a signature, or of a message.
VERDICTS = {
    "a key of another length": ({"key.pub": bytes(129)}, "the public key has 129 bytes; one has 60"),
    "a key of nine levels": ({"key.pub": number(9, 4) + PUBLIC[4:]}, "the public key says 9 levels; one has 1 to 8"),
    "a key of other types": ({"key.pub": PUBLIC[:4] + TYPES + PUBLIC[8:]}, "the public key has types that are not known"),
    "a signature that is cut off": ({"text.sig": SIGNATURE[:1000]}, "the signature has 1000 bytes; one of its levels has 1296"),
    "a signature of two levels that is cut off": (
        {"key.pub": public_of(TWO), "text.sig": OF_TWO[:1000]}, "the signature has 1000 bytes; one of its levels has 1352 at least",
    ),
    "a signed key of other types": (
        {"key.pub": public_of(TWO), "text.sig": OF_TWO[:1296] + TYPES + OF_TWO[1300:]}, "the signature's key of level 2 has types that are not known",
    ),
    "a signature of other levels": ({"text.sig": number(1, 4) + SIGNATURE[4:]}, "the signature says 2 levels, and the public key 1"),
    "a signature of more levels": ({"text.sig": OF_TWO}, "the signature says 2 levels, and the public key 1"),
    "a signature of fewer levels": ({"key.pub": public_of(TWO)}, "the signature says 1 levels, and the public key 2"),
    "a signature of too many levels": ({"text.sig": number(8, 4) + SIGNATURE[4:]}, "the signature says 9 levels, and the public key 1"),
    "a signature of no types": ({"text.sig": bytes(1296)}, "at level 1 the signature is of other types than its key"),
    "a signature by no leaf": ({"text.sig": SIGNATURE[:4] + number(32, 4) + SIGNATURE[8:]}, "at level 1 the signature is by leaf 32, which its tree has not"),
    "a lower level by no leaf": (
        {"key.pub": public_of(TWO), "text.sig": OF_TWO[:1352] + number(32, 4) + OF_TWO[1356:]}, "at level 2 the signature is by leaf 32, which its tree has not",
    ),
    "another message": ({"text": b"other"}, "all are well formed, but not of one another"),
}


def notes(make, words, status, fault, note):
    """One case."""
    says(words, status, fault, note, make)


for what, case in {**FILES, **INPUTS, **STATES}.items():
    add_test(f"says of {what}", notes, *case)
for what, (arguments, text, explained) in OPTIONS.items():
    add_test(f"says of {what}", notes, begin, arguments, 2, text, explained)
for what, (contents, explained) in VERDICTS.items():
    add_test(f"says of {what}", notes, having(contents), VERIFY, 1, None, explained)


@test
def says_of_a_batch():
    for make, lines, status, fault, note in BATCHES.values():
        says(BATCH, status, fault, note, make, text=lines)


@test
def says_what_was_done_that_is_not_printed():
    for make, words, done in PRINTING.values():
        says(words, 6, UNWRITTEN, f"standard output{done}", make, text=ABC, output="/dev/full")


@test
def says_of_standard_input():
    """That it is a folder."""
    folder = os.open(".", os.O_RDONLY)
    for words in (new(seed="-"), BATCH):
        says(words, 6, UNREAD, "standard input", begin, stdin=folder)
    os.close(folder)


@test
def says_who_holds_a_lock():
    """By the name that the lock has, also where a link leads to the state."""
    begin()
    os.mkdir("links")
    os.symlink("../key.state", "links/link.state")
    with Lock():
        says(sign(), 3, IN_USE, "another run holds key.state.lock; wait for it, and never remove it")
        path = os.path.realpath("key.state")
        said_so = path if len(path) <= 80 else f"...{path[len(path) - 80 :]}"
        says(sign(state="links/link.state"), 3, IN_USE, f"another run holds {said_so}.lock; wait for it, and never remove it")


@test
def says_that_a_name_leads_elsewhere():
    """As a link that is turned while the message is awaited."""
    begin()
    os.mkfifo("pipe")
    os.symlink("none", "link")

    def turn():
        """Writes the message, after the link was turned."""
        with open("pipe", "wb") as pipe:
            os.remove("link")
            os.symlink("text", "link")
            pipe.write(b"abc")

    turning = threading.Thread(target=turn)
    turning.start()
    found = said(sign(message="pipe", out="link"))
    turning.join()
    holds(found == (6, f"error: {UNWRITTEN}\nnote: link: its name leads elsewhere by now; index 3 is used\n"), f"{found}")


@test
def says_who_may_sign():
    """Where the folder takes no lock of this user's, and where the state is another's."""
    begin()
    how = as_who_may_not()
    os.mkdir("folder")
    put("folder/key.state", image(ONE, 3))
    os.chmod("folder", 0o555)
    says(info("folder/key.state"), 3, IN_USE, "folder/key.state.lock can't be made: Permission denied; sign as the state's owner", **how)
    os.chmod("key.state", 0)
    ended, errors = said(info(), **how)
    holds((ended, errors.endswith("key.state: Permission denied\n")) == (3, True), f"{ended} {errors!r}")


@test
def says_of_a_state_that_was_replaced():
    begin()
    terminal, side = os.openpty()
    tty.setraw(side)
    with os.fdopen(terminal, "rb", 0), Service(stderr=side) as it:
        os.close(side)
        it.write(ABC)
        it.answers(answer(ONE, 3))
        put("older", image(ONE, 3))
        os.rename("older", "key.state")
        it.running.stdin.close()
        errors = said_on(terminal).decode()
    holds(errors == "error: cannot read state\nnote: key.state is another than was left\n", f"it said {errors!r}")


@test
def says_of_a_witness_that_can_not_be_written():
    """Once the use of indices was stored: the rename of its draft fails."""
    rows = [(sign(), b"", "3 to 3", "the index is counted, and signed nothing"), (BATCH, ABC * 2, "3 to 4", "the indices are counted, and signed nothing")]
    for words, lines, which, used in rows:
        seen(3)()
        put("input", lines)
        with open("input", "rb") as handed:
            run(words, env=preload("stop", STEPS="steps"), stdin=handed)
        at = next(at for at, step in enumerate(read("steps").decode().splitlines(), 1) if step.startswith("rename ") and WITNESS in step)
        env = preload("stop", FAIL=at, LAST=at)
        says(words, 3, f"cannot write witness: {which} burnt", f"the witness: Input/output error; {used}", seen(3), text=lines, env=env)


@test
def says_of_memory_that_is_refused_late():
    """Each request for memory is refused in turn: what follows some faults is always the same."""
    known = {
        "out of memory: 1 burnt": "the index is counted, and signed nothing",
        "out of memory: 2 burnt": "the indices are counted, and signed nothing",
        "partial: 1 of 2 signed": "all indices are counted; those without a line signed nothing",
    }
    met = set()
    for words, lines in ((sign(), b""), ([*BATCH[:-1], "1"], ABC * 2)):
        for request in range(1, MOST_REQUESTS):
            clear()
            begin()
            ended, errors = said(words, text=lines, env=preload("refuse", REFUSE=request, REQUESTS="requests"))
            first, _, rest = errors.partition("\n")
            fault = first.removeprefix("error: ")
            holds(fault not in known or rest == f"note: {known.get(fault)}\n", f"{words[0]}: {ended} {errors!r}")
            met.add(fault)
            if request > int(read("requests")):
                break
    holds(met >= known.keys(), f"it says {sorted(met)}")


@test
def says_nothing_of_what_is_done():
    begin()
    for words in (sign(), VERIFY, public(name="again.pub"), info()):
        ended, errors, _ = on_terminal(words, ("stderr",))
        holds((ended, errors) == (0, ""), f"{words}: {ended} {errors!r}")
