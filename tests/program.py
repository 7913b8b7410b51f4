"""How tests run the program: its commands, what it is to print, its files, and what is loaded
before it. Where EMULATED names a script that runs the program for aarch64, that is the program."""

import fcntl
import hashlib
import os
import pathlib
import re
import resource
import select
import shutil
import stat
import subprocess
import tempfile
import time
import tty

from tests.harness import TOP, Skipped, Wrong, holds
from tests.reference import CHAINS, IDENTIFIER, RANDOMIZER, SEED, image, kept, signature_by, way_of
from tests.seeds import input_of, keeps_secret

EMULATED = os.environ.get("EMULATED")
PROGRAM = EMULATED or str(TOP / "crates/lms_tool/out/lms_tool")
CROSS_COMPILER = (os.environ.get("CC_AARCH64") or "aarch64-linux-gnu-gcc").split()
# What compiles a library that is loaded before the program.
COMPILER = CROSS_COMPILER if EMULATED else ["cc"]
# Who may not do what the tests want refused, where the user of the tests may do all.
NOBODY = 65534
NODES, DRAFT = "key.state.nodes", "key.state.nodes.new"
# The witness's name beside the state, and where most tests have its file.
WITNESS, PLACE = "key.state.witness", "other/witness"
INFO = ["info", "--state", "key.state"]
BATCH = ["batch", "--state", "key.state", "--workers", "2"]
SERVE = ["serve", *BATCH[1:]]
VERIFY = ["verify", "--public", "key.pub", "--message", "text", "--signature", "text.sig"]


def build_where_missing():
    """Builds the program where there is none."""
    if not os.path.exists(PROGRAM):
        how = {"stdin": subprocess.DEVNULL, "stdout": subprocess.DEVNULL, "check": True}
        subprocess.run(["rt", "run", "--", "--help"], cwd=TOP / "crates/lms_tool", **how)


def keygen(levels="5/8", seed=SEED.hex(), identifier=IDENTIFIER.hex(), state="key.state", public="key.pub"):
    """The arguments of a `keygen`."""
    return ["keygen", "--levels", levels, "--seed", seed, "--id", identifier, "--state", state, "--public", public]


def sign(message="text", out="text.sig", randomizer=RANDOMIZER.hex(), state="key.state"):
    """The arguments of a `sign`."""
    return ["sign", "--state", state, "--random", randomizer, "--message", message, "--out", out]


def endorse(joined=2, signer="signer.pub", out="signer.end", randomizer=RANDOMIZER.hex(), state="key.state"):
    """The arguments of an `endorse`."""
    return ["endorse", "--state", state, "--random", randomizer, "--signer", signer, "--joined", str(joined), "--out", out]


def endorsed_lines(index, signer):
    """What is printed of an endorsement of this signer's key."""
    return f"index {index}\nsigner {hashlib.sha256(signer).hexdigest()}\n"


def verify(message="text", signature="text.sig", public="key.pub"):
    """The arguments of a `verify`."""
    return ["verify", "--public", public, "--message", message, "--signature", signature]


def public(state="key.state", name="key.pub"):
    """The arguments of a `public`."""
    return ["public", "--state", state, "--public", name]


def witness(counter=0, place=PLACE, state="key.state"):
    """The arguments of a `witness`."""
    return ["witness", "--state", state, "--on", place, "--counter", str(counter)]


def resume(counter, state="key.state"):
    """The arguments of a `resume`."""
    return ["resume", "--state", state, "--counter", str(counter)]


# The files that `join` reads, if no others are named.
TO_JOIN = ["top.pub", "signer.end", "signer.pub", "signer.sig"]


def join(public="top.pub", endorsement="signer.end", signer="signer.pub", signature="signer.sig", out="joined.sig"):
    """The arguments of a `join`."""
    read_so = ["--public", public, "--endorsement", endorsement, "--signer", signer, "--signature", signature]
    return ["join", *read_so, "--out", out]


def join_public(public="top.pub", signer="signer.pub", out="joined.pub"):
    """The arguments of a `join-public`."""
    return ["join-public", "--public", public, "--signer", signer, "--out", out]


def inspect(name="key.state"):
    """The arguments of an `inspect`."""
    return ["inspect", "--file", name]


def job_lines(*messages, randomizer=RANDOMIZER):
    """Job lines of these messages."""
    return b"".join(b"%s %s\n" % (randomizer.hex().encode(), it.hex().encode()) for it in messages)


def index_in(signature, levels):
    """The index that a signature by these levels uses, or None where it is too short to tell."""
    index, at = 0, 4
    for level, (height, width) in enumerate(levels):
        # (Each signature but the last is followed by the public key that it signs.)
        at += 0 if level == 0 else 12 + 32 * (CHAINS[levels[level - 1][1]][1] + 1 + levels[level - 1][0]) + 56
        if len(signature) < at + 4:
            return None
        index = index << height | int.from_bytes(signature[at : at + 4], "big")
    return index


def read(name):
    """The bytes of a file."""
    return pathlib.Path(name).read_bytes()


def put(name, contents):
    """Writes a file."""
    pathlib.Path(name).write_bytes(contents)


def has(name, contents):
    """A file has these bytes."""
    holds(read(name) == contents, f"{name} has other bytes")


def mode_of(name):
    """Who may do what with a file, whatever kind it is of."""
    return stat.S_IMODE(os.lstat(name).st_mode)


def is_plain(name):
    """A file that a script made may be read, and nobody may do more with it than the user's mask
    leaves of a plain file: it is no program."""
    mask = os.umask(0)
    os.umask(mask)
    mode = mode_of(name)
    holds(mode & 0o400 and not mode & ~(0o666 & ~mask), f"{name} has the mode {mode:o}")


def run(arguments, program=PROGRAM, **how):
    """Runs the program, with no input where none is given. What it ended with and printed, as text
    where nothing else is said. The seed stays where it may stand."""
    how = {"timeout": 600, "capture_output": True, "text": True, **how}
    if "input" not in how:
        how.setdefault("stdin", subprocess.DEVNULL)
    ran = subprocess.run([program, *arguments], check=False, **how)
    record, folder = (how.get("env") or {}).get("RECORD"), how.get("cwd") or "."
    keeps_secret(arguments, (ran.stdout, ran.stderr), folder, record=record, given_input=input_of(how))
    return ran


def taken():
    """How many seconds of the processors all programs took that were run."""
    used = resource.getrusage(resource.RUSAGE_CHILDREN)
    return used.ru_utime + used.ru_stime


def measured(arguments, **how):
    """Runs the program. What it ended with and printed, how many seconds it took, and how many of the
    processors."""
    begun, before = time.monotonic(), taken()
    ran = run(arguments, **how)
    return ran, time.monotonic() - begun, taken() - before


def said_on(terminal):
    """All that is printed to a terminal until nobody has it any more."""
    said, last = b"", time.monotonic() + 120
    while True:
        holds(select.select([terminal], [], [], max(0, last - time.monotonic()))[0], f"it did not end in two minutes: {said[-200:]!r}")
        try:
            said += os.read(terminal, 65536)
        except OSError:
            return said


def on_terminal(arguments, streams=("stdout", "stderr"), program=PROGRAM, **how):
    """Runs the program with these of its streams on one terminal. What it ended with, what it printed
    there, and what to the other of the two streams, if any."""
    terminal, side = os.openpty()
    tty.setraw(side)
    how = {"stdin": subprocess.DEVNULL, "stdout": subprocess.PIPE, "stderr": subprocess.PIPE, **how, **dict.fromkeys(streams, side)}
    with subprocess.Popen([program, *arguments], **how) as running, os.fdopen(terminal, "rb", 0):
        os.close(side)
        try:
            shown = said_on(terminal)
            rest = b"".join(it.read() for it in (running.stdout, running.stderr) if it)
        except BaseException:
            running.kill()
            raise
    keeps_secret(arguments, (shown, rest), how.get("cwd") or ".")
    return running.returncode, shown.decode(), rest.decode()


def without_counts(errors, began):
    """The errors of a program that began then and has ended, without the lines that say how far it is. One
    comes every ten seconds: as many are left out, and no more."""
    most = int((time.monotonic() - began) / 10)
    return re.sub(r"(?m)^\d+ of \d+ leaves\n", "", errors, count=most) if most else errors


def ends(arguments, status, output="", errors="", **how):
    """The program ends with this status, and prints this output and these errors, and maybe how far it is."""
    began = time.monotonic()
    ran = run(arguments, **how)
    found = without_counts(ran.stderr, began)
    said = f"{' '.join(map(str, arguments))}: {ran.returncode} {ran.stdout!r} {ran.stderr!r}"
    holds((ran.returncode, ran.stdout, found) == (status, output, errors), f"{said}, not {status} {output!r} {errors!r}")


def fails(arguments, status, line, **how):
    """The program ends with this status and this line on standard error, and prints nothing."""
    ends(arguments, status, errors=f"error: {line}\n", **how)


def described(levels, counter, capacity, openings, burnt):
    """`info` says this of the state."""
    numbers = {"counter": counter, "capacity": capacity, "left": capacity - counter, "openings": openings, "burnt": burnt}
    lines = "".join(f"{name} {value}\n" for name, value in numbers.items())
    ends(INFO, 0, f"levels {levels}\n{lines}")


def signs(levels, index, way=None, state="key.state", **how):
    """This index is given, and its signature is right, by the key's way or this one. It takes the
    place of a longer file."""
    put("text.sig", bytes(30000))
    ends(sign(state=state), 0, f"index {index}\n", **how)
    has("text.sig", signature_by(way or way_of(levels, index), b"abc"))


def makes_again(levels, index, seed, identifier, randomizer, message, public_key, signature):
    """The seed and the identifier of a key give its public key, and the index the signature, which is
    valid."""
    capacity = 2 ** sum(height for height, _ in levels)
    spelt = ",".join(f"{height}/{width}" for height, width in levels)
    ends(keygen(spelt, seed.hex(), identifier.hex()), 0, f"capacity {capacity}\n")
    has("key.pub", public_key)
    put("text", message)
    put("key.state", image(levels, index, seed=seed, identifier=identifier))
    ends(sign(randomizer=randomizer.hex()), 0, f"index {index}\n")
    has("text.sig", signature)
    ends(VERIFY, 0, "valid\n")


def keeps(levels, at, held=None):
    """The kept nodes are right and were written at this index, in a plain file for its owner alone.
    No draft of it is left."""
    has(NODES, kept(levels, at, held))
    holds(os.lstat(NODES).st_mode == stat.S_IFREG | 0o600, "the nodes are in no plain file for their owner alone")
    holds(not os.path.lexists(DRAFT), "a draft of the nodes is left")


class Lock:
    """The lock on the state, as another program has it."""

    def __enter__(self):
        self.file = open("key.state.lock", "wb")
        fcntl.flock(self.file, fcntl.LOCK_EX | fcntl.LOCK_NB)

    def __exit__(self, *_):
        self.file.close()


def is_lock_free():
    """Whether the lock on the state can be acquired. It is dropped at once."""
    try:
        with Lock():
            return True
    except BlockingIOError:
        return False


def as_who_may_not():
    """How to run the program as a user to whom something can be refused: arguments for `ends` and
    the others. The folder becomes that user's, with its files and a copy of the program, and has a
    state that is described."""
    if os.geteuid():
        return {}
    shutil.copy(PROGRAM, "lms_tool")
    how = {"user": NOBODY, "group": NOBODY, "extra_groups": []}
    try:
        for name in [".", *os.listdir(".")]:
            os.chown(name, NOBODY, NOBODY)
        subprocess.run(["./lms_tool", *INFO], stdout=subprocess.DEVNULL, stderr=subprocess.DEVNULL, check=True, **how)
    except (OSError, subprocess.SubprocessError) as why:
        raise Skipped(f"user {NOBODY} can't run the program here: {why}") from why
    return {"program": "./lms_tool", **how}


def preload(*names, **settings):
    """The environment in which libraries of preload/ are loaded before a program, with these
    settings for them. They are made once."""
    libraries = [f"{tempfile.gettempdir()}/{name}.so" for name in names]
    for name, library in zip(names, libraries):
        if os.path.exists(library):
            continue
        if not shutil.which(COMPILER[0]):
            raise Wrong(f"tests/preload/{name}.c needs a C compiler, and there is no {COMPILER[0]} here")
        command = [*COMPILER, "-shared", "-fPIC", "-O1", "-o", library, TOP / f"tests/preload/{name}.c", "-ldl"]
        subprocess.run(command, check=True)
    loads = {"LD_PRELOAD": " ".join(libraries)}
    if EMULATED:
        # (The emulator is of this computer, and hands this on to the program.)
        loads = {"QEMU_SET_ENV": f"LD_PRELOAD={' '.join(libraries)}"}
    return {**os.environ, **loads, **{name: str(value) for name, value in settings.items()}}
