"""Each set of the three standard streams closed: the program ends as it should, and no file has
what isn't its own. And each exit status."""

import os
import subprocess

from tests.harness import TOP, Skipped, add_test, holds, test
from tests.program import (
    BATCH, EMULATED, INFO, PROGRAM, SERVE, WITNESS, endorse, endorsed_lines, ends, fails, has, index_in, job_lines, join, join_public, keygen,
    preload, public, put, read, resume, run, sign, verify, witness,
)
from tests.reference import SEED, image, joined, public_of, signature_of, witness_of

LEVELS = ((5, 8),)
SETS = ["", "0", "1", "2", "01", "02", "12", "012"]
CLOSINGS = {"0": "<&-", "1": ">&-", "2": "2>&-"}
# A word, a version and an index, the root, the 63 nodes of the tree, and the check value.
NODES_LENGTH = 16 + 32 + 32 * 63 + 32


def run_closed(closed, arguments, program=PROGRAM, **how):
    """Runs the program without the streams of these numbers."""
    closings = " ".join(CLOSINGS[it] for it in closed)
    return run(["-c", f'exec "$0" "$@" {closings}', program, *arguments], program="sh", **how)


def expect(closed, ran, status, output="", errors=""):
    """It ended with this status, this output and these errors, but for what a closed stream was to
    take."""
    wanted = (status, "" if "1" in closed else output, "" if "2" in closed else errors)
    found = (ran.returncode, ran.stdout, ran.stderr)
    holds(found == wanted, f"{' '.join(map(str, ran.args[4:]))}: {found}, not {wanted}")


def prints(closed, arguments, status, output):
    """The program ends with this status and this output, or fails where its output is closed."""
    ran = run_closed(closed, arguments)
    if "1" in closed:
        expect(closed, ran, 6, errors="error: cannot write output\n")
    else:
        expect(closed, ran, status, output)


def files_are(counter, openings, *signatures):
    """The state counts so many indices as used, and so many openings. The files are the state, its
    lock, the kept nodes, the public key, the message and these signatures, each of which is valid
    and has the index that it is named for."""
    found, wanted = sorted(os.listdir()), sorted([*signatures, "key.pub", "key.state", "key.state.lock", "key.state.nodes", "text"])
    holds(found == wanted, f"the files are {found}")
    has("key.state.lock", b"")
    holds(len(read("key.state.nodes")) == NODES_LENGTH, "something was written into the nodes")
    has("text", b"abc")
    ends(INFO, 0, f"levels 5/8\ncounter {counter}\ncapacity 32\nleft {32 - counter}\nopenings {openings}\nburnt 0\n")
    for name in signatures:
        ends(verify("text", name), 0, "valid\n")
        holds(f"{index_in(read(name), LEVELS)}.sig" == name, f"another index in {name}")


def answers(ran, *indices):
    """It printed the answer lines of these indices. Their signatures become files."""
    holds((ran.returncode, ran.stderr) == (0, ""), f"{ran.args[4]}: {ran.returncode} {ran.stderr!r}")
    lines = [line.split(" ") for line in ran.stdout.splitlines()]
    holds([number for number, _ in lines] == list(map(str, indices)), f"not the answer lines of {indices}")
    for number, digits in lines:
        put(f"{number}.sig", bytes.fromhex(digits))


def makes_a_key_of_an_input(closed):
    """`keygen` that reads its seed, with the streams of these numbers closed: a closed input is
    empty."""
    words = keygen(seed="-")
    if "0" in closed:
        expect(closed, run_closed(closed, words, input=SEED.hex()), 2, errors="error: bad seed\n")
        holds(os.listdir() == ["text"], "something was written")
        return
    ran = run_closed(closed, words, input=SEED.hex())
    is_closed = "1" in closed
    expect(closed, ran, 6 if is_closed else 0, "capacity 32\n", "error: cannot write output\n" if is_closed else "")
    has("key.pub", public_of(LEVELS))
    files_are(0, 0)


def joins_two(closed):
    """`join` and `join-public`, which print nothing: the key itself is a top key and a signer's."""
    key = public_of(LEVELS)
    put("key.end", signature_of(LEVELS, 9, key[4:]))
    expect(closed, run_closed(closed, join("key.pub", "key.end", "key.pub", "1.sig")), 0)
    expect(closed, run_closed(closed, join_public("key.pub", "key.pub")), 0)
    public_key, signature = joined(key, read("key.end"), key, read("1.sig"))
    has("joined.pub", public_key)
    has("joined.sig", signature)
    for name in ("key.end", "joined.pub", "joined.sig"):
        os.remove(name)


def endorses_one(closed):
    """`endorse`, of a state that is put back afterwards."""
    kept = {name: read(name) for name in ("key.state", "key.state.nodes")}
    signer = public_of(LEVELS, identifier=b"\x66" * 16)
    put("signer.pub", signer)
    prints(closed, endorse(), 0, endorsed_lines(2, signer))
    has("signer.end", signature_of(LEVELS, 2, signer[4:]))
    for name in ("signer.pub", "signer.end"):
        os.remove(name)
    for name, contents in kept.items():
        put(name, contents)


def works_without(closed):
    """Every command, with the streams of these numbers closed."""
    shown = run(["--help"]).stdout
    prints(closed, keygen(), 0, "capacity 32\n")
    prints(closed, sign(out="0.sig"), 0, "index 0\n")
    files_are(1, 1, "0.sig")
    prints(closed, sign(out="1.sig"), 0, "index 1\n")
    prints(closed, INFO, 0, "levels 5/8\ncounter 2\ncapacity 32\nleft 30\nopenings 2\nburnt 0\n")
    prints(closed, public(name="1.pub"), 0, "capacity 32\n")
    has("1.pub", read("key.pub"))
    os.remove("1.pub")
    joins_two(closed)
    endorses_one(closed)
    prints(closed, verify("text", "1.sig"), 0, "valid\n")
    prints(closed, verify("text", "key.pub"), 1, "invalid\n")
    prints(closed, ["--help"], 0, shown)
    ran = run_closed(closed, ["sign"])
    holds(ran.returncode == 2, f"sign with no options ended with {ran.returncode}")
    expect(closed, run_closed(closed, keygen()), 3, errors="error: state exists\n")
    expect(closed, run_closed(closed, verify("text", "none")), 6, errors="error: cannot read input\n")
    files_are(2, 2, "0.sig", "1.sig")
    for at, words in enumerate([BATCH, SERVE]):
        answers_two(closed, words, at)


def answers_two(closed, words, at):
    """`batch` and then `serve`, with two job lines, where so many of the two were before."""
    ran, names = run_closed(closed, words, input=job_lines(b"abc", b"abc").decode()), ["0.sig", "1.sig"]
    if "0" in closed:
        expect(closed, ran, 0)
        files_are(2, 2, *names)
    elif "1" in closed:
        expect(closed, ran, 6, errors="error: cannot write output\n")
        files_are(4 + 2 * at, 3 + at, *names)
    else:
        answers(ran, 2 + 2 * at, 3 + 2 * at)
        files_are(4 + 2 * at, 3 + at, *(f"{index}.sig" for index in range(4 + 2 * at)))


def is_watched(closed):
    """`witness`, a `sign` beside it, and `resume` where the state of before that is put back."""
    ends(keygen(), 0, "capacity 32\n")
    state = read("key.state")
    prints(closed, witness(0, WITNESS), 0, f"{witness_of(0).decode()}{os.path.realpath(WITNESS)}\n")
    has(WITNESS, witness_of(0))
    prints(closed, sign(out="0.sig"), 0, "index 0\n")
    put("key.state", state)
    expect(closed, run_closed(closed, sign(out="1.sig")), 3, errors="error: state is older than its witness\n")
    has("key.state", state)
    prints(closed, resume(1), 0, "indices 0 to 0 burnt; right only if the witness is the newest\n")
    has(WITNESS, witness_of(1))
    os.remove(WITNESS)
    files_are(1, 1, "0.sig")


for numbers in SETS:
    add_test(f"closed streams: {' '.join(numbers) or 'none'}", works_without, numbers)
    add_test(f"a witness with closed streams: {' '.join(numbers) or 'none'}", is_watched, numbers)
    add_test(f"a seed with closed streams: {' '.join(numbers) or 'none'}", makes_a_key_of_an_input, numbers)


def lacks_dev_null(closed):
    """Where /dev/null is not there the program ends before it touches a file, whatever is asked and
    whichever streams are closed: a file might take the number of one."""
    script = f'mount -t tmpfs none /dev && exec "$@" {" ".join(CLOSINGS[it] for it in closed)}'
    words = ["-rm" if os.geteuid() else "-m", "sh", "-c", script, "sh"]
    try:
        subprocess.run(["unshare", *words, "true"], capture_output=True, check=True)
    except (OSError, subprocess.SubprocessError) as why:
        raise Skipped(f"/dev can't be taken away here: {why}") from why
    put("key.state", image(LEVELS, 5))
    files = {name: (read(name), os.stat(name).st_mtime_ns) for name in os.listdir()}
    new = keygen(state="other", public="other.pub")
    others = [public(), sign(), endorse(), INFO, BATCH, SERVE, verify("text", "text", "text"), join(), join_public()]
    others += [witness(5, "witness"), resume(6)]
    for arguments in (new, *others, ["--help"], ["none"]):
        ran = run([*words, PROGRAM, *arguments], program="unshare")
        found = (ran.returncode, ran.stdout, ran.stderr)
        wanted = (6, "", "" if "2" in closed else "error: cannot read input\n")
        holds(found == wanted, f"{arguments[0]}: {found}, not {wanted}")
        left = {name: (read(name), os.stat(name).st_mtime_ns) for name in os.listdir()}
        holds(left == files, f"{arguments[0]}: the files are {sorted(left)}")


for numbers in ("", "0", "1", "012"):
    add_test(f"no /dev/null, closed streams: {' '.join(numbers) or 'none'}", lacks_dev_null, numbers)


@test
def the_script_leaves_the_streams_as_they_are():
    if EMULATED:
        raise Skipped("it starts a program of this computer")
    ends(keygen(), 0, "capacity 32\n")
    for index in range(2):
        ends(sign(out=f"{index}.sig"), 0, f"index {index}\n")
    expect("1", run_closed("1", sign(out="2.sig"), program=TOP / "lms_tool"), 6, errors="error: cannot write output\n")
    files_are(3, 3, "0.sig", "1.sig", "2.sig")


@test
def ends_with_each_status():
    example = [TOP / "examples" / name for name in ("firmware.bin", "firmware.sig", "release.pub")]
    ends(verify(*example), 0, "valid\n")
    ends(keygen(), 0, "capacity 32\n")
    for index in range(3):
        ends(sign(out=f"{index}.sig"), 0, f"index {index}\n")
    ends(verify("text", "text"), 1, "invalid\n")
    fails(verify(".", "text"), 6, "cannot read input")
    fails(keygen("5/3", state="other", public="other"), 2, "bad levels")
    fails(["info", "--state", "none"], 3, "cannot read state")
    for index in range(3, 32):
        ends(sign(out=f"{index}.sig"), 0, f"index {index}\n")
    fails(sign(out="more.sig"), 4, "exhausted: 0 left")
    fails(INFO, 5, "out of memory", env=preload("refuse", REFUSE=1))
    fails(verify("text", "none"), 6, "cannot read input")
    fails([b"\xff"], 6, "cannot read input")


@test
def verifies_256_mib_in_16_mib_of_addresses():
    """Which have the program and its libraries in them."""
    if EMULATED:
        raise Skipped("an emulator takes more addresses")
    ends(keygen(), 0, "capacity 32\n")
    ends(sign(), 0, "index 0\n")
    put("long", b"")
    os.truncate("long", 256 << 20)
    limited = ["-c", 'ulimit -v 16384; exec "$0" "$@"', PROGRAM]
    ends([*limited, *verify("long", "text.sig")], 1, "invalid\n", program="sh")
