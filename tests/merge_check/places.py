"""How a file of `--out` or `--public` gets to its place: by a draft beside it, which takes the place of a plain
file of its owner's that has one name; in place, all else. Which files stay: those that the same run read, and those
that have a name that the program writes beside a state."""

import concurrent.futures
import errno
import itertools
import os
import shutil
import signal
import subprocess

from tests.harness import Skipped, add_test, holds, test
from tests.program import (
    PROGRAM, SERVE, TO_JOIN, WITNESS, as_who_may_not, endorse, endorsed_lines, ends, fails, has, job_lines, join, join_public, keygen, mode_of,
    preload, public, put, read, run, sign,
)
from tests.reference import image, joined, parts_to_join, public_of, signature_of, witness_of

ONE = ((5, 8),)
REFUSED = (6, "cannot write output")
SIGNATURE, KEY = signature_of(ONE, 0, b"abc"), public_of(ONE)
OTHER = image(ONE, 7, seed=b"\x44" * 32)
NOBODY = 65534


def begin():
    """A state of which no index is used."""
    put("key.state", image(ONE, 0))


def writers(name):
    """Each command that writes a file of this name, with what it prints, and what the file has then."""
    return [(sign(out=name), "index 0\n", SIGNATURE), (public(name=name), "capacity 32\n", KEY)]


def is_replaced(name, make, **how):
    """Whether a draft takes the place of what `make` makes of this name: not where it is written in place. It has the
    whole bytes in either case, its mode and its owner, and no draft is left."""
    found = []
    for words, line, contents in writers(name):
        begin()
        if os.path.lexists(name):
            os.remove(name)
        make(name)
        before = os.stat(name)
        ends(words, 0, line, **how)
        has(name, contents)
        after = os.stat(name)
        holds((after.st_mode, after.st_uid, after.st_gid) == (before.st_mode, before.st_uid, before.st_gid), f"{name} has other rights")
        left = [it for it in os.listdir(os.path.dirname(os.path.realpath(name))) if ".draft" in it]
        holds(not left, f"drafts are left: {left}")
        found.append((after.st_dev, after.st_ino) != (before.st_dev, before.st_ino))
    holds(len(set(found)) == 1, f"{name} is replaced by one command alone")
    return found[0]


def plain(name, mode=0o640):
    """A plain file."""
    put(name, b"older")
    os.chmod(name, mode)


@test
def replaces_plain_files():
    """Of any mode that may be written, by any name, also one to which a link leads."""
    os.mkdir("folder")
    os.symlink("folder", "way")
    os.symlink("way/linked", "link")
    os.symlink(os.path.abspath("link"), "longer.link")
    for mode in (0o600, 0o644, 0o777):
        holds(is_replaced("file", lambda name, mode=mode: plain(name, mode)), f"a file of mode {mode:o} is written in place")
    for name in ["./file", "folder/../file", os.path.abspath("file"), "way/linked", "f" * 248]:
        holds(is_replaced(name, plain), f"{name} is written in place")
    for link in ("link", "longer.link"):
        before = os.stat("folder/linked").st_ino
        begin()
        ends(public(name=link), 0, "capacity 32\n")
        has("folder/linked", KEY)
        holds(os.stat("folder/linked").st_ino != before and os.path.islink(link), f"{link} is written in place, or replaced itself")


def two_names(name):
    """A file with another name."""
    put("other", b"older")
    os.link("other", name)


def of_another(name):
    """A file of another user, or of another group."""
    put(name, b"older")
    try:
        os.chown(name, NOBODY, NOBODY)
    except PermissionError as why:
        raise Skipped("files can't be given to another user") from why


def among_drafts(name):
    """A file beside drafts of all names that are tried."""
    put(name, b"older")
    for number in range(10):
        put(f"{name}.draft{number}", b"left")


IN_PLACE = {
    "a file of two names": ("file", two_names), "a lock": ("some.lock", plain),
    "a file of a long name": ("f" * 249, plain), "a file of the longest name": ("f" * 255, plain),
}


def is_written_in_place(name, make):
    """What no draft may replace is written in place."""
    holds(not is_replaced(name, make), f"{name} is replaced")


for what, case in IN_PLACE.items():
    add_test(f"writes {what} in place", is_written_in_place, *case)


@test
def writes_a_file_of_another_owner_in_place():
    holds(not is_replaced("file", of_another), "it is replaced")


@test
def writes_in_place_where_the_folder_takes_no_file():
    """As one that may not be written, and one whose drafts all have a file."""
    begin()
    how = as_who_may_not()
    os.mkdir("folder")
    plain("folder/file", 0o666)
    os.chmod("folder", 0o555)
    before = os.stat("folder/file").st_ino
    ends(sign(out="folder/file"), 0, "index 0\n", **how)
    has("folder/file", SIGNATURE)
    holds(os.stat("folder/file").st_ino == before, "it is replaced")
    fails(sign(out="folder/none"), *REFUSED, **how)
    among_drafts("file")
    before = os.stat("file").st_ino
    ends(sign(out="file"), 0, "index 2\n")
    has("file", signature_of(ONE, 2, b"abc"))
    holds(os.stat("file").st_ino == before, "it is replaced")
    for number in range(10):
        has(f"file.draft{number}", b"left")


@test
def writes_in_place_what_is_below_dev():
    begin()
    name = f"/dev/shm/lms_tool.{os.getpid()}"
    try:
        put(name, b"older")
    except OSError as why:
        raise Skipped("/dev/shm takes no file") from why
    try:
        os.symlink(name, "link")
        for at, way in enumerate((name, "link")):
            before = os.stat(name).st_ino
            ends(sign(out=way), 0, f"index {at}\n")
            has(name, signature_of(ONE, at, b"abc"))
            holds(os.stat(name).st_ino == before, f"{way} is replaced")
    finally:
        os.remove(name)


@test
def writes_in_place_where_something_is_mounted():
    """Where a file is mounted on another one nothing can be renamed over that; a loader that answers so stands for it."""
    begin()
    ends(sign(out="other"), 0, "index 0\n")
    for settings in ({"STEPS": "steps"}, {"FAULT": errno.EBUSY}):
        begin()
        put("file", b"older")
        before = os.stat("file").st_ino
        if "FAULT" in settings:
            steps = read("steps").decode().splitlines()
            at = next(number for number, step in enumerate(steps, 1) if step.startswith("rename ") and step.endswith("/file"))
            settings |= {"FAIL": at, "LAST": at}
        ends(sign(out="file"), 0, "index 0\n", env=preload("stop", **settings))
        has("file", SIGNATURE)
    holds(os.stat("file").st_ino == before, "it is replaced")
    holds(not os.path.exists("file.draft0"), "a draft is left")


@test
def leaves_files_of_others():
    """Of the names of drafts, and of a name that ends as a state's draft, beside no state."""
    for name in ("fw", "fw.new"):
        begin()
        put("fw.new", b"firmware")
        put(f"{name}.draft0", b"another's")
        ends(sign(out=name), 0, "index 0\n")
        has(name, SIGNATURE)
        has(f"{name}.draft0", b"another's")
        holds(name == "fw.new" or read("fw.new") == b"firmware", "fw.new is another file")


@test
def what_may_not_be_written_stays():
    """A file that its owner made so, though its folder may be written."""
    begin()
    how = as_who_may_not()
    if how:
        put("file", b"older")
        os.chown("file", NOBODY, NOBODY)
    else:
        put("file", b"older")
    os.chmod("file", 0o444)
    fails(sign(out="file"), *REFUSED, **how)
    has("file", b"older")
    holds(mode_of("file") == 0o444, "it has another mode")


@test
def two_runs_share_no_draft():
    """Of runs at once that write one file its bytes are those of one of them, whole, and no draft is left."""
    keys = {f"{at}.state": bytes([at]) * 32 for at in range(1, 7)}
    for state, seed in keys.items():
        put(state, image(ONE, 0, seed=seed))
    with concurrent.futures.ThreadPoolExecutor(len(keys)) as pool:
        ran = list(pool.map(lambda state: run(public(state=state, name="one.pub")).returncode, keys))
    holds(ran == [0] * len(keys), f"they ended with {ran}")
    holds(read("one.pub") in [public_of(ONE, seed) for seed in keys.values()], "the public key is none of theirs")
    left = [it for it in os.listdir() if ".draft" in it]
    holds(not left, f"drafts are left: {left}")


def beside(state, witness=None):
    """The names that the program writes beside a state, and beside a witness."""
    ends_of = [".lock", ".nodes", ".nodes.new", ".new", ".witness"]
    return [f"{state}{end}" for end in ends_of] + ([f"{witness}.new"] if witness else [])


@test
def writes_nothing_beside_a_state():
    """By names and by links, its own and another key's, whether a file is there or not."""
    os.mkdir("media")
    put("other.state", OTHER)
    put("media/place", witness_of(0))
    for name, there in itertools.product([*beside("key.state", "media/place"), *beside("other.state")], (True, False)):
        begin()
        os.symlink(os.path.abspath(name), "link")
        for words, _, _ in [case for way in (name, "link") for case in writers(way)]:
            if there:
                put(name, b"older")
            elif os.path.exists(name):
                os.remove(name)
            if name == WITNESS and there:
                os.remove(name)
                continue
            fails(words, *REFUSED)
            # (A run locks its own state, and a `sign` writes nodes and a draft beside it, before that.)
            is_own = name.startswith("key.state") and (words[0] == "sign" or name.endswith(".lock"))
            holds(is_own or (read(name) == b"older" if there else not os.path.lexists(name)), f"{name} is another file")
        for it in ("link", name):
            if os.path.lexists(it):
                os.remove(it)


@test
def writes_nothing_beside_a_state_below_dev():
    """Where all is written in place: by names and by links from there and from elsewhere."""
    folder = f"/dev/shm/lms_tool.{os.getpid()}"
    try:
        os.mkdir(folder)
    except OSError as why:
        raise Skipped("/dev/shm takes no folder") from why
    try:
        put(f"{folder}/other.state", OTHER)
        for name in beside(f"{folder}/other.state"):
            ways = [name, "link", f"{folder}/link"]
            for link in ways[1:]:
                os.symlink(name, link)
            for words in [words for way in ways for words, _, _ in writers(way)]:
                begin()
                fails(words, *REFUSED)
                holds(not os.path.lexists(name), f"{name} is made")
            for link in ways[1:]:
                os.remove(link)
    finally:
        shutil.rmtree(folder)


@test
def keeps_the_lock_of_a_run():
    """A signature is not written over the lock of a running `serve`: no other run gets it."""
    begin()
    put("other.state", image(ONE, 0, seed=b"\x44" * 32))
    with subprocess.Popen([PROGRAM, *SERVE], stdin=subprocess.PIPE, stdout=subprocess.PIPE, stderr=subprocess.PIPE) as served:
        served.stdin.write(job_lines(b"abc"))
        served.stdin.flush()
        holds(served.stdout.readline().startswith(b"0 "), "serve gives no answer")
        for words in (sign(out="key.state.lock", state="other.state"), public(state="other.state", name="key.state.lock")):
            fails(words, *REFUSED)
            fails(sign(), 3, "state in use")
        served.stdin.close()
        holds(served.wait() == 0, f"serve ended with {served.returncode}")
    ends(sign(), 0, "index 1\n")


# What a run reads, by which option; and the commands that write a file, with that by which it is named.
SIGNER = public_of(ONE, identifier=b"\x66" * 16)
READ = {
    "sign": (["text"], lambda name: sign(out=name)),
    "endorse": (["signer.pub"], lambda name: endorse(out=name)),
    "join": (TO_JOIN, lambda name: join(out=name)),
    "join-public": (TO_JOIN[::2], lambda name: join_public(out=name)),
}


def ways_to(name):
    """Ways to a file of this name."""
    os.symlink(name, "soft")
    os.link(name, "hard")
    os.symlink(os.path.abspath("soft"), "softer")
    return [name, f"./{name}", os.path.abspath(name), f"folder/../{name}", "soft", "softer", "hard"]


def replaces_nothing_read(command, name):
    """A file that a run read is not written over, by whatever name: it stays, and the index of a `sign` or an
    `endorse` is used."""
    os.mkdir("folder")
    for part, contents in zip(TO_JOIN, parts_to_join(ONE, ONE)):
        put(part, contents)
    if command == "endorse":
        put("signer.pub", SIGNER)
    put("text", b"abc")
    contents, used = read(name), 0
    begin()
    for way in ways_to(name):
        number = os.stat(name).st_ino
        fails(READ[command][1](way), *REFUSED)
        has(name, contents)
        holds(os.stat(name).st_ino == number, f"{name} was replaced")
        used += command in ("sign", "endorse")
        has("key.state", image(ONE, used, used))
    # (A copy is another file.)
    put("copy", contents)
    said = {"sign": f"index {used}\n", "endorse": endorsed_lines(used, SIGNER)}
    ends(READ[command][1]("copy"), 0, said.get(command, ""))
    wanted = {"sign": signature_of(ONE, used, b"abc"), "endorse": signature_of(ONE, used, SIGNER[4:])}
    wanted |= dict(zip(("join-public", "join"), joined(*parts_to_join(ONE, ONE))))
    has("copy", wanted[command])


for command_name, (names, _) in READ.items():
    for read_name in names:
        add_test(f"{command_name} replaces no {read_name} that it read", replaces_nothing_read, command_name, read_name)


def leaves(words, older, made):
    """Killed while half of a draft is written, a command leaves the older file, with its rights, and the draft, for
    those who may read that."""
    put("text.sig", older)
    os.chmod("text.sig", 0o604)
    ends(words, 0, made, env=preload("stop", STEPS="steps"), umask=0)
    steps = [step.replace(f"{os.path.realpath('.')}/", "") for step in read("steps").decode().splitlines()]
    put("text.sig", older)
    ran = run(words, env=preload("stop", STOP=steps.index("write text.sig.draft0") + 1), umask=0)
    holds(ran.returncode == -signal.SIGKILL, f"it ended with {ran.returncode}")
    has("text.sig", older)
    for name in ("text.sig", "text.sig.draft0"):
        holds(mode_of(name) == 0o604, f"{name} has the mode {mode_of(name):o}")


@test
def a_killed_sign_leaves_the_older_file():
    begin()
    leaves(sign(), b"older", "index 0\n")


@test
def a_killed_keygen_leaves_its_draft():
    """The next one makes its own, beside the state that is there or not."""
    ends(keygen(), 0, "capacity 32\n", env=preload("stop", STEPS="steps"))
    steps = [step.replace(f"{os.path.realpath('.')}/", "") for step in read("steps").decode().splitlines()]
    for name in ("key.pub", "key.state"):
        os.remove(name)
    ran = run(keygen(), env=preload("stop", STOP=steps.index("write key.pub.draft0") + 1))
    holds(ran.returncode == -signal.SIGKILL and not os.path.exists("key.pub"), f"it ended with {ran.returncode}")
    left = read("key.pub.draft0")
    ends(public(), 0, "capacity 32\n")
    has("key.pub", KEY)
    has("key.pub.draft0", left)
